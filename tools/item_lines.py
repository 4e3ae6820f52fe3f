#!/usr/bin/env python3
"""What inputs hand on and count, behind the intermediates, as lines, by the second readers of tools/items.py and
tools/act_cases.py.

    tools/item_lines.py FILE..

prints of each script what `item_run items` prints of it. docs/TESTS.md has the forms of both.
"""

import sys

sys.dont_write_bytecode = True

import act_cases
import arrivals
from decoded import VARIABLE
from items import COUNTS, OPTIONS, TEMPLATES, Read, Record

WORDS = {TEMPLATES: "template", OPTIONS: "options"}


def set_lines(template, definition, records):
    kind, scope, fields = definition
    shown = " ".join("/".join(map(str, field)) for field in fields)
    yield f"  set {template} {WORDS[kind]} {scope} {shown}"
    for record in records:
        yield f"    record {record.start} {record.octets.hex() or '-'}"


def answer_lines(transport, answer):
    """The lines of an answer of an input over a transport."""
    match answer:
        case "close", number, session:
            yield f"close {number}/{session} {transport}"
        case "message", number, session, domain, export, sequence, sets, size:
            yield f"message {number}/{session} domain {domain} export {export} sequence {sequence} octets {size}"
            for each in sets:
                yield from set_lines(*each)
        case _:
            yield arrivals.line_of(answer)


class Sized(Read):
    """What an input answers, each message with the number of its octets behind its sets."""

    def item_of(self, decoder, answer):
        item = super().item_of(decoder, answer)
        return (*item, len(answer[3])) if item[0] == "message" else item


def with_values(fields, record, values):
    """A record with other values in the place of its own, each as long."""
    octets, at = b"", 0
    for (_, _, length), value in zip(fields, values):
        front = 0 if length != VARIABLE else 3 if record.octets[at] == 255 else 1
        octets += record.octets[at : at + front] + value
        at += front + len(value)
    return Record(values, record.start, octets)


def records_behind(stage, fields, records):
    if stage["kind"] == "filter":
        return [record for record in records if act_cases.is_kept(stage, fields, record)]
    return [with_values(fields, record, act_cases.changed(stage, fields, record)) for record in records]


def lined_up(sets):
    """The same records, one behind another in octets of their own, and how many octets these are."""
    at, made = 0, []
    for template, definition, records in sets:
        placed = []
        for record in records:
            placed.append(Record(record, at, record.octets))
            at += len(record.octets)
        made.append((template, definition, placed))
    return made, at


def behind(stages, sets, size):
    """The sets that the intermediates leave of a message's, and the number of octets in which their records stand."""
    if not sets:
        return sets, size
    for stage in stages:
        left = [(template, definition, records_behind(stage, definition[2], records)) for template, definition, records in sets]
        sets = [each for each in left if each[2]]
    return lined_up(sets) if any(stage["kind"] == "anonymise" for stage in stages) else (sets, size)


def answer_behind(stages, answer):
    if answer[0] != "message":
        return answer
    *front, sets, size = answer
    return (*front, *behind(stages, sets, size))


def listing(text):
    """The lines of what the intermediates of a script leave of what its inputs hand on."""
    lines = []
    stages = arrivals.script_of(text)[0].get("intermediate", [])
    for number, table, events, failing in arrivals.inputs_of(text):
        if events is None:
            lines.append(f"input {number} closed")
            continue
        read = Sized(number, table, events, failing)
        lines += [line for answer in read.answers for line in answer_lines(table["kind"], answer_behind(stages, answer))]
        lines += ["end", f"input {number} {'failed' if read.failed else 'end'}"]
        lines += [f"{name} {read.counts[name]}" for name in COUNTS]
    return lines


if __name__ == "__main__":
    for path in sys.argv[1:]:
        with open(path, encoding="utf-8") as file:
            print("\n".join(listing(file.read())))
