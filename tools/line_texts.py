#!/usr/bin/env python3
"""Writes the cases of `lines_run`: definitions and bodies of their records, with the lines of JSON.

    tools/line_texts.py > crates/lines_run/data/lines.cases
    tools/line_texts.py SEED COUNT        COUNT cases at random, other ones for each SEED

The lines are worked out here from docs/FORMATS.md: the built-in elements are read out of its table, the others out of
crates/lines_run/data/elements.toml, and values have the texts of tools/value_texts.py. Nothing of the collector is run.
"""

import pathlib
import random
import re
import sys
import tomllib

from value_texts import STRINGS, text_of

TOP = pathlib.Path(__file__).resolve().parent.parent
VARIABLE = 65535


def builtin():
    rows = re.findall(r"^\| (\d+) \| (\w+) \| (\w+) \|$", (TOP / "docs/FORMATS.md").read_text(), re.M)
    return {(0, int(ident)): ("iana:" + name, kind) for ident, name, kind in rows}


def table():
    rows = tomllib.loads((TOP / "crates/lines_run/data/elements.toml").read_text())["element"]
    more = {(row["pen"], row["id"]): (row["prefix"] + ":" + row["name"], row["type"]) for row in rows}
    return {**builtin(), **more}


TABLES = {"builtin": builtin(), "table": table()}


def line(kind, elements, fields, values):
    """The line of one record."""
    members = {}
    for (pen, ident, _), value in zip(fields, values):
        if (pen, ident) != (0, 210):
            members.setdefault((pen, ident), []).append(value)
    text = '{"@type":"ipfix.%s"' % kind
    for (pen, ident), several in members.items():
        name, of = elements.get((pen, ident), (f"en{pen}:id{ident}", "unknown"))
        texts = [text_of(of, value) for value in several]
        text += f',"{name}":' + (texts[0] if len(texts) == 1 else "[" + ",".join(texts) + "]")
    return text + "}"


def encoded(length, value, rng=None):
    """A value as it stands in a record: a short one may have the long form too."""
    if length != VARIABLE:
        return value
    if len(value) < 255 and not (rng and rng.random() < 0.2):
        return bytes([len(value)]) + value
    return b"\xff" + len(value).to_bytes(2, "big") + value


def case(options, name, kind, fields, records, padding=b"", rng=None):
    body = b"".join(encoded(field[2], value, rng) for values in records for field, value in zip(fields, values))
    spelled = ",".join("%d/%d/%d" % field for field in fields)
    yield f"case {options} {name} {kind} {spelled} {(body + padding).hex() or '-'}"
    if kind == "entry" or options == "options":
        for values in records:
            yield "line " + line(kind, TABLES[name], fields, values)


def known():
    """Lines that are to be found in the papers of the formats, written out by hand."""
    yield "case options builtin entry 0/8/4,0/12/4,0/1/8 0a0000010a00000200000000000003e8"
    yield 'line {"@type":"ipfix.entry","iana:sourceIPv4Address":"10.0.0.1","iana:destinationIPv4Address":"10.0.0.2","iana:octetDeltaCount":1000}'
    yield "case options builtin entry 0/82/65535 0361626303616263"
    yield 'line {"@type":"ipfix.entry","iana:interfaceName":"abc"}'
    yield 'line {"@type":"ipfix.entry","iana:interfaceName":"abc"}'
    yield "case options builtin entry 0/82/65535 0361626304616263"  # the second value runs over the body: no records
    yield "case options builtin entry 0/1/1,0/1/1,9/7/2 0506abcd"
    yield 'line {"@type":"ipfix.entry","iana:octetDeltaCount":[5,6],"en9:id7":"0xabcd"}'
    yield "case options table entry 0/1/1,0/1/1,9/7/2 0506abcd"
    yield 'line {"@type":"ipfix.entry","iana:octetDeltaCount":[5,6],"cisco:thing":43981}'
    yield "case options builtin entry 0/1/1,9/7/2,0/1/1 05abcd06"
    yield 'line {"@type":"ipfix.entry","iana:octetDeltaCount":[5,6],"en9:id7":"0xabcd"}'
    yield "case options builtin options 0/149/4,0/10/2 000000010007"
    yield 'line {"@type":"ipfix.options","iana:observationDomainId":1,"iana:ingressInterface":7}'
    yield "case plain builtin options 0/149/4,0/10/2 000000010007"
    yield "case plain builtin entry 0/210/3,0/4/1,0/210/1 0000001100"
    yield 'line {"@type":"ipfix.entry","iana:protocolIdentifier":17}'
    yield "case options builtin entry 0/210/1 00ff"
    yield 'line {"@type":"ipfix.entry"}'
    yield 'line {"@type":"ipfix.entry"}'
    yield "case options builtin entry 0/8/4 -"
    yield "case options builtin entry 0/8/4 0a00000100"  # a record, and padding
    yield 'line {"@type":"ipfix.entry","iana:sourceIPv4Address":"10.0.0.1"}'


LENGTHS = {
    "unsigned8": [1], "unsigned16": [1, 2], "unsigned32": [1, 2, 3, 4], "unsigned64": [1, 2, 4, 5, 8],
    "signed8": [1], "signed16": [1, 2], "signed32": [1, 3, 4], "signed64": [2, 7, 8], "boolean": [1], "macAddress": [6],
    "ipv4Address": [4], "ipv6Address": [16], "string": [0, 3, 9, VARIABLE], "dateTimeSeconds": [4], "dateTimeMilliseconds": [8],
    "dateTimeMicroseconds": [8], "dateTimeNanoseconds": [8], "octetArray": [0, 5, VARIABLE], "float32": [4], "float64": [8],
    "basicList": [VARIABLE], "subTemplateList": [VARIABLE], "subTemplateMultiList": [VARIABLE], "unknown": [0, 2, 9, VARIABLE],
}
HOT = [(0, 8, 4), (0, 12, 4), (0, 1, 8), (0, 2, 4), (0, 7, 2), (0, 11, 2), (0, 4, 1), (0, 5, 1), (0, 10, 4), (0, 14, 2), (0, 152, 8), (0, 153, 8)]


def some_value(rng, of, length):
    if length == VARIABLE:
        length = rng.choice([0, 1, 2, 5, 30, 64, 254, 255, 256, 300])
    if of == "string" and rng.random() < 0.7:
        text = rng.choice(STRINGS) + rng.choice(STRINGS)
        return (text + bytes(length))[:length]
    if of == "boolean":
        return bytes([rng.choice([1, 1, 2, 0, 7])]) * length
    if rng.random() < 0.3:
        return bytes(length)
    if rng.random() < 0.3:
        return b"\xff" * length
    small = rng.randint(1, 8)
    return (bytes(8 * 40) + rng.randbytes(small))[-length:] if length and rng.random() < 0.5 else rng.randbytes(length)


def some_field(rng, name):
    if rng.random() < 0.15:
        pen, ident = rng.choice([(0, 210), (0, 0), (9, 8), (29305, 1), (4294967295, 32767), (1, 300)])
    else:
        pen, ident = rng.choice(sorted(TABLES[name]))
    of = TABLES[name].get((pen, ident), ("", "unknown"))[1]
    length = rng.choice(LENGTHS[of])
    if rng.random() < 0.15:
        length = rng.choice([0, 1, 3, 4, 8, 11, VARIABLE])
    return pen, ident, length


def some_case(rng):
    name = rng.choice(["builtin", "table"])
    kind = rng.choice(["entry", "entry", "entry", "options"])
    options = rng.choice(["options", "options", "plain"])
    if rng.random() < 0.3:
        fields = rng.sample(HOT, rng.randint(1, len(HOT)))
    else:
        fields = [some_field(rng, name) for _ in range(rng.choice([1, 2, 3, 5, 8, 12, 40]))]
    if rng.random() < 0.5:
        fields += [rng.choice(fields) for _ in range(rng.randint(1, 3))]
        rng.shuffle(fields)
    least = sum(1 if field[2] == VARIABLE else field[2] for field in fields)
    if least == 0:
        return
    kinds = [TABLES[name].get(field[:2], ("", "unknown"))[1] for field in fields]
    records = [[some_value(rng, of, field[2]) for of, field in zip(kinds, fields)] for _ in range(rng.choice([0, 1, 2, 4]))]
    padding = bytes(rng.randint(0, min(least - 1, 3)))
    yield from case(options, name, kind, fields, records, padding, rng)


def random_cases(seed, count):
    rng = random.Random(seed)
    made = 0
    while made < count:
        lines = list(some_case(rng))
        made += bool(lines)
        yield from lines


def main():
    print("# Definitions and bodies of their records, with the lines of JSON.")
    print("# tools/line_texts.py wrote this file.")
    if len(sys.argv) == 3:
        lines = random_cases(int(sys.argv[1]), int(sys.argv[2]))
    else:
        lines = [*known(), *random_cases(7011, 160)]
    for text in lines:
        print(text)


main()
