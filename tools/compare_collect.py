#!/usr/bin/env python3
"""compare_collect.py PROGRAM [SCRIPTS [SEED]]: holds runs of `collect` to a second reader, written apart and slowly.

    tools/compare_collect.py crates/script_run/out/script_run 2000
    tools/compare_collect.py tally 2000

Each script has a description with up to four inputs over files, TCP and UDP, element tables, intermediates, and up to four
outputs of all kinds, with domains and limits; sources of what exporters send, and of events in any order; and an outside that
fails here and there. What `PROGRAM FILE` prints of it is compared with what tools/runs.py reads. The first script that
differs is kept in the system's folder for temporary files. With the word `tally` in the place of the program, what happens in
the scripts is counted.
"""

import collections
import random
import sys

sys.dont_write_bytecode = True

import act_cases
import compare_arrivals
import runs
from compared import Comparison
from exporters import ELEMENTS, NUMBERS, OPTIONS, TEMPLATES, Exporter, a_definition, one_message, one_set, written

# One script of so many is long: more sessions than may be open at once, more domains than a session may have, or more events
# than an input is asked for in turn.
LONG = 20

MOST_DOMAINS = 1024

# Domains as descriptions write them. Exporters have 0, 1, 2 and the last one.
DOMAINS = ["0", "1", "02", "1-2", "0,4294967295", "0-1,2-4294967294", "3-4294967295", "5,1,1", "0-4294967295", "7-400,90"]

TABLES = {
    "first.toml": [
        (9, 7, "cisco", "thing", "unsigned16"),
        (9, 4, "cisco", "signed", "signed32"),
        (6871, 1, "cert", "words", "string"),
    ],
    "second.toml": [
        (9, 8, "cisco", "address", "ipv4Address"),
        (6871, 2, "cert", "truth", "boolean"),
        (0, 999, "own", "float", "float64"),
        (2**32 - 1, 32767, "own", "last", "octetArray"),
    ],
    "builtin.toml": [(29305, 1, "back", "octets", "unsigned64"), (0, 8, "own", "source", "ipv4Address")],
    "named.toml": [(29305, 2, "back", "packets", "unsigned64"), (29305, 3, "cisco", "thing", "unsigned8")],
    "empty.toml": [],
}


def table_text(rows):
    keys = ("pen", "id", "prefix", "name", "type")
    return f"element = {act_cases.toml([dict(zip(keys, row)) for row in rows])}\n"


class Stream:
    """What comes over a connection of an exporter: its messages in pieces, and now and then octets that are none."""

    def __init__(self, exporter):
        self.exporter, self.random = exporter, exporter.random
        self.ready = b""

    def piece(self):
        for _ in range(self.random.choice([1, 1, 1, 2, 4])):
            self.ready += self.exporter.message()
        if self.random.random() < 0.01:
            self.ready += bytes.fromhex(self.random.choice(["00090010", "000a000f"]))
        size = len(self.ready)
        if self.random.random() < 0.3:
            size = self.random.choice([1, 3, 4, 15, 16, 20, 40, size - 1])
        piece, self.ready = self.ready[:size], self.ready[size:]
        return piece


class Maker(compare_arrivals.Maker):
    """Makes scripts."""

    CLOSES = 0.97

    # How many of the inputs read where the first does, and how many scripts lack a text.
    REPEATS = 0.01
    LACKS = 0.01

    def begin(self, table):
        """Exporters to an input."""
        self.edges = [table.get(key, 1800) for key in ("late", "template-lifetime", "options-lifetime")]
        self.exporters = {}

    def exporter(self):
        return Exporter(self.random, self.definitions, self.edges)

    def connection(self):
        return self.random.choice([0, 0, 0, 0, 1, 2, NUMBERS - 1])

    def stream(self):
        return Stream(self.exporter())

    def datagram(self):
        peer = self.peer() if self.chance(0.1) else f"0 {self.random.choice([1, 1, 2])} 4739"
        octets = self.exporters.setdefault(peer, self.exporter()).message()
        if self.chance(0.02):
            octets = octets[: self.random.randrange(0, len(octets))]
        elif self.chance(0.01):
            octets = b"\0\x09" + octets[2:]
        elif self.chance(0.01):
            octets += b"\0"
        return f"datagram {peer} {octets.hex() or '-'}"

    def domains(self, transport):
        """More domains of one session than it may have, and some of them again."""
        kind, scope, fields = self.definitions[0]
        sets = one_set(kind, written(256, (kind, scope, fields)))
        names = [5 * number for number in range(MOST_DOMAINS - 2)] + self.random.choices(range(6 * MOST_DOMAINS), k=12)
        messages = [one_message(7, 0, name, sets) for name in names]
        if transport == "udp":
            return [f"datagram 5 5 5 {message.hex()}" for message in messages]
        return ["opened 77"] + [f"bytes 77 {message.hex()}" for message in messages]

    def events_of(self, transport, is_long):
        count = self.random.choice([5, 20, 40, 80])
        before = self.usual(transport) if self.chance(0.3) else self.events(transport, count)
        if not is_long:
            return before
        kind = self.random.random()
        if kind < 0.4:
            return before + self.domains(transport) + self.events(transport, 40)
        if kind < 0.7:
            return before + self.many(transport) + self.events(transport, 40)
        return before + ["notyet"] * self.random.choice([0, 1]) + self.events(transport, 1100)

    def usual(self, transport):
        """A connection or a peer, and nothing that is out of place."""
        exporter = self.exporter()
        messages = [exporter.message() for _ in range(self.random.choice([1, 3, 10, 30]))]
        if transport == "udp":
            return [line for message in messages for line in ("tick 0", f"datagram 0 1 9 {message.hex()}")]
        return ["opened 0"] + [f"bytes 0 {message.hex()}" for message in messages] + ["closed 0"]

    def input(self, number, transport):
        """An input's table, and its place."""
        place = f"in{number}" if transport == "file" else f"[::1]:{4739 + number}"
        table = {"name": f"i{number}", "kind": transport, "path" if transport == "file" else "listen": place}
        if transport == "udp":
            for key in ("late", "template-lifetime", "options-lifetime"):
                if self.chance(0.7):
                    table[key] = self.random.choice([1, 5, 20, 60])
            if self.chance(0.7):
                table["idle"] = self.random.choice([1, 2, 5, 10, 1000000000])
        if self.chance(0.15):
            table["stop-after"] = self.random.choice([0, 1, 2, 5, 10, 20, 40])
        return table, place

    def intermediate(self, number):
        name = f"m{number}"
        if self.chance(0.5):
            rules = [act_cases.random_rule(self.random) for _ in range(self.random.randrange(0, 4))]
            return {"kind": "filter", "name": name, "default": self.random.choice(["keep", "keep", "drop"]), "rule": rules}
        pairs = self.random.sample([{"id": 8}, {"id": 12}, {"id": 27}, {"pen": 9, "id": 8}], self.random.randrange(1, 4))
        rows = act_cases.distinct([act_cases.random_row(self.random) for _ in range(self.random.randrange(0, 5))])
        table = {"kind": "anonymise", "name": name, "field": pairs, "row": rows}
        if self.chance(0.7):
            table |= {"cut4": self.random.randrange(33), "cut6": self.random.randrange(129)}
        return table

    def output(self, number):
        """An output, of some domains now and then."""
        kind = self.random.choice(["json", "ipfix", "view"])
        output = {"name": f"o{number}", "kind": kind, "path": f"out{number}"}
        if kind == "json" and self.chance(0.4):
            output["options"] = self.chance(0.3)
        if kind == "ipfix" and self.chance(0.6):
            output["last-template-id"] = self.random.choice([256, 256, 256, 257, 257, 258, 259, 260, 65534])
        if self.chance(0.3):
            output[self.random.choice(["odid-only", "odid-except"])] = self.random.choice(DOMAINS)
        return output

    def outputs(self):
        return [self.output(number) for number in range(self.random.choice([1, 1, 2, 2, 3, 4]))]

    def elements(self):
        """The names of element tables, some of which can't be read together."""
        kind = self.random.random()
        if kind < 0.5:
            return []
        if kind < 0.94:
            return self.random.sample(["first.toml", "second.toml", "empty.toml"], self.random.randrange(1, 4))
        return self.random.choice(
            [
                ["first.toml", "first.toml"],
                ["builtin.toml"],
                ["first.toml", "named.toml"],
                ["named.toml", "first.toml"],
                ["second.toml", "missing.toml"],
            ]
        )

    def source(self, table, place, is_long):
        if self.chance(0.015):
            return []
        self.begin(table)
        events = self.events_of(table["kind"], is_long)
        lines = [f"source {place}"] + [f"  {event}" for event in events]
        if self.chance(0.12):
            calls = [self.random.randrange(0, len(events) + 3) for _ in range(self.random.choice([1, 1, 2]))]
            lines.append(f"fails {place} {' '.join(map(str, calls))}")
        return lines

    def sink(self, name, most):
        """A sink, one of whose first writes may fail."""
        if self.chance(0.015):
            return []
        if self.chance(0.85):
            return [f"sink {name}"]
        fails = [f"{self.random.randrange(0, most)}:{self.random.choice([0, 1, 2, 5, 15, 16, 40])}" for _ in range(2)]
        return [f"sink {name}", f"sinkfails {name} {' '.join(fails[: self.random.choice([1, 1, 2])])}"]

    def some_definitions(self):
        """Definitions, of which three have the same fields, and differ in their kind and their number of scope fields."""
        some = [a_definition(self.random, kind) for kind in (TEMPLATES, TEMPLATES, TEMPLATES, OPTIONS)]
        fields = some[0][2]
        return some + [(OPTIONS, 1, fields), (OPTIONS, len(fields), fields)]

    def script(self, is_long):
        self.definitions = self.some_definitions()
        count = self.random.choice([1, 1, 1, 2, 2, 3, 4])
        description = {"version": 1, "elements": self.elements(), "input": []}
        lines = []
        for number in range(count):
            transport = self.random.choice(["file", "tcp", "udp", "udp"])
            table, place = self.input(number, transport)
            if number and self.chance(self.REPEATS):
                table = description["input"][0] | {"name": f"i{number}"}
                place = None
            description["input"].append(table)
            if place:
                lines += self.source(table, place, is_long and number < 2)
        if count > 1:
            description["order-log"] = "log"
            lines += self.sink("log", 40)
        stages = [self.intermediate(number) for number in range(self.random.choice([0, 0, 0, 1, 1, 2, 3]))]
        description |= {"intermediate": stages, "output": self.outputs()}
        for output in description["output"]:
            lines += self.sink(output["path"], 12)
        if self.chance(0.06):
            lines.append(f"sayfails {self.random.randrange(0, 18)}:{self.random.choice([0, 1, 5, 40])}")
        return "\n".join(self.call() + self.texts(description) + lines) + "\n"

    def call(self):
        if self.chance(0.9):
            return ["word collect", f"word {self.random.choice(['-c', '--config'])}", "word conf"]
        return ["word collect", "word --config=conf"]

    def texts(self, description):
        conf = "".join(f"{key} = {act_cases.toml(value)}\n" for key, value in description.items())
        texts = {name: table_text(rows) for name, rows in TABLES.items() if name in description["elements"]}
        if not self.chance(self.LACKS):
            texts["conf"] = conf
        if self.chance(self.LACKS):
            texts.pop("first.toml", None)
        return [f"text {name} {text.encode().hex() or '-'}" for name, text in texts.items()]


def scripts(seed, count, kind=Maker):
    maker = kind(random.Random(seed))
    return (maker.script(number % LONG == LONG - 1) for number in range(count))


def happened(text):
    """What happens in a script: its status with the lines of faults, and its counts."""
    status, said = runs.printed(text).split("\n")[:2]
    yield status, 1
    *lines, cut = bytes.fromhex(said.removeprefix("said ").strip("-")).decode().split("\n")
    yield "a line that is cut off", len(cut) > 0
    for line in lines:
        name, _, number = line.rpartition(" ")
        if name in (*runs.COUNTS, "opened", "released"):
            yield name, int(number)
        else:
            yield line, 1


def tally(count, seed):
    """How much there is of each thing in scripts, and in how many of them it is."""
    sums, scripts_with = collections.Counter(), collections.Counter()
    for script in scripts(seed, count):
        for name, number in happened(script):
            sums[name] += number
            scripts_with[name] += number > 0
    for name in sorted(sums):
        print(f"{name}: {sums[name]} in {scripts_with[name]} of {count} scripts of seed {seed}")


def main(words):
    count = int(words[1]) if len(words) > 1 else 2000
    seed = int(words[2]) if len(words) > 2 else random.randrange(2**32)
    if words[0] == "tally":
        tally(count, seed)
        return 0
    return Comparison(words[:1], runs.printed, 1).run(scripts(seed, count), seed)


if __name__ == "__main__":
    sys.exit(main(sys.argv[1:]))
