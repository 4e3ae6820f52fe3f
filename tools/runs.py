#!/usr/bin/env python3
"""A second reader of whole runs of `collect` and `direct`, written apart from the program and slowly, from
docs/DEFINITIONS.md, docs/OPERATING.md and docs/FORMATS.md.

    tools/runs.py FILE..

prints of each script what `script_run FILE` prints of it, where its call is `collect -c conf`, `direct IN OUT` or
`generate NUMBER COUNT`: the status, what was said, and what each sink holds. Descriptions are taken to have no fault of
their own.

    tools/runs.py generate NUMBER COUNT

prints what `ipfixcol generate NUMBER COUNT` prints.
"""

import sys
import tomllib

sys.dont_write_bytecode = True

from arrivals import octets_of, place_of
from file_texts import AtLimit, File
from item_lines import records_behind
from items import COUNTS, read_input
from json_lines import BUILTIN, element_of, line_of
from load_events import events_of
from value_texts import text_of

QUESTIONS = 1000
OPTIONS_SET = 3


class Refused(Exception):
    """A call that ends before its run."""

    def __init__(self, status, line):
        super().__init__(line)
        self.status, self.line = status, line


class Failing:
    """Writes of which some fail, each behind so many octets of its piece."""

    def __init__(self, fails=()):
        self.fails = {}
        for fail in fails:
            call, taken = map(int, fail.split(":"))
            self.fails.setdefault(call, taken)
        self.calls, self.octets, self.failed = 0, bytearray(), False

    def write(self, piece):
        """Whether it was taken whole. Nothing is written behind a fault."""
        if self.failed:
            return False
        taken = self.fails.get(self.calls)
        self.calls += 1
        self.failed = taken is not None
        self.octets += piece[:taken] if self.failed else piece
        return not self.failed


class Script:
    """The outside that a call finds. Of several of one name the first counts."""

    def __init__(self, text):
        self.texts, self.sources, self.failing, self.sinks, self.names = {}, {}, {}, {}, []
        self.words = []
        self.say = Failing()
        fails = {}
        for line in text.splitlines():
            if line.startswith("  "):
                events.append(line[2:])
                continue
            word, *parts = line.split(" ")
            if word == "word":
                self.words.append(parts[0])
            elif word == "text":
                self.texts.setdefault(parts[0], octets_of(parts[1]))
            elif word == "source":
                events = []
                self.sources.setdefault(parts[0], events)
            elif word == "fails":
                self.failing[parts[0]] = set(map(int, parts[1:]))
            elif word == "sink":
                self.names.append(parts[0])
            elif word == "sinkfails":
                fails.setdefault(parts[0], parts[1:])
            elif word == "sayfails":
                self.say = Failing(parts)
        self.sinks = {name: Failing(fails.get(name, ())) for name in self.names}


def elements_of(script, names):
    """The elements that are known: those that are built in, and those of the tables, in order."""
    known = dict(BUILTIN)
    for name in names:
        if name not in script.texts:
            raise Refused(3, f"source fault: {name}")
        called = {full for full, _ in known.values()}
        added = {}
        for place, row in enumerate(tomllib.loads(script.texts[name].decode())["element"]):
            pair, full = (row["pen"], row["id"]), f"{row['prefix']}:{row['name']}"
            if pair in known or pair in added:
                raise Refused(2, f"elements {name}: duplicate {pair[0]} {pair[1]}")
            if full in called:
                raise Refused(2, f"elements {name}: duplicate name {place}")
            called.add(full)
            added[pair] = full, row["type"]
        known |= added
    return known


def through(stages, sets):
    """What the intermediates leave of sets, each a Template ID, a definition and records. Sets without records go."""
    for stage in stages:
        left = [(template, definition, records_behind(stage, definition[2], records)) for template, definition, records in sets]
        sets = [each for each in left if each[2]]
    return sets


def is_in(domain, domains):
    """Whether a domain is one of these, as `1,3-5` writes them."""
    for part in domains.split(","):
        low, _, high = part.partition("-")
        if int(low) <= domain <= int(high or low):
            return True
    return False


def comes_to(output, item):
    """Whether an item comes to an output: a message has sets, and is of a domain of the output."""
    if item[0] != "message":
        return True
    domain, sets = item[3], item[-1]
    if not sets:
        return False
    if "odid-only" in output:
        return is_in(domain, output["odid-only"])
    return not ("odid-except" in output and is_in(domain, output["odid-except"]))


def json_text(output, known, item):
    if item[0] != "message":
        return ""
    wanted = [(definition, records) for _, definition, records in item[-1] if output.get("options", True) or definition[0] != OPTIONS_SET]
    return "".join(line_of(definition, values, known) for definition, records in wanted for values in records)


def listed(known, definition, values):
    shown = []
    for (pen, number, _), value in zip(definition[2], values):
        name, kind = element_of((pen, number), known)
        shown.append(f"{name}={text_of(kind, value)}")
    return "    " + " ".join(shown) + "\n"


def view_text(known, item):
    match item:
        case ("open", number, session, transport):
            return f"session {number}/{session} open {transport}\n"
        case ("close", number, session):
            return f"session {number}/{session} close\n"
        case ("tick", number, seconds):
            return f"tick {number} {seconds}\n"
        case ("message", number, session, domain, export, sequence, sets):
            count = sum(len(records) for _, _, records in sets)
            text = f"message {number}/{session} domain {domain} export {export} sequence {sequence} records {count}\n"
            for template, definition, records in sets:
                text += f"  template {template} records {len(records)}\n"
                text += "".join(listed(known, definition, values) for values in records)
            return text


class Output:
    """An output of a run over its sink. It ends where that fails, or where a file has no number left."""

    def __init__(self, table, known, sink):
        self.table, self.known, self.sink = table, known, sink
        self.file = File(table.get("last-template-id", 65535))
        self.is_full = False

    def text(self, item):
        if self.table["kind"] == "json":
            return json_text(self.table, self.known, item).encode()
        if self.table["kind"] == "view":
            return view_text(self.known, item).encode()
        if item[0] != "message":
            return b""
        domain, export, _, sets = item[3:]
        return self.file.take(domain, export, [(definition, records) for _, definition, records in sets])

    def take(self, item):
        if self.is_full or self.sink.failed or not comes_to(self.table, item):
            return
        try:
            text = self.text(item)
        except AtLimit:
            self.is_full = True
            return
        if text:
            self.sink.write(text)

    def ending(self):
        """The status and the line of how it ended, if by itself."""
        if self.is_full:
            return 5, f"limit: {self.table['name']}"
        if self.sink.failed:
            return 4, f"sink fault: {self.table['name']}"
        return None


def in_turn(inputs):
    """The items of all inputs in the order in which they are taken, each with the number of its input."""
    asked = [0] * len(inputs)
    while any(asked[k] < len(one.answers) for k, one in enumerate(inputs)):
        for k, one in enumerate(inputs):
            for answer in one.answers[asked[k] : asked[k] + QUESTIONS]:
                asked[k] += 1
                if answer == "notyet":
                    break
                if answer != "nothing":
                    yield k, answer


class Run:
    """A run of a description, whose counts are said."""

    counted = True

    def __init__(self, script, description, known):
        self.description, self.known = description, known
        self.log = None
        self.inputs = []
        opened = set()
        for number, table in enumerate(description["input"]):
            place = place_of(table)
            if place not in script.sources or place in opened:
                raise Refused(3, f"source fault: {table['name']}")
            opened.add(place)
            self.inputs.append(read_input(number, table, script.sources[place], script.failing.get(place, ())))
        if "order-log" in description:
            self.log = script.sinks.get(description["order-log"])
            if self.log is None:
                raise Refused(4, "sink fault: order-log")
        self.outputs = []
        for table in description["output"]:
            sink = script.sinks.get(table["path"])
            if sink is None:
                raise Refused(4, f"sink fault: {table['name']}")
            self.outputs.append(Output(table, known, sink))

    def put(self, item):
        if item[0] == "message":
            item = (*item[:-1], through(self.description.get("intermediate", []), item[-1]))
        for output in self.outputs:
            output.take(item)

    def take_all(self):
        for number, item in in_turn(self.inputs):
            if not self.log or self.log.write(number.to_bytes(2, "big")):
                self.put(item)

    def endings(self):
        """The statuses and lines of what ended by itself, in order."""
        for table, one in zip(self.description["input"], self.inputs):
            if one.failed:
                yield 3, f"source fault: {table['name']}"
        if self.log and self.log.failed:
            yield 4, "sink fault: order-log"
        yield from filter(None, (output.ending() for output in self.outputs))

    def lines(self):
        """The lines that are said of it, and its status, which is the greatest."""
        endings = list(self.endings())
        counts = [f"{name} {min(sum(one.counts[name] for one in self.inputs), 2**64 - 1)}" for name in COUNTS]
        return [line for _, line in endings] + counts + ["opened 0", "released 0"], max([0] + [code for code, _ in endings])


LOAD = """
input = [{ name = "gen", kind = "tcp", listen = "gen" }]
intermediate = [{ name = "half", kind = "filter", rule = [{ id = 4, test = "between", low = 0, high = 127, act = "drop" }] }]
output = [{ name = "json", kind = "json", path = "json" }, { name = "ipfix", kind = "ipfix", path = "ipfix" }, { name = "view", kind = "view", path = "view" }]
"""


def load_script(number, count):
    """A script whose one source gives generated load, and whose sinks are those of its description."""
    script = Script("sink json\nsink ipfix\nsink view\n")
    script.sources["gen"] = [f"{kind.lower()} {connection} {octets.hex()}".rstrip() for kind, connection, octets in events_of(number, count)]
    return script


class Load(Run):
    """A run of generated load, of whose outputs the number of octets is said."""

    def __init__(self, number, count):
        super().__init__(load_script(number, count), tomllib.loads(LOAD), elements_of(None, []))

    def lines(self):
        lines, status = super().lines()
        return lines + [f"octets {output.table['name']} {len(output.sink.octets)}" for output in self.outputs], status


def begun(script):
    """The run of a script's call, which has begun."""
    if script.words[:1] == ["generate"]:
        return Load(*map(int, script.words[1:]))
    if script.words[:1] == ["direct"]:
        return FileRun(script, *script.words[1:])
    if "conf" not in script.texts:
        raise Refused(3, "source fault: conf")
    description = tomllib.loads(script.texts["conf"].decode())
    known = elements_of(script, description.get("elements", []))
    return Run(script, description, known)


def printed(text):
    """What `script_run` prints of a script."""
    script = Script(text)
    try:
        run = begun(script)
    except Refused as refusal:
        script.say.write(f"{refusal.line}\n".encode())
        status = refusal.status
    else:
        run.take_all()
        lines, status = run.lines()
        for line in lines:
            if not script.say.write(f"{line}\n".encode()):
                status = max(status, 4)
                break
    held = [f"held {name} {script.sinks[name].octets.hex() or '-'}\n" for name in script.names]
    return f"status {status}\nsaid {script.say.octets.hex() or '-'}\n" + "".join(held)


def loaded(number, count):
    """What is printed of generated load."""
    run = Load(number, count)
    run.take_all()
    return "".join(f"{line}\n" for line in run.lines()[0])


if __name__ == "__main__":
    if sys.argv[1:2] == ["generate"]:
        print(loaded(*map(int, sys.argv[2:])), end="")
        sys.exit()
    for path in sys.argv[1:]:
        with open(path, encoding="utf-8") as file:
            print(printed(file.read()), end="")
