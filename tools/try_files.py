#!/usr/bin/env python3
"""try_files.py [PROGRAM [FILES [SEED]]]: reads what an output of kind `ipfix` writes, with other programs.

    tools/try_files.py crates/ipfixcol/out/ipfixcol 100

PROGRAM runs `collect` on each file of examples/, on many of them together, and on so many pairs of files that exporters make at
random. What it wrote is first held to what came, in the order of the run's log, by a second reader of files (decoded.py): the
definitions and records of each message with records, its domain and export time, and sequence numbers that count records. Then
libfixbuf's ipfixDump (Debian: libfixbuf-tools) and TShark (Debian: tshark) read it, and their messages, template records and
data records are held to those of the second reader; ipfixDump only where no Template ID has two definitions in different
domains, which it mixes up. A reader that isn't installed is skipped, with a word. What differs is printed, and the files are kept
in the system's folder for temporary files.
"""

import datetime
import ipaddress
import pathlib
import random
import re
import shutil
import subprocess
import sys
import tempfile
import xml.etree.ElementTree

sys.dont_write_bytecode = True

from decoded import VARIABLE, decoded, messages_of, number, sets_of, template_records_of
from exporters import NUMBERS, OPTIONS, TEMPLATES, Exporter

FOLDER = pathlib.Path(__file__).resolve().parent.parent
OTHERS = ["ipfixDump", "tshark"]
MADE = 20
MOST_INPUTS = 16

# What exporters send: elements in lengths that all readers take. libfixbuf refuses addresses and numbers in others, and TShark
# keeps no template whose fields all vary.
FIXED = [(0, 8, 4), (0, 12, 4), (0, 27, 16), (0, 4, 1), (0, 1, 8), (0, 1, 4), (0, 7, 2), (0, 56, 6), (0, 150, 4), (9, 8, 4), (9, 4, 1)]
VARYING = [(0, 82, VARIABLE), (6871, 1, VARIABLE)]

# How ipfixDump shows elements.
NUMBER_ELEMENTS = {(0, 1), (0, 4), (0, 7), (0, 10)}
ADDRESS_ELEMENTS = {(0, 8), (0, 12)}


def a_definition(source, kind):
    fields = source.sample(FIXED, source.choice([1, 1, 2, 3, 5])) + source.sample(VARYING, source.choice([0, 0, 1, 2]))
    return kind, source.randrange(1, len(fields) + 1) if kind == OPTIONS else 0, fields


def a_stream(source, definitions):
    exporter = Exporter(source, definitions, [1800])
    return b"".join(exporter.message() for _ in range(MADE))


def contents_of(message, sets):
    """The domain and export time of a message with records, and its sets, each a definition and records. None of another."""
    held = [(definition, records) for _, definition, records in sets or [] if records]
    return (number(message[12:16]), number(message[4:8]), held) if held else None


def items_of(stream):
    """What a session of a file hands on: that it opens, its messages, and that it closes."""
    yield None
    for message, sets in decoded(stream):
        yield contents_of(message, sets)
    yield None


def came(streams, log, domains):
    """The contents of the messages with records, in the order of the log, of these domains, or of all."""
    inputs = [items_of(stream) for stream in streams]
    order = [number(log[at : at + 2]) for at in range(0, len(log), 2)] if len(streams) > 1 else None
    taken = (next(inputs[k]) for k in order) if order else inputs[0]
    return [item for item in taken if item and (domains is None or item[0] in domains)]


def is_counted(stream):
    """Whether sequence numbers count the records of their domain."""
    counts = {}
    for message, sets in decoded(stream):
        domain = number(message[12:16])
        if number(message[8:12]) != counts.get(domain, 0):
            return False
        counts[domain] = (counts.get(domain, 0) + sum(len(records or []) for _, _, records in sets or [])) % NUMBERS
    return True


def said_by(stream):
    """What each message of a file says: its length and numbers, its template records, and its data records with their values,
    each behind its element."""
    for message, sets in decoded(stream):
        templates = [(id, *definition) for kind, body in sets_of(message) if kind in (TEMPLATES, OPTIONS) for id, definition in template_records_of(kind, body)]
        records = [
            (id, [(pen, element, value) for (pen, element, _), value in zip(definition[2], values)])
            for id, definition, found in sets
            for values in found or []
        ]
        yield len(message), number(message[4:8]), number(message[12:16]), number(message[8:12]), templates, records


def dumped_value(pen, element, value):
    """How ipfixDump shows a value; None where this script doesn't say."""
    if (pen, element) in ADDRESS_ELEMENTS:
        return str(ipaddress.IPv4Address(value))
    if (pen, element) in NUMBER_ELEMENTS:
        return str(number(value))
    return None


def has_one_meaning(messages):
    """Whether each Template ID has one definition in all domains. ipfixDump takes records by the definition that an ID had
    last in any domain."""
    definitions = {}
    return all(definitions.setdefault(id, definition) == definition for *_, templates, _ in messages for id, *definition in templates)


def with_texts(messages):
    """The messages of a file, with values as ipfixDump shows them."""
    return [(*said, [(id, [(*value[:2], dumped_value(*value)) for value in values]) for id, values in records]) for *said, records in messages]


def dumped(path):
    """What ipfixDump says of the messages of a file, as `said_by`, with the texts of values."""
    text = subprocess.run(["ipfixDump", "-i", path], check=True, capture_output=True, text=True, errors="replace").stdout
    messages = []
    for line in text.splitlines():
        if found := re.match(r"export time: (.{19})\tobservation domain id: (\d+)", line):
            time = datetime.datetime.fromisoformat(f"{found[1]}+00:00")
            messages.append([None, int(time.timestamp()), int(found[2]), None, [], []])
        elif found := re.match(r"message length: (\d+) *\tsequence number: (\d+) ", line):
            messages[-1][0], messages[-1][3] = int(found[1]), int(found[2])
        elif found := re.match(r"--- (options )?template record ---", line):
            kind = OPTIONS if found[1] else TEMPLATES
        elif found := re.match(r"\ttid: +(\d+) \(.*\) +field count: +(\d+) +scope: +(\d+)", line):
            messages[-1][4].append((int(found[1]), kind, int(found[3]), []))
        elif found := re.match(r"\tent: +(\d+)  id: +(\d+)  type: \w+ +len: +(\d+)", line):
            messages[-1][4][-1][3].append(tuple(map(int, found.groups())))
        elif found := re.match(r"\tcount: \d+ +tid: +(\d+)", line):
            messages[-1][5].append((int(found[1]), []))
        elif found := re.match(r"\t\((?:(\d+)/)?(\d+)\)(?: \(S\))? +\S+ : (.*)", line):
            messages[-1][5][-1][1].append((int(found[1] or 0), int(found[2]), found[3]))
    return messages


def is_as_dumped(path, wanted):
    """Whether ipfixDump says this of a file, but for the texts of values that aren't wanted."""
    found = dumped(path)
    for (*_, records), (*_, others) in zip(found, wanted):
        for (_, values), (_, texts) in zip(records, others):
            values[:] = [(*value[:2], text and value[2]) for value, (_, _, text) in zip(values, texts)]
    return list(map(tuple, found)) == wanted


class Shown:
    """A part of what TShark shows, by its names and texts."""

    def __init__(self, node):
        self.node = node

    def one(self, name):
        return next(self.all(name))

    def all(self, name):
        return (int(each.get("show")) for each in self.node.iter("field") if name in each.get("name"))

    def parts(self, words):
        return (Shown(each) for each in self.node.findall("field") if (each.get("show") or "").startswith(words))

    def template(self):
        scopes = next(self.all("_scope_field_count"), 0)
        fields = [
            (next(field.all("_field_pen"), 0), field.one("_field_type"), field.one(".template_field_length"))
            for field in self.parts("Field (")
        ]
        return self.one(".template_id"), OPTIONS if scopes else TEMPLATES, scopes, fields

    def values(self):
        """Values that have octets, in the order of their places."""
        found = [(int(field.get("pos")), bytes.fromhex(field.get("value"))) for field in self.node.findall("field")]
        return [value for _, value in sorted(found) if value]


def shown(path):
    """What TShark says of the messages of a file, as `said_by`, without the elements of values, and without values of no octet."""
    text = subprocess.run(["tshark", "-n", "-r", path, "-T", "pdml"], check=True, capture_output=True).stdout
    for proto in xml.etree.ElementTree.fromstring(text).iter("proto"):
        if proto.get("name") != "cflow":
            continue
        message, templates, records = Shown(proto), [], []
        for each in message.parts("Set "):
            id = each.one(".flowset_id")
            templates += [part.template() for words in ("Template (", "Options Template (") for part in each.parts(words)]
            records += [(id, flow.values()) for flow in each.parts("Flow ")]
        yield (*(message.one(f"cflow.{name}") for name in ("len", "exporttime", "od_id", "sequence")), templates, records)


def wanted_of_tshark(messages):
    """What TShark is to say: it keeps no template whose fields all vary, and so has no records of one."""
    known = {}
    for length, export, domain, sequence, templates, records in messages:
        known |= {(domain, id): fields for id, _, _, fields in templates}
        kept = [(id, [value for _, _, value in values if value]) for id, values in records if any(size != VARIABLE for _, _, size in known[domain, id])]
        yield length, export, domain, sequence, templates, kept


def collect(program, folder, streams, domains):
    """What the program writes of streams, of these domains or of all, and the log of their order."""
    lines = ["version = 1"]
    for place, stream in enumerate(streams):
        (folder / f"in{place}.ipfix").write_bytes(stream)
        lines += ["[[input]]", f'name = "in{place}"', 'kind = "file"', f'path = "{folder}/in{place}.ipfix"']
    lines += ["[[output]]", 'name = "out"', 'kind = "ipfix"', f'path = "{folder}/out.ipfix"']
    if domains is not None:
        lines.append(f'odid-only = "{",".join(map(str, domains))}"')
    if len(streams) > 1:
        lines.insert(1, f'order-log = "{folder}/order.log"')
    (folder / "run.toml").write_text("\n".join(lines) + "\n")
    subprocess.run([program, "collect", "-c", folder / "run.toml"], check=True, stdout=subprocess.DEVNULL)
    log = (folder / "order.log").read_bytes() if len(streams) > 1 else b""
    return (folder / "out.ipfix").read_bytes(), log


class Readers:
    """The readers that are installed, and what they read."""

    def __init__(self):
        self.files = self.messages = self.records = 0
        # How many files each reader was held to.
        self.held = {name: 0 for name in OTHERS if shutil.which(name)}

    def faults(self, path, stream, wanted):
        """What differs of a file that is to have these contents."""
        if [contents_of(message, sets) for message, sets in decoded(stream) if contents_of(message, sets)] != wanted:
            yield "other contents than came"
        if not is_counted(stream) or b"".join(messages_of(stream)) != stream:
            yield "sequence numbers that don't count, or a rest"
        told = list(said_by(stream))
        if "ipfixDump" in self.held and has_one_meaning(told):
            self.held["ipfixDump"] += 1
            if not is_as_dumped(path, with_texts(told)):
                yield "ipfixDump reads something else"
        if "tshark" in self.held:
            self.held["tshark"] += 1
            if list(shown(path)) != list(wanted_of_tshark(told)):
                yield "TShark reads something else"

    def take(self, name, program, streams, domains):
        """Whether all is well with what the program writes of streams."""
        with tempfile.TemporaryDirectory() as folder:
            stream, log = collect(program, pathlib.Path(folder), streams, domains)
            path = f"{folder}/out.ipfix"
            faults = list(self.faults(path, stream, came(streams, log, domains)))
            if faults:
                kept = tempfile.mkdtemp()
                shutil.copytree(folder, kept, dirs_exist_ok=True)
                print(f"{name}: {'; '.join(faults)}: {kept}")
            self.files += 1
            self.messages += len(messages_of(stream))
            self.records += sum(len(records) for *_, records in said_by(stream))
        return not faults


def inputs_at_random(seed, count):
    source = random.Random(seed)
    for place in range(count):
        definitions = [a_definition(source, kind) for kind in (TEMPLATES, TEMPLATES, TEMPLATES, OPTIONS, OPTIONS)]
        yield f"pair {place} of seed {seed}", [a_stream(source, definitions) for _ in range(2)], source.choice([None, [1]])


def main(program=FOLDER / "crates/ipfixcol/out/ipfixcol", count="100", seed="1"):
    readers = Readers()
    for name in OTHERS:
        if name not in readers.held:
            print(f"skipped: {name} isn't installed")
    examples = [(path.stem, [path.read_bytes()], None) for path in sorted((FOLDER / "examples").glob("*.ipfix"))]
    several = [streams[0] for _, streams, _ in examples[-MOST_INPUTS:]]
    tries = [*examples, ("many examples", several, None), *inputs_at_random(seed, int(count))]
    # Each is tried, also behind one that differs.
    well = [readers.take(name, program, streams, domains) for name, streams, domains in tries]
    print(f"{readers.files} files of {readers.messages} messages with {readers.records} records, {well.count(False)} differ")
    for name, count in readers.held.items():
        print(f"{name} was held to {count} of them")
    return 0 if all(well) else 1


if __name__ == "__main__":
    sys.exit(main(*sys.argv[1:]))
