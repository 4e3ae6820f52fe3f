#!/usr/bin/env python3
"""compare_direct.py PROGRAM [ROUNDS [SEED]]: holds `PROGRAM direct` to a second reader, written apart and slowly.

    tools/compare_direct.py crates/ipfixcol/out/ipfixcol 1000
    tools/compare_direct.py events crates/script_run/out/script_run 2000

Each round makes an IPFIX File out of templates, options templates, withdrawals, data sets and strange sets of a few
domains, most of them right, with elements of every type, elements that aren't known, elements that stand several times
in a record, and values of every length; many files are then cut or changed in some octets. What `direct` answers and
writes is compared with what RFC 7011 and docs/FORMATS.md say of the file, as tools/json_lines.py reads it. The first file
that differs is kept in the system's folder for temporary files.

With the word `events` each round is a script of `script_run`, whose call is `direct IN OUT`: the source gives several
connections, which open, end within a message, close and open again, events of none of them, datagrams and seconds, and it and
the sink fail here and there. What is printed of it is compared with what tools/runs.py reads.
"""

import random
import subprocess
import sys
import tempfile

sys.dont_write_bytecode = True

from decoded import VARIABLE
from json_lines import ELEMENTS, lines_of


# The usual lengths of values, by their types.
USUAL = {
    "unsigned8": 1, "unsigned16": 2, "unsigned32": 4, "unsigned64": 8, "signed8": 1, "signed16": 2, "signed32": 4, "signed64": 8,
    "boolean": 1, "macAddress": 6, "ipv4Address": 4, "ipv6Address": 16, "dateTimeSeconds": 4, "dateTimeMilliseconds": 8,
    "dateTimeMicroseconds": 8, "dateTimeNanoseconds": 8,
}


class Maker:
    """Makes files."""

    def __init__(self, random_source):
        self.random = random_source
        self.definitions = {}

    def field(self):
        kind = self.random.random()
        if kind < 0.05:
            return (self.random.choice([1, 9, 29305, 4294967295]), self.random.choice([1, 8, 7, 210, 32767]), self.random.randrange(0, 9))
        if kind < 0.10:
            return (0, self.random.randrange(0, 500), self.random.choice([0, 1, 4, VARIABLE]))
        element = self.random.choice(sorted(ELEMENTS))
        usual = USUAL.get(ELEMENTS[element][1], VARIABLE)
        return (0, element, usual if self.random.random() < 0.7 else self.random.choice([0, 1, 2, 4, 5, 8, 9, 16, VARIABLE]))

    def fields(self):
        fields = [self.field() for _ in range(self.random.choice([1, 2, 3, 3, 4, 8, 20]))]
        if self.random.random() < 0.2:
            fields.append(self.random.choice(fields))
        return fields

    def specifiers(self, fields):
        made = b""
        for enterprise, element, length in fields:
            bit = 0x8000 if enterprise else 0
            made += (bit | element).to_bytes(2, "big") + length.to_bytes(2, "big")
            made += enterprise.to_bytes(4, "big") if enterprise else b""
        return made

    def set_with(self, set_id, body):
        return set_id.to_bytes(2, "big") + (4 + len(body)).to_bytes(2, "big") + body

    def template_set(self, domain):
        options = self.random.random() < 0.2
        body = b""
        for _ in range(self.random.randrange(1, 4)):
            template = self.random.randrange(256, 262)
            if self.random.random() < 0.15:
                whole = self.random.random() < 0.3
                body += ((3 if options else 2) if whole else template).to_bytes(2, "big") + b"\0\0"
                continue
            fields = self.fields()
            body += template.to_bytes(2, "big") + len(fields).to_bytes(2, "big")
            body += self.random.randrange(1, len(fields) + 1).to_bytes(2, "big") if options else b""
            body += self.specifiers(fields)
            self.definitions[domain, template] = fields
        body += b"\0" * (self.random.choice([0, 0, 0, 1, 3, 4, 8]))
        return self.set_with(3 if options else 2, body)

    def octets(self, length):
        """Octets of a length: any, small ones, or letters and marks."""
        kind = self.random.random()
        if kind < 0.6:
            return self.random.randbytes(length)
        if kind < 0.8:
            return bytes(self.random.choice([0, 0, 0, 1, 2, 255]) for _ in range(length))
        return bytes(self.random.choice(b'ab"\\ /\x00\x01\x1f\xc3\xa9') for _ in range(length))

    def value(self, length):
        if length != VARIABLE:
            return self.octets(length)
        size = self.random.choice([0, 1, 4, 4, 8, 9, 254, 255, 300])
        long = size > 254 or self.random.random() < 0.2
        return (b"\xff" + size.to_bytes(2, "big") if long else bytes([size])) + self.octets(size)

    def data_set(self, domain):
        template = self.random.randrange(256, 262)
        fields = self.definitions.get((domain, template), [(0, 8, 4)])
        records = self.random.choice([0, 1, 1, 2, 3, 9])
        body = b"".join(self.value(length) for _ in range(records) for _, _, length in fields)
        body += self.random.randbytes(self.random.choice([0, 0, 0, 1, 2, 3]))
        return self.set_with(template, body)

    def any_set(self, domain):
        kind = self.random.random()
        if kind < 0.35:
            return self.template_set(domain)
        if kind < 0.95:
            return self.data_set(domain)
        return self.set_with(self.random.choice([0, 1, 4, 255]), self.random.randbytes(self.random.randrange(0, 9)))

    def message(self, domain):
        body = b"".join(self.any_set(domain) for _ in range(self.random.randrange(0, 5)))
        head = b"\0\x0a" + (16 + len(body)).to_bytes(2, "big") + self.random.randbytes(8)
        return head + domain.to_bytes(4, "big") + body

    def stream(self):
        domains = self.random.choice([1, 1, 2, 3, 1100])
        count = self.random.randrange(0, 12) if domains < 1000 else 1300
        stream = b"".join(self.message(self.random.randrange(domains)) for _ in range(count))
        return self.spoiled(bytearray(stream))

    def spoiled(self, stream):
        kind = self.random.random()
        if kind < 0.6 or not stream:
            return bytes(stream)
        if kind < 0.75:
            return bytes(stream[: self.random.randrange(len(stream))])
        for _ in range(self.random.randrange(1, 4)):
            stream[self.random.randrange(len(stream))] = self.random.choice([0, 1, 2, 3, 4, 10, 255, self.random.randrange(256)])
        return bytes(stream)


def main(program, rounds, seed):
    maker = Maker(random.Random(seed))
    lines = 0
    with tempfile.TemporaryDirectory() as folder:
        source, sink = f"{folder}/in.ipfix", f"{folder}/out.json"
        for turn in range(rounds):
            maker.definitions.clear()
            stream = maker.stream()
            with open(source, "wb") as file:
                file.write(stream)
            done = subprocess.run([program, "direct", source, sink], capture_output=True, timeout=60)
            with open(sink, "rb") as file:
                written = file.read()
            if (done.returncode, done.stdout, written) != (0, b"", "".join(lines_of(stream)).encode()):
                with tempfile.NamedTemporaryFile(prefix="differs-", suffix=".ipfix", delete=False) as file:
                    file.write(stream)
                print(f"round {turn}: status {done.returncode}; the file is {file.name}")
                return 1
            lines += written.count(b"\n")
    print(f"{rounds} files alike, with {lines} lines")
    return 0


def scripts_maker():
    """Makes the scripts of `direct`. What makes those of `collect` stands above this file, so it is named here alone."""
    from compare_collect import Maker as Collected

    class Scripts(Collected):
        def script(self, is_long):
            self.definitions = self.some_definitions()
            lines = self.source({"kind": "file"}, "in", is_long) + self.sink("out", 12)
            if self.chance(0.06):
                lines.append(f"sayfails {self.random.randrange(0, 3)}:{self.random.choice([0, 1, 5, 40])}")
            return "\n".join(["word direct", "word in", "word out"] + lines) + "\n"

    return Scripts


def compare_events(program, count, seed):
    import compare_collect
    import runs
    from compared import Comparison

    return Comparison([program], runs.printed, 1).run(compare_collect.scripts(seed, count, scripts_maker()), seed)


if __name__ == "__main__":
    arguments = sys.argv[1:]
    if arguments[0] == "events":
        seed = int(arguments[3]) if len(arguments) > 3 else random.randrange(2**32)
        sys.exit(compare_events(arguments[1], int(arguments[2]) if len(arguments) > 2 else 2000, seed))
    sys.exit(main(arguments[0], int(arguments[1]) if len(arguments) > 1 else 1000, int(arguments[2]) if len(arguments) > 2 else 1))
