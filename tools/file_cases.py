#!/usr/bin/env python3
"""Writes the calls of file_run: the sets of messages, and what is written of each in an IPFIX File.

Those with octets beside them are worked out by hand, from RFC 7011, sections 3.1 to 3.4; the others by the second reader of files
(file_texts.py). Run it as tools/file_cases.py > crates/file_run/data/files.cases
"""

import random
import sys

sys.dont_write_bytecode = True

from act_cases import VARIES, encoded, specifier
from exporters import OPTIONS, TEMPLATES
from file_texts import AtLimit, File

SOURCE, DESTINATION = ([(0, 8, 4)], ["0a000001"]), ([(0, 12, 4)], ["0a000002"])


class Record:
    """A record, by its octets in hexadecimal."""

    def __init__(self, text):
        self.octets = bytes.fromhex(text)


def a_set(fields, records, scope=0, specifiers=None):
    """The word of a set, and the set as the second reader takes it. Specifiers may be written otherwise than the fields."""
    written = specifiers or b"".join(map(specifier, fields)).hex()
    kind = OPTIONS if scope else TEMPLATES
    return f"{scope}/{written}/{','.join(records)}", ((kind, scope, fields), [Record(text) for text in records])


class Table:
    """The lines of a table. All calls are also held to the second reader, up to the last number of a file."""

    def __init__(self):
        self.lines, self.file = [], None

    def tell(self, words):
        self.lines += ["", f"# {words}"]

    def last(self, number):
        self.lines.append(f"last {number}")
        self.file = File(number)

    def put(self, domain, export, *sets, octets=None):
        try:
            wanted = self.file.take(domain, export, [each for _, each in sets]).hex()
        except AtLimit:
            wanted = f"limit:{max(256, self.file.last + 1)}"
        if octets is not None and wanted != octets.replace(" ", "").replace("\n", ""):
            sys.exit(f"the second reader has {wanted}")
        self.lines.append(f"{domain} {export} {wanted} {' '.join(word for word, _ in sets)}")


def by_hand(table):
    table.tell("five messages of two sessions: one ID had two definitions there, and here each has a number")
    table.last(65535)
    table.put(1, 100, a_set(*SOURCE), octets="""
        000a001c 00000064 00000000 00000001 0002000c 01000001 00080004
        000a0018 00000064 00000000 00000001 01000008 0a000001""")
    table.put(1, 100, a_set(*DESTINATION), octets="""
        000a001c 00000064 00000001 00000001 0002000c 01010001 000c0004
        000a0018 00000064 00000001 00000001 01010008 0a000002""")
    table.put(1, 100, a_set(*SOURCE), octets="000a0018 00000064 00000002 00000001 01000008 0a000001")
    table.tell("another domain has numbers of its own, and counts its own records; an export time may fall")
    table.put(2, 99, a_set(DESTINATION[0], ["0a000003", "0a000004"]), octets="""
        000a001c 00000063 00000000 00000002 0002000c 01000001 000c0004
        000a001c 00000063 00000000 00000002 0100000c 0a000003 0a000004""")
    table.put(2, 98, a_set(*DESTINATION), octets="000a0018 00000062 00000002 00000002 01000008 0a000002")
    table.put(1, 101, a_set(*DESTINATION), octets="000a0018 00000065 00000003 00000001 01010008 0a000002")
    table.tell("the order of sets stays, also of one definition, and new definitions stand before all of them")
    table.last(65535)
    table.put(0, 0, a_set(*DESTINATION), a_set(*SOURCE), a_set(*DESTINATION), octets="""
        000a001c 00000000 00000000 00000000 0002000c 01000001 000c0004
        000a001c 00000000 00000000 00000000 0002000c 01010001 00080004
        000a0028 00000000 00000000 00000000 01000008 0a000002 01010008 0a000001 01000008 0a000002""")
    table.tell("options templates of one and of two scope fields, beside a template of the same fields")
    table.last(65535)
    both = [(0, 10, 4), (0, 8, 4)]
    table.put(7, 100, a_set(both, ["000000070a000001"], 2), a_set(both, ["000000080a000002"], 1), a_set(both, ["000000090a000003"]), octets="""
        000a0022 00000064 00000000 00000007 00030012 01000002 0002 000a0004 00080004
        000a0022 00000064 00000000 00000007 00030012 01010002 0001 000a0004 00080004
        000a0020 00000064 00000000 00000007 00020010 01020002 000a0004 00080004
        000a0034 00000064 00000000 00000007 0100000c 00000007 0a000001 0101000c 00000008 0a000002 0102000c 00000009 0a000003""")
    table.tell("enterprise numbers, and values of varying length in both forms; the enterprise bit with number 0 goes out without")
    table.last(65535)
    table.put(1, 100, a_set([(9, 7, VARIES), (0, 8, 4)], ["02abcd0a000001", "ff0003abcdef0a000002"]), octets="""
        000a0024 00000064 00000000 00000001 00020014 01000002 8007ffff 00000009 00080004
        000a0025 00000064 00000000 00000001 01000015 02abcd0a000001 ff0003abcdef0a000002""")
    table.put(1, 100, a_set([(0, 8, 4)], ["0a000001"], specifiers="8008000400000000"), octets="""
        000a001c 00000064 00000002 00000001 0002000c 01010001 00080004
        000a0018 00000064 00000002 00000001 01010008 0a000001""")
    table.put(1, 100, a_set(*SOURCE), octets="000a0018 00000064 00000003 00000001 01010008 0a000001")


def limits(table):
    table.tell("a call past the last number writes nothing and changes nothing: neither numbers nor how many records there are")
    table.last(256)
    table.put(1, 100, a_set(*SOURCE))
    table.put(1, 100, a_set(*DESTINATION))
    table.put(1, 100, a_set(*SOURCE), a_set(*DESTINATION))
    table.put(1, 100, a_set(*DESTINATION), a_set(*SOURCE))
    table.put(1, 100, a_set(*SOURCE), octets="000a0018 00000064 00000001 00000001 01000008 0a000001")
    table.tell("another domain has the last number still, and a refused one of a domain that is new leaves that without any")
    table.put(2, 100, a_set(*SOURCE), a_set(*DESTINATION))
    table.put(2, 100, a_set(*DESTINATION))
    table.tell("no number may be given at all")
    for last in (0, 255):
        table.last(last)
        table.put(1, 100, a_set(*SOURCE))
    table.tell("45 numbers, and 46 definitions")
    table.last(300)
    for length in range(1, 47):
        table.put(1, 100, a_set([(0, 210, length)], ["00" * length]))
    table.put(1, 100, a_set([(0, 210, 45)], ["11" * 45]))


def at_random(table, source):
    """Messages of a few domains with definitions of a pool, some up to a last number."""
    table.tell("messages at random")
    elements = [(0, 8, 4), (0, 12, 4), (0, 1, 8), (0, 4, 1), (0, 82, VARIES), (9, 7, 2), (6871, 1, VARIES), (2**32 - 1, 32767, 0)]
    for _ in range(8):
        table.last(source.choice([256, 258, 260, 65535, 65535]))
        pool = [source.choices(elements[:7], k=source.choice([1, 2, 3])) + source.choice([[], elements[7:]]) for _ in range(5)]
        for _ in range(10):
            sets = []
            for _ in range(source.choice([1, 1, 2, 3])):
                fields = source.choice(pool)
                records = ["".join(one_value(source, field).hex() for field in fields) for _ in range(source.choice([1, 1, 2, 4]))]
                sets.append(a_set(fields, records, source.choice([0, 0, 0, 1, len(fields)])))
            table.put(source.choice([0, 1, 1, 2**32 - 1]), source.choice([0, 100, 2**32 - 1]), *sets)


def one_value(source, field):
    size = source.choice([0, 1, 1, 3, 3, 5, 5, 254, 255]) if field[2] == VARIES else field[2]
    return encoded(field, source.randbytes(size), source.random() < 0.2)


if __name__ == "__main__":
    made = Table()
    by_hand(made)
    limits(made)
    at_random(made, random.Random(7011))
    print("# Written by tools/file_cases.py. last N; DOMAIN EXPORT OCTETS SET.., where limit:N stands for octets at a limit")
    print("\n".join(made.lines))
