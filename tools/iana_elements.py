#!/usr/bin/env python3
"""Writes examples/elements/iana.toml, the elements of IANA's registry that are not built in.

usage: tools/iana_elements.py IESPEC VERSION > examples/elements/iana.toml

IESPEC is the file ipfix/iana.iespec of the Debian package python3-ipfix, and VERSION that package's version:

    apt-get download python3-ipfix && dpkg-deb -x python3-ipfix_*.deb unpacked
    tools/iana_elements.py unpacked/usr/lib/python3/dist-packages/ipfix/iana.iespec 0.9.7-3

The built-in elements are read from crates/text_spec/specs/Builtin.antt.
"""

import datetime
import os
import pathlib
import re
import sys

TYPES = """octetArray unsigned8 unsigned16 unsigned32 unsigned64 signed8 signed16 signed32 signed64 float32
float64 boolean macAddress string dateTimeSeconds dateTimeMilliseconds dateTimeMicroseconds
dateTimeNanoseconds ipv4Address ipv6Address basicList subTemplateList subTemplateMultiList""".split()

BUILTIN = pathlib.Path(__file__).parent.parent / "crates/text_spec/specs/Builtin.antt"


def builtin_elements():
    """The names of the built-in elements, by ID."""
    text = BUILTIN.read_text(encoding="utf-8")
    return {int(number): name for number, name in re.findall(r'iana (\d+) \(codes "(\w+)"\)', text)}


def elements(lines):
    """Each line's ID, name and type."""
    for line in lines:
        if line.strip():
            name, number, kind = re.fullmatch(r"(\w+)\((\d+)\)<(\w+)>\[\w+\]", line.strip()).groups()
            yield int(number), name, kind


def main():
    source, version = sys.argv[1:]
    builtin = builtin_elements()
    read = sorted(elements(pathlib.Path(source).read_text(encoding="utf-8").splitlines()))
    for number, name, _ in read:
        if builtin.get(number, name) != name:
            sys.exit(f"element {number} is built in as {builtin[number]} and listed as {name}")
    rows = [row for row in read if row[0] not in builtin]
    dated = datetime.date.fromtimestamp(os.path.getmtime(source)).isoformat()
    left_out = [f"{name} ({number}, {kind})" for number, name, kind in rows if kind not in TYPES]
    print("# The information elements that IANA registers, but for those that are built in.")
    print("#")
    print("# Source: IANA, IP Flow Information Export (IPFIX) Entities,")
    print("# https://www.iana.org/assignments/ipfix/ipfix.txt, as the Debian package python3-ipfix")
    print(f"# {version} lists it in ipfix/iana.iespec, of {dated}: elements 1 to {read[-1][0]}. Elements that were")
    print("# registered later are not here, nor are element 0 and those that the list passes over.")
    print("# Written by tools/iana_elements.py.")
    print("#")
    print("# Left out, since their types are none that an element table knows: " + (", ".join(left_out) or "none") + ".")
    print("element = [")
    for number, name, kind in rows:
        if kind in TYPES:
            print(f'    {{ pen = 0, id = {number}, prefix = "iana", name = "{name}", type = "{kind}" }},')
    print("]")


main()
