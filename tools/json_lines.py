#!/usr/bin/env python3
"""The JSON lines of IPFIX Files, by a second reader that was written apart from the program, and slowly.

    tools/json_lines.py FILE..

prints the lines that `direct` is to write of each file. The files are read by tools/decoded.py, and values by
tools/value_texts.py; the built-in elements are those of the table in docs/FORMATS.md.
"""

import pathlib
import re
import sys

sys.dont_write_bytecode = True

from decoded import decoded
from value_texts import text_of

PADDING = (0, 210)
FORMATS = pathlib.Path(__file__).resolve().parent.parent / "docs" / "FORMATS.md"
ROW = re.compile(r"^\| (\d+) \| ([A-Za-z0-9]+) \| ([A-Za-z0-9]+) \|$", re.MULTILINE)


def builtin_elements():
    """The name and the type of each built-in element, by its number."""
    return {int(number): (name, kind) for number, name, kind in ROW.findall(FORMATS.read_text())}


ELEMENTS = builtin_elements()
BUILTIN = {(0, number): (f"iana:{name}", kind) for number, (name, kind) in ELEMENTS.items()}


def element_of(pair, known):
    """The name and the type of an element, by its enterprise number and its ID."""
    return known.get(pair) or (f"en{pair[0]}:id{pair[1]}", "unknown")


def line_of(definition, values, known=BUILTIN):
    """The line of a record, by the elements that are known."""
    kind, _, fields = definition
    members = {}
    for (enterprise, element, _), value in zip(fields, values):
        if (enterprise, element) != PADDING:
            members.setdefault((enterprise, element), []).append(text_of(element_of((enterprise, element), known)[1], value))
    line = '{"@type":"ipfix.%s"' % ("entry" if kind == 2 else "options")
    for pair, texts in members.items():
        text = texts[0] if len(texts) == 1 else "[" + ",".join(texts) + "]"
        line += f',"{element_of(pair, known)[0]}":{text}'
    return line + "}\n"


def lines_of(stream):
    """The lines of a stream, in order."""
    for _, sets in decoded(stream):
        for _, definition, records in sets or []:
            for values in records or []:
                yield line_of(definition, values)


def main(paths):
    for path in paths:
        with open(path, "rb") as file:
            sys.stdout.write("".join(lines_of(file.read())))


if __name__ == "__main__":
    main(sys.argv[1:])
