#!/usr/bin/env python3
"""Writes the cases of `script_run` that try each key of each table of a description.

    tools/description_cases.py > crates/script_run/data/keys.cases

A table of a right description is a list of keys. Of each key there are a right value, one of a wrong type, others just
inside its range and others just outside, and whether the key may be left out. Each of these makes a case, in which
only that key is changed; and each table has cases with a key that it doesn't know.
"""

import collections

Key = collections.namedtuple("Key", "name right wrong inside outside required")

# Where a table stands: what is before it, its path as faults print it, and what is behind it.
Place = collections.namedtuple("Place", "name before path after")


def needed(name, right, wrong, inside=(), outside=()):
    return Key(name, right, wrong, inside, outside, True)


def free(name, right, wrong, inside=(), outside=()):
    return Key(name, right, wrong, inside, outside, False)


def kind(name):
    return needed("kind", f'"{name}"', "1")


def test(name):
    return needed("test", f'"{name}"', "1", (), ('"odd"', '""', f'"{name.capitalize()}"'))


def seconds(name):
    return free(name, "7", '"7"', ("1", "1000000000"), ("0", "1000000001", "-1"))


def domains(name, wrong):
    inside = '"0"', '"4294967295"', '"1,3-5"', '"5-5"', '"007-08"'
    outside = ('""', '"4294967296"', '"1-4294967296"', '"2-1"', '"1,"', '",1"', '"1, 2"', '"1-2-3"', '"-1"', '"1-"',
               '"+1"', '"a"')
    return free(name, '"1"', wrong, inside, outside)


NO_PREFIXES = ('""', '"10.0.0.0"', '"10.0.0.0/33"', '"::/129"', '"10.0.0.0/"', '"/8"', '"10.0.0.0/-1"',
               '"10.0.0.0/+8"', '"10.0.0.0/8 "', '"10.0.0.0/8/8"', '"010.0.0.0/8"', '"1:2:3:4:5:6:7:8:9/8"',
               '"::ffff:10.0.0.1/96"')

NAME = needed("name", '"n"', "1", ('"a-Z_09"', '"order-logs"', '"Order-Log"'),
              ('""', '"a.b"', '"a b"', '"é"', '"order-log"'))
PATH = needed("path", '"p"', '["p"]', ('"x y/é"',), ('""',))
LISTEN = needed("listen", '"127.0.0.1:4739"', "4739", ('"a"',), ('""',))
STOP_AFTER = free("stop-after", "0", '"0"', ("1", "9223372036854775807"), ("-1",))
PEN = free("pen", "0", '"0"', ("4294967295",), ("-1", "4294967296"))
ID = needed("id", "8", "8.0", ("0", "32767"), ("-1", "32768"))
ACT = needed("act", '"keep"', "true", ('"drop"',), ('"Keep"', '""'))
OPTIONS = free("options", "false", '"true"', ("true",))
LAST_TEMPLATE_ID = free("last-template-id", "300", '"300"', ("256", "65535"), ("255", "65536"))
ONLY = domains("odid-only", "1")
EXCEPT = domains("odid-except", '["1"]')

TOP = [
    needed("version", "1", '"1"', (), ("0", "2", "-1")),
    free("ring", "9", '"9"', ("1", "4096"), ("0", "4097")),
    free("slots", "9", "9.0", ("1", "65536"), ("0", "65537")),
    free("order-log", '"log"', '["log"]', ('"l"',), ('""',)),
    free("elements", '["a"]', '"a"', ("[]", '["a", "a"]'), ('[""]', '["a", ""]')),
]
FILTER = [
    kind("filter"), NAME,
    free("default", '"drop"', "false", ('"keep"',), ('"pass"',)),
    free("rule", "[]", "[1]", ('[{ id = 1, test = "present", act = "keep" }]',)),
]
ANONYMISE = [
    kind("anonymise"), NAME,
    needed("field", "[{ id = 8 }]", "[1]", ("[{ id = 8 }, { pen = 9, id = 8 }]", "[{ id = 8 }, { id = 8 }]"), ("[]",)),
    free("cut4", "24", '"24"', ("0", "32"), ("-1", "33")),
    free("cut6", "64", '"64"', ("0", "128"), ("-1", "129")),
    free("row", "[]", "{ }", ('[{ from = "10.0.0.0/8", to = "11.0.0.0" }]',)),
]
EQUAL_VALUE = needed("value", "5", '"5"', ("0", "9223372036854775807"), ("-1",))
LOW = needed("low", "5", '"5"', ("0", "6"), ("-1",))
HIGH = needed("high", "6", '"6"', ("5", "9223372036854775807"), ("4", "-1"))
PREFIX_VALUE = needed("value", '"10.0.0.0/8"', "10",
                      ('"0.0.0.0/0"', '"255.255.255.255/32"', '"::/0"', '"1:2:3:4:5:6:7:8/128"', '"10.0.0.0/08"'),
                      NO_PREFIXES)
ROW4 = [
    needed("from", '"10.0.0.0/8"', "8", ('"10.1.0.0/16"',), NO_PREFIXES),
    needed("to", '"192.0.0.0"', "192", ('"0.0.0.0"', '"255.255.255.255"'),
           ('""', '"::"', '"10.0.0"', '"10.0.0.0.0"', '"10.0.0.256"', '"10.0.0.01"', '"10.0.0.0/8"')),
]
ROW6 = [
    needed("from", '"2001:db8::/32"', "8", ('"::/0"',), NO_PREFIXES),
    needed("to", '"::"', "192",
           ('"0:0:0:0:0:0:0:0"', '"1::"', '"::1"', '"1::1"', '"1:2:3:4:5:6:7:8"', '"1:2:3:4:5:6:7::"',
            '"::2:3:4:5:6:7:8"', '"1:2:3::5:6:7:8"', '"FFFF::abcd"', '"0001::"'),
           ('""', '"1"', '"10.0.0.1"', '":"', '"1:"', '":::"', '"::1::"', '"1::2::3"', '"1:2:3:4:5:6:7:8:9"',
            '"1:2:3:4:5:6:7:8::"', '"::1:2:3:4:5:6:7:8"', '"1:2:3:4:5:6:7"', '"12345::"', '"::10.0.0.1"',
            '"1:2:3:4:5:6:10.0.0.1"', '"::ffff:10.0.0.1"', '"g::"', '"[::]"', '"::1%1"')),
]

VERSION = "version = 1\n"
INPUT = '[[input]]\nname = "in"\nkind = "file"\npath = "in.ipfix"\n'
SECOND = '[[input]]\nname = "in2"\nkind = "tcp"\nlisten = "a"\n'
OUTPUT = '[[output]]\nname = "out"\nkind = "json"\npath = "out.json"\n'
STAGE = VERSION + INPUT + OUTPUT + "[[intermediate]]\n"

AT_TOP = Place("TOP", "", "", INPUT + SECOND + OUTPUT)
IN_INPUT = Place("INPUT", VERSION + "[[input]]\n", "input.0.", OUTPUT)
IN_STAGE = Place("STAGE", STAGE, "intermediate.0.", "")
IN_RULE = Place("RULE", STAGE + 'name = "s"\nkind = "filter"\n[[intermediate.rule]]\n', "intermediate.0.rule.0.", "")
IN_FIELD = Place("FIELD", STAGE + 'name = "s"\nkind = "anonymise"\n[[intermediate.field]]\n',
                 "intermediate.0.field.0.", "")
IN_ROW = Place("ROW", STAGE + 'name = "s"\nkind = "anonymise"\nfield = [{ id = 8 }]\n[[intermediate.row]]\n',
               "intermediate.0.row.0.", "")
IN_OUTPUT = Place("OUTPUT", VERSION + INPUT + "[[output]]\n", "output.0.", "")

TABLES = [
    (AT_TOP, TOP),
    (IN_INPUT, [kind("file"), NAME, PATH, STOP_AFTER]),
    (IN_INPUT, [kind("tcp"), NAME, LISTEN, STOP_AFTER]),
    (IN_INPUT, [kind("udp"), NAME, LISTEN, STOP_AFTER, seconds("template-lifetime"), seconds("options-lifetime"),
                seconds("late"), seconds("idle")]),
    (IN_STAGE, FILTER),
    (IN_STAGE, ANONYMISE),
    (IN_RULE, [PEN, ID, test("present"), ACT]),
    (IN_RULE, [PEN, ID, test("equal"), ACT, EQUAL_VALUE]),
    (IN_RULE, [PEN, ID, test("between"), ACT, LOW, HIGH]),
    (IN_RULE, [PEN, ID, test("prefix"), ACT, PREFIX_VALUE]),
    (IN_FIELD, [PEN, ID]),
    (IN_ROW, ROW4),
    (IN_ROW, ROW6),
    (IN_OUTPUT, [kind("json"), NAME, PATH, ONLY, OPTIONS]),
    (IN_OUTPUT, [kind("json"), NAME, PATH, EXCEPT, OPTIONS]),
    (IN_OUTPUT, [kind("ipfix"), NAME, PATH, ONLY, LAST_TEMPLATE_ID]),
    (IN_OUTPUT, [kind("ipfix"), NAME, PATH, EXCEPT, LAST_TEMPLATE_ID]),
    (IN_OUTPUT, [kind("view"), NAME, PATH, ONLY]),
    (IN_OUTPUT, [kind("view"), NAME, PATH, EXCEPT]),
]


def text_lines(text):
    return [f"  |{line}" for line in text.splitlines()]


def print_pieces(place):
    """The surroundings of a table, once for all its cases."""
    for name, text in (("BEFORE", place.before), ("BEHIND", place.after)):
        if text:
            print(f"piece {name}_{place.name} |", *text_lines(text), "", sep="\n")


def print_case(name, place, lines, told):
    """One case: the lines of the table, and what is printed of the description, or the first fault."""
    print(f"case {name}", "words check -c FILE", sep="\n")
    if place is AT_TOP:
        print("text a -")
    print("text FILE |")
    if place.before:
        print(f"  @BEFORE_{place.name}")
    print(*(f"  |{line}" for line in lines), sep="\n")
    if place.after:
        print(f"  @BEHIND_{place.name}")
    print("status 0" if told == "ok" else "status 2")
    print("said |", f"  |{told}" if told == "ok" else f"  |description: {told}", "", sep="\n")


def lines_with(keys, changed, value):
    """The lines of a table where one key has another value, or none."""
    said = [(key.name, value if key is changed else key.right) for key in keys]
    return [f"{name} = {value}" for name, value in said if value is not None]


def left_out(place, key):
    if key.required:
        return f"missing {place.path}{key.name}"
    return "no order log" if key.name == "order-log" else "ok"


def print_table(place, keys):
    for key in keys:
        path = place.path + key.name
        print_case(f"{path} is left out", place, lines_with(keys, key, None), left_out(place, key))
        print_case(f"{path} = {key.wrong} is of another type", place, lines_with(keys, key, key.wrong),
                   f"wrong type {path}")
        for value in (key.right, *key.inside):
            print_case(f"{path} = {value} is in range", place, lines_with(keys, key, value), "ok")
        for value in key.outside:
            print_case(f"{path} = {value} is out of range", place, lines_with(keys, key, value),
                       f"out of range {path}")
    for name in ("Name", "colour", "hold", "stage"):
        lines = [f"{name} = 1"] + lines_with(keys, None, None)
        print_case(f"{place.path}{name} is unknown", place, lines, f"unknown key {place.path}{name}")


def main():
    print("# Each key of each table: left out, of another type, just inside its range and just outside.")
    print("# tools/description_cases.py wrote this file.", "", sep="\n")
    for place in dict.fromkeys(place for place, _ in TABLES):
        print_pieces(place)
    for place, keys in TABLES:
        print_table(place, keys)


if __name__ == "__main__":
    main()
