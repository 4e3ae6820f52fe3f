#!/usr/bin/env python3
"""compare_check.py PROGRAM [ROUNDS [SEED]]: holds `PROGRAM check` to a second reader, written apart and slowly.

Each round makes a description out of every table and key, and the element tables that it names. Most are right; in
the others one to three things are spoiled: keys are left out, unknown, of another type or just out of their range,
names, paths and prefixes stand twice, or the text is no TOML. The status and the line of `check` are compared with
what docs/OPERATING.md and docs/FORMATS.md say of these texts, read here by Python's own tomllib. The first folder that
differs is kept below the system's folder for temporary files. It needs Python 3.11.
"""

import os
import random
import re
import shutil
import subprocess
import sys
import tempfile
import tomllib

RIGHT, WRONG_TYPE, OUT_OF_RANGE = "right", "wrong type", "out of range"
MOST = 2**63 - 1
DOCS = os.path.join(os.path.dirname(os.path.abspath(__file__)), "..", "docs")
TYPES = """octetArray unsigned8 unsigned16 unsigned32 unsigned64 signed8 signed16 signed32 signed64 float32 float64
boolean macAddress string dateTimeSeconds dateTimeMilliseconds dateTimeMicroseconds dateTimeNanoseconds ipv4Address
ipv6Address basicList subTemplateList subTemplateMultiList""".split()


class Fault(Exception):
    """The first fault of a text."""


# What texts stand for


def address_of(text):
    """The kind of an address and its number; None where the text is none."""
    parts = text.split(".")
    if len(parts) == 4 and all(re.fullmatch("0|[1-9][0-9]{0,2}", part) and int(part) < 256 for part in parts):
        return 4, sum(int(part) << (8 * (3 - place)) for place, part in enumerate(parts))
    halves = text.split("::")
    groups = [half.split(":") if half else [] for half in halves]
    if len(halves) == 2:
        if len(groups[0]) + len(groups[1]) > 7:
            return None
        groups = groups[0] + ["0"] * (8 - len(groups[0]) - len(groups[1])) + groups[1]
    else:
        groups = groups[0]
    if len(halves) > 2 or len(groups) != 8 or not all(re.fullmatch("[0-9A-Fa-f]{1,4}", group) for group in groups):
        return None
    return 6, sum(int(group, 16) << (16 * (7 - place)) for place, group in enumerate(groups))


def number_of(text, most):
    """A decimal number up to the most, with needless zeros or without; None where the text is none."""
    if not re.fullmatch("[0-9]+", text):
        return None
    digits = text.lstrip("0") or "0"
    return int(digits) if len(digits) <= 10 and int(digits) <= most else None


def prefix_of(text):
    """The kind of a prefix, its bits and their value; None where the text is none."""
    front, slash, back = text.partition("/")
    address = address_of(front)
    if not slash or address is None:
        return None
    kind, value = address
    width = 32 if kind == 4 else 128
    bits = number_of(back, width)
    return None if bits is None else (kind, bits, value >> (width - bits))


def is_range(text):
    ends = text.split("-")
    numbers = [number_of(end, 2**32 - 1) for end in ends]
    return len(ends) <= 2 and None not in numbers and numbers[0] <= numbers[-1]


def are_domains(text):
    items = text.split(",")
    return len(items) <= 64 and all(is_range(item) for item in items)


def is_word(text):
    return re.fullmatch("[A-Za-z0-9_-]{1,64}", text) is not None


def is_place(text):
    return 1 <= len(text.encode()) <= 4096


# What a key's value has to be: each answers one of the three words above


def within(test):
    return RIGHT if test else OUT_OF_RANGE


def is_number(value):
    return isinstance(value, int) and not isinstance(value, bool)


def number(low, high):
    return lambda value, table: within(low <= value <= high) if is_number(value) else WRONG_TYPE


def text(test):
    return lambda value, table: within(test(value)) if isinstance(value, str) else WRONG_TYPE


def not_below_low(value, table):
    return within(table["low"] <= value <= MOST) if is_number(value) else WRONG_TYPE


def same_kind(value, table):
    if not isinstance(value, str):
        return WRONG_TYPE
    address = address_of(value)
    return within(address is not None and address[0] == prefix_of(table["from"])[0])


def lonely_domains(value, table):
    if not isinstance(value, str):
        return WRONG_TYPE
    return within("odid-only" not in table and are_domains(value))


def flag(value, table):
    return RIGHT if isinstance(value, bool) else WRONG_TYPE


def tables(least, most):
    def judge(value, table):
        if not isinstance(value, list) or not all(isinstance(item, dict) for item in value):
            return WRONG_TYPE
        return within(least <= len(value) <= most)

    return judge


def paths(value, table):
    if not isinstance(value, list) or not all(isinstance(item, str) for item in value):
        return WRONG_TYPE
    return within(len(value) <= 16 and all(is_place(item) for item in value))


def chosen(value, table):
    return RIGHT


# The keys of each table in their order, each with its judge and whether it is required


NAME = ("name", text(lambda value: is_word(value) and value != "order-log"), True)
KIND = ("kind", chosen, True)
PATH, LISTEN = ("path", text(is_place), True), ("listen", text(is_place), True)
STOP_AFTER = ("stop-after", number(0, MOST), False)
ACT = text(lambda value: value in ("keep", "drop"))
PREFIX = text(lambda value: prefix_of(value) is not None)
PAIR = [("pen", number(0, 2**32 - 1), False), ("id", number(0, 32767), True)]
RULE = PAIR + [("test", chosen, True), ("act", ACT, True)]
OUTPUT = [KIND, NAME, PATH, ("odid-only", text(are_domains), False), ("odid-except", lonely_domains, False)]
KEYS = {
    "": [
        ("version", number(1, 1), True),
        ("ring", number(1, 4096), False),
        ("slots", number(1, 65536), False),
        ("order-log", text(is_place), False),
        ("elements", paths, False),
        ("input", tables(0, 16), False),
        ("intermediate", tables(0, 16), False),
        ("output", tables(0, 32), False),
    ],
    "file": [KIND, NAME, PATH, STOP_AFTER],
    "tcp": [KIND, NAME, LISTEN, STOP_AFTER],
    "udp": [KIND, NAME, LISTEN, STOP_AFTER]
    + [(key, number(1, 10**9), False) for key in ("template-lifetime", "options-lifetime", "late", "idle")],
    "filter": [KIND, NAME, ("default", ACT, False), ("rule", tables(0, 1024), False)],
    "anonymise": [KIND, NAME, ("field", tables(1, 64), True), ("cut4", number(0, 32), False)]
    + [("cut6", number(0, 128), False), ("row", tables(0, 4096), False)],
    "present": RULE,
    "equal": RULE + [("value", number(0, MOST), True)],
    "between": RULE + [("low", number(0, MOST), True), ("high", not_below_low, True)],
    "prefix": RULE + [("value", PREFIX, True)],
    "field": PAIR,
    "row": [("from", PREFIX, True), ("to", same_kind, True)],
    "json": OUTPUT + [("options", flag, False)],
    "ipfix": OUTPUT + [("last-template-id", number(256, 65535), False)],
    "view": OUTPUT,
}
KINDS = {
    "input": ("kind", ["file", "tcp", "udp"]),
    "intermediate": ("kind", ["filter", "anonymise"]),
    "output": ("kind", ["json", "ipfix", "view"]),
    "rule": ("test", ["present", "equal", "between", "prefix"]),
}
INNER = {"filter": ["rule"], "anonymise": ["field", "row"]}


# The first fault of a description


def kind_of(path, sort, table):
    if sort not in KINDS:
        return sort
    key, words = KINDS[sort]
    if key not in table:
        raise Fault(f"missing {path}{key}")
    if not isinstance(table[key], str):
        raise Fault(f"wrong type {path}{key}")
    if table[key] not in words:
        raise Fault(f"{OUT_OF_RANGE if sort == 'rule' else 'unknown plugin'} {path}{key}")
    return table[key]


def judge_keys(path, rows, table):
    unknown = set(table) - {key for key, _, _ in rows}
    if unknown:
        raise Fault(f"unknown key {path}{min(unknown, key=str.encode)}")
    for key, judge, required in rows:
        if key not in table:
            if required:
                raise Fault(f"missing {path}{key}")
        elif judge(table[key], table) != RIGHT:
            raise Fault(f"{judge(table[key], table)} {path}{key}")


def judge_tables(path, sort, tree):
    for place, table in enumerate(tree.get(sort, [])):
        below = f"{path}{sort}.{place}."
        kind = kind_of(below, sort, table)
        judge_keys(below, KEYS[kind], table)
        for inner in INNER.get(kind, []):
            judge_tables(below, inner, table)


def judge_top(tree):
    single = isinstance(tree.get("input"), list) and len(tree["input"]) == 1 and isinstance(tree["input"][0], dict)
    judge_keys("", [row for row in KEYS[""] if not (single and row[0] == "order-log")], tree)


def judge_repeats(named):
    """Refuses the first of some (printed, compared) whose second is that of one before it."""
    seen = set()
    for printed, compared in named:
        if compared in seen:
            raise Fault(f"duplicate name {printed}")
        seen.add(compared)


def judge_description(tree):
    judge_top(tree)
    for sort in ("input", "intermediate", "output"):
        judge_tables("", sort, tree)
    inputs, stages, outputs = (tree.get(sort, []) for sort in ("input", "intermediate", "output"))
    if not inputs:
        raise Fault("no input")
    if not outputs:
        raise Fault("no output")
    judge_repeats((table["name"], table["name"]) for table in inputs + stages + outputs)
    written = ([tree["order-log"]] if "order-log" in tree else []) + [table["path"] for table in outputs]
    judge_repeats((path, path) for path in written)
    for stage in stages:
        judge_repeats((row["from"], prefix_of(row["from"])) for row in stage.get("row", []))
    if len(inputs) > 1 and "order-log" not in tree:
        raise Fault("no order log")


def numbers_in(value):
    if isinstance(value, dict):
        value = list(value.values())
    if isinstance(value, list):
        return [number for item in value for number in numbers_in(item)]
    return [value] if is_number(value) else []


def tree_of(octets):
    """The tree of a TOML text, whose numbers have 64 bits."""
    try:
        tree = tomllib.loads(octets.decode())
    except (tomllib.TOMLDecodeError, UnicodeDecodeError):
        raise Fault("not TOML") from None
    if not all(-MOST - 1 <= number <= MOST for number in numbers_in(tree)):
        raise Fault("not TOML")
    return tree


# The first fault of element tables


def built_in():
    """The built-in elements as docs/FORMATS.md lists them: their pairs and their names."""
    with open(os.path.join(DOCS, "FORMATS.md"), encoding="utf-8") as file:
        section = file.read().split("### Built-in elements")[1].split("\n## ")[0]
    rows = re.findall(r"^\| (\d+) \| (\w+) \| \w+ \|$", section, re.MULTILINE)
    return {(0, int(number)) for number, _ in rows}, {("iana", name) for _, name in rows}


def is_element_prefix(text):
    return is_word(text) and not re.fullmatch("en[0-9]+", text)


def is_row(row):
    right = {"pen": number(0, 2**32 - 1), "id": number(0, 32767), "prefix": text(is_element_prefix)}
    right |= {"name": text(is_word), "type": lambda value, table: within(isinstance(value, str))}
    return set(row) == set(right) and all(judge(row[key], row) == RIGHT for key, judge in right.items())


def judge_elements(tree, pairs, names):
    """Adds the rows of a table to what is known."""
    rows = tree.get("element", [])
    if not set(tree) <= {"element"} or tables(0, 65536)(rows, tree) != RIGHT:
        raise Fault("bad row 0")
    for place, row in enumerate(rows):
        if not is_row(row):
            raise Fault(f"bad row {place}")
        if row["type"] not in TYPES:
            raise Fault(f"bad type {place}")
        if (row["pen"], row["id"]) in pairs:
            raise Fault(f"duplicate {row['pen']} {row['id']}")
        if (row["prefix"], row["name"]) in names:
            raise Fault(f"duplicate name {place}")
        pairs.add((row["pen"], row["id"]))
        names.add((row["prefix"], row["name"]))


def answer_of(name, files):
    """The status of `check` on the file of this name, and what it prints."""
    if name not in files:
        return 3, f"source fault: {name}\n".encode()
    try:
        tree = tree_of(files[name])
        judge_description(tree)
    except Fault as fault:
        return 2, f"description: {fault}\n".encode()
    pairs, names = built_in()
    for element_file in tree.get("elements", []):
        if element_file not in files:
            return 3, f"source fault: {element_file}\n".encode()
        try:
            judge_elements(tree_of(files[element_file]), pairs, names)
        except Fault as fault:
            return 2, f"elements {element_file}: {fault}\n".encode()
    return 0, b"ok\n"


# Making texts


class Raw(str):
    """A value as TOML spells it."""


class Maker:
    """Makes descriptions and element tables."""

    def __init__(self, random_source):
        self.random = random_source
        self.choice = random_source.choice
        self.count = 0

    def chance(self, part):
        return self.random.random() < part

    def fresh(self, stem):
        self.count += 1
        return f"{stem}{self.count}"

    # right values

    def between(self, low, high):
        return self.choice([low, high, low, high, self.random.randint(low, high), self.random.randint(low, min(high, low + 9))])

    def address4(self):
        return ".".join(str(self.choice([0, 9, 10, 99, 100, 255, self.random.randrange(256)])) for _ in range(4))

    def address6(self):
        groups = [self.choice(["0", "0000", "1", "db8", "FfFf", "0a"]) for _ in range(8)]
        if self.chance(0.6):
            first = self.random.randrange(8)
            last = self.random.randint(first + 1, 8)
            return ":".join(groups[:first]) + "::" + ":".join(groups[last:])
        return ":".join(groups)

    def address(self, kind):
        return self.address4() if kind == 4 else self.address6()

    def prefix(self, kind=None):
        kind = kind or self.choice([4, 4, 6])
        bits = self.between(0, 32 if kind == 4 else 128)
        return f"{self.address(kind)}/{self.choice(['', '', '', '0', '00'])}{bits}"

    def domains(self):
        def item():
            low = self.between(0, 2**32 - 1)
            zeros = self.choice(["", "", "0", "000"])
            return f"{zeros}{low}" if self.chance(0.6) else f"{low}-{zeros}{self.between(low, 2**32 - 1)}"

        return ",".join(item() for _ in range(self.choice([1, 1, 2, 3, 64])))

    def pair(self):
        pair = {"id": self.between(0, 32767)}
        return pair | ({"pen": self.between(0, 2**32 - 1)} if self.chance(0.4) else {})

    def maybe(self, table, key, value):
        if self.chance(0.4):
            table[key] = value

    # right tables

    def input(self):
        kind = self.choice(["file", "tcp", "udp"])
        table = {"kind": kind, "name": self.fresh("in"), "path" if kind == "file" else "listen": self.choice(["p", "[::1]:4739", "a b"])}
        self.maybe(table, "stop-after", self.between(0, MOST))
        if kind == "udp":
            for key in ("template-lifetime", "options-lifetime", "late", "idle"):
                self.maybe(table, key, self.between(1, 10**9))
        return table

    def rule(self):
        test = self.choice(["present", "equal", "between", "prefix"])
        table = self.pair() | {"test": test, "act": self.choice(["keep", "drop"])}
        if test == "equal":
            table["value"] = self.between(0, MOST)
        if test == "between":
            table["low"] = self.between(0, MOST)
            table["high"] = self.between(table["low"], MOST)
        if test == "prefix":
            table["value"] = self.prefix()
        return table

    def row(self):
        kind = self.choice([4, 6])
        return {"from": self.prefix(kind), "to": self.address(kind)}

    def some(self, make, counts):
        return [make() for _ in range(self.choice(counts))]

    def different_rows(self):
        return list({prefix_of(row["from"]): row for row in self.some(self.row, [0, 1, 2, 5])}.values())

    def intermediate(self):
        if self.chance(0.5):
            table = {"kind": "filter", "name": self.fresh("keep")}
            self.maybe(table, "default", self.choice(["keep", "drop"]))
            table["rule"] = self.some(self.rule, [0, 1, 2, 3, 12])
        else:
            table = {"kind": "anonymise", "name": self.fresh("hide"), "field": self.some(self.pair, [1, 2, 9, 64])}
            self.maybe(table, "cut4", self.between(0, 32))
            self.maybe(table, "cut6", self.between(0, 128))
            table["row"] = self.different_rows()
        return table

    def output(self):
        kind = self.choice(["json", "ipfix", "view"])
        table = {"kind": kind, "name": self.fresh("out"), "path": self.fresh("written/")}
        self.maybe(table, self.choice(["odid-only", "odid-except"]), self.domains())
        if kind == "json":
            self.maybe(table, "options", self.choice([True, False]))
        if kind == "ipfix":
            self.maybe(table, "last-template-id", self.between(256, 65535))
        return table

    def description(self):
        tree = {"version": 1}
        self.maybe(tree, "ring", self.between(1, 4096))
        self.maybe(tree, "slots", self.between(1, 65536))
        if self.chance(0.7):
            tree["elements"] = self.some(lambda: self.choice(["a.toml", "b.toml", "c.toml"]), [0, 1, 1, 2])
        tree["input"] = self.some(self.input, [1, 1, 1, 2, 3, 16])
        if self.chance(0.8):
            tree["intermediate"] = self.some(self.intermediate, [0, 1, 2, 3, 16])
        tree["output"] = self.some(self.output, [1, 1, 2, 3, 32])
        if len(tree["input"]) > 1:
            tree["order-log"] = self.choice(["log", "order.log"])
        return tree

    def element(self):
        row = self.pair() | {"prefix": self.choice(["cisco", "en", "en9x", "a-b_C"]), "name": self.fresh("thing")}
        return {"pen": self.random.randrange(1, 99)} | row | {"type": self.choice(TYPES)}

    # spoiling

    def tables_in(self, tree):
        """Each table of a tree with the sort that it is of."""
        found = [("", tree)]
        for sort in ("input", "intermediate", "output", "rule", "field", "row", "element"):
            for _, table in list(found):
                if isinstance(table.get(sort), list):
                    found += [(sort, item) for item in table[sort] if isinstance(item, dict)]
        return found

    def strange(self):
        """A value that most keys don't take."""
        return self.choice(
            [0, 1, -1, 2, 256, 10**9 + 1, -(2**63), True, False, "", "x", "1", "keep", "::", "10.0.0.0/8", "order-log", "é", [], ["a"]]
            + [[1], {}, [{}], [{}, 1], {"a": 1}, Raw("1.0"), Raw("1e3"), Raw("nan"), Raw("1979-05-27"), Raw("07:32:00")]
            + [Raw("9223372036854775807"), Raw("0x10"), Raw("1_000"), Raw("+5"), Raw("9223372036854775808"), Raw("-9223372036854775809")]
        )

    def near(self, key):
        """A value about the edges of what a key takes."""
        numbers = {"version": [0, 1, 2, 3], "ring": [0, 1, 4096, 4097], "slots": [0, 1, 65536, 65537], "stop-after": [-1, 0, MOST]}
        numbers |= {key: [0, 1, 10**9, 10**9 + 1] for key in ("template-lifetime", "options-lifetime", "late", "idle")}
        numbers |= {"pen": [-1, 0, 2**32 - 1, 2**32], "id": [-1, 0, 32767, 32768], "cut4": [-1, 0, 32, 33], "cut6": [-1, 128, 129]}
        numbers |= {"low": [-1, 0, MOST], "high": [-1, 0, 5, MOST], "last-template-id": [255, 256, 65535, 65536]}
        words = ["", "a", "a" * 64, "a" * 65, "a.b", "a b", "é", "order-log", "order-logs", "Order-Log", "en9", "en", "en9a", "EN9"]
        places = ["", "a", "a" * 4096, "a" * 4097, "é" * 2048, "é" * 2048 + "a"]
        prefixes = [self.prefix(), "10.0.0.0", "10.0.0.0/33", "10.0.0.0/32", "::/128", "::/129", "10.0.0/8", "10.0.0.0/", "/8", "::/0/0"]
        prefixes += ["::/+1", "::/ 1", "::/1 ", "256.0.0.0/8", "01.0.0.0/8", "0.0.0.0/0000000000000000000000000000000008", "::/\uff11"]
        addresses = [self.address4(), self.address6(), "::", "1::", "::1", "1:2:3:4:5:6:7::", "1:2:3:4:5:6:7:8", "1:2:3:4:5:6:7:8::"]
        addresses += ["1:2:3:4:5:6:7", "1:2:3:4:5:6:7:8:9", "::1:2:3:4:5:6:7", "::1:2:3:4:5:6:7:8", "1::2::3", ":::", ":", "1:", "12345::"]
        addresses += ["::10.0.0.1", "::ffff:10.0.0.1", "g::", "[::1]", "1::%1", "0000:0::00", "10.0.0.1 ", "1.2.3", "1.2.3.4.5", "1..2.3"]
        domains = [self.domains(), "", "0", "4294967295", "4294967296", "1,", ",", "1, 2", "5-4", "5-5", "007-08", "1-", "-1", "1-2-3", "+1"]
        domains += [",".join(["7"] * 64), ",".join(["7"] * 65), "0" * 40 + "1", "1;2", "a", "1-4294967296"]
        acts, kinds = ["keep", "drop", "Keep", "", "keep "], ["file", "tcp", "udp", "filter", "anonymise", "json", "ipfix", "view", "sctp", "", "File"]
        texts = {"name": words, "prefix": words + ["en9", "en007"], "path": places, "listen": places, "order-log": places, "from": prefixes, "to": addresses}
        texts |= {"odid-only": domains, "odid-except": domains, "default": acts, "act": acts, "kind": kinds, "type": ["String", "", "unsigned128", self.choice(TYPES)]}
        texts |= {"test": ["present", "equal", "between", "prefix", "odd", "file", ""], "value": prefixes + [-1, 0, MOST, self.prefix()]}
        if key == "elements":
            return self.choice([[""], ["none"], ["folder"], ["a.toml"] * 16, ["a.toml"] * 17, ["a.toml", 1], ["a" * 4097], ["", 1]])
        return self.choice((numbers | texts).get(key) or [self.strange()])

    def longer(self, sort):
        """An array of about the greatest length."""
        if sort == "row":
            return [{"from": f"10.{place >> 8}.{place & 255}.0/24", "to": "1.2.3.4"} for place in range(self.choice([4096, 4097]))]
        make, most = {"input": (self.input, 16), "intermediate": (self.intermediate, 16), "output": (self.output, 32)}.get(sort) or (
            {"rule": (self.rule, 1024), "field": (self.pair, 64)}[sort]
        )
        return [make() for _ in range(self.choice([0, most, most + 1]))]

    def known_word(self):
        return self.choice([key for rows in KEYS.values() for key, _, _ in rows])

    def unknown_word(self):
        return self.choice(["colour", "Name", "names", "", "a b", "é", "z", "-", "_", "0", "a.b", '"', "\n", "\x7f", "hold", "stage"])

    def some_table(self, tree):
        """A table of a tree, of each sort as often."""
        found = self.tables_in(tree)
        sort = self.choice(sorted({sort for sort, _ in found}))
        return self.choice([table for other, table in found if other == sort])

    def spoil_key(self, table):
        kind = self.random.random()
        key = self.choice(list(table)) if table else self.known_word()
        if kind < 0.15:
            table.pop(key, None)
        elif kind < 0.3:
            table[self.unknown_word()] = self.strange()
        elif kind < 0.4:
            word = self.known_word()
            table[word] = self.near(word)
        elif kind < 0.5:
            table[key] = self.strange()
        else:
            table[key] = self.near(key)

    def repeat(self, tree):
        """Gives one instance the name or the path of another, or one row the prefix of another."""
        kind = self.random.random()
        found = self.tables_in(tree)
        outputs = [table for sort, table in found if sort == "output"] + [tree]
        rows = [table for sort, table in found if sort == "row"]
        if kind < 0.3:
            instances = [table for sort, table in found if sort in ("input", "intermediate", "output")]
            if instances:
                self.choice(instances)["name"] = self.choice(instances).get("name", "in")
        elif kind < 0.6 or len(rows) < 2:
            target = self.choice(outputs)
            target["order-log" if target is tree else "path"] = self.choice(outputs).get("path", tree.get("order-log", "log"))
        elif len(rows) > 1:
            self.random.shuffle(rows)
            rows[0] |= rows[1] | {"from": self.spelled(rows[1].get("from", "::/0"))}

    def spelled(self, prefix):
        """The same prefix written otherwise, where it is one."""
        found = prefix_of(prefix) if isinstance(prefix, str) else None
        if found is None:
            return "::/0"
        kind, bits, value = found
        width = 32 if kind == 4 else 128
        value = value << (width - bits) | self.random.randrange(2 ** (width - bits))
        if kind == 4:
            return ".".join(str(value >> shift & 255) for shift in (24, 16, 8, 0)) + f"/{self.choice(['', '0'])}{bits}"
        groups = [value >> shift & 65535 for shift in range(112, -1, -16)]
        return ":".join(format(group, self.choice(["x", "X", "04x"])) for group in groups) + f"/{self.choice(['', '00'])}{bits}"

    def spoil_arrays(self, tree):
        kind = self.random.random()
        if kind < 0.2:
            tree.pop(self.choice(["input", "output", "order-log"]), None)
        elif kind < 0.35:
            tree["order-log"] = self.choice(["log", "", 5, "l" * 4096])
        elif kind < 0.5:
            tree["input"] = self.some(self.input, [0, 1, 2])
        elif kind < 0.6:
            sort = self.choice(["input", "intermediate", "output"])
            tree[sort] = self.longer(sort)
        else:
            stages = [table for sort, table in self.tables_in(tree) if sort == "intermediate"]
            if stages:
                stage = self.choice(stages)
                sort = self.choice(INNER.get(stage.get("kind") if isinstance(stage.get("kind"), str) else "", ["rule"]))
                stage[sort] = self.longer(sort)

    def spoil(self, tree):
        kind = self.random.random()
        if kind < 0.65:
            self.spoil_key(self.some_table(tree))
        elif kind < 0.85:
            self.repeat(tree)
        else:
            self.spoil_arrays(tree)

    # spelling

    def key(self, word):
        bare = re.fullmatch("[A-Za-z0-9_-]+", word)
        return word if bare and self.chance(0.95) else self.quoted(word)

    def quoted(self, value):
        if self.chance(0.2) and "'" not in value and all(" " <= sign != "\x7f" for sign in value):
            return f"'{value}'"
        signs = {'"': '\\"', "\\": "\\\\"}
        return '"' + "".join(signs.get(sign, sign if " " <= sign != "\x7f" else f"\\u{ord(sign):04x}") for sign in value) + '"'

    def value(self, value):
        if isinstance(value, Raw):
            return str(value)
        if isinstance(value, bool):
            return "true" if value else "false"
        if isinstance(value, int):
            return f"{value:_}" if value > 9 and self.chance(0.05) else hex(value) if value >= 0 and self.chance(0.02) else str(value)
        if isinstance(value, str):
            return self.quoted(value)
        if isinstance(value, list):
            return "[" + ", ".join(self.value(item) for item in value) + "]"
        return "{ " + ", ".join(f"{self.key(word)} = {self.value(item)}" for word, item in self.shuffled(value)) + " }"

    def shuffled(self, table):
        items = list(table.items())
        if self.chance(0.5):
            self.random.shuffle(items)
        return items

    def lines(self, path, table):
        """A table's keys, and behind them those of its arrays of tables that are written as `[[..]]`."""
        behind, lines = [], []
        for word, value in self.shuffled(table):
            apart = isinstance(value, list) and value and all(isinstance(item, dict) for item in value) and self.chance(0.7)
            if apart:
                behind.append((word, value))
            else:
                lines.append(f"{self.key(word)} = {self.value(value)}")
        for word, value in behind:
            for item in value:
                below = f"{path}{self.key(word)}"
                lines += [f"[[{below}]]"] + self.lines(f"{below}.", item)
        return lines

    def octets(self, tree):
        octets = ("\n".join(self.lines("", tree)) + "\n").encode()
        if self.chance(0.97):
            return octets
        return self.choice([octets + b"\xff", b"version\n" + octets, octets + b'"', octets + octets, b"# \xc3\n" + octets, b"", b"\n# none\n"])

    def element_table(self):
        tree = {"element": self.some(self.element, [0, 1, 2, 5])}
        if self.chance(0.1):
            tree = self.choice([{}, {"element": 5}, {"element": [1]}, {"element": [{}, 1]}, {"element": {}}, {"elements": []}])
        found = [table for sort, table in self.tables_in(tree) if sort == "element"]
        if found and self.chance(0.25):
            target, like = self.choice(found), self.choice(found)
            target |= self.choice([{"pen": 0, "id": 8}, {"prefix": "iana", "name": "flowId"}, {"prefix": "IANA", "name": "flowId"}])
            target |= {key: like[key] for key in self.choice([[], ["prefix", "name"], ["pen", "id"]]) if key in like}
        if self.chance(0.4):
            self.spoil_key(self.some_table(tree))
        return self.octets(tree)

    def files(self):
        """The files of a round, by their names."""
        self.count = 0
        tree = self.description()
        if self.chance(0.55):
            for _ in range(self.random.randint(1, 3)):
                self.spoil(tree)
        files = {"conf.toml": self.octets(tree)}
        for name in ("a.toml", "b.toml", "c.toml"):
            if self.chance(0.95):
                files[name] = self.element_table()
        return files

    def words(self):
        name = "conf.toml" if self.chance(0.99) else "none.toml"
        return name, self.choice([["-c", name], ["--config", name], [f"--config={name}"]])


def fill(folder, files):
    shutil.rmtree(folder, ignore_errors=True)
    os.makedirs(os.path.join(folder, "folder"))
    for name, octets in files.items():
        with open(os.path.join(folder, name), "wb") as file:
            file.write(octets)


def main(program, rounds, seed):
    maker = Maker(random.Random(seed))
    came, lines = {0: 0, 2: 0, 3: 0}, set()
    with tempfile.TemporaryDirectory() as root:
        folder = os.path.join(root, "round")
        for turn in range(rounds):
            files = maker.files()
            name, words = maker.words()
            fill(folder, files)
            done = subprocess.run([os.path.abspath(program), "check", *words], cwd=folder, capture_output=True, timeout=60)
            wanted = answer_of(name, files)
            if (done.returncode, done.stdout) != wanted:
                kept = shutil.copytree(folder, tempfile.mkdtemp(prefix="differs-"), dirs_exist_ok=True)
                print(f"round {turn}: status {done.returncode} and {done.stdout!r}, wanted {wanted}; the files are in {kept}")
                return 1
            came[done.returncode] += 1
            lines.add(re.sub(rb"\d+", b"N", done.stdout))
    print(f"{rounds} descriptions alike: {came[0]} right, {came[2]} with a fault, {came[3]} with a file that isn't there;", end=" ")
    print(f"{len(lines)} different lines but for numbers")
    return 0


if __name__ == "__main__":
    arguments = sys.argv[1:]
    sys.exit(main(arguments[0], int(arguments[1]) if len(arguments) > 1 else 1000, int(arguments[2]) if len(arguments) > 2 else 1))
