#!/usr/bin/env python3
"""pages.py: holds the manual pages to the tables of the code, and prints what differs.

ipfixcol.toml(5): each list of keys has exactly the keys of its tables, each with its range, its default or that it is
required, the words of its kinds, and the kinds that it is of, where it isn't of all; the keys and types of element tables;
the faults. ipfixcol(1): the counts, and the other lines that are printed. The code is read as text, in crates/.
"""
import os
import re
import sys

TOP = os.path.join(os.path.dirname(os.path.abspath(__file__)), "..", "..")
wrong = 0


def tell(what):
    global wrong
    wrong += 1
    print(what)


def code(path):
    with open(os.path.join(TOP, "crates", path), encoding="utf-8") as file:
        return file.read()


# The code's tables.
ROWS, WORDS = code("setting_tables/src/rows.rt"), code("setting_tables/src/words.rt")
word_of = dict(re.findall(r'Key::(\w+) => "([^"]+)"', WORDS))
kind_word = dict(re.findall(r'TableKind::(\w+) => "([^"]+)"', WORDS))
row_of = {
    name: (word_of[key], shape, need)
    for name, key, shape, need in re.findall(
        r"const (\w+): KeyRow = KeyRow \{\s*key: Key::(\w+),\s*shape: (.+?),\s*need: Need::(.+?),\s*\};", ROWS, re.S
    )
}
MOST = str(2**63 - 1)


def rows_of(kind):
    table = re.search(rf"TableKind::{kind} => &(\w+)", ROWS).group(1)
    names = re.search(rf"const {table}: \[KeyRow; \d+\] =\s*\[(.*?)\];", ROWS, re.S).group(1)
    return [row_of[name] for name in re.findall(r"\w+", names)]


def kinds_of(table):
    names = re.search(rf"const {table}: \[TableKind; \d+\] =\s*\[(.*?)\];", WORDS, re.S).group(1)
    return re.findall(r"TableKind::(\w+)", names)


# The page's lists.
def plain(lines):
    """What the lines of a page say, without macros, in one line."""
    words = []
    for line in lines:
        if line.startswith(".") and not re.match(r"\.(Ic|Ql|Sy|Ar|Cm|Pa|Fl) ", line):
            continue
        line = re.sub(r"^\.\w+ ", "", line)
        line = re.sub(r" ([,.:;])(?= |$)", r"\1", line.replace("\\&", ""))
        words.append(line)
    return " ".join(words)


def lists_of(page):
    """Each list of a page: the section or the line before it, and its items, each a list of words and what it says."""
    found, heading, at = [], "", 0
    lines = page.splitlines()
    while at < len(lines):
        line = lines[at]
        if re.match(r"\.S[hs] ", line):
            heading = line[4:]
        elif line.startswith("In a "):
            heading = line
        elif line.startswith(".Bl"):
            items = []
            while not lines[at].startswith(".El"):
                if lines[at].startswith(".It"):
                    items.append((re.sub(r"^\.It \w+ ", "", lines[at]), []))
                elif items:
                    items[-1][1].append(lines[at])
                at += 1
            found.append((heading, [(word, plain(said)) for word, said in items]))
        at += 1
    return found


def range_text(shape):
    """What a key's text has of its range. It is empty where the range is a form, which is said in words."""
    shape = shape.replace("SECONDS", "Shape::Number(1, 1_000_000_000)").replace("_", "").replace("MOST", MOST)
    name, *numbers = re.findall(r"\w+", shape.removeprefix("Shape::"))
    if name == "Number":
        return f": {numbers[0]}." if numbers[0] == numbers[1] else f"{numbers[0]} to {numbers[1]}"
    if name == "From":
        return f"{word_of[numbers[1]]} to {numbers[2]}"
    if name == "Tables":
        return f"at most {numbers[1]} tables" if numbers[0] == "0" else f"{numbers[0]} to {numbers[1]} tables"
    if name == "Places":
        return f"at most {numbers[0]} paths"
    return {"Act": "keep or drop", "Flag": "true or false"}.get(name, "")


def need_text(shape, need):
    """What a key's text has of whether it may be left out: one of the texts between the bars."""
    if need == "Required":
        return "Required."
    if need == "Optional":
        return "Default:|Required with"
    value = re.search(r"\((.*)\)", need).group(1)
    if need.startswith("Flag"):
        value = {("Act", "true"): "keep", ("Act", "false"): "drop"}.get((shape.removeprefix("Shape::"), value), value)
    return f"Default: {value}."


# What is said of a whole description, and not of a key: there is an input and an output.
AT_LEAST_ONE = {"input": ("1 to 16 tables", "Required."), "output": ("1 to 32 tables", "Required.")}


def compare_keys(heading, items, kinds, choice):
    """One list against the tables of these kinds. Where there are several, `kind` or `test` chooses."""
    tables = {kind: rows_of(kind) for kind in kinds}
    known = {key for rows in tables.values() for key, _, _ in rows}
    said = dict(items)
    if len(said) != len(items):
        tell(f"{heading}: a key stands twice")
    for key in sorted(known ^ set(said)):
        tell(f"{heading}: {key} is only in the {'code' if key in known else 'page'}")
    for kind, rows in tables.items():
        for key, shape, need in rows:
            text = said.get(key, "")
            wants = AT_LEAST_ONE.get(key, [range_text(shape), need_text(shape, need)])
            if shape == "Shape::Chosen":
                wants = [*wants, kind_word[kind]]
            for want in wants:
                if not any(one in text for one in want.split("|")):
                    tell(f"{heading}: {key}: no '{want}' in '{text}'")
    for key in known & set(said):
        having = {kind_word.get(kind, "") for kind, rows in tables.items() if key in [row[0] for row in rows]}
        named = set()
        for words in re.findall(rf"Of {choice}s? ([\w ]+):", said[key]):
            named |= set(words.split(" and "))
        if named != (having if len(having) < len(kinds) else set()):
            tell(f"{heading}: {key}: of {choice} {sorted(having)}, and the page says {sorted(named)}")


def compare_sets(what, found, expected):
    for one in sorted(set(found) - set(expected)):
        tell(f"{what}: {one} is only in the page")
    for one in sorted(set(expected) - set(found)):
        tell(f"{what}: {one} is only in the code")


with open(os.path.join(TOP, "packaging/man/ipfixcol.toml.5"), encoding="utf-8") as file:
    page = file.read()
lists = lists_of(page)
by_heading = {}
for heading, items in lists:
    by_heading.setdefault(heading, []).append(items)
for heading, kinds, choice in (
    ("The top of the file", ["Top"], "kind"),
    ("Inputs", kinds_of("INPUT_KINDS"), "kind"),
    ("Filters", ["Filter"], "kind"),
    ("In a rule:", kinds_of("RULE_KINDS"), "test"),
    ("Anonymisers", ["Anonymise"], "kind"),
    ("In a row:", ["Row"], "kind"),
    ("Outputs", kinds_of("OUTPUT_KINDS"), "kind"),
):
    compare_keys(heading, by_heading[heading][0], kinds, choice)
field = dict(by_heading["Anonymisers"][0])["field"]
compare_sets("keys of a field", re.findall(r"pen|id", field[field.index("each with"):]), [row[0] for row in rows_of("Field")])

rows = dict(by_heading["Element tables"][0])
KEYS = code("element_table/src/keys.rt")
compare_sets("keys of element tables", ["element", *rows], re.findall(r'Key::\w+ => "(\w+)"', KEYS))
types = set(re.findall(r"\w+", rows["type"])) - {"or", "to"}
types |= {f"{sign}signed{bits}" for sign in ("", "un") for bits in (16, 32)}
compare_sets("types", types, re.findall(r'ElementType::\w+ => "(\w+)"', KEYS))

faults, table_faults = by_heading["DIAGNOSTICS"]


def fault_words(items):
    return [re.sub(r" Ar .*", "", word) for line, _ in items for word in line.split(" , Sy ")]


compare_sets("faults", fault_words(faults), {words.strip() for words in re.findall(r'"([^"]+)"', code("startup_config/src/fault.rt"))} - {"no memory"})
told = {re.sub(r" \{.*", "", words) for words in re.findall(r'in alloc; "([^"]+)"', code("element_table/src/fault.rt"))}
compare_sets("faults of element tables", fault_words(table_faults), told - {"no memory"})

with open(os.path.join(TOP, "packaging/man/ipfixcol.1"), encoding="utf-8") as file:
    lists = lists_of(file.read())
lines, counts = [items for heading, items in lists if heading == "DIAGNOSTICS"]
compare_sets("counts", fault_words(counts), [word.strip() for word in re.findall(r'b"(\w+) "', code("run_lines/src/count_row.rt"))])
heads = {re.sub(r" ?: Ar .*| Ar .*", "", word) for line, _ in lines for word in line.split(" , Sy ")}
printed = {word.rstrip(": ") for word in re.findall(r'=> b"([a-z][a-z ]+(?:: )?)(?:\\n)?"', code("run_lines/src/saying.rt"))}
compare_sets("lines", heads, printed)
print("the pages are as the code is" if not wrong else f"{wrong} differences")
sys.exit(wrong > 0)
