#!/usr/bin/env python3
"""names.py PAGE: each name in backquotes, and each case in double quotes behind `case`, of PAGE stands in the repository"""
import glob
import os
import re
import subprocess
import sys

TOP = os.path.join(os.path.dirname(os.path.abspath(__file__)), "..", "..")
PLACES = ["crates", "tools", "packaging", "examples", "bench", "docs"]
# Words of the system, which aren't of the repository.
OUTSIDE = ("openssl ", "net.")
wrong = 0


def stands(words, page):
    """Whether the words stand in a file that isn't the page, or are the name of one."""
    found = subprocess.run(
        ["grep", "-rlIF", "--exclude-dir=out", "--", words, *PLACES], cwd=TOP, capture_output=True, text=True, check=False
    ).stdout.split("\n")
    if any(file and not os.path.samefile(os.path.join(TOP, file), page) for file in found):
        return True
    return any(words in names for place in PLACES for _, folders, files in os.walk(os.path.join(TOP, place)) for names in (folders, files))


page = os.path.realpath(sys.argv[1])
with open(page, encoding="utf-8") as file:
    text = file.read()
text = re.sub(r"```.*?```", "", text, flags=re.S)
names = {name.replace("\\|", "|") for name in re.findall(r"`([^`\n]+)`", text)}
cases = {case for row in re.findall(r'cases? ((?:"[^"]+"(?:, | and )?)+)', text) for case in re.findall(r'"([^"]+)"', row)}
for name in sorted(names):
    # A command is looked up by its first word, a function of a type by its own name.
    short = name.split(" ")[0].split("::")[-1]
    known = name.startswith(OUTSIDE) or glob.glob(os.path.join(TOP, short)) or stands(short, page)
    if not known:
        wrong += 1
        print(f"{name}: nothing is called so")
for case in sorted(cases):
    if not stands(f"case {case}", page):
        wrong += 1
        print(f"{case}: no case is called so")
print(f"{len(names)} names and {len(cases)} cases, {wrong} wrong")
sys.exit(wrong > 0)
