#!/usr/bin/env python3
"""rows.py PAGE: holds the table "How many" of a page on conformance to its rows, and prints how many of each verdict there are"""
import collections
import re
import sys

with open(sys.argv[1], encoding="utf-8") as file:
    text = file.read()
counted, said, rfc = {}, {}, ""
for line in text.splitlines():
    if line.startswith("## "):
        rfc = re.match(r"## (RFC \d+)?", line).group(1)
    cells = [cell.strip() for cell in re.split(r"(?<!\\)\|", line)[1:-1]]
    # A row without a verdict is for others, as the network.
    if rfc and len(cells) == 5 and cells[3] and re.match(r"MUST|SHOULD|RECOMMENDED", cells[1]):
        level = "MUST" if cells[1].startswith("MUST") else "SHOULD"
        verdict = "not met" if cells[3].startswith(("**not met", "not taken")) else "count" if cells[3].startswith("count") else "met"
        counted.setdefault((rfc, level), collections.Counter())[verdict] += 1
    elif len(cells) == 5 and re.match(r"RFC \d+, (MUST|SHOULD)$", cells[0]):
        said[tuple(cells[0].split(", "))] = [int(cell) for cell in cells[1:]]
wrong = 0
for key, verdicts in counted.items():
    numbers = [sum(verdicts.values())] + [verdicts[verdict] for verdict in ("met", "count", "not met")]
    if said.get(key) != numbers:
        wrong += 1
        print(f"| {key[0]}, {key[1]} | " + " | ".join(str(number) for number in numbers) + " |")
print(f"{sum(sum(verdicts.values()) for verdicts in counted.values())} rows, {wrong} differences")
sys.exit(wrong > 0)
