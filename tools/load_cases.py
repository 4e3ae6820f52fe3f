#!/usr/bin/env python3
"""Writes the cases of `generate`: what is printed of load, by the second reader of runs (tools/runs.py).

Run it as tools/load_cases.py > crates/script_run/data/generate.cases
"""
import sys

sys.dont_write_bytecode = True

from runs import loaded

# numbers and counts: one message, one of each domain, a change of the template in all domains, and the greatest number
LOADS = [(1, 1), (1, 4), (0, 5), (2**64 - 1, 3), (9, 1008)]

# the first octets that are printed before saying fails, and at which line
FAILS = [(0, 0), (16, 3), (17, 0), (19, 5)]


def case(name, words, status, text, fails=""):
    print(f"\ncase {name}\nwords {words}")
    print(f"source gen\n  opened 0\n  closed 0\nsink json{fails}")
    print(f"status {status}")
    if text:
        print("said |")
        whole, _, last = text.rpartition("\n")
        for line in whole.split("\n") if whole else []:
            print(f"  |{line}")
        if last:
            print(f"  >{last}")
    else:
        print("said -")
    print("held json -\nplaceopenings gen 0\nsinkopenings json 0")


def main():
    print("# Written by tools/load_cases.py. A source and a sink of the names that the description has aren't opened.")
    for number, count in LOADS:
        case(f"generate {number} {count}", f"generate {number} {count}", 0, loaded(number, count))
    lines = loaded(3, 2).splitlines(keepends=True)
    for call, taken in FAILS:
        case(f"printing of load that fails at line {call} behind {taken} octets", "generate 3 2", 4, "".join(lines[:call]) + lines[call][:taken], f"\nsayfails {call}:{taken}")


if __name__ == "__main__":
    main()
