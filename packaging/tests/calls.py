#!/usr/bin/env python3
"""calls.py UNIT TRACE: the system calls in TRACE, as `strace -f` writes it, that UNIT's SystemCallFilter= doesn't allow

Sets of calls are those of `systemd-analyze syscall-filter`. What comes before the program itself is run isn't looked at:
systemd runs it without a filter, too. Ends with 1 where there are such calls, or none at all.
"""
import functools
import re
import subprocess
import sys


@functools.cache
def calls_of(name):
    if not name.startswith("@"):
        return frozenset([name])
    said = subprocess.run(["systemd-analyze", "syscall-filter", name], capture_output=True, text=True, check=True).stdout
    names = [line.strip() for line in said.splitlines()[1:] if line.strip() and not line.strip().startswith("#")]
    return frozenset().union(*map(calls_of, names))


def allowed(unit):
    calls = set()
    for line in open(unit, encoding="utf-8"):
        found = re.match(r"SystemCallFilter=(~?)(.*)", line)
        if found:
            named = frozenset().union(*map(calls_of, found[2].split()))
            calls = calls - named if found[1] else calls | named
    return calls


unit, trace = sys.argv[1:]
made = set()
for line in open(trace, encoding="utf-8", errors="replace"):
    found = re.match(r"(?:\d+ +)?([a-z_0-9]+)\(", line)
    if found:
        made.add(found[1])
made.discard("execve")
if not made:
    sys.exit("no call was traced")
others = made - allowed(unit)
if others:
    sys.exit("not allowed: " + " ".join(sorted(others)))
print(len(made), "calls, all of them allowed")
