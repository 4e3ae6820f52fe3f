#!/usr/bin/env python3
"""How much processor time the gate takes, crate by crate.

    tools/gate_times.py [WORD..]

runs `rt ci` (or the command of the words) at the top of the repository, which proves all from nothing,
and looks at its processes three times a second. At the end it prints a table in Markdown: for each crate the
processor-minutes of its own proof, of its tests (their proofs) and of its must-fail edits, then what the programs and
the tests took as they ran, the sums, and how long all took by the clock. The command's own words go to standard error. The exit
status is the command's.

A process that ends between two looks is counted up to the last look, so that sums are short by a few seconds in all.
"""

import collections
import os
import subprocess
import sys
import threading
import time

TICKS = os.sysconf("SC_CLK_TCK")
KINDS = ("proof", "tests", "edits")


def processes():
    """The parent, the seconds of processor time and the start of each process."""
    found = {}
    for name in os.listdir("/proc"):
        if name.isdigit():
            try:
                with open(f"/proc/{name}/stat", encoding="utf-8", errors="replace") as it:
                    fields = it.read().rpartition(")")[2].split()
            except OSError:
                continue
            found[int(name)] = int(fields[1]), (int(fields[11]) + int(fields[12])) / TICKS, fields[19]
    return found


def descends(process, root, found):
    while process in found:
        if process == root:
            return True
        process = found[process][0]
    return False


def told_of(process):
    """The words and the folder of a process, once it runs what it is for."""
    try:
        with open(f"/proc/{process}/cmdline", encoding="utf-8", errors="replace") as it:
            return it.read().split("\0"), os.readlink(f"/proc/{process}/cwd")
    except OSError:
        return None


def part_of(words, folder):
    """The crate that a process works on, and what for."""
    if "--crate-name" not in words:
        return None
    crate = words[words.index("--crate-name") + 1]
    if "/rt-edit" in folder or any("/rt-edits-" in word for word in words):
        return crate, "edits"
    return crate, "tests" if "--test" in words else "proof"


class Watch:
    """The processor time of each process that a command started."""

    def __init__(self, root):
        self.root = root
        self.seconds = {}
        self.told = {}

    def look(self):
        found = processes()
        for process, (_, seconds, start) in found.items():
            if descends(process, self.root, found):
                self.seconds[process, start] = seconds
                told = told_of(process)
                if told:
                    self.told[process, start] = told

    def table(self):
        sums, other = collections.defaultdict(collections.Counter), 0.0
        for key, seconds in self.seconds.items():
            part = part_of(*self.told.get(key, ([], "")))
            if part:
                sums[part[0]][part[1]] += seconds
            else:
                other += seconds
        return sums, other


def minutes(seconds):
    return f"{seconds / 60:.1f}"


def print_table(sums, other, clock):
    print("| Crate | Proof | Tests | Edits | Together |")
    print("|---|---|---|---|---|")
    for crate, parts in sorted(sums.items(), key=lambda it: -sum(it[1].values())):
        cells = [minutes(parts[kind]) if parts[kind] else "" for kind in KINDS]
        print(f"| `{crate}` | {' | '.join(cells)} | {minutes(sum(parts.values()))} |")
    whole = [sum(parts[kind] for parts in sums.values()) for kind in KINDS]
    print(f"| running, building and the rest | | | | {minutes(other)} |")
    print(f"| all | {' | '.join(map(minutes, whole))} | {minutes(sum(whole) + other)} |")
    print(f"\nBy the clock: {minutes(clock)} minutes.")


def main():
    command = sys.argv[1:] or ["rt", "ci"]
    top = os.path.dirname(os.path.dirname(os.path.abspath(__file__)))
    begin = time.monotonic()
    with subprocess.Popen(command, cwd=top, stdout=sys.stderr) as run:
        watch, ended = Watch(run.pid), threading.Event()

        def look_on():
            while not ended.wait(0.3):
                watch.look()

        looking = threading.Thread(target=look_on)
        looking.start()
        status = run.wait()
        ended.set()
        looking.join()
    print_table(*watch.table(), time.monotonic() - begin)
    return status


if __name__ == "__main__":
    sys.exit(main())
