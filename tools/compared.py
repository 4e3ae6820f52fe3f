"""Holds what a program prints of scripts to what a second reader makes of them."""

import os
import random
import subprocess
import sys
import tempfile

# How many scripts the program is given at once.
BATCH = 50

# One script of so many is long.
LONG = 50


class Comparison:
    """The words of a program before its scripts, what is to be printed of a script, and how many scripts it takes at once."""

    def __init__(self, words, wanted, batch):
        self.words, self.wanted, self.batch = words, wanted, batch

    def printed(self, paths):
        result = subprocess.run([*self.words, *paths], stdout=subprocess.PIPE, check=False)
        return result.returncode, result.stdout.decode()

    def difference(self, scripts):
        """The first script of which something else is printed, with what was found and what was expected."""
        with tempfile.TemporaryDirectory() as folder:
            paths = [os.path.join(folder, f"{number}.script") for number in range(len(scripts))]
            for path, script in zip(paths, scripts):
                with open(path, "w", encoding="utf-8") as file:
                    file.write(script)
            wanted = [self.wanted(script) for script in scripts]
            if self.printed(paths) == (0, "".join(wanted)):
                return None
            for path, script, each in zip(paths, scripts, wanted):
                found = self.printed([path])
                if found != (0, each):
                    return script, found, each
        return scripts[0], "several scripts at once", "each by itself is right"

    def run(self, scripts, seed):
        """The status of a comparison of scripts. The first that differs is kept."""
        batch, done = [], 0
        for script in scripts:
            batch.append(script)
            if len(batch) == self.batch:
                if self.tells(batch):
                    return 1
                done += len(batch)
                batch = []
        if batch and self.tells(batch):
            return 1
        print(f"{done + len(batch)} scripts of seed {seed}, none differs")
        return 0

    def tells(self, scripts):
        """Whether a script differs, which is told then."""
        found = self.difference(scripts)
        if found is None:
            return False
        script, output, wanted = found
        with tempfile.NamedTemporaryFile("w", suffix=".script", delete=False) as file:
            file.write(script)
        print(f"differs: {file.name}\nfound\n{output}\nexpected\n{wanted}")
        sys.stdout.flush()
        return True


def scripts(maker, seed, count):
    """So many scripts at random, of a maker that takes the source of chance."""
    made = maker(random.Random(seed))
    return (made.script(number % LONG == LONG - 1) for number in range(count))


def print_cases(maker, listing, seed, count):
    for number, script in enumerate(scripts(maker, seed, count)):
        print(f"\ncase script {number}\n{script}" + "\n".join(f"gives {line}" for line in listing(script)))


def main(words, command, listing, maker):
    """Does what the words of a script ask for: it prints cases, or compares what a command of a program prints of scripts
    with a second reader's listing."""
    if words[0] == "cases":
        count, seed = map(int, words[1:])
        print(f"# What `{command}` prints of scripts at random: written by `tools/{os.path.basename(sys.argv[0])} cases {count} {seed}`.")
        print_cases(maker, listing, seed, count)
        return 0
    count = int(words[1]) if len(words) > 1 else 2000
    seed = int(words[2]) if len(words) > 2 else random.randrange(2**32)
    wanted = lambda script: "".join(f"{line}\n" for line in listing(script))
    return Comparison([words[0], command], wanted, BATCH).run(scripts(maker, seed, count), seed)
