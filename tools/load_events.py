#!/usr/bin/env python3
"""The events of the generator of load, made by the words of docs/FORMATS.md ("The generator of load") alone.

usage: load_events.py run NUMBER COUNT [NUMBER COUNT ..]    what load_run prints of these
       load_events.py draws NUMBER N                        the state after each of the first N draws, and its octet
       load_events.py message NUMBER I                      the state before message I, and its octets
       load_events.py examples                              writes the examples of load_spec

The stored output of load_run is written by:
    python3 tools/load_events.py run $(cat crates/load_run/args) > crates/load_run/stdout
"""

import struct
import sys

# the fields of a definition: elements of IANA, and their octets
SHORT = [(8, 4), (12, 4), (7, 2), (11, 2), (4, 1), (1, 8), (2, 4)]
LONG = SHORT + [(152, 8)]

# the messages whose octets are printed, beside the last one
SHOWN = (0, 1, 4, 999, 1000, 1003, 1004, 2000)


class Draws:
    """A state of 64 bits that is drawn from."""

    def __init__(self, number):
        self.state = number

    def octet(self):
        self.state = (self.state * 6364136223846793005 + 1442695040888963407) % 2**64
        return self.state // 2**33 % 256


def set_of(number, body):
    return struct.pack(">HH", number, 4 + len(body)) + body


def template_record(fields):
    return struct.pack(">HH", 256, len(fields)) + b"".join(struct.pack(">HH", *field) for field in fields)


def message_of(i, draws):
    """The octets of message i, whose records are drawn."""
    q = i // 4
    fields = LONG if q // 250 % 2 else SHORT
    sets = b""
    if q % 250 == 0:
        sets += set_of(2, template_record(fields))
    records = bytes(draws.octet() for _ in range(4) for _, size in fields for _ in range(size))
    sets += set_of(256, records)
    return struct.pack(">HHIII", 10, 16 + len(sets), 1000 + i, 4 * q, 1 + i % 4) + sets


def events_of(number, count):
    """The events up to the end, which is none."""
    draws = Draws(number)
    yield "Opened", 0, b""
    for i in range(count):
        yield "Bytes", 0, message_of(i, draws)
    yield "Closed", 0, b""


def show(number, count):
    print(f"load {number} {count}")
    messages, size, total, totals = 0, 0, 0, 0
    for kind, connection, octets in events_of(number, count):
        if kind != "Bytes":
            print(f"{kind}({connection})")
            continue
        if messages in SHOWN or messages + 1 == count:
            print(f"{messages} {octets.hex()}")
        messages += 1
        size += len(octets)
        for octet in octets:
            total += octet
            totals += total
    print(f"{messages} messages of {size} octets, sum {total}, sum of sums {totals % 2**64}")


def state_before(number, i):
    draws = Draws(number)
    for k in range(i):
        message_of(k, draws)
    return draws.state


def written(octets):
    return " ∷ ".join(str(octet) for octet in octets) + " ∷ []"


EXAMPLES = "crates/load_spec/specs/Examples.antt"

# the messages of the examples: their names, what they are, their numbers and places
MESSAGES = [
    ("first_of_one", "the first message of the number 1, with A", 1, 0),
    ("second_of_one", "the second one, which goes on with the draws", 1, 1),
    ("fifth_of_one", "the fifth one, again in domain 1: no template", 1, 4),
    ("first_of_greatest", "the first message of the greatest number", 2**64 - 1, 0),
    ("thousand_and_first_of_one", "message 1000 of the number 1, the first with B", 1, 1000),
]


def write_examples():
    text = "-- Example messages of the generator of load. This file is written by tools/load_events.py.\n"
    text += "use Rattle.std.specs.Prelude.{ℕ, List, [], ◌∷◌}\n"
    for name, what, number, i in MESSAGES:
        octets = message_of(i, Draws(state_before(number, i)))
        text += f"\n-- {what}\nabbrev pub {name} : List ℕ\n{name} = {written(octets)}\n"
    open(EXAMPLES, "w").write(text)


def main(words):
    if words[0] == "run":
        for number, count in zip(words[1::2], words[2::2]):
            show(int(number), int(count))
    elif words[0] == "draws":
        draws = Draws(int(words[1]))
        for _ in range(int(words[2])):
            octet = draws.octet()
            print(draws.state, octet)
    elif words[0] == "message":
        state = state_before(int(words[1]), int(words[2]))
        print(state)
        print(written(message_of(int(words[2]), Draws(state))))
    elif words[0] == "examples":
        write_examples()


if __name__ == "__main__":
    main(sys.argv[1:])
