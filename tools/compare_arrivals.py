#!/usr/bin/env python3
"""compare_arrivals.py PROGRAM [SCRIPTS [SEED]]: holds `PROGRAM arrivals` to a second reader, written apart and slowly.

    tools/compare_arrivals.py crates/script_run/out/script_run 2000
    tools/compare_arrivals.py cases SCRIPTS SEED > crates/script_run/data/random.cases

Each script has up to three inputs over files, TCP and UDP, with sources that give events of all kinds, most of them as an
exporter would give them, others in any order, and with calls that fail. What `PROGRAM arrivals` prints of them is compared
with what tools/arrivals.py reads. The first script that differs is kept in the system's folder for temporary files. With
the word `cases` in the place of the program the scripts are printed as cases, with what is to come of each.
"""

import sys

sys.dont_write_bytecode = True

from arrivals import listing
from compared import main

# A few sessions fewer than may be open at once.
NEARLY_FULL = 4090


class Stream:
    """What comes over a connection: messages, and now and then what is none."""

    def __init__(self, source):
        self.random = source
        self.ready = b""

    def message(self):
        kind = self.random.random()
        length = 65535 if kind < 0.001 else 16 + self.random.choice([0, 0, 4, 12, 20, 21])
        version = 9 if 0.01 < kind < 0.04 else 10
        said = self.random.randrange(0, 16) if 0.04 < kind < 0.07 else length
        return version.to_bytes(2, "big") + said.to_bytes(2, "big") + self.random.randbytes(length - 4)

    def piece(self):
        size = self.random.choice([1, 2, 3, 4, 5, 12, 16, 20, 40, 100, 65535])
        while len(self.ready) < min(size, 200):
            self.ready += self.message()
        if size == 65535 and self.random.random() < 0.7:
            self.ready += self.message()
            size = len(self.ready)
        piece, self.ready = self.ready[:size], self.ready[size:]
        return piece[:65535]


class Maker:
    """Makes scripts."""

    # From here on, of what happens to a connection, it is closed.
    CLOSES = 0.9

    def __init__(self, source):
        self.random = source

    def chance(self, part):
        return self.random.random() < part

    def peer(self):
        return f"{self.random.choice([0, 1])} {self.random.choice([0, 7, 2**64 - 1])} {self.random.choice([0, 4739, 65535])}"

    def connection(self):
        return self.random.choice([0, 1, 2, 3, 2**32 - 1])

    def tick(self, clock):
        kind = self.random.random()
        if kind < 0.1:
            return max(0, clock - self.random.randrange(0, 20))
        if kind < 0.12:
            return 2**32 - 1
        return min(2**32 - 1, clock + self.random.choice([0, 1, 1, 2, 5, 9, 10, 11]))

    def events(self, transport, count):
        """Events, most of them of the transport."""
        streams, clock, lines = {}, 0, []
        for _ in range(count):
            kind = self.random.random()
            if kind < 0.1:
                lines.append("notyet")
            elif kind < 0.2:
                clock = self.tick(clock)
                lines.append(f"tick {clock}")
            elif (transport == "udp") != self.chance(0.05):
                lines.append(self.datagram())
            else:
                lines.append(self.of_connection(streams))
        return lines

    def datagram(self):
        octets = self.random.randbytes(self.random.choice([0, 1, 4, 16, 20]))
        return f"datagram {self.peer()} {octets.hex() or '-'}"

    def stream(self):
        return Stream(self.random)

    def of_connection(self, streams):
        connection = self.connection()
        kind = self.random.random()
        is_open = connection in streams
        if not is_open and kind < 0.8 or kind < 0.03:
            streams[connection] = self.stream()
            return f"opened {connection}"
        if kind > self.CLOSES:
            streams.pop(connection, None)
            return f"closed {connection}"
        stream = streams.get(connection) or self.stream()
        return f"bytes {connection} {stream.piece().hex()}"

    def many(self, transport):
        """Events after which more sessions were opened than may be open at once."""
        lines = []
        for number in range(NEARLY_FULL + self.random.randrange(0, 160)):
            if number % 1000 == 0:
                lines.append(f"tick {number // 1000}")
            if transport == "udp":
                lines.append(f"datagram 5 {number} 4739 -")
            else:
                lines.append(f"opened {number + 10}")
                if self.chance(0.01 if number < NEARLY_FULL else 0.3):
                    lines.append(f"bytes {number + 10} 00090010" if self.chance(0.5) else f"closed {number + 10}")
        return lines

    def events_of(self, transport, is_long):
        before = self.events(transport, self.random.randrange(0, 40))
        if not is_long:
            return before
        return before + self.many(transport) + self.events(transport, 60)

    def table(self, number, transport):
        """An input's table, and its place."""
        place = f"in{number}" if transport == "file" else f"[::1]:{4739 + number}"
        lines = ["[[input]]", f'name = "i{number}"', f'kind = "{transport}"']
        lines.append(f'{"path" if transport == "file" else "listen"} = "{place}"')
        if transport == "udp" and self.chance(0.8):
            lines.append(f"idle = {self.random.choice([1, 2, 3, 5, 10, 1000000000])}")
        if self.chance(0.3):
            lines.append(f"stop-after = {self.random.choice([0, 1, 2, 3, 5, 10, 20])}")
        return lines, place

    def intermediates(self):
        """The lines of a description's intermediates."""
        return []

    def script(self, is_long):
        count = 1 if is_long else self.random.choice([1, 1, 2, 3])
        conf = ["version = 1"] + (['order-log = "log"'] if count > 1 else [])
        lines = []
        for number in range(count):
            transport = self.random.choice(["file", "tcp", "udp"])
            table, place = self.table(number, transport)
            conf += table
            if self.chance(0.02):
                continue
            events = self.events_of(transport, is_long)
            lines.append(f"source {place}")
            lines += [f"  {event}" for event in events]
            if self.chance(0.2):
                calls = [self.random.randrange(0, len(events) + 3) for _ in range(self.random.choice([1, 1, 2]))]
                lines.append(f"fails {place} {' '.join(map(str, calls))}")
        conf += self.intermediates() + ["[[output]]", 'name = "o"', 'kind = "view"', 'path = "out"', ""]
        return "\n".join([f"text conf {chr(10).join(conf).encode().hex()}", *lines]) + "\n"


if __name__ == "__main__":
    sys.exit(main(sys.argv[1:], "arrivals", listing, Maker))
