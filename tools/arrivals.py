#!/usr/bin/env python3
"""A second reader of what sources give, written apart from the program and slowly, from RFC 7011, RFC 5655 and
docs/DEFINITIONS.md.

    tools/arrivals.py FILE..

prints of each script what `script_run arrivals` prints of it. docs/TESTS.md has the forms of both.
"""

import sys
import tomllib

sys.dont_write_bytecode = True

from decoded import cut, is_bad

MOST_OPEN = 4096
NUMBERS = 2**32
COUNTS = ("sessions", "torn", "broken", "refused", "stray")


class Session:
    """A session: its number, all octets that came in it, and when its peer was last heard."""

    def __init__(self, number, time):
        self.number = number
        self.octets = b""
        self.heard = time


class Input:
    """What stands of the events of an input so far. Whose session it is, is the number of a connection, or a peer."""

    def __init__(self, number, transport, idle):
        self.number, self.transport, self.idle = number, transport, idle
        self.sessions = {}  # open ones, in order of opening, by whose they are
        self.dead = set()  # connections that are open and have no session
        self.opened = 0
        self.clock = 0
        self.counts = dict.fromkeys(COUNTS, 0)

    def count(self, name):
        self.counts[name] += 1
        return []

    def opening(self, whose):
        """The session of a connection or a peer opens, if one can."""
        if len(self.sessions) >= MOST_OPEN or self.opened >= NUMBERS:
            self.count("refused")
            return None
        session = Session(self.opened, self.clock)
        self.sessions[whose] = session
        self.opened += 1
        self.count("sessions")
        return "open", self.number, session.number, self.transport

    def closing(self, whose):
        """Its session closes. It is torn where its stream ends within a message."""
        session = self.sessions.pop(whose)
        rest = cut(session.octets)[1]
        if rest and not is_bad(rest):
            self.count("torn")
        return [("close", self.number, session.number)]

    def raw(self, session, message):
        return "raw", self.number, session.number, message

    def opens(self, connection):
        if self.transport == "udp" or connection in self.sessions or connection in self.dead:
            return self.count("stray")
        arrival = self.opening(connection)
        if arrival is None:
            self.dead.add(connection)
            return []
        return [arrival]

    def brings(self, connection, octets):
        if connection in self.dead:
            return []
        if self.transport == "udp" or connection not in self.sessions:
            return self.count("stray")
        session = self.sessions[connection]
        messages, session.octets = cut(session.octets + octets)
        arrivals = [self.raw(session, message) for message in messages]
        if is_bad(session.octets):
            self.count("broken")
            self.dead.add(connection)
            arrivals += self.closing(connection)
        return arrivals

    def closes(self, connection):
        if connection in self.dead:
            self.dead.remove(connection)
            return []
        if self.transport == "udp" or connection not in self.sessions:
            return self.count("stray")
        return self.closing(connection)

    def hears(self, peer, octets):
        if self.transport != "udp":
            return self.count("stray")
        arrivals = []
        if peer not in self.sessions:
            arrival = self.opening(peer)
            if arrival is None:
                return []
            arrivals.append(arrival)
        session = self.sessions[peer]
        session.heard = self.clock
        return arrivals + [self.raw(session, octets)]

    def ticks(self, seconds):
        arrivals = []
        if self.transport == "udp":
            for peer in [p for p, session in self.sessions.items() if seconds >= session.heard + self.idle]:
                arrivals += self.closing(peer)
        self.clock = seconds
        return arrivals + [("tick", self.number, seconds)]

    def gives(self, event):
        """The arrivals that an event gives."""
        word, *parts = event
        match word:
            case "opened":
                return self.opens(parts[0])
            case "bytes":
                return self.brings(*parts)
            case "closed":
                return self.closes(parts[0])
            case "datagram":
                return self.hears(tuple(parts[:3]), parts[3])
            case "tick":
                return self.ticks(parts[0])

    def ends(self):
        """Nothing comes any more: what is open closes."""
        return [arrival for whose in list(self.sessions) for arrival in self.closing(whose)]


def answers(of, stop_after, events, failing):
    """All that an input answers before its end, which are arrivals, "nothing" and "notyet"; how many events are left; and
    whether its source failed."""
    answered, calls, given, taken = [], 0, 0, 0
    failed = False
    while True:
        failed = calls in failing
        calls += 1
        if failed or given == len(events):
            break
        event = events[given]
        given += 1
        if event[0] == "notyet":
            answered.append("notyet")
            continue
        came = of.gives(event)
        taken += 1
        answered += came
        if taken == stop_after:
            break
        if not came:
            answered.append("nothing")
    return answered + of.ends(), len(events) - given, failed


def input_of(number, table):
    """An input as its table in a description says."""
    return Input(number, table["kind"], table.get("idle", 600))


def line_of(answer):
    match answer:
        case "open", number, session, transport:
            return f"open {number}/{session} {transport}"
        case "raw", number, session, octets:
            return f"raw {number}/{session} {octets.hex() or '-'}"
        case "close", number, session:
            return f"close {number}/{session}"
        case "tick", number, seconds:
            return f"tick {number} {seconds}"
        case _:
            return answer


def octets_of(text):
    return b"" if text == "-" else bytes.fromhex(text)


def event_of(line):
    word, *parts = line.split(" ")
    if word in ("bytes", "datagram"):
        return (word, *map(int, parts[:-1]), octets_of(parts[-1]))
    return (word, *map(int, parts))


def script_of(text):
    """The description of a script, its sources and their failing calls. Of several of one name the first counts."""
    texts, sources, failing = {}, {}, {}
    events = None
    for line in text.splitlines():
        if line.startswith("  "):
            events.append(event_of(line[2:]))
            continue
        word, *parts = line.split(" ")
        if word == "text":
            texts.setdefault(parts[0], octets_of(parts[1]))
        elif word == "source":
            events = []
            sources.setdefault(parts[0], events)
        elif word == "fails":
            failing[parts[0]] = set(map(int, parts[1:]))
    return tomllib.loads(texts["conf"].decode()), sources, failing


def place_of(table):
    """Where an input reads or listens, by its table."""
    return table["path"] if table["kind"] == "file" else table["listen"]


def inputs_of(text):
    """Of each input of a script its number, its table, the events of its source, which are None where it isn't there, and
    the calls of it that fail."""
    description, sources, failing = script_of(text)
    for number, table in enumerate(description["input"]):
        place = place_of(table)
        yield number, table, sources.get(place), failing.get(place, ())


def listing(text):
    """The lines of what the inputs of a script give."""
    lines = []
    for number, table, events, failing in inputs_of(text):
        if events is None:
            lines.append(f"input {number} closed")
            continue
        of = input_of(number, table)
        answered, left, failed = answers(of, table.get("stop-after", 0), events, failing)
        counts = " ".join(f"{name} {of.counts[name]}" for name in COUNTS)
        lines += [*map(line_of, answered), "end", "end"]
        lines += [f"input {number} {counts} fault {'source' if failed else 'nothing'}", f"left {left}"]
    return lines


if __name__ == "__main__":
    for path in sys.argv[1:]:
        with open(path, encoding="utf-8") as file:
            print("\n".join(listing(file.read())))
