#!/usr/bin/env python3
"""A second reader of what inputs give, decoded and counted, written apart from the program and slowly, from RFC 7011,
RFC 5655, docs/DEFINITIONS.md and docs/FORMATS.md.

Each template is looked up afresh in all template records before, and nothing else is kept of them. An item is one of

    ("open", INPUT, SESSION, TRANSPORT), ("close", INPUT, SESSION), ("tick", INPUT, SECONDS),
    ("message", INPUT, SESSION, DOMAIN, EXPORT, SEQUENCE, SETS)

with each set that has records as (TEMPLATE ID, DEFINITION, RECORDS), a definition as tools/decoded.py has it, and a record
as the values of its fields, with the octet of the message at which it begins and its octets.
"""

import sys

sys.dont_write_bytecode = True

from arrivals import answers, event_of, input_of
from decoded import Malformed, least, number, record_of, sets_of, template_records_of

COUNTS = (
    "sessions messages records malformed late skipped ignored redefined lost disordered torn broken refused crowded stray"
).split()
MOST_DOMAINS = 1024
NUMBERS = 2**32
TEMPLATES, OPTIONS = 2, 3


class Message:
    """A well-formed message: the numbers of its header, and its sets as (ID, place of the body, body, template records)."""

    def __init__(self, octets):
        if len(octets) < 16 or number(octets[:2]) != 10 or number(octets[2:4]) != len(octets):
            raise Malformed
        self.export, self.sequence, self.domain = (number(octets[at : at + 4]) for at in (4, 8, 12))
        self.sets = []
        at = 16
        for id, body in sets_of(octets):
            self.sets.append((id, at + 4, body, list(touches_of(id, body, self.export))))
            at += 4 + len(body)


class Record(list):
    """The values of a record, with the octet of the message at which it begins, counted from 0, and its octets."""

    def __init__(self, values, start, octets):
        super().__init__(values)
        self.start, self.octets = start, octets


def records_at(start, fields, body):
    """The records of a body that begins at an octet of the message; None where it has no cutting into records and padding."""
    records = []
    while len(body) >= least(fields):
        found = record_of(fields, body)
        if found is None:
            return None
        values, rest = found
        size = len(body) - len(rest)
        records.append(Record(values, start, body[:size]))
        start, body = start + size, rest
    return records


class Touch:
    """A template record: the kind of its set, its ID, its definition, None where it is a withdrawal, and the export time of
    its message."""

    def __init__(self, kind, template, definition, export):
        self.kind, self.template, self.definition, self.export = kind, template, definition, export

    def ends_all(self):
        return self.definition is None and self.template == self.kind


def touches_of(id, body, export):
    if id in (TEMPLATES, OPTIONS):
        for template, definition in template_records_of(id, body):
            yield Touch(id, template, definition, export)


def last_touched(touches, wanted):
    """Over TCP and in files: what the last touch of the ID left, unless all of its kind were withdrawn behind it."""
    ended = set()
    for touch in reversed(touches):
        if touch.ends_all():
            ended.add(touch.kind)
        elif touch.template == wanted:
            if touch.definition is None or touch.kind in ended:
                return None
            return touch.definition
    return None


def newest(touches, wanted, export, lifetimes):
    """Over UDP: the definition with the greatest export time up to this one, the last of equals, while it lives."""
    found = None
    for touch in touches:
        if touch.template == wanted and touch.definition and touch.export <= export:
            if found is None or touch.export >= found.export:
                found = touch
    if found is None or export > found.export + lifetimes[found.kind]:
        return None
    return found.definition


class Domain:
    """What came of an Observation Domain in a session: the greatest export time, the template records that count, and the
    sequence number that is expected next."""

    def __init__(self):
        self.greatest = 0
        self.touches = []
        self.expected = None


class Decoder:
    """The messages of an input, in order."""

    def __init__(self, table):
        self.is_udp = table["kind"] == "udp"
        self.late = table.get("late", 1800)
        self.lifetimes = {
            TEMPLATES: table.get("template-lifetime", 1800),
            OPTIONS: table.get("options-lifetime", 1800),
        }
        self.domains = {}  # of each session those of its well-formed messages, each by its number
        self.counts = dict.fromkeys(COUNTS, 0)

    def valid(self, touches, wanted, export):
        if self.is_udp:
            return newest(touches, wanted, export, self.lifetimes)
        return last_touched(touches, wanted)

    def message(self, session, octets):
        """The domain, export time, sequence number and decoded sets of a message."""
        try:
            message = Message(octets)
        except Malformed:
            self.counts["malformed"] += 1
            return 0, 0, 0, []
        return message.domain, message.export, message.sequence, self.judged(session, message)

    def judged(self, session, message):
        """The decoded sets of a message: none where it isn't taken."""
        domains = self.domains.setdefault(session, {})
        if message.domain not in domains and len(domains) >= MOST_DOMAINS:
            self.counts["crowded"] += 1
            return []
        domain = domains.setdefault(message.domain, Domain())
        domain.greatest = max(domain.greatest, message.export)
        if self.is_udp and message.export + self.late < domain.greatest:
            self.counts["late"] += 1
            return []
        self.counts["messages"] += 1
        return self.taken(domain, message)

    def taken(self, domain, message):
        decoded, skipped = [], 0
        for id, start, body, touches in message.sets:
            for touch in touches:
                self.touched(domain, touch)
            if id in (TEMPLATES, OPTIONS):
                continue
            definition = self.valid(domain.touches, id, message.export) if id >= 256 else None
            records = records_at(start, definition[2], body) if definition else None
            if records is None:
                skipped += 1
            elif records:
                decoded.append((id, definition, records))
        records = sum(len(records) for _, _, records in decoded)
        self.counts["skipped"] += skipped
        self.counts["records"] += records
        self.numbered(domain, message.sequence)
        domain.expected = None if skipped else (message.sequence + records) % NUMBERS
        return decoded

    def touched(self, domain, touch):
        """A template record of a message that is taken. Over UDP a withdrawal does nothing."""
        if touch.definition is None:
            if self.is_udp:
                self.counts["ignored"] += 1
                return
        else:
            valid = self.valid(domain.touches, touch.template, touch.export)
            if valid is not None and valid != touch.definition:
                self.counts["redefined"] += 1
        domain.touches.append(touch)

    def numbered(self, domain, sequence):
        """How far a sequence number is from the one that is expected."""
        if domain.expected is None:
            return
        ahead = (sequence - domain.expected) % NUMBERS
        if ahead < NUMBERS // 2:
            self.counts["lost"] += ahead
        else:
            self.counts["disordered"] += 1


class Read:
    """All that an input answers before its end, its counts, whether its source failed, and how many events are left."""

    def __init__(self, number, table, events, failing):
        of, decoder = input_of(number, table), Decoder(table)
        answered, self.left, self.failed = answers(of, table.get("stop-after", 0), events, failing)
        self.answers = [self.item_of(decoder, answer) for answer in answered]
        self.counts = decoder.counts | of.counts

    def item_of(self, decoder, answer):
        match answer:
            case ("raw", number, session, octets):
                return "message", number, session, *decoder.message(session, octets)
            case _:
                return answer


def read_input(number, table, events, failing):
    """What an input of a description gives, from the lines of its source's events and the calls of it that fail."""
    return Read(number, table, [event_of(line) for line in events], failing)
