"""A second reader of IPFIX Files that outputs write, apart from the program and slowly, from RFC 7011, RFC 5655 and
docs/FORMATS.md ("IPFIX Files out").

The definitions of a domain are kept in the order of their numbers, and looked through for each set.
"""

from exporters import NUMBERS, one_message, one_set, written

FIRST = 256


class AtLimit(Exception):
    """A message needs a Template ID above the last that may be given."""


class File:
    """What was written of each domain: its definitions in the order of their first use, and how many records."""

    def __init__(self, last):
        self.last = last
        self.definitions, self.records = {}, {}

    def take(self, domain, export, sets):
        """The octets of a message with sets, each a definition and its records. At the limit it isn't taken."""
        before = self.definitions.get(domain, [])
        known = list(before)
        for definition, _ in sets:
            if definition not in known:
                known.append(definition)
        if FIRST + len(known) - 1 > self.last:
            raise AtLimit
        self.definitions[domain] = known
        count = self.records.get(domain, 0)
        self.records[domain] = count + sum(len(records) for _, records in sets)
        sequence = count % NUMBERS
        ids = [(FIRST + place, definition) for place, definition in enumerate(known)]
        octets = b""
        for id, definition in ids[len(before) :]:
            octets += one_message(export, sequence, domain, one_set(definition[0], written(id, definition)))
        body = b""
        for definition, records in sets:
            [id] = [id for id, other in ids if other == definition]
            body += one_set(id, b"".join(record.octets for record in records))
        return octets + one_message(export, sequence, domain, body)
