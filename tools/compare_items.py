#!/usr/bin/env python3
"""compare_items.py PROGRAM [SCRIPTS [SEED]]: holds `PROGRAM items` to a second reader, written apart and slowly.

    tools/compare_items.py crates/item_run/out/item_run 2000
    tools/compare_items.py cases SCRIPTS SEED > crates/item_run/data/random.cases

Each script has up to three inputs over files, TCP and UDP, whose exporters send messages of a few domains: templates, options
templates and withdrawals, the same again and others for the same ID, data before its template and with padding, values of
varying length, sequence numbers that are right, skip, fall behind and wrap, export times that go back, messages that break a
rule, and streams that close, with calls of a source that fail; and up to three intermediates, in half of the scripts. What `PROGRAM items` prints of them is compared with what
tools/item_lines.py reads. The first script that differs is kept in the system's folder for temporary files. With the word `cases`
in the place of the program the scripts are printed as cases, with what is to come of each.
"""

import sys

sys.dont_write_bytecode = True

import act_cases
import compare_arrivals
import compare_direct
from compared import main
from decoded import VARIABLE
from item_lines import listing

# More domains than a session may have, also where some of their messages break a rule.
MANY_DOMAINS = range(1100, 1200)

NUMBERS = 2**32


class Exporter(compare_direct.Maker):
    """What one exporter sends."""

    def __init__(self, source):
        super().__init__(source)
        self.time = source.choice([0, 100, 2000, 2000, 2000, NUMBERS - 40])
        self.due = {}
        self.last = {}
        self.domains = 1 if self.chance(0.5) else 3

    def chance(self, part):
        return self.random.random() < part

    def field(self):
        enterprise = self.random.choice([0, 0, 0, 0, 9])
        return (enterprise, self.random.choice([0, 1, 8, 8, 12, 32767]), self.random.choice([0, 1, 4, 4, 4, 4, VARIABLE]))

    def fields(self):
        return [self.field() for _ in range(self.random.choice([1, 1, 1, 2, 3]))]

    def value(self, length):
        if length != VARIABLE:
            return self.octets(length)
        size = self.random.choice([0, 1, 3, 4, 4, 8, 254, 255]) if self.chance(0.1) else self.random.choice([0, 3, 4])
        long = size > 254 or self.chance(0.2)
        return (b"\xff" + size.to_bytes(2, "big") if long else bytes([size])) + self.octets(size)

    def template_set(self, domain):
        """Template records, or those that came last in this domain once more."""
        if domain in self.last and self.chance(0.35):
            return self.last[domain]
        self.last[domain] = super().template_set(domain)
        return self.last[domain]

    def data_set(self, domain):
        """Records of a template that was sent, most of them, or of any."""
        sent = sorted(template for of, template in self.definitions if of == domain)
        if not sent or self.chance(0.2):
            return super().data_set(domain)
        template = self.random.choice(sent)
        fields = self.definitions[domain, template]
        records = self.random.choice([0, 1, 1, 2, 3])
        body = b"".join(self.value(length) for _ in range(records) for _, _, length in fields)
        return self.set_with(template, body + self.random.randbytes(self.random.choice([0, 0, 0, 1, 2, 3])))

    def export(self):
        if self.chance(0.1):
            return max(0, self.time - self.random.choice([1, 2, 3, 5, 6, 10, 11, 1799, 1800, 1801]))
        if self.chance(0.03):
            return min(NUMBERS - 1, self.time + self.random.choice([1, 5, 30, 1801]))
        self.time = min(NUMBERS - 1, self.time + self.random.choice([0, 0, 1, 1, 2, 5]))
        return self.time

    def sequence(self, domain):
        due = self.due.get(domain, self.random.choice([0, 0, NUMBERS - 1, NUMBERS - 3, NUMBERS // 2]))
        if self.chance(0.75):
            return due
        step = self.random.choice([1, 2, 5, -1, -2, -5, NUMBERS // 2 - 1, NUMBERS // 2, NUMBERS // 2 + 1])
        return (due + step) % NUMBERS

    def message(self, domain):
        """A message of a domain. What it counts as is known only by reading it, so that the next number due is guessed."""
        body = b"".join(self.any_set(domain) for _ in range(self.random.choice([0, 1, 1, 2, 2, 3, 4])))
        sequence = self.sequence(domain)
        self.due[domain] = (sequence + self.random.choice([0, 0, 1, 1, 2, 3])) % NUMBERS
        numbers = (self.export(), sequence, domain)
        head = b"\0\x0a" + (16 + len(body)).to_bytes(2, "big") + b"".join(each.to_bytes(4, "big") for each in numbers)
        return self.changed(bytearray(head + body))

    def changed(self, message):
        """Now and then an octet behind the version and the length is another one."""
        if self.chance(0.05) and len(message) > 16:
            message[self.random.randrange(16, len(message))] = self.random.choice([0, 1, 2, 3, 4, 255, self.random.randrange(256)])
        return bytes(message)

    def next_message(self):
        return self.message(self.random.choice([0, 1, NUMBERS - 1][: self.domains]))

    def of_many_domains(self):
        """One message of each of more domains than a session may have, and then some of the first and the last."""
        count = self.random.choice(MANY_DOMAINS)
        messages = [self.message(domain) for domain in range(count)]
        return messages + [self.message(self.random.choice([0, 1, 1022, 1023, 1024, count])) for _ in range(20)]

    def datagram(self, message):
        """A message as it comes over UDP, where its version and length may be others."""
        if self.chance(0.96):
            return message
        wrong = [message[:-1], message + b"\0", b"\0\x09" + message[2:], message[:12], b""]
        return self.random.choice(wrong)


# The elements of most values.
PAIRS = [{"id": 8}, {"id": 12}, {"pen": 9, "id": 8}]


class Maker(compare_arrivals.Maker):
    """Makes scripts whose sources give what exporters send."""

    def rule(self):
        """A rule that some values pass, of those at random."""
        test = self.random.choice(["present", "between", "prefix", "prefix"])
        rule = {**self.random.choice([*PAIRS, {"id": 1}, {"id": 0}]), "test": test}
        if test == "between":
            rule |= {"low": self.random.choice([0, 1, 100]), "high": 2 ** self.random.choice([7, 30, 31])}
        elif test == "prefix":
            rule["value"] = f"{self.random.choice([0, 64, 128])}.0.0.0/{self.random.choice([1, 2])}"
        return rule | {"act": self.random.choice(["keep", "drop"])}

    def intermediate(self, number):
        table = {"name": f"m{number}", "kind": self.random.choice(["filter", "filter", "anonymise"])}
        if table["kind"] == "filter":
            rules = [self.rule() for _ in range(self.random.randrange(4))]
            return table | {"default": self.random.choice(["keep", "keep", "drop"]), "rule": rules}
        return table | {"field": self.random.sample(PAIRS, self.random.randrange(1, 4)), "cut4": self.random.choice([0, 1, 2, 8, 24])}

    def intermediates(self):
        tables = [self.intermediate(number) for number in range(self.random.choice([0, 0, 0, 1, 2, 3]))]
        return [line for table in tables for line in ("[[intermediate]]", *(f"{key} = {act_cases.toml(value)}" for key, value in table.items()))]

    def table(self, number, transport):
        lines, place = super().table(number, transport)
        for key in ("template-lifetime", "options-lifetime", "late"):
            if transport == "udp" and self.chance(0.7):
                lines.append(f"{key} = {self.random.choice([1, 2, 5, 5, 10, 10, 1000000000])}")
        return lines, place

    def brought(self, whose, transport, message):
        """The events by which a message comes."""
        if transport == "udp":
            return [f"datagram 0 {whose} 4739 {message.hex() or '-'}"]
        cuts = sorted({0, len(message), *(self.random.randrange(len(message) + 1) for _ in range(self.random.choice([0, 0, 0, 1, 2])))})
        return [f"bytes {whose} {message[a:b].hex()}" for a, b in zip(cuts, cuts[1:])]

    def closes(self, whose, exporters, message):
        """A connection closes, now and then within a message or behind what is none."""
        exporters.pop(whose)
        before = []
        if self.chance(0.3):
            before = [f"bytes {whose} {self.random.choice([message[:10].hex(), '00090010', '000a000f'])}"]
        return before + [f"closed {whose}"]

    def events(self, transport, count):
        exporters, clock, lines = {}, 0, []
        for _ in range(count):
            kind = self.random.random()
            if kind < 0.03:
                lines.append("notyet")
            elif kind < 0.1:
                clock = self.tick(clock)
                lines.append(f"tick {clock}")
            else:
                lines += self.of_exporter(self.random.choice([1, 1, 1, 2, 3]), transport, exporters)
        return lines

    def of_exporter(self, whose, transport, exporters):
        if whose not in exporters:
            exporters[whose] = Exporter(self.random)
            return [] if transport == "udp" else [f"opened {whose}"]
        exporter = exporters[whose]
        message = exporter.next_message()
        if transport == "udp":
            return self.brought(whose, transport, exporter.datagram(message))
        if self.chance(0.04):
            return self.closes(whose, exporters, message)
        return self.brought(whose, transport, message)

    def many(self, transport):
        """Messages of more domains than a session may have."""
        opened = [] if transport == "udp" else ["opened 9"]
        messages = Exporter(self.random).of_many_domains()
        return opened + [event for message in messages for event in self.brought(9, transport, message)]

    def events_of(self, transport, is_long):
        before = self.events(transport, self.random.randrange(0, 60))
        return before + self.many(transport) + self.events(transport, 20) if is_long else before


if __name__ == "__main__":
    sys.exit(main(sys.argv[1:], "items", listing, Maker))
