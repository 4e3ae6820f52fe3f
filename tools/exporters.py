"""Exporters that send IPFIX messages at random (RFC 7011): most of them right, some with what a collector has to bear."""

from act_cases import VARIES, encoded, random_value, specifier

TEMPLATES, OPTIONS = 2, 3
NUMBERS = 2**32
HALF = 2**31

# Elements with the lengths that their values have; of no length, values of any.
ELEMENTS = {
    (0, 8): 4,
    (0, 12): 4,
    (0, 27): 16,
    (0, 4): 1,
    (0, 1): 8,
    (0, 7): 2,
    (0, 56): 6,
    (0, 82): None,
    (0, 150): 4,
    (0, 152): 8,
    (0, 154): 8,
    (0, 156): 8,
    (0, 210): 2,
    (0, 0): 3,
    (0, 999): None,
    (9, 8): 4,
    (9, 4): 1,
    (9, 7): 2,
    (6871, 1): None,
    (6871, 2): 1,
    (2**32 - 1, 32767): 4,
}

STRINGS = [b"", b"abc", b'a"b\\c', b"tab\tbell\x07\x00\x00", "gr\u00fc\u00dfe \u20ac \U0001f600".encode(), b"\xff\xfe", b"a\x00b", b"x" * 300]

# The seconds of NTP at 1970, with fractions around what is kept of them.
TIMES = [
    bytes.fromhex(text)
    for text in ("83aa7e8180000000", "83aa7e8100418938", "83aa7e7f00000000", "83aa7e80000007ff", "ffffffffffffffff")
]


class Domain:
    """What an exporter keeps of an Observation Domain: its templates as (kind, scope, fields) by their IDs, and the number of
    its next record."""

    def __init__(self, sequence):
        self.templates, self.sequence = {}, sequence


class Exporter:
    """An exporter. Its times move by the edges: lifetimes, and how late a message may be."""

    def __init__(self, source, definitions, edges):
        self.random, self.definitions, self.edges = source, definitions, edges
        self.export = source.choice([0, 100, 100, 5000, 5000, NUMBERS - 50])
        self.domains = {}

    def chance(self, part):
        return self.random.random() < part

    def time(self):
        """The export time of the next message."""
        kind = self.random.random()
        edge = self.random.choice(self.edges) + self.random.choice([-1, 0, 0, 1])
        if kind < 0.08:
            return max(0, self.export - edge)
        if kind < 0.12:
            return max(0, self.export - self.random.randrange(0, 10))
        step = edge if kind < 0.18 else self.random.choice([0, 0, 1, 2])
        self.export = min(NUMBERS - 1, self.export + step)
        return self.export

    def number(self, domain):
        """The sequence number of the next message of a domain."""
        kind = self.random.random()
        if kind < 0.06:
            domain.sequence += self.random.choice([1, 2, 100, HALF - 1])
        elif kind < 0.12:
            domain.sequence -= self.random.choice([1, 2, 100, HALF])
        domain.sequence %= NUMBERS
        return domain.sequence

    def value(self, element, length):
        if element in ((0, 82), (6871, 1)):
            return self.random.choice(STRINGS)[:length]
        if length == 8 and element in ((0, 154), (0, 156)):
            return self.random.choice(TIMES)
        if self.chance(0.1):
            return self.random.randbytes(length)
        return random_value(self.random, length)

    def record(self, definition):
        octets = b""
        for pen, id, length in definition[2]:
            size = length
            if length == VARIES:
                size = self.random.choice([0, 1, 4, 8, 254, 255, 300]) if self.chance(0.3) else ELEMENTS[pen, id] or 5
            value = self.value((pen, id), size)
            if length != VARIES:
                value = value.ljust(length, b"\0")
            octets += encoded((pen, id, length), value, self.chance(0.2))
        return octets

    def definition(self, kind):
        return self.random.choice([one for one in self.definitions if one[0] == kind])

    def template_record(self, domain, kind):
        """A definition, or a withdrawal of one template, or of all."""
        if self.chance(0.15):
            template = kind if self.chance(0.3) else self.template()
            domain.templates = {} if template == kind else domain.templates
            domain.templates.pop(template, None)
            return template.to_bytes(2, "big") + bytes(2)
        template = self.template()
        known = domain.templates.get(template)
        definition = known if known and known[0] == kind and self.chance(0.6) else self.definition(kind)
        domain.templates[template] = definition
        return written(template, definition)

    def template(self):
        return self.random.choice([256, 256, 257, 258, 65535])

    def template_set(self, domain, kind):
        records = [self.template_record(domain, kind) for _ in range(self.random.choice([1, 1, 1, 2, 3]))]
        return one_set(kind, b"".join(records) + bytes(self.random.choice([0, 0, 0, 1, 3, 4, 9])))

    def data_set(self, domain):
        """Records of a template, and padding."""
        template = self.random.choice(list(domain.templates))
        definition = domain.templates[template]
        records = [self.record(definition) for _ in range(self.random.choice([0, 1, 1, 2, 3, 5]))]
        domain.sequence = (domain.sequence + len(records)) % NUMBERS
        body = b"".join(records)
        if self.chance(0.06):
            return one_set(template, body[: self.random.randrange(0, len(body) + 1)])
        padding = self.random.choice([0, 0, 0, 1, 2, 3, 4])
        return one_set(template, body + (bytes(padding) if self.chance(0.5) else self.random.randbytes(padding)))

    def set(self, domain):
        kind = self.random.random()
        if kind < 0.03:
            return one_set(self.random.choice([0, 1, 4, 255]), self.random.randbytes(self.random.choice([0, 4, 7])))
        if kind < 0.06:
            return one_set(self.random.choice([259, 300, 65534]), self.random.randbytes(self.random.choice([0, 4, 8])))
        if domain.templates and kind < 0.75:
            return self.data_set(domain)
        return self.template_set(domain, TEMPLATES if self.chance(0.75) else OPTIONS)

    def bad_set(self):
        """A set that no message may have."""
        return bytes.fromhex(self.random.choice(BAD_SETS))

    def message(self):
        name = self.random.choice([0, 1, 1, 1, 2, NUMBERS - 1])
        if name not in self.domains:
            self.domains[name] = Domain(self.random.choice([0, 0, 7, NUMBERS - 2]))
        domain = self.domains[name]
        export, sequence = self.time(), self.number(domain)
        sets = [self.set(domain) for _ in range(self.random.choice([0, 1, 1, 1, 2, 2, 3, 5]))]
        if self.chance(0.03):
            sets.insert(self.random.randrange(0, len(sets) + 1), self.bad_set())
        return one_message(export, sequence, name, b"".join(sets))


# Lengths of sets that are wrong, IDs of templates that are too small, scope fields that can't be, specifiers that are cut,
# and records without octets.
BAD_SETS = [
    "01000003",
    "010000ff",
    "0200",
    "0002000c00ff000100080004",
    "0003000800020000",
    "0002000800030000",
    "0003000e010000010000" + "00080004",
    "0003000e010000010002" + "00080004",
    "0003000801000001",
    "0002000c0100000200080004",
    "0002000c0100000180080004",
    "0002000c0100000100080000",
]


def written(template, definition):
    """The template record of a definition."""
    kind, scope, fields = definition
    octets = template.to_bytes(2, "big") + len(fields).to_bytes(2, "big")
    if kind == OPTIONS:
        octets += scope.to_bytes(2, "big")
    return octets + b"".join(map(specifier, fields))


def one_set(id, body):
    return id.to_bytes(2, "big") + (4 + len(body)).to_bytes(2, "big") + body


def one_message(export, sequence, domain, sets):
    numbers = b"".join(number.to_bytes(4, "big") for number in (export, sequence, domain))
    return b"\0\x0a" + (16 + len(sets)).to_bytes(2, "big") + numbers + sets


def a_definition(source, kind):
    """A definition, whose shortest record has an octet at least."""
    fields = []
    for pair in source.choices(list(ELEMENTS), k=source.choice([1, 1, 2, 3, 5])):
        length = ELEMENTS[pair] or source.choice([0, 1, 4, 8, 16])
        if source.random() < 0.1:
            length = source.randrange(0, 10)
        fields.append((*pair, VARIES if source.random() < 0.25 else length))
    if not any(length for _, _, length in fields):
        fields.append((0, 8, 4))
    return kind, source.randrange(1, len(fields) + 1) if kind == OPTIONS else 0, fields
