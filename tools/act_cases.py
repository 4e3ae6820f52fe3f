#!/usr/bin/env python3
"""Writes the cases of act_run: intermediates, records, and what becomes of each.

A second reader of filters and anonymisers, from FORMATS.md and OPERATING.md ("Intermediates"): it works each fate out by
itself, over the values of a record and Python's own addresses. Run it as tools/act_cases.py > crates/act_run/data/acts.cases
"""
import ipaddress
import random

VARIES = 65535


def specifier(field):
    pen, id, length = field
    octets = ((0x8000 if pen else 0) | id).to_bytes(2, 'big') + length.to_bytes(2, 'big')
    return octets + (pen.to_bytes(4, 'big') if pen else b'')


def encoded(field, value, long):
    """A value as its field has it (RFC 7011, section 7)."""
    if field[2] != VARIES:
        return value
    if long or len(value) > 254:
        return b'\xff' + len(value).to_bytes(2, 'big') + value
    return bytes([len(value)]) + value


def bits_of(octets):
    return ''.join(f'{octet:08b}' for octet in octets)


def octets_of(bits):
    return bytes(int(bits[at:at + 8], 2) for at in range(0, len(bits), 8))


def parse_prefix(text):
    address, bits = text.split('/')
    return ipaddress.ip_address(address).packed, int(bits)


def in_prefix(text, value):
    octets, bits = parse_prefix(text)
    return len(value) == len(octets) and bits_of(value)[:bits] == bits_of(octets)[:bits]


def passes(rule, value):
    if rule['test'] == 'present':
        return True
    if rule['test'] == 'prefix':
        return in_prefix(rule['value'], value)
    if not 1 <= len(value) <= 8:
        return False
    number = int.from_bytes(value, 'big')
    if rule['test'] == 'equal':
        return number == rule['value']
    return rule['low'] <= number <= rule['high']


def is_kept(stage, fields, values):
    for rule in stage.get('rule', []):
        for (pen, id, _), value in zip(fields, values):
            if (pen, id) == (rule.get('pen', 0), rule['id']) and passes(rule, value):
                return rule['act'] == 'keep'
    return stage.get('default', 'keep') == 'keep'


def changed_value(stage, value):
    best = None
    for row in stage.get('row', []):
        bits = parse_prefix(row['from'])[1]
        if in_prefix(row['from'], value) and (best is None or bits > best[0]):
            best = bits, ipaddress.ip_address(row['to']).packed
    if best:
        return octets_of(bits_of(best[1])[:best[0]] + bits_of(value)[best[0]:])
    keep = stage.get('cut4', 32) if len(value) == 4 else stage.get('cut6', 128)
    return octets_of(bits_of(value)[:keep].ljust(8 * len(value), '0'))


def changed(stage, fields, values):
    listed = {(pair.get('pen', 0), pair['id']) for pair in stage['field']}
    return [changed_value(stage, value) if (pen, id) in listed and len(value) in (4, 16) else value
            for (pen, id, _), value in zip(fields, values)]


def toml(value):
    if isinstance(value, dict):
        return '{ ' + ', '.join(f'{key} = {toml(member)}' for key, member in value.items()) + ' }'
    if isinstance(value, list):
        return '[' + ', '.join(map(toml, value)) + ']'
    if isinstance(value, bool):
        return str(value).lower()
    return str(value) if isinstance(value, int) else f'"{value}"'


def show(stage, fields, values, forms=None):
    forms = forms or [False] * len(fields)
    joined = lambda values: b''.join(map(encoded, fields, values, forms)).hex()
    if stage['kind'] == 'filter':
        fate = 'kept' if is_kept(stage, fields, values) else 'dropped'
    else:
        fate = joined(changed(stage, fields, values))
    print(b''.join(map(specifier, fields)).hex(), joined(values), fate, toml(stage))


def address(text):
    return ipaddress.ip_address(text).packed


def worked():
    print('# worked examples')
    source = [(0, 8, 4)]
    rows = {'kind': 'anonymise', 'name': 'hide', 'field': [{'id': 8}],
            'row': [{'from': '10.0.0.0/8', 'to': '192.0.0.0'}, {'from': '10.1.0.0/16', 'to': '198.51.0.0'}]}
    for text in ('10.1.2.3', '10.9.8.7', '11.0.0.1'):
        show(rows, source, [address(text)])
        show({**rows, 'row': rows['row'][::-1]}, source, [address(text)])
    show({'kind': 'anonymise', 'name': 'hide', 'field': [{'id': 8}], 'cut4': 24}, source, [address('10.1.2.3')])
    drop = {'kind': 'filter', 'name': 'some',
            'rule': [{'id': 8, 'test': 'prefix', 'value': '10.1.0.0/16', 'act': 'drop'}]}
    for text in ('10.1.2.3', '10.2.0.1'):
        show(drop, source, [address(text)])


def edges():
    print('# numbers of all lengths, and ranges at both ends')
    for size in range(0, 10):
        for value in (5, 6, 7, 8):
            octets = value.to_bytes(size, 'big') if size else b''
            field = [(0, 1, VARIES)]
            show({'kind': 'filter', 'name': 'f', 'default': 'drop',
                  'rule': [{'id': 1, 'test': 'between', 'low': 6, 'high': 7, 'act': 'keep'}]}, field, [octets])
    for value in (2 ** 63 - 2, 2 ** 63 - 1, 2 ** 63, 2 ** 64 - 1):
        show({'kind': 'filter', 'name': 'f', 'rule': [{'id': 1, 'test': 'equal', 'value': 2 ** 63 - 1, 'act': 'drop'}]},
             [(0, 1, 8)], [value.to_bytes(8, 'big')])
    print('# prefixes of each length around an address, in one octet and within octets')
    for text, other in (('10.77.200.33', '10.77.200.32'), ('255.255.255.255', '0.0.0.0'), ('0.0.0.0', '128.0.0.0')):
        for bits in (0, 1, 7, 8, 9, 15, 16, 17, 23, 24, 25, 30, 31, 32):
            row = [{'from': f'{text}/{bits}', 'to': '198.51.100.77'}]
            stage = {'kind': 'anonymise', 'name': 'h', 'field': [{'id': 8}, {'id': 12}], 'cut4': bits, 'row': row}
            show(stage, [(0, 8, 4), (0, 12, 4)], [address(text), address(other)])
    for text, other in (('2001:db8:1:2:3:4:5:6', '2001:db8:1:2:3:4:5:7'), ('ffff:' * 7 + 'ffff', '::')):
        for bits in (0, 1, 31, 32, 33, 63, 64, 65, 127, 128):
            row = [{'from': f'{text}/{bits}', 'to': '2001:db8:ffff::1'}]
            stage = {'kind': 'anonymise', 'name': 'h', 'field': [{'id': 27}], 'cut6': bits, 'row': row}
            show(stage, [(0, 27, 16), (0, 27, VARIES)], [address(text), address(other)])


def random_value(draw, length):
    if length == 4:
        return bytes([10, draw.choice([0, 1, 2]), draw.choice([0, 3]), draw.randrange(256)])
    if length == 16:
        return address('2001:db8::')[:4] + bytes([0, draw.choice([0, 1])]) + bytes(draw.randrange(256) for _ in range(10))
    return bytes([0] * max(length - 1, 0) + [draw.randrange(8)] * min(length, 1))


def random_record(draw):
    fields, values = [], []
    for _ in range(draw.randrange(1, 7)):
        pen, id = draw.choice([(0, 8), (0, 12), (0, 27), (0, 4), (0, 1), (9, 8), (9, 4)])
        length = draw.choice([1, 2, 4, 4, 4, 8, 9, 16, 16])
        fields.append((pen, id, VARIES if draw.random() < 0.3 else length))
        values.append(random_value(draw, length))
    return fields, values, [draw.random() < 0.4 for _ in fields]


def random_prefix(draw):
    if draw.random() < 0.3:
        return f'2001:db8:{draw.choice([0, 1])}::/{draw.choice([16, 32, 47, 48, 60])}'
    return f'10.{draw.choice([0, 1, 2])}.{draw.choice([0, 3])}.0/{draw.choice([5, 8, 12, 15, 16, 20, 24])}'


def random_rule(draw):
    pen, id = draw.choice([(0, 8), (0, 12), (0, 27), (0, 4), (0, 1), (9, 8), (9, 4), (0, 999)])
    rule = {'pen': pen} if pen else {}
    rule.update(id=id, test=draw.choice(['present', 'equal', 'between', 'between', 'prefix', 'prefix']))
    if rule['test'] == 'equal':
        rule['value'] = draw.randrange(8)
    elif rule['test'] == 'between':
        rule['low'] = draw.randrange(8)
        rule['high'] = rule['low'] + draw.randrange(4)
    elif rule['test'] == 'prefix':
        rule['value'] = random_prefix(draw)
    rule['act'] = draw.choice(['keep', 'drop'])
    return rule


def random_row(draw):
    start = random_prefix(draw)
    return {'from': start, 'to': '2001:db8:aaaa:bbbb:cccc::' if ':' in start else f'198.51.{draw.randrange(256)}.{draw.randrange(256)}'}


def distinct(rows):
    """A prefix stands once in an anonymiser, however it is written."""
    kept, seen = [], set()
    for row in rows:
        octets, bits = parse_prefix(row['from'])
        key = len(octets), bits, bits_of(octets)[:bits]
        if key not in seen:
            seen.add(key)
            kept.append(row)
    return kept


def at_random(draw, count):
    print('# at random: filters')
    for _ in range(count):
        stage = {'kind': 'filter', 'name': 'f', 'default': draw.choice(['keep', 'drop']),
                 'rule': [random_rule(draw) for _ in range(draw.randrange(0, 7))]}
        show(stage, *random_record(draw))
    print('# at random: anonymisers')
    for _ in range(count):
        pairs = draw.sample([{'id': 8}, {'id': 12}, {'id': 27}, {'pen': 9, 'id': 8}], draw.randrange(1, 4))
        stage = {'kind': 'anonymise', 'name': 'h', 'field': pairs, 'cut4': draw.randrange(33), 'cut6': draw.randrange(129),
                 'row': distinct([random_row(draw) for _ in range(draw.randrange(0, 12))])}
        show(stage, *random_record(draw))


if __name__ == '__main__':
    print('# Written by tools/act_cases.py. SPECIFIERS RECORD FATE INTERMEDIATE')
    worked()
    edges()
    at_random(random.Random(7011), 120)
