#!/usr/bin/env python3
"""make_file.py MEGABYTES OUT [FIELDS]: an IPFIX File of flows with 3 or 12 fields each, the same on every machine.

Each message has about 1,300 octets: a Template Set in the first, and then Data Sets with records. Three fields are
sourceIPv4Address, destinationIPv4Address and octetDeltaCount in eight octets; twelve have ports, the protocol, packets,
two times in milliseconds, flags and two interfaces beside them."""
import random
import struct
import sys

# Of each element its ID and its length, and how many octets the records of a message have at most.
THREE = ((8, 4), (12, 4), (1, 8))
TWELVE = ((8, 4), (12, 4), (7, 2), (11, 2), (4, 1), (1, 8), (2, 8), (152, 8), (153, 8), (6, 1), (10, 4), (14, 4))
MOST = 1280
EXPORT = 1_700_000_000


def template(fields):
    pairs = b''.join(struct.pack('>HH', *field) for field in fields)
    return struct.pack('>HHHH', 2, 8 + len(pairs), 256, len(fields)) + pairs


def message(body, number):
    return struct.pack('>HHIII', 10, 16 + len(body), EXPORT, number % 2**32, 1) + body


def three(flows):
    return struct.pack('>IIQ', flows.getrandbits(32), flows.getrandbits(32), flows.getrandbits(flows.randint(1, 40)))


def twelve(flows):
    octets, start = flows.getrandbits(flows.randint(6, 30)), 1000 * EXPORT - flows.randrange(60000)
    return struct.pack(
        '>IIHHBQQQQBII', flows.getrandbits(32), flows.getrandbits(32), 32768 + flows.getrandbits(15),
        flows.choice((443, 443, 80, 53, 22, 8080)), flows.choice((6, 6, 17)), octets, 1 + octets // 700,
        start, start + flows.randrange(30000), flows.getrandbits(5), flows.randint(1, 8), flows.randint(1, 100))


def main():
    size, out = int(sys.argv[1]) * 10**6, sys.argv[2]
    fields, record = (TWELVE, twelve) if sys.argv[3:] == ['12'] else (THREE, three)
    count = MOST // sum(length for _, length in fields)
    flows = random.Random(7011)
    written = number = 0
    with open(out, 'wb') as file:
        while written < size:
            records = b''.join(record(flows) for _ in range(count))
            body = struct.pack('>HH', 256, 4 + len(records)) + records
            octets = message(template(fields) + body if number == 0 else body, number)
            file.write(octets)
            written += len(octets)
            number += count


main()
