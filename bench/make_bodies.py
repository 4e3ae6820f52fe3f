#!/usr/bin/env python3
"""make_bodies.py FIELDS PIECE MEGABYTES OUT: bodies of records of fixed fields (`PEN/ID/LENGTH,..`), the same on every machine,
in pieces of PIECE octets, which is to be a number of whole records. A value has few or many digits, as it comes, and a text
has letters."""
import random
import sys

STRINGS = (82, 83)


def value(flows, ident, length):
    if ident in STRINGS:
        return bytes(flows.choices(b'abcdefghijklmnopqrstuvwxyz/0123456789', k=length))
    if ident in (8, 12, 15, 18, 27, 28):
        return flows.randbytes(length)
    return flows.getrandbits(flows.randint(1, min(8 * length, 40))).to_bytes(length, 'big')


def main():
    fields = [tuple(map(int, word.split('/'))) for word in sys.argv[1].split(',')]
    piece, size, out = int(sys.argv[2]), int(sys.argv[3]) * 10**6, sys.argv[4]
    flows = random.Random(7011)
    pieces = []
    for _ in range(64):  # so many pieces come again and again
        octets = b''
        while True:
            record = b''.join(value(flows, ident, length) for _, ident, length in fields)
            if len(octets) + len(record) > piece:
                break
            octets += record
        pieces.append(octets)
    with open(out, 'wb') as file:
        written = 0
        while written < size:
            for octets in pieces:
                file.write(octets)
                written += len(octets)


main()
