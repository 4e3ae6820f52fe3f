#!/usr/bin/env python3
"""swell.py FILE: makes an IPFIX File of three messages: a flow, a template of 15,000 fields of no octet behind one of an
octet, and 60,000 records of it. In lines of JSON each of these has 75,000 octets and more."""
import struct
import sys


def message(body, sequence):
    return struct.pack(">HHIII", 10, 16 + len(body), 100, sequence, 1) + body


def a_set(number, body):
    return struct.pack(">HH", number, 4 + len(body)) + body


flow = a_set(2, struct.pack(">HHHH", 256, 1, 1, 8)) + a_set(256, struct.pack(">Q", 7))
fields = struct.pack(">HH", 4, 1) + struct.pack(">HH", 8, 0) * 15000
wide = a_set(2, struct.pack(">HH", 257, 15001) + fields)
with open(sys.argv[1], "wb") as file:
    file.write(message(flow, 0) + message(wide, 1) + message(a_set(257, bytes(60000)), 1))
