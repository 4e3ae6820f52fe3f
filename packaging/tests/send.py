#!/usr/bin/env python3
"""send.py PORT FIRST COUNT [SECONDS]: sends COUNT datagrams to PORT of loopback over SECONDS (as fast as it goes)

Each is an IPFIX message with a template and one record, whose octetDeltaCount is FIRST and then each number behind it. All
come from one port, so that they are of one session, and their sequence numbers count up.
"""
import socket
import sys
import time


def message(number, sequence):
    template = bytes.fromhex("0002000c" "01000001" "00010008")
    record = bytes.fromhex("0100000c") + number.to_bytes(8, "big")
    body = template + record
    head = bytes.fromhex("000a") + (16 + len(body)).to_bytes(2, "big") + int(time.time()).to_bytes(4, "big")
    return head + sequence.to_bytes(4, "big") + (1).to_bytes(4, "big") + body


port, first, count = (int(word) for word in sys.argv[1:4])
seconds = float(sys.argv[4]) if len(sys.argv) > 4 else 0
with socket.socket(socket.AF_INET, socket.SOCK_DGRAM) as peer:
    begin = time.monotonic()
    for place in range(count):
        peer.sendto(message(first + place, place), ("127.0.0.1", port))
        rest = begin + seconds * (place + 1) / count - time.monotonic()
        if rest > 0:
            time.sleep(rest)
