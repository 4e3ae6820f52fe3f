"""Flows out of the program's lines of JSON (docs/FORMATS.md, "JSON").

A line is taken as it stands or not at all: what is cut, or has an element of another type than the one that is asked
for, is a fault with its line. An element that isn't asked for may be anything.
"""

import gzip
import json
import socket
import sys
import zlib

from .faults import Fault

# The greatest number that a database keeps, and that we take: signed, in 64 bits.
MOST = 2**63 - 1
# The usual size of a block of lines, in octets.
BLOCK = 32 * 2**20

SOURCE = (("iana:sourceIPv4Address", socket.AF_INET), ("iana:sourceIPv6Address", socket.AF_INET6))
DESTINATION = (("iana:destinationIPv4Address", socket.AF_INET), ("iana:destinationIPv6Address", socket.AF_INET6))
SOURCE_PORT = ("iana:sourceTransportPort",)
DESTINATION_PORT = ("iana:destinationTransportPort",)
PROTOCOL = ("iana:protocolIdentifier",)
OCTETS = ("iana:octetDeltaCount", "iana:octetTotalCount")
PACKETS = ("iana:packetDeltaCount", "iana:packetTotalCount")
# All times are printed in milliseconds since 1970.
STARTED = tuple("iana:flowStart" + unit for unit in ("Milliseconds", "Seconds", "Microseconds", "Nanoseconds"))
ENDED = tuple("iana:flowEnd" + unit for unit in ("Milliseconds", "Seconds", "Microseconds", "Nanoseconds"))


# What stands in the tuple of a flow, which is a data record. What the record doesn't have is None; times are in
# milliseconds since 1970.
COLUMNS = (
    "source", "destination", "source_port", "destination_port", "protocol", "octets", "packets", "started", "ended",
)


class Options(str):
    """An options record, which says something of the exporter and is no flow: its line, without the line feed."""


class Unlike(Exception):
    """Why a line is no record, or not one that can be taken."""


def shown(value):
    """A value as it stands in the line, if it isn't too long."""
    text = json.dumps(value, ensure_ascii=False)
    return text if len(text) <= 40 else text[:37] + "..."


def number(record, names, most):
    """The first of these elements that is there."""
    for name in names:
        if name in record:
            value = record[name]
            if type(value) is int and 0 <= value <= most:
                return value
            raise Unlike(f"{name} is {shown(value)}, and not one number from 0 to {most}")
    return None


def has_form(family, text):
    try:
        socket.inet_pton(family, text)
    except (OSError, ValueError):
        return False
    return True


class Reader:
    """Reads lines; it remembers the addresses that it has seen to be addresses."""

    def __init__(self):
        self.known = {socket.AF_INET: set(), socket.AF_INET6: set()}

    def address(self, record, choices):
        """The first of these elements that is there."""
        for name, family in choices:
            if name in record:
                value = record[name]
                if type(value) is not str:
                    raise Unlike(f"{name} is {shown(value)}, and not one address")
                if value not in self.known[family]:
                    if not has_form(family, value):
                        raise Unlike(f"{name} is {shown(value)}, and not an address of its kind")
                    self.known[family].add(value)
                return value
        return None

    def read(self, line):
        """The flow or the options record of a line, which is octets."""
        try:
            text = str(line, "utf-8").removesuffix("\n")
            record = json.loads(text)
        except (ValueError, RecursionError):
            whole = line.endswith(b"\n")
            raise Unlike("not JSON" if whole else "cut: the file ends within it") from None
        kind = record.get("@type") if type(record) is dict else None
        if kind == "ipfix.entry":
            return (
                self.address(record, SOURCE),
                self.address(record, DESTINATION),
                number(record, SOURCE_PORT, 65535),
                number(record, DESTINATION_PORT, 65535),
                number(record, PROTOCOL, 255),
                number(record, OCTETS, MOST),
                number(record, PACKETS, MOST),
                number(record, STARTED, MOST),
                number(record, ENDED, MOST),
            )
        if kind == "ipfix.options":
            return Options(text)
        raise Unlike('no record: its "@type" is neither "ipfix.entry" nor "ipfix.options"')


def opened(name):
    """A file, also a compressed one by its name, or standard input by the name `-`, as octets."""
    try:
        if name == "-":
            return sys.stdin.buffer
        return gzip.open(name, "rb") if str(name).endswith(".gz") else open(name, "rb")
    except OSError as error:
        raise Fault(f"{name}: {error.strerror}") from None


def records(file, name):
    """The records of an open file. A file without one is a fault."""
    reader = Reader()
    count = 0
    try:
        for count, line in enumerate(file, 1):
            yield reader.read(line)
    except Unlike as why:
        raise Fault(f"{name}: line {count}: {why}") from None
    except (OSError, EOFError, zlib.error) as error:
        raise Fault(f"{name}: {error}") from None
    if count == 0:
        raise Fault(f"{name}: empty: there is no record in it")


def block_records(name, start, size):
    """The records of the lines that begin within a block of a file."""
    reader = Reader()
    with open(name, "rb") as file:
        file.seek(max(start - 1, 0))
        at = file.tell() + (len(file.readline()) if start else 0)
        while at < start + size and (line := file.readline()):
            try:
                yield reader.read(line)
            except Unlike as why:
                raise Fault(f"{name}: line {line_number(name, at)}: {why}") from None
            at += len(line)


def line_number(name, at):
    """The number of the line that begins at an octet of a file."""
    with open(name, "rb") as file:
        return 1 + sum(file.read(min(1 << 20, at - done)).count(b"\n") for done in range(0, at, 1 << 20))


def blocks(octets, size):
    """The blocks of a file of so many octets, each as its start and its size."""
    return [(start, min(size, octets - start)) for start in range(0, octets, size)]
