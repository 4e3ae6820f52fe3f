"""Flows as a network of a company has them, by a seed: as records, as lines of JSON, and as IPFIX Files.

Nothing here reads what the program writes: the lines are put together from the records by docs/FORMATS.md, so that the
program's own can be held to them.
"""

import ipaddress
import random
import struct
from typing import NamedTuple

SEED = 7011
FLOWS = 3600
FILES = 24
# 2026-11-30 00:00:00 UTC, in seconds since 1970
MIDNIGHT = 1_795_996_800
HOUR = 3600
# how busy each hour of the day is
BUSY = (2, 1, 1, 1, 1, 2, 4, 9, 15, 18, 17, 16, 12, 15, 17, 16, 14, 11, 8, 7, 6, 5, 4, 3)
TCP, UDP, ICMP = 6, 17, 1
# protocol, port, weight, least and greatest octets of a request, the same of an answer, how often an answer is larger,
# least and greatest duration in milliseconds
SERVICES = (
    (TCP, 443, 46, 600, 6_000, 2_000, 90_000, 11, 40, 60_000),
    (UDP, 53, 22, 60, 120, 90, 500, 0, 0, 60),
    (UDP, 443, 11, 1_300, 8_000, 3_000, 200_000, 10, 100, 90_000),
    (TCP, 80, 6, 300, 1_500, 400, 60_000, 8, 20, 15_000),
    (UDP, 123, 4, 76, 76, 76, 76, 0, 1, 30),
    (TCP, 993, 3, 800, 5_000, 1_000, 40_000, 6, 200, 300_000),
    (TCP, 22, 2, 3_000, 60_000, 3_000, 80_000, 8, 1_000, 600_000),
    (TCP, 25, 2, 1_200, 90_000, 400, 900, 3, 300, 9_000),
    (ICMP, None, 4, 84, 840, 84, 840, 0, 0, 9_000),
)
WEIGHTS = [row[2] for row in SERVICES]
PACKET = 1_400


class Flow(NamedTuple):
    """A flow. Addresses are numbers; ICMP has no ports; times are in milliseconds since 1970."""

    version: int
    source: int
    destination: int
    source_port: int | None
    destination_port: int | None
    protocol: int
    octets: int
    packets: int
    started: int
    ended: int


class Network:
    """Who talks to whom: clients of which some are busy, and servers of which some are asked much."""

    def __init__(self, clients, servers):
        self.clients = clients
        self.servers = servers
        self.inside = int(ipaddress.ip_address("10.20.0.10"))
        self.outside = int(ipaddress.ip_address("198.18.0.20"))
        self.inside6 = int(ipaddress.ip_address("2001:db8:20::10"))
        self.outside6 = int(ipaddress.ip_address("2001:db8:9800::20"))

    def ends(self, chance, version):
        """The addresses of a client and of a server. The product of two draws makes the first of each the busiest."""
        client = int(chance.random() * chance.random() * self.clients)
        server = int(chance.random() * chance.random() * self.servers)
        if version == 6:
            return self.inside6 + client, self.outside6 + server
        return self.inside + client, self.outside + server


def conversation(chance, network, began):
    """The two flows of a request and its answer, in the order in which they end."""
    version = 6 if chance.random() < 0.18 else 4
    protocol, port, _, least, greatest, answer_least, answer_greatest, larger, shortest, longest = chance.choices(
        SERVICES, WEIGHTS
    )[0]
    if protocol == ICMP:
        version = 4
    client, server = network.ends(chance, version)
    own_port = None if port is None else chance.randrange(32768, 61000)
    sent = chance.randint(least, greatest)
    answered = chance.randint(answer_least, answer_greatest)
    if larger and chance.random() < 0.25:
        answered <<= chance.randint(1, larger)
    lasted = chance.randint(shortest, longest)
    later = chance.randint(0, min(lasted, 80))
    ended = began + lasted
    request = Flow(version, client, server, own_port, port, protocol, sent, 1 + sent // PACKET, began, ended)
    return [
        request,
        Flow(version, server, client, port, own_port, protocol, answered, 1 + answered // PACKET, began + later, ended),
    ]


def counts_of(flows, files):
    """How many flows each file has, by how busy its hour is; an even number in each."""
    weights = [BUSY[place % len(BUSY)] for place in range(files)]
    counts = [flows * weight // sum(weights) // 2 * 2 for weight in weights]
    counts[weights.index(max(weights))] += flows - sum(counts)
    return counts


def hour_of(place):
    """When the hour of a file begins, in seconds since 1970."""
    return MIDNIGHT + HOUR * place


def flows_of(place, count, seed=SEED, clients=60, servers=40):
    """The flows of the file of a place, in the order in which they end."""
    chance = random.Random(seed * 1_000_003 + place)
    network = Network(clients, servers)
    start = 1000 * hour_of(place)
    flows = []
    while len(flows) < count:
        flows += conversation(chance, network, start + chance.randrange(1000 * HOUR))
    return sorted(flows[:count], key=lambda flow: flow.ended)


def address(version, number):
    return str(ipaddress.IPv6Address(number) if version == 6 else ipaddress.IPv4Address(number))


INTERFACE = ("uplink", "to the provider")


def options_line():
    name, description = INTERFACE
    return (
        '{"@type":"ipfix.options","iana:ingressInterface":1,"iana:interfaceName":"%s",'
        '"iana:interfaceDescription":"%s"}\n' % (name, description)
    )


def line_of(flow):
    """The line of a flow."""
    kind = f"IPv{flow.version}Address"
    ports = ""
    if flow.source_port is not None:
        ports = f'"iana:sourceTransportPort":{flow.source_port},'
        ports += f'"iana:destinationTransportPort":{flow.destination_port},'
    return (
        f'{{"@type":"ipfix.entry","iana:source{kind}":"{address(flow.version, flow.source)}",'
        f'"iana:destination{kind}":"{address(flow.version, flow.destination)}",'
        f'{ports}"iana:protocolIdentifier":{flow.protocol},'
        f'"iana:octetDeltaCount":{flow.octets},"iana:packetDeltaCount":{flow.packets},'
        f'"iana:flowStartMilliseconds":{flow.started},"iana:flowEndMilliseconds":{flow.ended}}}\n'
    )


def template(identifier, fields):
    made = b"".join(struct.pack(">HH", element, length) for element, length in fields)
    return struct.pack(">HH", identifier, len(fields)) + made


# elements 8, 12: IPv4 addresses; 27, 28: IPv6 addresses; 7, 11: ports; 4: protocol; 1, 2: octets and packets;
# 152, 153: start and end in milliseconds
REST = ((4, 1), (1, 8), (2, 4), (152, 8), (153, 8))
PORTS = ((7, 2), (11, 2))
TEMPLATES = (
    template(256, ((8, 4), (12, 4), *PORTS, *REST))
    + template(257, ((27, 16), (28, 16), *PORTS, *REST))
    + template(258, ((8, 4), (12, 4), *REST))
)
# scope ingressInterface (10); interfaceName (82) and interfaceDescription (83) of varying length
OPTIONS_TEMPLATE = struct.pack(">HHHHHHHHH", 259, 3, 1, 10, 4, 82, 65535, 83, 65535)


def octets_of(flow):
    """The ID of the template of a flow, and the flow's record by it."""
    rest = struct.pack(">BQIQQ", flow.protocol, flow.octets, flow.packets, flow.started, flow.ended)
    if flow.version == 6:
        ends = flow.source.to_bytes(16, "big") + flow.destination.to_bytes(16, "big")
        return 257, ends + struct.pack(">HH", flow.source_port, flow.destination_port) + rest
    ends = struct.pack(">II", flow.source, flow.destination)
    if flow.source_port is None:
        return 258, ends + rest
    return 256, ends + struct.pack(">HH", flow.source_port, flow.destination_port) + rest


def one_set(identifier, body):
    return struct.pack(">HH", identifier, 4 + len(body)) + body


def message(export, sequence, sets):
    return struct.pack(">HHIII", 10, 16 + len(sets), export, sequence, 1) + sets


MOST_OCTETS = 1_400


def messages(flows, export):
    """The messages of an IPFIX File: templates, an options record, and the flows in order."""
    name, description = (text.encode() for text in INTERFACE)
    record = struct.pack(">I", 1) + bytes([len(name)]) + name + bytes([len(description)]) + description
    yield message(export, 0, one_set(2, TEMPLATES) + one_set(3, OPTIONS_TEMPLATE) + one_set(259, record))
    sequence, held, sets, kind, body = 1, 0, b"", None, b""
    for flow in flows:
        identifier, octets = octets_of(flow)
        size = 16 + len(sets) + 4 + len(body) + 4 + len(octets)
        if identifier != kind or size > MOST_OCTETS:
            sets += one_set(kind, body) if body else b""
            kind, body = identifier, b""
            if size > MOST_OCTETS:
                yield message(export, sequence, sets)
                sequence, held, sets = (sequence + held) % 2**32, 0, b""
        body += octets
        held += 1
        export = max(export, flow.ended // 1000 + 1)
    if body:
        yield message(export, sequence, sets + one_set(kind, body))


def name_of(place):
    """The name of the file of a place, by its day and hour."""
    return f"flows-{place // 24:02}-{place % 24:02}.ipfix"


def write_file(path, flows, place):
    """Writes an IPFIX File."""
    with open(path, "wb") as file:
        for octets in messages(flows, hour_of(place)):
            file.write(octets)
