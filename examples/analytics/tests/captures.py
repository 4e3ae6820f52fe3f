"""Captures made by hand: what went over a wire, as a pcap file."""

import ipaddress
import struct

ETHERNET = bytes.fromhex("020000000002020000000001")
SYN, ACK, PUSH, FIN = 2, 16, 8, 1


def internet(source, destination, protocol, payload, identifier=0, fragment=0):
    """An Ethernet frame with a packet of IPv4 or IPv6. The fragment field of IPv4 is offset and flag as they stand."""
    ends = ipaddress.ip_address(source), ipaddress.ip_address(destination)
    if ends[0].version == 6:
        header = struct.pack(">IHBB", 6 << 28, len(payload), protocol, 64)
        return ETHERNET + b"\x86\xdd" + header + ends[0].packed + ends[1].packed + payload
    header = struct.pack(">BBHHHBBH", 0x45, 0, 20 + len(payload), identifier, fragment, 64, protocol, 0)
    return ETHERNET + b"\x08\x00" + header + ends[0].packed + ends[1].packed + payload


def udp(source, source_port, destination, destination_port, payload):
    header = struct.pack(">HHHH", source_port, destination_port, 8 + len(payload), 0)
    return internet(source, destination, 17, header + payload)


def udp_in_fragments(source, source_port, destination, destination_port, payload, size=800):
    """The same in fragments of IPv4."""
    whole = struct.pack(">HHHH", source_port, destination_port, 8 + len(payload), 0) + payload
    return [
        internet(source, destination, 17, whole[at : at + size], 77, 0x2000 * (at + size < len(whole)) | at // 8)
        for at in range(0, len(whole), size)
    ]


def tcp(source, source_port, destination, destination_port, sequence, payload, flags=ACK | PUSH, acknowledged=1):
    header = struct.pack(
        ">HHIIBBHHH", source_port, destination_port, sequence % 2**32, acknowledged, 5 << 4, flags, 65535, 0, 0
    )
    return internet(source, destination, 6, header + payload)


def sctp(source, source_port, destination, destination_port, chunks):
    """Data chunks, each as (TSN, number of the message, flags, payload): a message has the flags 3, or a part with 2
    begins it and one with 1 ends it."""
    body = b""
    for tsn, number, flags, payload in chunks:
        chunk = struct.pack(">BBHIHHI", 0, flags, 16 + len(payload), tsn, 0, number, 0) + payload
        body += chunk + bytes(-len(chunk) % 4)
    header = struct.pack(">HHII", source_port, destination_port, 7, 0)
    return internet(source, destination, 132, header + body)


def unreachable(source, destination, inner):
    """The ICMP message that no one listens at a port, with the packet that it is about."""
    return internet(source, destination, 1, struct.pack(">BBHI", 3, 3, 0, 0) + inner)


def capture(frames, most=65535):
    """A pcap file of frames, each cut to at most so many octets."""
    octets = struct.pack("<IHHiIII", 0xA1B2C3D4, 2, 4, 0, 0, most, 1)
    for place, frame in enumerate(frames):
        kept = frame[:most]
        octets += struct.pack("<IIII", 1_795_996_800 + place, 0, len(kept), len(frame)) + kept
    return octets
