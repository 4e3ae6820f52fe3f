#!/usr/bin/env python3
"""Writes the cases of `text_run`: values with their texts, and elements with their names.

    tools/value_texts.py > crates/text_run/data/values.cases

The texts are worked out here from the RFCs with Python's own means: `ipaddress` for addresses, `bytes.decode` for
UTF-8, `Fraction` for times. Nothing of the collector is run.
"""

import fractions
import ipaddress

EPOCH = 2208988800  # seconds from 1900 to 1970


def octet_text(octets):
    """The text of a value that no rule of its type covers."""
    return '"0x' + octets.hex() + '"'


def unsigned(size):
    def text(octets):
        return str(int.from_bytes(octets, "big")) if 1 <= len(octets) <= size else None

    return text


def signed(size):
    def text(octets):
        return str(int.from_bytes(octets, "big", signed=True)) if 1 <= len(octets) <= size else None

    return text


def boolean(octets):
    return {b"\x01": "true", b"\x02": "false"}.get(octets)


def mac(octets):
    return '"' + octets.hex(":") + '"' if len(octets) == 6 else None


def ipv4(octets):
    return f'"{ipaddress.IPv4Address(octets)}"' if len(octets) == 4 else None


def ipv6(octets):
    """RFC 5952, without a dotted part: Python writes one for mapped addresses since 3.13, so that part is undone."""
    if len(octets) != 16:
        return None
    text = str(ipaddress.IPv6Address(octets))
    if "." in text:
        head, _, _ = text.rpartition(":")
        text = f"{head}:{int.from_bytes(octets[12:14], 'big'):x}:{int.from_bytes(octets[14:], 'big'):x}"
    return f'"{text}"'


def string(octets):
    try:
        text = octets.rstrip(b"\x00").decode("utf-8")
    except UnicodeDecodeError:
        return None
    shown = []
    for char in text:
        if char in '"\\':
            shown.append("\\" + char)
        elif ord(char) < 32:
            shown.append(f"\\u{ord(char):04x}")
        else:
            shown.append(char)
    return '"' + "".join(shown) + '"'


def seconds(octets):
    return str(1000 * int.from_bytes(octets, "big")) if len(octets) == 4 else None


def milliseconds(octets):
    return str(int.from_bytes(octets, "big")) if len(octets) == 8 else None


def ntp(ignored_bits):
    """A time of NTP; so many low bits of its fraction count as 0 (RFC 7011, sections 6.1.9 and 6.1.10)."""

    def text(octets):
        if len(octets) != 8:
            return None
        whole = int.from_bytes(octets[:4], "big") - EPOCH
        if whole < 0:
            return None
        fraction = int.from_bytes(octets[4:], "big") >> ignored_bits << ignored_bits
        return str(1000 * whole + int(fractions.Fraction(1000 * fraction, 2**32)))

    return text


RULES = {
    "unsigned8": unsigned(1),
    "unsigned16": unsigned(2),
    "unsigned32": unsigned(4),
    "unsigned64": unsigned(8),
    "signed8": signed(1),
    "signed16": signed(2),
    "signed32": signed(4),
    "signed64": signed(8),
    "boolean": boolean,
    "macAddress": mac,
    "ipv4Address": ipv4,
    "ipv6Address": ipv6,
    "string": string,
    "dateTimeSeconds": seconds,
    "dateTimeMilliseconds": milliseconds,
    "dateTimeMicroseconds": ntp(11),
    "dateTimeNanoseconds": ntp(0),
}

UNCOVERED = ["octetArray", "float32", "float64", "basicList", "subTemplateList", "subTemplateMultiList", "unknown"]


def text_of(kind, octets):
    text = RULES[kind](octets) if kind in RULES else None
    return octet_text(octets) if text is None else text


def numbers(size):
    """Each length from none to one octet too many: 0, 1, both sides of the sign, the greatest, and digits of all places."""
    for length in range(size + 2):
        top = 256**length
        picks = {0, 1, top // 2 - 1, top // 2, top - 1, 9, 10, 99, 100, 10**18, 1234567890123456789}
        for number in sorted(pick for pick in picks if 0 <= pick < top):
            yield number.to_bytes(length, "big")


def ipv6_values():
    groups = [
        "0 0 0 0 0 0 0 0", "0 0 0 0 0 0 0 1", "1 0 0 0 0 0 0 0", "2001 db8 0 0 0 0 0 1", "2001 db8 0 1 1 1 1 1",
        "1 0 0 2 0 0 0 3", "1 0 0 0 2 0 0 3", "1 0 0 2 3 0 0 4", "0 0 1 0 0 1 0 0", "0 1 0 1 0 1 0 1", "1 0 2 0 3 0 4 0",
        "0 0 1 2 3 4 5 6", "1 2 3 4 5 6 0 0", "1 2 3 4 5 6 7 0", "0 1 2 3 4 5 6 7", "ff f fff ffff 10 100 1000 a",
        "0 0 0 0 0 ffff a00 1", "0 0 0 0 0 0 a00 1", "0 0 0 0 ffff 0 a00 1", "fe80 0 0 0 211 22ff feaa bbcc",
        "64 ff9b 0 0 0 0 c000 201", "1 0 0 1 0 0 1 0", "ffff ffff ffff ffff ffff ffff ffff ffff",
    ]
    for text in groups:
        yield b"".join(int(group, 16).to_bytes(2, "big") for group in text.split())


STRINGS = [
    b"", b"\x00", b"\x00\x00\x00", b"abc", b"abc\x00", b"abc\x00\x00", b"a\x00b", b"a\x00b\x00", b"\x00a", b'a"b', b"a\\b",
    b"/", b" a b ", b"\x01", b"\x08\t\n\x0c\r", b"\x1f\x20\x7e\x7f", b"</script>",
    "é".encode(), "\u0080".encode(), "\u07ff".encode(), "\u0800".encode(), "€".encode(), "\ud7ff".encode(), "\ue000".encode(),
    "\uffff".encode(), "\U00010000".encode(), "😀".encode(), "\U0010ffff".encode(), "aé€😀\x00".encode(), "\ufeffx".encode(),
    # octets that begin no character, and characters that break off
    b"\x80", b"\xbf", b"\xfe", b"\xff", b"\xff\x00", b"\xc3", b"\xc3\x00", b"\xe2\x82", b"\xf0\x9f\x98", b"a\xc3(", b"\xe2(\xa1", b"\xe2\x82(",
    b"\xf0(\x8c\xbc", b"\xf0\x90(\xbc", b"\xf0\x9f\x98(",
    # overlong forms, surrogates, and numbers past the last character
    b"\xc0\x80", b"\xc0\xaf", b"\xc1\xbf", b"\xe0\x80\xaf", b"\xe0\x9f\xbf", b"\xf0\x80\x80\xaf", b"\xf0\x8f\xbf\xbf",
    b"\xed\xa0\x80", b"\xed\xaf\xbf", b"\xed\xb0\x80", b"\xed\xbf\xbf", b"\xf4\x90\x80\x80", b"\xf5\x80\x80\x80", b"\xf8\x88\x80\x80\x80",
]

NTP = ["83aa7e80 00000000", "83aa7e7f ffffffff", "83aa7e7f 00000000", "83aa7e80 00000800", "83aa7e80 000007ff",
       "83aa7e80 00418937", "83aa7e80 00418938", "83aa7e80 004189ff", "83aa7e80 80000000", "83aa7e80 ffffffff", "83aa7e81 00418938",
       "83aa7e81 00831270", "00000000 00000000", "ffffffff ffffffff", "ffffffff fffff800", "ffffffff 00000000"]


def values():
    for size, bits in ((1, 8), (2, 16), (4, 32), (8, 64)):
        for octets in numbers(size):
            yield f"unsigned{bits}", octets
            yield f"signed{bits}", octets
    for octets in (b"", b"\x00", b"\x01", b"\x02", b"\x03", b"\xff", b"\x00\x01", b"\x01\x00", b"\x02\x02"):
        yield "boolean", octets
    for text in ("", "00", "0011", "001122aabb", "001122aabbcc", "000000000000", "ffffffffffff", "09af90fa1000", "001122aabbccdd"):
        yield "macAddress", bytes.fromhex(text)
    for text in ("", "0a", "0a0000", "0a000001", "00000000", "ffffffff", "0909090a", "636363c7", "64c8c9ff", "0a00000100"):
        yield "ipv4Address", bytes.fromhex(text)
    for octets in ipv6_values():
        yield "ipv6Address", octets
    for length in (0, 4, 15, 17):
        yield "ipv6Address", bytes(range(length))
    for octets in STRINGS:
        yield "string", octets
    for text in ("", "64", "000064", "00000000", "00000001", "00000064", "7fffffff", "80000000", "ffffffff", "0000000064"):
        yield "dateTimeSeconds", bytes.fromhex(text)
    for text in ("", "03e8", "00000000000003", "00000000000003e8", "0000000000000000", "ffffffffffffffff", "0000018bcfe56800", "000000000000000001"):
        yield "dateTimeMilliseconds", bytes.fromhex(text)
    for kind in ("dateTimeMicroseconds", "dateTimeNanoseconds"):
        for text in NTP:
            yield kind, bytes.fromhex(text)
        for text in ("", "83aa7e81", "83aa7e81000000", "83aa7e810000000000"):
            yield kind, bytes.fromhex(text)
    for kind in UNCOVERED:
        for text in ("", "00", "01", "00ff", "3f800000", "3ff0000000000000", "0123456789abcdef"):
            yield kind, bytes.fromhex(text)


# Elements, and their names (RFC 7012; the registry of IANA for the built-in ones).
NAMES = [
    (0, 1, "iana:octetDeltaCount"), (0, 8, "iana:sourceIPv4Address"), (0, 12, "iana:destinationIPv4Address"),
    (0, 157, "iana:flowEndNanoseconds"), (0, 210, "iana:paddingOctets"), (0, 0, "en0:id0"), (0, 19, "en0:id19"),
    (0, 32767, "en0:id32767"), (1, 1, "en1:id1"), (9, 7, "en9:id7"), (29305, 1, "en29305:id1"),
    (4294967295, 32767, "en4294967295:id32767"),
]


def main():
    print("# Values with their texts, and elements with their names.")
    print("# tools/value_texts.py wrote this file.")
    for kind, octets in values():
        print(f"value {kind} {octets.hex() or '-'} {text_of(kind, octets)}")
    for pen, ident, name in NAMES:
        print(f"name {pen} {ident} {name}")


if __name__ == "__main__":
    main()
