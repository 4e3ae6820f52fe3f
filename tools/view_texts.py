#!/usr/bin/env python3
"""Writes the cases of `text_run` for the lines of a listing.

    tools/view_texts.py > crates/text_run/data/listings.cases

The lines are worked out here from FORMATS.md, records from RFC 7011, sections 3.2 and 7, and the values' texts by
`value_texts.py`. Nothing of the collector is run.
"""

from value_texts import text_of

# Elements of the registry of IANA, and their types.
ELEMENTS = {
    1: ("octetDeltaCount", "unsigned64"), 4: ("protocolIdentifier", "unsigned8"), 7: ("sourceTransportPort", "unsigned16"),
    8: ("sourceIPv4Address", "ipv4Address"), 10: ("ingressInterface", "unsigned32"), 12: ("destinationIPv4Address", "ipv4Address"),
    27: ("sourceIPv6Address", "ipv6Address"), 56: ("sourceMacAddress", "macAddress"), 82: ("interfaceName", "string"),
    83: ("interfaceDescription", "string"), 150: ("flowStartSeconds", "dateTimeSeconds"),
    152: ("flowStartMilliseconds", "dateTimeMilliseconds"), 154: ("flowStartMicroseconds", "dateTimeMicroseconds"),
    156: ("flowStartNanoseconds", "dateTimeNanoseconds"), 210: ("paddingOctets", "octetArray"),
}
VARIABLE = 65535


def specifier(pen, ident, length):
    if pen == 0:
        return ident.to_bytes(2, "big") + length.to_bytes(2, "big")
    return (ident | 0x8000).to_bytes(2, "big") + length.to_bytes(2, "big") + pen.to_bytes(4, "big")


def encoded(length, value, long_form):
    """A value as its field has it: behind its length in one octet or in three, where that varies."""
    if length != VARIABLE:
        assert len(value) == length
        return value
    if long_form or len(value) >= 255:
        return b"\xff" + len(value).to_bytes(2, "big") + value
    return bytes([len(value)]) + value


def shown(pen, ident, value):
    name, kind = f"en{pen}:id{ident}", "unknown"
    if pen == 0 and ident in ELEMENTS:
        name, kind = "iana:" + ELEMENTS[ident][0], ELEMENTS[ident][1]
    return f"{name}={text_of(kind, value)}"


def record(fields):
    """The case of one record: fields are (enterprise number, ID, length, value, long form of the length)."""
    specifiers = b"".join(specifier(pen, ident, length) for pen, ident, length, _, _ in fields)
    octets = b"".join(encoded(length, value, long_form) for _, _, length, value, long_form in fields)
    line = "    " + " ".join(shown(pen, ident, value) for pen, ident, _, value, _ in fields)
    return f"view record {specifiers.hex()} {octets.hex()} {line}"


def fixed(ident, text, pen=0):
    value = bytes.fromhex(text)
    return (pen, ident, len(value), value, False)


def variable(ident, value, pen=0, long_form=False):
    return (pen, ident, VARIABLE, value, long_form)


FLOW = [fixed(8, "0a000001"), fixed(12, "0a000002")]
MIXED = [
    fixed(8, "c0a80001"), fixed(27, "20010db8000000000000000000000001"), fixed(56, "001122aabbcc"), fixed(7, "0050"),
    fixed(4, "06"), fixed(10, "000003e8"), fixed(1, "00000000000003e8"), fixed(150, "00000064"),
    fixed(152, "0000018bcfe56800"), fixed(154, "83aa7e8100418938"), fixed(156, "83aa7e8100418938"), fixed(210, "000000"),
]
RECORDS = [
    FLOW + [fixed(1, "000003e8")],
    FLOW + [fixed(1, "00000000000003e8")],
    FLOW,
    [fixed(4, "11")],
    MIXED,
    MIXED + MIXED + MIXED + [fixed(1, "ff")],
    # an element three times, each printed for itself, and padding printed as well
    [fixed(8, "0a000001"), fixed(8, "0a000002"), fixed(8, "0a000003")],
    [fixed(210, "0000"), fixed(1, "01"), fixed(210, "00")],
    # elements that no table has, one of them with the number of a built-in one
    [fixed(1, "00ff", pen=9), fixed(32767, "", pen=4294967295), fixed(19, "01"), fixed(8, "0a000001")],
    # values that no rule of their type covers
    [fixed(8, "0a00"), fixed(1, "000000000000000001"), fixed(27, "20010db8"), fixed(150, ""), fixed(156, "0000000000000000")],
    # values whose length varies: none, some, from 255 on, in the long form, and a text among others
    [variable(82, b""), fixed(8, "0a000001")],
    [fixed(8, "0a000001"), variable(82, b"eth0"), fixed(12, "0a000002")],
    [variable(82, b"eth0", long_form=True), variable(83, b""), fixed(4, "06")],
    [variable(82, b"a" * 254), variable(83, b"b" * 255), variable(1, b"\x01\x00")],
    [variable(83, b'say "\\"\x01\n \xc3\xa9'), variable(82, b"\xff\xfe")],
    [variable(83, bytes(range(1, 32)) * 20), fixed(12, "0a000002")],
    [variable(210, bytes(range(256)) * 3), variable(7, b"\x01\xbb", pen=29305)],
    # fifty fields of one octet
    [fixed(4, f"{i:02x}") for i in range(50)],
]


def main():
    print("# Lines of listings, without the line feeds at their ends.")
    print("# tools/view_texts.py wrote this file.")
    for input_, number in ((0, 0), (3, 12), (65535, 4294967295)):
        for transport in ("tcp", "udp", "file"):
            print(f"view open {input_} {number} {transport} session {input_}/{number} open {transport}")
        print(f"view close {input_} {number} session {input_}/{number} close")
        for seconds in (0, 100, 4294967295):
            print(f"view tick {input_} {seconds} tick {input_} {seconds}")
        for domain, export, sequence, records in ((1, 100, 0, 1), (2, 3, 4, 5), (4294967295, 4294967294, 4294967293, 65535)):
            print(
                f"view message {input_} {number} {domain} {export} {sequence} {records} message {input_}/{number} domain {domain}"
                f" export {export} sequence {sequence} records {records}"
            )
    for template, records in ((256, 1), (257, 12), (65535, 65535)):
        print(f"view set {template} {records}   template {template} records {records}")
    for fields in RECORDS:
        print(record(fields))


if __name__ == "__main__":
    main()
