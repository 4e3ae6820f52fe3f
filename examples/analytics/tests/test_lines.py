"""Reading lines: each is taken once, whatever the blocks, and what isn't a record is told."""

import json

import pytest
from flows import lines, sums
from flows.faults import Fault

FLOW = {"@type": "ipfix.entry", "iana:sourceIPv4Address": "10.0.0.1", "iana:octetDeltaCount": 1000}


def read(**changed):
    record = {**FLOW, **{name.replace("_", ":", 1): value for name, value in changed.items()}}
    return lines.Reader().read(json.dumps(record).encode())


def test_a_record_has_what_it_says():
    record = read(
        iana_destinationIPv6Address="2001:db8::1", iana_sourceTransportPort=5, iana_destinationTransportPort=65535,
        iana_protocolIdentifier=255, iana_packetTotalCount=7, iana_flowStartSeconds=9000, iana_flowEndNanoseconds=9001,
        iana_interfaceName=["a", "b"],
    )
    assert record == ("10.0.0.1", "2001:db8::1", 5, 65535, 255, 1000, 7, 9000, 9001)


def test_what_a_record_lacks_is_none():
    assert lines.Reader().read(b'{"@type":"ipfix.entry"}') == (None,) * len(lines.COLUMNS)


def test_delta_counts_come_before_totals():
    assert read(iana_octetTotalCount=5)[lines.COLUMNS.index("octets")] == 1000


@pytest.mark.parametrize(
    "name, value",
    [
        ("iana_octetDeltaCount", "0xabcd"),
        ("iana_octetDeltaCount", [5, 6]),
        ("iana_octetDeltaCount", -1),
        ("iana_octetDeltaCount", 2**63),
        ("iana_octetDeltaCount", 1.5),
        ("iana_octetDeltaCount", True),
        ("iana_octetDeltaCount", None),
        ("iana_packetDeltaCount", "7"),
        ("iana_sourceTransportPort", 65536),
        ("iana_destinationTransportPort", "443"),
        ("iana_protocolIdentifier", 256),
        ("iana_flowStartMilliseconds", "2026-11-30"),
        ("iana_flowEndMilliseconds", {}),
        ("iana_sourceIPv4Address", "0x0a000001ff"),
        ("iana_sourceIPv4Address", ["10.0.0.1", "10.0.0.2"]),
        ("iana_sourceIPv4Address", 7),
        ("iana_destinationIPv6Address", "10.0.0.1"),
        ("iana_destinationIPv6Address", "2001:db8::1::2"),
        ("iana_sourceIPv4Address", None),
    ],
)
def test_an_element_of_another_type_is_told(name, value):
    with pytest.raises(lines.Unlike, match=name.replace("_", ":", 1)):
        read(**{name: value})


@pytest.mark.parametrize(
    "line, why",
    [
        (b'{"@type":"ipfix.entry","iana:octetDel', "cut"),
        (b'{"@type":"ipfix.entry","iana:octetDel\n', "not JSON"),
        (b"\n", "not JSON"),
        (b'{"@type":"ipfix.entry"}{"@type":"ipfix.entry"}\n', "not JSON"),
        (b"\xff\n", "not JSON"),
        (b"[" * 100_000 + b"\n", "not JSON"),
        (b"7\n", "no record"),
        (b"[]\n", "no record"),
        (b'{"@type":["ipfix.entry"]}\n', "no record"),
        (b'{"@type":"ipfix.else"}\n', "no record"),
        (b"{}\n", "no record"),
    ],
)
def test_a_line_that_is_no_record_is_told(line, why):
    with pytest.raises(lines.Unlike, match=why):
        lines.Reader().read(line)


@pytest.mark.parametrize("size", [1, 2, 3, 7, 50, 99, 100, 101, 1000])
def test_each_line_is_in_one_block(tmp_path, size):
    path = tmp_path / "flows.json"
    records = [{**FLOW, "iana:octetDeltaCount": 7**place, "iana:interfaceName": "x" * place} for place in range(20)]
    path.write_text("".join(json.dumps(record) + "\n" for record in records))
    octets = path.stat().st_size
    found = [
        record for start, length in lines.blocks(octets, size) for record in lines.block_records(path, start, length)
    ]
    assert [record[lines.COLUMNS.index("octets")] for record in found] == [7**place for place in range(20)]


@pytest.mark.parametrize("size", [1, 30, 10_000])
def test_a_fault_in_a_block_has_the_line_of_the_file(tmp_path, size):
    path = tmp_path / "flows.json"
    good = json.dumps(FLOW) + "\n"
    path.write_text(good * 6 + good[:30])
    with pytest.raises(Fault, match="line 7: cut"):
        for start, length in lines.blocks(path.stat().st_size, size):
            list(lines.block_records(path, start, length))


def test_sums_of_parts_are_the_sums_of_all(sample_lines):
    reader = lines.Reader()
    records = [reader.read(line) for line in sample_lines.splitlines()]
    whole = sums.sums_of(records, 60)
    parts = [sums.sums_of(records[at : at + 100], 60) for at in range(0, len(records), 100)]
    assert sums.together(parts) == whole
    assert sums.together(parts[::-1]) == whole
    assert sums.together([sums.together(parts[:7]), sums.no_sums(60), sums.together(parts[7:])]) == whole
