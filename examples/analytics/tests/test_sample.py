"""The sample is what its seed gives, and its IPFIX Files give its lines."""

import subprocess

from conftest import FOLDER, TOP, run
from flows import sample

ARCHIVE = FOLDER / "sample" / "archive"


def test_the_shipped_sample_is_that_of_the_seed(tmp_path, sample_lines):
    made = run("make_sample", "--lines", "flows.json", tmp_path)
    assert made.returncode == 0, made.stderr
    shipped = {path.name: path.read_bytes() for path in ARCHIVE.iterdir()}
    assert {path.name: path.read_bytes() for path in (tmp_path / "archive").iterdir()} == shipped
    assert (tmp_path / "flows.json").read_bytes() == sample_lines


def test_the_sample_has_what_records_have(sample_flows, sample_lines):
    assert len(sample_flows) == 3600
    assert {flow.protocol for flow in sample_flows} == {1, 6, 17}
    assert 500 < sum(flow.version == 6 for flow in sample_flows) < 800
    assert sample_lines.count(b"\n") == 3600 + 24
    assert sample_lines.count(b'"ipfix.options"') == 24


def test_another_reader_reads_the_same_lines(sample_lines):
    words = ["/usr/bin/python3", "-B", str(TOP / "tools" / "json_lines.py"), *sorted(map(str, ARCHIVE.iterdir()))]
    read = b"".join(subprocess.run([*words[:3], path], capture_output=True, check=True).stdout for path in words[3:])
    assert read == sample_lines


def test_the_program_reads_the_same_lines(tmp_path, program, sample_lines):
    read = b""
    for path in sorted(ARCHIVE.iterdir()):
        assert run(program, "direct", path, tmp_path / "out").returncode == 0
        read += (tmp_path / "out").read_bytes()
    assert read == sample_lines


def test_sequence_numbers_and_lengths_are_right(sample_flows):
    sequence = 0
    for octets in sample.messages(sample_flows[:500], sample.MIDNIGHT):
        assert int.from_bytes(octets[2:4], "big") == len(octets) <= sample.MOST_OCTETS
        assert int.from_bytes(octets[8:12], "big") == sequence
        at, records = 16, 0
        while at < len(octets):
            identifier, length = (int.from_bytes(octets[at + place : at + place + 2], "big") for place in (0, 2))
            lengths = {256: 41, 257: 65, 258: 37, 259: length - 4}
            records += (length - 4) // lengths.get(identifier, length)
            at += length
        sequence += records
    assert sequence == 501
