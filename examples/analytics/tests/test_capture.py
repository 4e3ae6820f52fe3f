"""tools/from_capture: the messages of captures that are made by hand, packet by packet."""

import gzip
import struct
import subprocess

from captures import ACK, SYN, capture, sctp, tcp, udp, udp_in_fragments, unreachable
from conftest import FOLDER, TOP, refused, run, wants
from flows import sample

pytestmark = wants("tshark")
COMMAND = TOP / "tools" / "from_capture"
FLOW = (FOLDER.parent / "one_flow.ipfix").read_bytes()
EXPORTER, OTHER, COLLECTOR = "192.0.2.1", "192.0.2.2", "198.51.100.9"
EXPORTER6, COLLECTOR6 = "2001:db8::1", "2001:db8::9"


def message(number, more=0):
    """The message of one flow with a sequence number, and so many octets of a set of its own."""
    length = len(FLOW) + (4 + more if more else 0)
    one_set = struct.pack(">HH", 999, 4 + more) + bytes(more) if more else b""
    return FLOW[:2] + struct.pack(">H", length) + FLOW[4:8] + struct.pack(">I", number) + FLOW[12:] + one_set


def taken(tmp_path, frames, *words, most=65535):
    """What is printed, and the files that come of a capture, by their names."""
    (tmp_path / "all.pcap").write_bytes(capture(frames, most))
    ran = run(COMMAND, *words, "all.pcap", "out", cwd=tmp_path)
    assert ran.returncode == 0, ran.stderr
    return ran, {path.name: path.read_bytes() for path in (tmp_path / "out").iterdir()}


def test_datagrams_go_to_a_file_for_each_session(tmp_path):
    frames = [
        udp(EXPORTER, 4000, COLLECTOR, 4739, message(0)),
        udp(EXPORTER6, 4000, COLLECTOR6, 4739, message(1)),
        udp(OTHER, 4000, COLLECTOR, 4739, message(2)),
        udp(EXPORTER, 4001, COLLECTOR, 9995, message(3)),
        udp(EXPORTER, 4000, COLLECTOR, 4739, message(4)),
    ]
    ran, files = taken(tmp_path, frames)
    assert files == {
        "udp-192.0.2.1-4000-to-198.51.100.9-4739.ipfix": message(0) + message(4),
        "udp-192.0.2.1-4001-to-198.51.100.9-9995.ipfix": message(3),
        "udp-192.0.2.2-4000-to-198.51.100.9-4739.ipfix": message(2),
        "udp-2001_db8__1-4000-to-2001_db8__9-4739.ipfix": message(1),
    }
    assert "out/udp-192.0.2.1-4000-to-198.51.100.9-4739.ipfix: 2 messages, 104 octets\n" in ran.stdout
    assert ran.stderr == ""


def test_a_port_can_be_chosen(tmp_path):
    frames = [udp(EXPORTER, 4000, COLLECTOR, port, message(port)) for port in (4739, 9995)]
    frames += [tcp(EXPORTER, 5000, COLLECTOR, port, 100, message(7)) for port in (4739, 9995)]
    _, files = taken(tmp_path, frames, "--port", "9995")
    assert files == {
        "udp-192.0.2.1-4000-to-198.51.100.9-9995.ipfix": message(9995),
        "tcp-192.0.2.1-5000-to-198.51.100.9-9995.ipfix": message(7),
    }


def test_fragments_are_put_together_and_copies_in_errors_left(tmp_path):
    large = message(1, 3000)
    first = udp(EXPORTER, 4000, COLLECTOR, 4739, message(0))
    frames = [
        first, unreachable(COLLECTOR, EXPORTER, first[14:]), *udp_in_fragments(EXPORTER, 4000, COLLECTOR, 4739, large)
    ]
    _, files = taken(tmp_path, frames)
    assert list(files.values()) == [message(0) + large]


def test_other_datagrams_are_left(tmp_path):
    frames = [
        udp(EXPORTER, 4000, COLLECTOR, 4739, b"\x00\x09" + FLOW[2:]),
        udp(EXPORTER, 4000, COLLECTOR, 4739, FLOW + b"\0"),
        udp(EXPORTER, 4000, COLLECTOR, 4739, FLOW[:-1]),
        udp(EXPORTER, 4000, COLLECTOR, 4739, b""),
        udp(EXPORTER, 4000, COLLECTOR, 53, b"\x12\x34" + bytes(30)),
        udp(EXPORTER, 4000, COLLECTOR, 4739, FLOW),
    ]
    ran, files = taken(tmp_path, frames)
    assert list(files.values()) == [FLOW]
    assert ran.stderr == "left out: 2 datagrams that begin as a message and aren't one\n"


def test_what_the_capture_cut_short_is_told(tmp_path):
    frames = [udp(EXPORTER, 4000, COLLECTOR, 4739, message(0)), udp(EXPORTER, 4000, COLLECTOR, 4739, message(1, 600))]
    ran, files = taken(tmp_path, frames, most=300)
    assert list(files.values()) == [message(0)]
    assert ran.stderr == "left out: 1 datagrams that the capture cut short\n"


def segments(stream, places, source=EXPORTER, port=5000, first=1000):
    """Segments of a stream, each from one octet to another."""
    return [tcp(source, port, COLLECTOR, 4739, first + 1 + begin, stream[begin:end]) for begin, end in places]


def opening(source=EXPORTER, port=5000, first=1000):
    return [
        tcp(source, port, COLLECTOR, 4739, first, b"", SYN, 0),
        tcp(COLLECTOR, 4739, source, port, 0, b"", SYN | ACK, first + 1),
    ]


def test_segments_of_tcp_are_put_in_order(tmp_path):
    stream = message(0) + message(1, 900) + message(2)
    # the third comes before the second, one comes twice, and two overlap
    places = [(0, 30), (700, 1010), (30, 700), (0, 30), (690, 800), (1010, len(stream))]
    ran, files = taken(tmp_path, opening() + segments(stream, places))
    assert files == {"tcp-192.0.2.1-5000-to-198.51.100.9-4739.ipfix": stream}
    assert ran.stderr == ""


def test_sequence_numbers_of_tcp_begin_again(tmp_path):
    stream = message(0, 500) + message(1, 500)
    first = 2**32 - 200
    frames = opening(first=first) + segments(stream, [(0, 400), (400, len(stream))], first=first)
    _, files = taken(tmp_path, frames)
    assert list(files.values()) == [stream]


def test_connections_have_files_of_their_own(tmp_path):
    one, two, three = (message(place) + message(place + 10) for place in range(3))
    frames = (
        opening() + segments(one, [(0, 104)]) + opening(port=5001) + segments(two, [(0, 104)], port=5001)
        # the first port once more, for a second connection
        + opening(first=900_000_000) + segments(three, [(0, 104)], first=900_000_000)
    )
    _, files = taken(tmp_path, frames)
    assert files == {
        "tcp-192.0.2.1-5000-to-198.51.100.9-4739.ipfix": one,
        "tcp-192.0.2.1-5001-to-198.51.100.9-4739.ipfix": two,
        "tcp-192.0.2.1-5000-to-198.51.100.9-4739-2.ipfix": three,
    }


def test_what_follows_a_gap_is_told_and_left(tmp_path):
    stream = message(0) + message(1, 900) + message(2)
    frames = opening() + segments(stream, [(0, 100), (300, len(stream))])
    frames.append(tcp(COLLECTOR, 4739, EXPORTER, 5000, 1, b"", ACK, 1001 + len(stream)))
    ran, files = taken(tmp_path, frames)
    assert list(files.values()) == [message(0)]
    assert "tcp 192.0.2.1:5000 to 198.51.100.9:4739: 200 octets aren't in the capture" in ran.stderr
    assert "48 octets behind its last whole message are left out" in ran.stderr


def test_a_stream_that_was_joined_within_a_message_is_told(tmp_path):
    whole = opening(OTHER) + segments(message(0), [(0, 52)], OTHER)
    joined = segments(message(1, 900) + message(2), [(300, 956), (956, 1008)])
    ran, files = taken(tmp_path, whole + joined)
    assert files == {"tcp-192.0.2.2-5000-to-198.51.100.9-4739.ipfix": message(0)}
    joined_late = "tcp 192.0.2.1:5000 to 198.51.100.9:4739"
    assert ran.stderr == f"{joined_late}: doesn't begin with a whole message, and is left out\n"


def test_messages_of_sctp_are_taken(tmp_path):
    large = message(3, 500)
    frames = [
        sctp(EXPORTER, 6000, COLLECTOR, 4739, [(1, 1, 3, message(1)), (2, 2, 3, message(2))]),
        sctp(EXPORTER, 6000, COLLECTOR, 4739, [(3, 3, 2, large[:300])]),
        sctp(EXPORTER, 6000, COLLECTOR, 4739, [(1, 1, 3, message(1))]),
        sctp(EXPORTER, 6000, COLLECTOR, 4739, [(4, 3, 1, large[300:])]),
    ]
    _, files = taken(tmp_path, frames)
    assert files == {"sctp-192.0.2.1-6000-to-198.51.100.9-4739.ipfix": message(1) + message(2) + large}


def test_the_sample_comes_back_from_a_capture(tmp_path, program):
    """Files of the sample are sent by UDP and TCP, each from a port of its own; either way their lines come back."""
    archive = sorted((FOLDER / "sample" / "archive").iterdir())[::6]
    frames = []
    for place, path in enumerate(archive):
        octets, at = path.read_bytes(), 0
        while at < len(octets):
            length = int.from_bytes(octets[at + 2 : at + 4], "big")
            frames.append(udp(EXPORTER, 4000 + place, COLLECTOR, 4739, octets[at : at + length]))
            at += length
        frames += opening(port=5000 + place)
        frames += segments(octets, [(at, at + 1400) for at in range(0, len(octets), 1400)], port=5000 + place)
    _, files = taken(tmp_path, frames)
    assert len(files) == 8
    counts = sample.counts_of(sample.FLOWS, sample.FILES)
    flows = [sample.flows_of(place, counts[place]) for place in range(0, 24, 6)]
    lines = "".join(sample.options_line() + "".join(map(sample.line_of, part)) for part in flows).encode()
    for transport, port in (("udp", 4000), ("tcp", 5000)):
        read = b""
        for place in range(4):
            path = tmp_path / "out" / f"{transport}-192.0.2.1-{port + place}-to-198.51.100.9-4739.ipfix"
            assert run(program, "direct", path, tmp_path / "flows.json").returncode == 0
            read += (tmp_path / "flows.json").read_bytes()
        assert read == lines


def test_a_packed_capture_is_read(tmp_path):
    (tmp_path / "all.pcap.gz").write_bytes(gzip.compress(capture([udp(EXPORTER, 4000, COLLECTOR, 4739, FLOW)])))
    assert run(COMMAND, "all.pcap.gz", "out", cwd=tmp_path).returncode == 0
    assert [path.read_bytes() for path in (tmp_path / "out").iterdir()] == [FLOW]


def test_what_is_there_stays(tmp_path):
    frames = [udp(EXPORTER, 4000, COLLECTOR, 4739, FLOW), udp(OTHER, 4000, COLLECTOR, 4739, FLOW)]
    (tmp_path / "all.pcap").write_bytes(capture(frames))
    (tmp_path / "out").mkdir()
    there = tmp_path / "out" / "udp-192.0.2.2-4000-to-198.51.100.9-4739.ipfix"
    there.write_text("as it was")
    refused(run(COMMAND, "all.pcap", "out", cwd=tmp_path), "there already", there.name)
    assert there.read_text() == "as it was"
    assert list((tmp_path / "out").iterdir()) == [there]


def test_bad_captures_are_told(tmp_path):
    whole = capture([udp(EXPORTER, 4000, COLLECTOR, 4739, message(place)) for place in range(3)])
    bad = {
        "none.pcap": (None, "none.pcap"),
        "text.pcap": (b"no capture at all, but text\n" * 9, "isn't a capture file"),
        "empty.pcap": (b"", "no IPFIX message"),
        "cut.pcap": (whole[:-10], "cut short"),
        "other.pcap": (capture([udp(EXPORTER, 53, COLLECTOR, 53, bytes(40))]), "no IPFIX message"),
    }
    for name, (octets, why) in bad.items():
        if octets is not None:
            (tmp_path / name).write_bytes(octets)
        refused(run(COMMAND, name, "out", cwd=tmp_path), name, why)
        assert not (tmp_path / "out").exists()
    assert run(COMMAND, "--partial", "cut.pcap", "out", cwd=tmp_path).returncode == 0
    assert [path.read_bytes() for path in (tmp_path / "out").iterdir()] == [message(0) + message(1)]


def test_a_missing_tshark_is_told(tmp_path):
    (tmp_path / "all.pcap").write_bytes(capture([udp(EXPORTER, 4000, COLLECTOR, 4739, FLOW)]))
    ran = subprocess.run(
        [COMMAND, tmp_path / "all.pcap", tmp_path / "out"], env={"PATH": str(tmp_path)}, capture_output=True, text=True,
        check=False,
    )
    refused(ran, "tshark isn't installed")
