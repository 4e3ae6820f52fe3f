#!/usr/bin/env python3
"""try_5471.py PROGRAM [SECTION..]: plays the tests of RFC 5471 that apply to a collector to `PROGRAM collect`

Each test is a function that is called by its section, as `of_3_2_1`. Messages are made here, and what is to come of them is
worked out by hand from RFC 7011 and docs/FORMATS.md. Each is played as a file, over TCP and over UDP, where the test is of
these. What isn't as it is to be is printed. docs/CONFORMANCE.md says where that is what RFC 5471 asks for, and where not. It
takes some minutes.
"""
import collections
import json
import os
import socket
import struct
import subprocess
import sys
import tempfile
import threading
import time

PROGRAM = os.path.abspath(sys.argv[1])
IANA = os.path.join(os.path.dirname(os.path.abspath(__file__)), "..", "examples", "elements", "iana.toml")
FILE, TCP, UDP = "file", "tcp", "udp"
STREAMS = (FILE, TCP)
ALL = (FILE, TCP, UDP)
VARIES = 65535
ENTERPRISE = 32473
COUNTS = ("records malformed late skipped ignored redefined lost disordered torn broken refused crowded stray").split()
wrong = 0


def tell(what):
    global wrong
    wrong += 1
    print(what)


# Messages.
def a_set(number, body):
    return struct.pack(">HH", number, 4 + len(body)) + body


def fields_of(fields):
    """Each is an ID and a length, or these and an enterprise number."""
    return b"".join(
        struct.pack(">HH", field[0] | 0x8000, field[1]) + struct.pack(">I", field[2]) if len(field) > 2 else struct.pack(">HH", *field)
        for field in fields
    )


def template(number, *fields):
    return a_set(2, struct.pack(">HH", number, len(fields)) + fields_of(fields))


def options(number, scopes, *fields):
    return a_set(3, struct.pack(">HHH", number, len(fields), scopes) + fields_of(fields))


def withdrawal(number, of=2):
    return a_set(of, struct.pack(">HH", number, 0))


def message(*sets, export=100, sequence=0, domain=1):
    body = b"".join(sets)
    return struct.pack(">HHIII", 10, 16 + len(body), export, sequence, domain) + body


def varying(octets, long=False):
    return (b"\xff" + struct.pack(">H", len(octets)) if long or len(octets) > 254 else bytes([len(octets)])) + octets


# A template of an address, and a record of it.
T = template(256, (8, 4))
LINE = {"iana:sourceIPv4Address": "10.0.0.1"}
D = a_set(256, bytes([10, 0, 0, 1]))


def numbered(*sets_of_each, **more):
    """Messages with these sets, whose sequence numbers count their records of T."""
    made, sequence = [], 0
    for sets in sets_of_each:
        made.append(message(*sets, sequence=sequence, **more))
        sequence += sum(part == D for part in sets)
    return made


# Runs.
def free_port(kind, family):
    with socket.socket(family, kind) as free:
        free.bind(("::1" if family == socket.AF_INET6 else "127.0.0.1", 0))
        return free.getsockname()[1]


class Run:
    """A run of one input, which goes on until enough events came."""

    def __init__(self, kind, octets=b"", elements="", six=False, out=None, memory=None):
        self.folder = tempfile.TemporaryDirectory()
        self.kind, self.family = kind, socket.AF_INET6 if six else socket.AF_INET
        self.memory = memory
        self.host = "::1" if six else "127.0.0.1"
        self.port = free_port(socket.SOCK_DGRAM if kind == UDP else socket.SOCK_STREAM, self.family)
        self.out = out or self.path("out.json")
        place = f'path = "{self.path("in.ipfix")}"' if kind == FILE else f'listen = "{"[::1]" if six else self.host}:{self.port}"'
        with open(self.path("in.ipfix"), "wb") as file:
            file.write(octets)
        with open(self.path("own.toml"), "w", encoding="ascii") as file:
            file.write(elements)
        with open(self.path("run.toml"), "w", encoding="ascii") as file:
            file.write(
                f'version = 1\nelements = ["{IANA}", "{self.path("own.toml")}"]\n[[input]]\nname = "i"\nkind = "{kind}"\n{place}\n'
                f'stop-after = {0 if kind == FILE else 400}\n[[output]]\nname = "o"\nkind = "json"\npath = "{self.out}"\n'
            )
        self.start()

    def start(self):
        command = [PROGRAM, "collect", "-c", self.path("run.toml")]
        if self.memory:
            command = ["sh", "-c", f'ulimit -v {self.memory}; exec "$@"', "sh", *command]
        self.process = subprocess.Popen(command, stdout=subprocess.PIPE)
        while self.kind != FILE and self.process.poll() is None and not self.listens():
            time.sleep(0.01)

    def listens(self):
        """Whether a socket is there that hears the port: in state 10 over TCP, 7 over UDP."""
        for table in (f"/proc/net/{self.kind}", f"/proc/net/{self.kind}6"):
            with open(table, encoding="ascii") as rows_of_table:
                for row in rows_of_table:
                    _, local, _, state, *_ = row.split()
                    if local.endswith(f":{self.port:04X}") and state in ("0A", "07"):
                        return True
        return False

    def path(self, name):
        return os.path.join(self.folder.name, name)

    def peer(self):
        made = socket.socket(self.family, socket.SOCK_DGRAM if self.kind == UDP else socket.SOCK_STREAM)
        made.connect((self.host, self.port))
        return made

    def send(self, messages, pause=0.0):
        """One session with these messages, which ends behind them."""
        with self.peer() as peer:
            for one in messages:
                peer.sendall(one)
                time.sleep(pause)
        time.sleep(0.1)

    def ended(self):
        """The status, the counts that aren't 0 but for those of sessions and messages, and the lines.

        What ends a run over the network are events that count as nothing else: connections without an octet, and messages
        without a set.
        """
        while self.kind != FILE and self.process.poll() is None:
            try:
                with self.peer() as peer:
                    if self.kind == UDP:
                        peer.send(message(domain=999))
                        time.sleep(0.001)
            except OSError:
                time.sleep(0.01)
        printed = self.process.communicate(timeout=60)[0].decode()
        rows = dict(line.rsplit(" ", 1) for line in printed.splitlines())
        counts = {name: int(rows.get(name, -1)) for name in COUNTS}
        with open(self.out, encoding="utf-8") as file:
            lines = [json.loads(line) for line in file]
        return self.process.returncode, {name: number for name, number in counts.items() if number}, lines


def plain(lines):
    return [{name: value for name, value in line.items() if name != "@type"} for line in lines]


def check(what, found, lines, **counts):
    status, counted, printed = found
    if status != 0:
        tell(f"{what}: status {status}")
    if counted != counts:
        tell(f"{what}: counts {counted}, not {counts}")
    if lines is not None and plain(printed) != lines:
        tell(f"{what}: lines {str(plain(printed))[:300]}, not {str(lines)[:300]}")


def play(what, messages, lines, over=ALL, elements="", **counts):
    """These messages in one session, over each transport, with what is to come of them."""
    for kind in over:
        run = Run(kind, b"".join(messages), elements)
        if kind != FILE:
            run.send(messages)
        check(f"{what}, {kind}", run.ended(), lines, **({"records": len(lines)} if lines else {}), **counts)


def rows(*elements):
    return "element = [" + ", ".join(f'{{ pen = {ENTERPRISE}, id = {place + 1}, prefix = "own", name = "{name}", type = "{kind}" }}' for place, (name, kind) in enumerate(elements)) + "]"


# A value of each type that has a fixed size, with its text in a line.
VALUES = [
    ("octetArray", "01020304", "0x01020304"),
    ("unsigned8", "ff", 2**8 - 1),
    ("unsigned16", "ffff", 2**16 - 1),
    ("unsigned32", "ffffffff", 2**32 - 1),
    ("unsigned64", "ffffffffffffffff", 2**64 - 1),
    ("signed8", "80", -(2**7)),
    ("signed16", "8000", -(2**15)),
    ("signed32", "80000000", -(2**31)),
    ("signed64", "8000000000000000", -(2**63)),
    ("float32", "3fc00000", "0x3fc00000"),
    ("float64", "3ff8000000000000", "0x3ff8000000000000"),
    ("boolean", "01", True),
    ("macAddress", "001122aabbcc", "00:11:22:aa:bb:cc"),
    ("string", "68656c6c6f", "hello"),
    ("dateTimeSeconds", "44dafc27", 1155202087000),
    ("dateTimeMilliseconds", "0000010cf7b5e2d8", 0x10CF7B5E2D8),
    ("dateTimeMicroseconds", "83aa7e8180000000", 1500),
    ("dateTimeNanoseconds", "83aa7e8140000000", 1250),
    ("ipv4Address", "0a000001", "10.0.0.1"),
    ("ipv6Address", "20010db8000000000000000000000001", "2001:db8::1"),
]
OWN = rows(*((f"a-{kind}", kind) for kind, _, _ in VALUES))


def of_3_1_1():
    """Each transport, each with IPv4 and IPv6."""
    for kind in (TCP, UDP):
        for six in (False, True):
            run = Run(kind, six=six)
            run.send(numbered([T], [D], [D]))
            check(f"3.1.1, {kind}, {'IPv6' if six else 'IPv4'}", run.ended(), [LINE, LINE], records=2)


def of_3_2_1():
    fields = [(place + 1, len(octets) // 2, ENTERPRISE) for place, (_, octets, _) in enumerate(VALUES)]
    line = {f"own:a-{kind}": value for kind, _, value in VALUES}
    record = bytes.fromhex("".join(octets for _, octets, _ in VALUES))
    play("3.2.1", [message(template(256, *fields), a_set(256, record))], [line], elements=OWN)


def of_3_2_2():
    one, other, fixed = (82, VARIES), (83, VARIES), (1, 4)
    long = b"x" * 300
    for fields, record, line in (
        ([one], varying(b"eth0"), {"iana:interfaceName": "eth0"}),
        ([one, fixed], varying(b"eth0", long=True) + struct.pack(">I", 7), {"iana:interfaceName": "eth0", "iana:octetDeltaCount": 7}),
        ([fixed, one], struct.pack(">I", 7) + varying(long), {"iana:octetDeltaCount": 7, "iana:interfaceName": "x" * 300}),
        ([one, other], varying(b"") + varying(b"up"), {"iana:interfaceName": "", "iana:interfaceDescription": "up"}),
    ):
        play("3.2.2", [message(template(256, *fields), a_set(256, record * 2))], [line, line])


def of_3_2_3():
    record, line = bytes([10, 0, 0, 1]) + struct.pack(">I", 9), {**LINE, "iana:octetDeltaCount": 9}
    for padding in range(8):
        sets = a_set(256, record * 3 + bytes(padding)), a_set(256, record)
        play(f"3.2.3, {padding} octets", [message(template(256, (8, 4), (1, 4)), *sets)], [line] * 4)


def of_3_2_4():
    play("3.2.4", [message(template(256, (195, 1), (210, 3)), a_set(256, bytes([1, 0, 0, 0]) * 15))], [{"iana:ipDiffServCodePoint": 1}] * 15)
    fixed = template(256, (8, 4), (1, 8), (210, 2))
    play("3.2.4, 12 and 2 octets", [message(fixed, a_set(256, (bytes([10, 0, 0, 1]) + bytes(7) + b"\5" + bytes(2)) * 3))], [{**LINE, "iana:octetDeltaCount": 5}] * 3)
    record = varying(b"abcde") + varying(bytes(1)) + bytes([10, 0, 0, 1])
    line = {"iana:interfaceName": "abcde", **LINE}
    play("3.2.4, of varying length", [message(template(256, (82, VARIES), (210, VARIES), (8, 4)), a_set(256, record * 2))], [line] * 2)


def of_3_2_5_1():
    messages = numbered([T], [D], [withdrawal(256)], [D], [T], [D])
    play("3.2.5.1", messages, [LINE] * 2, STREAMS, skipped=1)
    play("3.2.5.1", messages, [LINE] * 3, (UDP,), ignored=1)


def of_3_2_5_2():
    messages = numbered([T], [withdrawal(256)], [withdrawal(256)], [T], [D])
    play("3.2.5.2", messages, [LINE], STREAMS)


def of_3_2_5_3():
    play("3.2.5.3", numbered([withdrawal(256)], [T], [D]), [LINE], STREAMS)


def all_of_a_kind(what, kind, left):
    defined = [template(256, (8, 4)), template(257, (12, 4)), options(258, 1, (10, 4), (8, 4))]
    records = [a_set(256, bytes([10, 0, 0, 1])), a_set(257, bytes([10, 0, 0, 2])), a_set(258, struct.pack(">I", 3) + bytes([10, 0, 0, 1]))]
    lines = [LINE, {"iana:destinationIPv4Address": "10.0.0.2"}, {"iana:ingressInterface": 3, **LINE}]
    messages = [message(*defined, *records), message(withdrawal(kind, kind), sequence=3), message(*records, sequence=3)]
    play(what, messages, lines + [lines[place] for place in left], STREAMS, skipped=3 - len(left))


def of_3_2_5_4():
    all_of_a_kind("3.2.5.4", 2, [2])


def of_3_2_5_5():
    all_of_a_kind("3.2.5.5", 3, [0, 1])


def of_3_3_1():
    messages = [message(template(256, (8, 4), (3, 2, ENTERPRISE)), a_set(256, bytes([10, 0, 0, 1, 0xAB, 0xCD])))]
    play("3.3.1, unknown", messages, [{**LINE, f"en{ENTERPRISE}:id3": "0xabcd"}])
    play("3.3.1, known", messages, [{**LINE, "own:a-unsigned16": 0xABCD}], elements=OWN)


def of_3_3_2():
    for length in range(1, 9):
        play(f"3.3.2, {length} octets", [message(template(256, (1, length)), a_set(256, bytes([1] * length)))], [{"iana:octetDeltaCount": int("01" * length, 16)}])
        play(f"3.3.2, {length} octets, signed", [message(template(256, (9, length, ENTERPRISE)), a_set(256, bytes([255] * length)))], [{"own:a-signed64": -1}], elements=OWN)


def of_3_3_3():
    play("3.3.3", [message(template(256, (1, 2), (1, 2), (1, 2)), a_set(256, bytes([0, 5, 0, 6, 0, 4])))], [{"iana:octetDeltaCount": [5, 6, 4]}])
    apart = message(template(256, (8, 4), (4, 1), (8, 4)), a_set(256, bytes([10, 0, 0, 1, 6, 10, 0, 0, 2])))
    play("3.3.3, others between", [apart], [{"iana:sourceIPv4Address": ["10.0.0.1", "10.0.0.2"], "iana:protocolIdentifier": 6}])


def of_3_4_1():
    for place, (kind, octets, value) in enumerate(VALUES):
        made = options(256, 1, (place + 1, len(octets) // 2, ENTERPRISE), (10, 4))
        messages = [message(made, a_set(256, bytes.fromhex(octets) + struct.pack(">I", 7)))]
        play(f"3.4.1, {kind}", messages, [{f"own:a-{kind}": value, "iana:ingressInterface": 7}], (TCP,), elements=OWN)
    play("3.4.1, no scope", numbered([options(257, 0, (8, 4)), T, D], [T, D]), [LINE], malformed=1)


def of_3_4_2():
    made = options(256, 3, (149, 4), (143, 4), (10, 4), (8, 4))
    record = struct.pack(">III", 1, 2, 3) + bytes([10, 0, 0, 1])
    for kind in ALL:
        run = Run(kind, message(made, a_set(256, record)))
        if kind != FILE:
            run.send([message(made, a_set(256, record))])
        found = run.ended()
        check(f"3.4.2, {kind}", found, None, records=1)
        names = ["@type", "iana:observationDomainId", "iana:meteringProcessId", "iana:ingressInterface", "iana:sourceIPv4Address"]
        if [list(line) for line in found[2]] != [names]:
            tell(f"3.4.2, {kind}: {found[2]}")


def statistics(what, scopes, fields, line):
    made = options(256, scopes, *((number, length) for number, length, _ in fields))
    record = b"".join(value.to_bytes(length, "big") for _, length, value in fields)
    play(what, [message(made, a_set(256, record))], [line])


def of_3_4_3():
    line = {"iana:observationDomainId": 1, "iana:meteringProcessId": 2, "iana:exportedMessageTotalCount": 3, "iana:exportedFlowRecordTotalCount": 4, "iana:exportedOctetTotalCount": 5}
    statistics("3.4.3", 2, [(149, 4, 1), (143, 4, 2), (41, 8, 3), (42, 8, 4), (40, 8, 5)], line)


def of_3_4_4():
    line = {"iana:observationDomainId": 1, "iana:meteringProcessId": 2, "iana:ignoredPacketTotalCount": 3, "iana:ignoredOctetTotalCount": 4, "iana:observationTimeSeconds": [5000, 6000]}
    statistics("3.4.4", 2, [(149, 4, 1), (143, 4, 2), (164, 8, 3), (165, 8, 4), (322, 4, 5), (322, 4, 6)], line)


def of_3_4_5():
    line = {"iana:exporterIPv4Address": "0.0.0.9", "iana:notSentFlowTotalCount": 3, "iana:notSentPacketTotalCount": 4, "iana:notSentOctetTotalCount": 5, "iana:observationTimeSeconds": [6000, 7000]}
    statistics("3.4.5", 1, [(130, 4, 9), (166, 8, 3), (167, 8, 4), (168, 8, 5), (322, 4, 6), (322, 4, 7)], line)


def of_3_4_6():
    """Of a template that is there, of one that has too few fields, and of one that isn't there: records as others."""
    keys = options(300, 1, (145, 2), (173, 8))
    records = b"".join(struct.pack(">HQ", number, bits) for number, bits in ((256, 1), (256, 255), (999, 1)))
    lines = [{"iana:templateId": number, "iana:flowKeyIndicator": bits} for number, bits in ((256, 1), (256, 255), (999, 1))]
    play("3.4.6", [message(T, keys, a_set(300, records))], lines)


def of_3_5_1():
    """A million records take no memory, in messages of 65,535 octets: the program may have 20 MB. try_collect.py has a run
    that may have little."""
    records = 16378
    many = message(a_set(256, bytes([10, 0, 0, 1]) * records + bytes(3)))
    run = Run(FILE, message(T) + many * 63, out="/dev/null", memory=20000)
    printed = run.process.stdout.read().decode()
    status = run.process.wait()
    if status or f"records {63 * records}\n" not in printed:
        tell(f"3.5.1: status {status}, {printed}")


def of_3_5_2():
    """Over TCP an exporter is stalled while the output is, and nothing is lost."""
    with tempfile.TemporaryDirectory() as folder:
        pipe = os.path.join(folder, "pipe")
        os.mkfifo(pipe)
        reader = os.open(pipe, os.O_RDWR | os.O_NONBLOCK)
        run = Run(TCP, out=pipe)
        part = message(T, a_set(256, bytes([10, 0, 0, 1]) * 10000))
        with run.peer() as peer:
            peer.setblocking(False)
            sent, still = 0, 0
            while still < 20:
                try:
                    sent += peer.send(part[sent % len(part):])
                    still = 0
                except BlockingIOError:
                    still += 1
                    time.sleep(0.05)
            if sent > 64 << 20:
                tell(f"3.5.2: {sent} octets went without a stall")
            left = len(part) - sent % len(part)
            lines, expected = 0, (sent + left) // len(part) * 10000
            peer.setblocking(True)
            sending = threading.Thread(target=peer.sendall, args=(part[len(part) - left:],))
            sending.start()
            end = time.monotonic() + 60
            while lines < expected and time.monotonic() < end:
                try:
                    lines += os.read(reader, 1 << 20).count(b"\n")
                except BlockingIOError:
                    time.sleep(0.01)
            sending.join()
            if lines != expected:
                tell(f"3.5.2: {lines} lines, not {expected}")
        run.process.kill()
        run.process.wait()
        os.close(reader)


def of_3_5_3():
    fields = 16370
    messages = [message(template(256, *([(1, 1)] * fields))), message(a_set(256, bytes(place % 256 for place in range(fields))))]
    play("3.5.3", messages, [{"iana:octetDeltaCount": [place % 256 for place in range(fields)]}])


def of_3_5_4():
    """65,280 templates over UDP, each defined anew a second later. Floods and want of memory are tried by try_collect.py."""
    sets = [a_set(2, b"".join(struct.pack(">HHHH", number, 1, 8, 4) for number in range(first, min(first + 4000, 65536)))) for first in range(256, 65536, 4000)]
    messages = [message(made, export=100 + later) for later in range(2) for made in sets]
    messages.append(message(a_set(65535, bytes([10, 0, 0, 1])), export=101))
    run = Run(UDP)
    run.send(messages, 0.002)
    check("3.5.4", run.ended(), [LINE], records=1)


def of_3_5_5():
    """50 exporters at once, each with another template under the same ID."""
    for kind in (TCP, UDP):
        run = Run(kind)
        peers = [run.peer() for _ in range(50)]
        for sets in ([0], [1], [1]):
            for place, peer in enumerate(peers):
                made = template(256, (8 if place % 2 else 12, 4)), a_set(256, bytes([10, 0, 0, place]))
                peer.sendall(message(*(made[which] for which in sets)))
        time.sleep(0.3)
        for peer in peers:
            peer.close()
        status, counts, lines = run.ended()
        # Each peer's second record has the sequence number of its first: all messages have 0.
        if status or counts != {"records": 100, "disordered": 50}:
            tell(f"3.5.5, {kind}: status {status}, {counts}")
        found = collections.Counter(next(iter(line.items())) for line in plain(lines))
        for place in range(50):
            pair = ("iana:sourceIPv4Address" if place % 2 else "iana:destinationIPv4Address", f"10.0.0.{place}")
            if found[pair] != 2:
                tell(f"3.5.5, {kind}: {pair} {found[pair]} times")


def of_3_6_1():
    """Every tenth datagram doesn't come; and a connection that breaks is followed by another."""
    messages = numbered([T], *([D] for _ in range(99)))
    kept = [one for place, one in enumerate(messages) if place % 10 != 5]
    run = Run(UDP)
    run.send(kept, 0.001)
    check("3.6.1, udp", run.ended(), [LINE] * 89, records=89, lost=10)
    run = Run(TCP)
    run.send(numbered([T], [D]))
    run.send(numbered([T], [D]))
    check("3.6.1, tcp", run.ended(), [LINE] * 2, records=2)


def of_3_6_2():
    """An exporter that ends within a message; the next one has no template until it sends one."""
    run = Run(TCP)
    run.send([message(T, D), message(D)[:20]])
    run.send([message(D), *numbered([T], [D])])
    check("3.6.2", run.ended(), [LINE] * 2, records=2, torn=1, skipped=1)


def of_3_6_3():
    """The collector ends, its exporter is told, and connects again. The output begins anew."""
    run = Run(TCP)
    peer = run.peer()
    peer.sendall(message(T, D))
    time.sleep(0.2)
    with open(run.out, "rb") as file:
        if file.read().count(b"\n") != 1:
            tell("3.6.3: the record isn't there before the end")
    run.process.kill()
    run.process.wait()
    peer.settimeout(5)
    try:
        closed = peer.recv(1) == b""
    except ConnectionResetError:
        closed = True
    if not closed:
        tell("3.6.3: the exporter isn't told")
    peer.close()
    run.start()
    run.send(numbered([T], [D]))
    check("3.6.3", run.ended(), [LINE], records=1)


def incorrect(total, set_length=12, count=2, more=b""):
    """Figure 4, with its numbers changed."""
    head = struct.pack(">HHIII", 10, total, 1155202151, 0x12345678, 0x33334444)
    return head + struct.pack(">HHHHHH", 2, set_length, 257, count, 8, 4) + more


def of_3_6_4():
    play("3.6.4 (a)", [incorrect(32)], [], (UDP,), malformed=1)
    play("3.6.4 (a)", [incorrect(32)], [], (FILE,), torn=1)
    play("3.6.4 (b)", [incorrect(28), message(T, D)], [LINE], malformed=1)
    play("3.6.4 (c)", [incorrect(26), message(T, D)], [LINE], (UDP,), malformed=1)
    play("3.6.4 (c)", [incorrect(26), message(T, D)], [], STREAMS, malformed=1, broken=1)
    play("3.6.4 (d)", [incorrect(32, count=1)], [], (UDP,), malformed=1)
    right = incorrect(32, 16, more=struct.pack(">HH", 12, 4))
    used = message(a_set(257, bytes([10, 0, 0, 1, 10, 0, 0, 2])), export=1155202151, sequence=0x12345678, domain=0x33334444)
    play("3.6.4 (e)", [right, used], [{**LINE, "iana:destinationIPv4Address": "10.0.0.2"}])
    for scopes in (0, 2):
        figure = struct.pack(">HHIII", 10, 30, 1155202151, 0x12345678, 0x33334444) + struct.pack(">HHHHHHH", 3, 14, 257, 1, scopes, 8, 4)
        play(f"3.6.4, {scopes} scope fields of 1", [figure, message(T, D)], [LINE], malformed=1)


def of_3_6_5():
    play("3.6.5, too short", [message(T, D)[:15], message(T, D)], [LINE], (UDP,), malformed=1)
    short = message(template(256, (8, 3)), a_set(256, bytes([10, 0, 1])))
    play("3.6.5, an address in three octets", [short], [{"iana:sourceIPv4Address": "0x0a0001"}])
    cut = message(template(257, (82, VARIES)), a_set(257, b"\x09eth0"), T, D)
    play("3.6.5, a length past the end", [cut], [LINE], skipped=1)


def of_3_6_6():
    two = template(256, (8, 4), (12, 4))
    line = {**LINE, "iana:destinationIPv4Address": "10.0.0.2"}
    record = bytes([10, 0, 0, 1, 10, 0, 0, 2])
    play("3.6.6, too few", [message(two, a_set(256, record[:4])), message(a_set(256, record))], [line])
    play("3.6.6, too many", [message(two, a_set(256, record + bytes(4)))], [line])


def of_3_6_7():
    strange = [a_set(number, bytes(8)) for number in (0, 1, 4, 5, 200, 255)]
    play("3.6.7", [message(*strange[:3], T, *strange[3:], D)], [LINE], skipped=6)


def of_3_6_8_2():
    other = template(256, (12, 4))
    play("3.6.8.2, the same", numbered([T], [T], [D]), [LINE], STREAMS)
    play("3.6.8.2, another", numbered([T], [D], [other], [D]), [LINE, {"iana:destinationIPv4Address": "10.0.0.1"}], STREAMS, redefined=1)
    play("3.6.8.2, withdrawn", numbered([T], [D], [withdrawal(256)], [D], [T], [D]), [LINE] * 2, STREAMS, skipped=1)


def of_3_6_8_3_1():
    other = template(256, (12, 4))
    messages = [message(*sets, export=export, sequence=sequence) for export, sequence, sets in ((100, 0, [T, D]), (200, 1, [T, D]), (300, 2, [other]), (301, 2, [D]))]
    play("3.6.8.3.1", messages, [LINE, LINE, {"iana:destinationIPv4Address": "10.0.0.1"}], (UDP,), redefined=1)


def of_3_6_8_3_2():
    """A template lasts 1,800 seconds of export time."""
    messages = [message(*sets, export=export, sequence=sequence) for export, sequence, sets in ((100, 0, [T, D]), (1900, 1, [D]), (1901, 2, [D]), (1901, 3, [T]), (1902, 3, [D]))]
    play("3.6.8.3.2", messages, [LINE] * 3, (UDP,), skipped=1)


def main():
    tests = {name.removeprefix("of_").replace("_", "."): test for name, test in globals().items() if name.startswith("of_")}
    for section in sys.argv[2:] or tests:
        tests[section]()
    print(f"{len(sys.argv[2:] or tests)} tests, {wrong} differences")
    sys.exit(wrong > 0)


main()
