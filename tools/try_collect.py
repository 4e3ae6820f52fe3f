#!/usr/bin/env python3
"""try_collect.py PROGRAM: tries `PROGRAM collect` over sockets of loopback, and prints what isn't as it is to be.

- a message over TCP in two pieces with a second between them, and one over UDP
- 100 connections at once, each with a template of its own under the same ID
- a connection that sends a bad header, one that ends within a message and one that says nothing, while others go on
- datagrams of no octet and of 65,507
- 600 connections at once to a process that may have 64 descriptors: all are taken in the end
- UDP, TCP and a file in one run, with its order log
- addresses that are names, that are taken, and that stand twice
- what a hostile peer sends: octets at random, messages that are cut anywhere, Lengths of 0 and of 65,535, datagrams from
  5,000 ports, and 65,280 templates in each of 4 domains; and a run with little memory, whose output is whole lines
- memory: 100,000 definitions of one ID, one after another, take no more than 1,000, and 10,000 connections that closed no
  more than 1,000

Each run ends by `stop-after`. It takes about a minute. What the templates cost is printed.
"""
import collections
import json
import os
import random
import resource
import socket
import subprocess
import sys
import tempfile
import time

PROGRAM = os.path.abspath(sys.argv[1])
EXAMPLES = os.path.join(os.path.dirname(os.path.abspath(__file__)), "..", "examples")
DESCRIPTORS = 64
MANY = 600
SOURCE = bytes.fromhex("000a002400000064000000000000000100020 00c0100000100080004 01000008 0a000001".replace(" ", ""))
wrong = 0


def tell(what):
    global wrong
    wrong += 1
    print(what)


def wants(what, found, expected):
    if found != expected:
        tell(f"{what}: {found}, not {expected}")


def flow(element, address):
    """A message with a template of one address, under ID 256, and a record of it."""
    body = bytes.fromhex("0002000c01000001") + element.to_bytes(2, "big") + bytes.fromhex("0004" "01000008") + bytes(address)
    return bytes.fromhex("000a") + (16 + len(body)).to_bytes(2, "big") + bytes.fromhex("000000640000000000000001") + body


def free_port(kind=socket.SOCK_STREAM):
    with socket.socket(socket.AF_INET, kind) as free:
        free.bind(("127.0.0.1", 0))
        return free.getsockname()[1]


class Run:
    """A run of inputs, each its kind, its place and when it ends."""

    def __init__(self, folder, inputs, descriptors=None, memory=None):
        self.out, self.log = os.path.join(folder, "out.json"), os.path.join(folder, "order.log")
        lines = ["version = 1"] + ([f'order-log = "{self.log}"'] if len(inputs) > 1 else [])
        for number, (kind, place, stop) in enumerate(inputs):
            key = "path" if kind == "file" else "listen"
            lines += ["[[input]]", f'name = "i{number}"', f'kind = "{kind}"', f'{key} = "{place}"', f"stop-after = {stop}"]
        lines += ["[[output]]", 'name = "o"', 'kind = "json"', f'path = "{self.out}"', ""]
        path = os.path.join(folder, "run.toml")
        with open(path, "w", encoding="utf-8") as file:
            file.write("\n".join(lines))

        def limit():
            for kind, most in ((resource.RLIMIT_NOFILE, descriptors), (resource.RLIMIT_AS, memory)):
                if most:
                    resource.setrlimit(kind, (most, most))

        self.process = subprocess.Popen([PROGRAM, "collect", "-c", path], stdout=subprocess.PIPE, preexec_fn=limit)
        for kind, place, _ in inputs:
            if kind != "file":
                self.wait_for(kind, int(place.rsplit(":", 1)[1]))

    def wait_for(self, kind, port):
        row = f" 0100007F:{port:04X} "
        for _ in range(250):
            with open(f"/proc/net/{kind}", encoding="ascii") as table:
                if self.process.poll() is not None or any(row in line for line in table):
                    return
            time.sleep(0.02)

    def ended(self):
        """The status, the counts, and the lines of the output."""
        printed = self.process.communicate(timeout=60)[0].decode()
        counts = {name: number for name, _, number in (line.rpartition(" ") for line in printed.splitlines())}
        with open(self.out, encoding="utf-8") as file:
            return self.process.returncode, counts, [json.loads(line) for line in file]


def connection(port):
    return socket.create_connection(("127.0.0.1", port))


def counted(what, run, records, **expected):
    status, counts, lines = run.ended()
    wants(f"{what}: status", status, 0)
    for name, number in ({"records": records} | expected).items():
        wants(f"{what}: {name}", counts.get(name), str(number))
    wants(f"{what}: lines", len(lines), records)
    return lines


def in_pieces(folder):
    port = free_port()
    run = Run(folder, [("tcp", f"127.0.0.1:{port}", 7)])
    with connection(port) as peer:
        peer.sendall(SOURCE[:20])
        time.sleep(1.2)
        peer.sendall(SOURCE[20:])
        time.sleep(0.2)
    counted("a message in two pieces", run, 1, sessions=1, messages=1, torn=0)


def datagrams(folder):
    port = free_port(socket.SOCK_DGRAM)
    run = Run(folder, [("udp", f"127.0.0.1:{port}", 5)])
    long = bytearray(65507)
    with socket.socket(socket.AF_INET, socket.SOCK_DGRAM) as peer:
        for octets in (SOURCE, b"", bytes(long), SOURCE):
            peer.sendto(octets, ("127.0.0.1", port))
            time.sleep(0.05)
    counted("datagrams of no octet and of the most", run, 2, sessions=1, messages=2, malformed=2)


def many_templates(folder):
    port = free_port()
    run = Run(folder, [("tcp", f"127.0.0.1:{port}", 310)])
    peers = [connection(port) for _ in range(100)]
    for number, peer in enumerate(peers):
        peer.sendall(flow(8 if number % 2 else 12, (10, 0, 0, number)))
    for peer in peers:
        peer.close()
    lines = counted("100 connections", run, 100, sessions=100, messages=100)
    found = collections.Counter("iana:sourceIPv4Address" in line for line in lines)
    wants("100 connections: each by its own template", dict(found), {True: 50, False: 50})


def strange_peers(folder):
    port = free_port()
    run = Run(folder, [("tcp", f"127.0.0.1:{port}", 14)])
    silent, bad, torn, good = (connection(port) for _ in range(4))
    bad.sendall(b"GET / HTTP/1.1\r\n\r\n")
    torn.sendall(SOURCE[:30])
    torn.close()
    time.sleep(0.3)
    good.sendall(SOURCE)
    time.sleep(0.3)
    counted("strange peers", run, 1, sessions=4, broken=1, torn=1)
    for peer in (silent, bad, good):
        peer.close()


def few_descriptors(folder):
    port = free_port()
    run = Run(folder, [("tcp", f"127.0.0.1:{port}", 3 * MANY + 8)], DESCRIPTORS)
    peers = [connection(port) for _ in range(MANY)]
    for peer in peers:
        peer.sendall(SOURCE)
        peer.shutdown(socket.SHUT_WR)
    status, counts, lines = run.ended()
    wants("few descriptors: status", status, 0)
    wants("few descriptors: sessions", counts["sessions"], str(MANY))
    wants("few descriptors: lines", len(lines), int(counts["records"]))
    for peer in peers:
        peer.close()


def three_kinds(folder):
    udp, tcp = free_port(socket.SOCK_DGRAM), free_port()
    file = os.path.join(EXAMPLES, "two_flows.ipfix")
    run = Run(folder, [("udp", f"127.0.0.1:{udp}", 5), ("file", file, 0), ("tcp", f"127.0.0.1:{tcp}", 7)])
    with socket.socket(socket.AF_INET, socket.SOCK_DGRAM) as peer, connection(tcp) as stream:
        peer.sendto(SOURCE, ("127.0.0.1", udp))
        stream.sendall(SOURCE + SOURCE)
        time.sleep(0.3)
    counted("three kinds", run, 5, sessions=3, messages=4)
    with open(run.log, "rb") as log:
        entries = log.read()
    found = collections.Counter(entries[at : at + 2] for at in range(0, len(entries), 2))
    wants("three kinds: entries of the file", found[b"\0\1"], 3)
    wants("three kinds: entries of others", set(found), {b"\0\0", b"\0\1", b"\0\2"})


def refused(folder):
    taken = socket.socket(socket.AF_INET, socket.SOCK_DGRAM)
    taken.bind(("127.0.0.1", 0))
    port = free_port(socket.SOCK_DGRAM)
    for what, inputs, line in (
        ("a name", [("udp", "localhost:4739", 1)], "source fault: i0"),
        ("a taken address", [("udp", f"127.0.0.1:{taken.getsockname()[1]}", 1)], "source fault: i0"),
        ("an address twice", [("udp", f"127.0.0.1:{port}", 1), ("udp", f"127.0.0.1:{port}", 1)], "source fault: i1"),
    ):
        process = Run(folder, inputs).process
        wants(f"{what}: line", process.communicate(timeout=20)[0].decode().strip(), line)
        wants(f"{what}: status", process.returncode, 3)
    taken.close()


def to_udp(port, octets_of_each, pause=0.0002):
    with socket.socket(socket.AF_INET, socket.SOCK_DGRAM) as peer:
        for octets in octets_of_each:
            peer.sendto(octets, ("127.0.0.1", port))
            time.sleep(pause)


def random_octets(folder):
    source, udp, tcp = random.Random(7011), free_port(socket.SOCK_DGRAM), free_port()
    run = Run(folder, [("udp", f"127.0.0.1:{udp}", 2008), ("tcp", f"127.0.0.1:{tcp}", 12)])
    to_udp(udp, (source.randbytes(source.randrange(0, 1400)) for _ in range(2000)))
    to_udp(udp, [SOURCE])
    with connection(tcp) as peer:
        peer.sendall(b"\0\x0a" + source.randbytes(60000))
        time.sleep(0.5)
    with connection(tcp) as peer:
        peer.sendall(SOURCE)
        time.sleep(0.2)
    counted("octets at random", run, 2, messages=2, malformed=2000)


def cut_anywhere(folder):
    udp = free_port(socket.SOCK_DGRAM)
    run = Run(folder, [("udp", f"127.0.0.1:{udp}", len(SOURCE) + 5)])
    to_udp(udp, (SOURCE[:length] for length in range(len(SOURCE) + 1)))
    counted("messages that are cut", run, 1, messages=1, malformed=len(SOURCE))


def strange_lengths(folder):
    tcp = free_port()
    run = Run(folder, [("tcp", f"127.0.0.1:{tcp}", 13)])
    none, most, good = (connection(tcp) for _ in range(3))
    none.sendall(bytes.fromhex("000a0000") + bytes(100))
    most.sendall(bytes.fromhex("000affff") + bytes(100))
    most.close()
    time.sleep(0.3)
    good.sendall(SOURCE)
    good.close()
    time.sleep(0.3)
    counted("strange lengths", run, 1, messages=1, broken=1, torn=1)
    none.close()


def many_ports(folder):
    udp = free_port(socket.SOCK_DGRAM)
    run = Run(folder, [("udp", f"127.0.0.1:{udp}", 5003)])
    for _ in range(5000):
        with socket.socket(socket.AF_INET, socket.SOCK_DGRAM) as peer:
            peer.sendto(SOURCE, ("127.0.0.1", udp))
    status, counts, lines = run.ended()
    wants("5,000 ports: status", status, 0)
    wants("5,000 ports: all came", int(counts["messages"]) + int(counts["refused"]), 5000)
    wants("5,000 ports: sessions at most", int(counts["sessions"]) <= 4096, True)
    wants("5,000 ports: lines", len(lines), int(counts["records"]))


def flood():
    """Messages with 65,280 templates of four fields in each of 4 domains, and then a record by one of each."""
    fields = bytes.fromhex("00080004000c000400010008" "00020008")
    for domain in range(4):
        head = bytes.fromhex("00000064" "00000000") + domain.to_bytes(4, "big")
        for first in range(256, 65536, 2000):
            records = b"".join(number.to_bytes(2, "big") + b"\0\4" + fields for number in range(first, min(first + 2000, 65536)))
            body = b"\0\2" + (4 + len(records)).to_bytes(2, "big") + records
            yield b"\0\x0a" + (16 + len(body)).to_bytes(2, "big") + head + body
        body = bytes.fromhex("ffff001c") + bytes(24)
        yield b"\0\x0a" + (16 + len(body)).to_bytes(2, "big") + head + body


def peak(process):
    with open(f"/proc/{process.pid}/status", encoding="ascii") as status:
        return next(int(line.split()[1]) // 1024 for line in status if line.startswith("VmHWM:"))


def template_flood(folder):
    tcp = free_port()
    run = Run(folder, [("tcp", f"127.0.0.1:{tcp}", 0)])
    begin = time.perf_counter()
    with connection(tcp) as peer:
        for message in flood():
            peer.sendall(message)
        for _ in range(1000):
            if os.path.getsize(run.out) and sum(1 for _ in open(run.out, "rb")) == 4:
                break
            time.sleep(0.01)
        spent = time.perf_counter() - begin
        print(f"261,120 templates in 4 domains: {spent:.1f} s, {peak(run.process)} MB at most")
        with open(run.out, encoding="utf-8") as file:
            wants("a flood of templates: lines", len(file.readlines()), 4)
    run.process.kill()
    run.process.wait()


def little_memory(folder):
    """A file of templates without end, by a process that may have 16 MB: what it wrote is a first part of the lines."""
    path = os.path.join(folder, "flood.ipfix")
    with open(path, "wb") as file:
        file.write(SOURCE + b"".join(flood()))
    run = Run(folder, [("file", path, 0)], memory=16 << 20)
    printed = run.process.communicate(timeout=60)[0].decode()
    wants("little memory: status", run.process.returncode, 6)
    wants("little memory: line", printed.splitlines()[:1], ["memory: i0"])
    with open(run.out, encoding="utf-8") as file:
        wants("little memory: lines", file.read().count("\n") >= 1, True)


def definition(number):
    """A message with a definition that no other number has, and a record of it."""
    body = bytes.fromhex("000200100100000180010004") + number.to_bytes(4, "big") + bytes.fromhex("01000008") + number.to_bytes(4, "big")
    return bytes.fromhex("000a002800000064") + number.to_bytes(4, "big") + bytes.fromhex("00000001") + body


def lines_of(path, count):
    """Returns once a file has so many lines."""
    for _ in range(3000):
        with open(path, "rb") as file:
            if sum(block.count(b"\n") for block in iter(lambda: file.read(1 << 20), b"")) >= count:
                return
        time.sleep(0.01)
    tell(f"{count} lines don't come")


def many_definitions(folder):
    """The run has an input of datagrams too, so that it is there to be looked at once the file is read."""
    most = []
    for count in (1000, 100000):
        path = os.path.join(folder, "definitions.ipfix")
        with open(path, "wb") as file:
            file.writelines(definition(number + 1) for number in range(count))
        run = Run(folder, [("file", path, 0), ("udp", f"127.0.0.1:{free_port(socket.SOCK_DGRAM)}", 0)])
        lines_of(run.out, count)
        with open(f"/proc/{run.process.pid}/status", encoding="ascii") as status:
            most.append(next(int(line.split()[1]) for line in status if line.startswith("VmHWM:")))
        run.process.kill()
        run.process.wait()
    wants("many definitions: KiB more", max(0, most[1] - most[0] - 256), 0)


def many_sessions(folder):
    port = free_port()
    run = Run(folder, [("tcp", f"127.0.0.1:{port}", 0)])
    held = []
    for count in (1000, 9000):
        for number in range(count):
            with connection(port) as peer:
                peer.sendall(definition(number + 1))
        time.sleep(0.5)
        with open(f"/proc/{run.process.pid}/status", encoding="ascii") as status:
            held.append(next(int(line.split()[1]) for line in status if line.startswith("VmRSS:")))
    wants("many sessions: KiB more", max(0, held[1] - held[0] - 512), 0)
    run.process.kill()
    run.process.wait()


def main():
    attempts = (in_pieces, datagrams, many_templates, strange_peers, few_descriptors, three_kinds, refused)
    hostile = (random_octets, cut_anywhere, strange_lengths, many_ports, template_flood, little_memory)
    for attempt in attempts + hostile + (many_definitions, many_sessions):
        with tempfile.TemporaryDirectory() as folder:
            attempt(folder)
    if not wrong:
        print("all as it is to be")
    sys.exit(wrong > 0)


main()
