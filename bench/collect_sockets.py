#!/usr/bin/env python3
"""collect_sockets.py [STEP..]: what the built program takes off sockets, over loopback, at most 5 seconds a step: `udp`,
`beside`, `tcp` and `silent`; all of them without a word.

- `udp`: datagrams of 196 octets with 11 records each into one JSON output (/dev/null), at rates up to 200,000 a second: the
  part that was lost, by the counts and by /proc/net/udp, and processor time a record. Where nfcapd is installed the same
  datagrams go to it, too.
- `beside`: the same at 100,000 a second, beside a quiet UDP input and a silent TCP one.
- `tcp`: a file of 60 MB over one connection, beside `collect` over the file itself.
- `silent`: memory with 4,000 connections that are open and silent.

The program has to be built before (rt run in crates/ipfixcol). The receive buffer that it gets is up to net.core.rmem_max.
"""
import os
import re
import shutil
import signal
import socket
import subprocess
import sys
import tempfile
import time

HERE = os.path.dirname(os.path.abspath(__file__))
PROGRAM = os.environ.get("PROGRAM") or os.path.join(HERE, "..", "crates", "ipfixcol", "out", "ipfixcol")
RECORDS = 11
EMPTY = bytes.fromhex("000a0010655b71000000000000000002")  # a message of another domain, without sets
OVER = 1000  # so many events are topped up, with empty messages
SILENT = 4000
TICKS = 7  # a silent input ends after so many seconds


def free_port(kind):
    family = socket.SOCK_DGRAM if kind == "udp" else socket.SOCK_STREAM
    with socket.socket(socket.AF_INET, family) as free:
        free.bind(("127.0.0.1", 0))
        return free.getsockname()[1]


def row_of(kind, port):
    """The row of a listening socket in /proc/net, if it is there."""
    wanted = f" 0100007F:{port:04X} "
    with open(f"/proc/net/{kind}", encoding="ascii") as table:
        return next((line for line in table if wanted in line), None)


def wait_for(kind, port):
    for _ in range(250):
        if row_of(kind, port):
            return
        time.sleep(0.02)
    sys.exit("nothing listens")


def description(folder, inputs, out="/dev/null"):
    """A description of these inputs, each its kind, its port and when it ends, to lines of JSON."""
    lines = ["version = 1"] + ([f'order-log = "{folder}/order.log"'] if len(inputs) > 1 else [])
    for number, (kind, port, stop) in enumerate(inputs):
        lines += ["[[input]]", f'name = "i{number}"', f'kind = "{kind}"', f'listen = "127.0.0.1:{port}"', f"stop-after = {stop}"]
    lines += ["[[output]]", 'name = "o"', 'kind = "json"', f'path = "{out}"', ""]
    path = os.path.join(folder, "run.toml")
    with open(path, "w", encoding="utf-8") as file:
        file.write("\n".join(lines))
    return path


def start(words):
    return subprocess.Popen(words, stdout=subprocess.PIPE, stderr=subprocess.DEVNULL)


def used_by(process):
    """What a process printed, and the seconds of processor time that it took."""
    printed = process.stdout.read().decode()
    _, _, used = os.wait4(process.pid, 0)
    process.returncode = 0
    return printed, used.ru_utime + used.ru_stime


def top_up(process, ports):
    """Sends empty messages until the process has ended."""
    with socket.socket(socket.AF_INET, socket.SOCK_DGRAM) as peer:
        for _ in range(20000):
            for port in ports:
                for _ in range(5):
                    peer.sendto(EMPTY, ("127.0.0.1", port))
            if os.waitid(os.P_PID, process.pid, os.WEXITED | os.WNOHANG | os.WNOWAIT):
                return
            time.sleep(0.001)
    process.kill()
    sys.exit("it didn't end")


def told(name, count, records, drops, spent, seconds):
    lost = 100 * (1 - records / (RECORDS * count))
    print(f"  {name}: {count} datagrams in {seconds:.2f} s, {lost:.2f} % lost, {drops} drops in /proc/net/udp, {1e9 * spent / max(1, records):.0f} ns a record")


def datagrams(sender, folder, rate, others=()):
    port, count = free_port("udp"), 4 * rate
    path = description(folder, [("udp", port, count + OVER), *others])
    process = start([PROGRAM, "collect", "-c", path])
    for kind, other in [("udp", port), *((kind, other) for kind, other, _ in others)]:
        wait_for(kind, other)
    seconds = float(subprocess.run([sender, str(port), str(rate), str(count), str(RECORDS)], check=True, stdout=subprocess.PIPE).stdout)
    time.sleep(0.3)
    drops = int(row_of("udp", port).split()[-1]) if row_of("udp", port) else 0
    top_up(process, [port, *(other for kind, other, _ in others if kind == "udp")])
    printed, spent = used_by(process)
    records = int(re.search(r"^records (\d+)$", printed, re.MULTILINE)[1])
    told(f"{rate} a second{', beside others' if others else ''}", count, records, drops, spent, seconds)


def with_nfcapd(sender, folder, rate):
    """The same datagrams to nfcapd, whose records are counted by nfdump."""
    port, count = free_port("udp"), 4 * rate
    files = os.path.join(folder, "nfcapd")
    os.makedirs(files, exist_ok=True)
    process = start(["nfcapd", "-p", str(port), "-b", "127.0.0.1", "-B", str(8 << 20), "-w", files])
    wait_for("udp", port)
    seconds = float(subprocess.run([sender, str(port), str(rate), str(count), str(RECORDS)], check=True, stdout=subprocess.PIPE).stdout)
    time.sleep(1)
    drops = int(row_of("udp", port).split()[-1])
    process.send_signal(signal.SIGTERM)
    _, spent = used_by(process)
    printed = subprocess.run(["nfdump", "-q", "-R", files, "-I"], stdout=subprocess.PIPE, stderr=subprocess.DEVNULL, check=False).stdout.decode()
    records = int((re.search(r"^Flows: (\d+)$", printed, re.MULTILINE) or [0, 0])[1])
    told(f"nfcapd, {rate} a second", count, records, drops, spent, seconds)
    shutil.rmtree(files)


def wait_size(path, size):
    for _ in range(60000):
        if os.path.getsize(path) >= size:
            return
        time.sleep(0.0005)
    sys.exit("the output doesn't come to its size")


def one_connection(folder):
    file, out = os.path.join(folder, "flows.ipfix"), os.path.join(folder, "out.json")
    subprocess.run([sys.executable, os.path.join(HERE, "make_file.py"), "60", file], check=True)
    path = os.path.join(folder, "file.toml")
    with open(path, "w", encoding="utf-8") as made:
        made.write(f'version = 1\n[[input]]\nname = "i"\nkind = "file"\npath = "{file}"\n[[output]]\nname = "o"\nkind = "json"\npath = "{out}"\n')
    with open(file, "rb") as octets:
        flows = octets.read()
    for _ in range(3):
        begin = time.perf_counter()
        subprocess.run([PROGRAM, "collect", "-c", path], check=True, stdout=subprocess.DEVNULL)
        by_file = time.perf_counter() - begin
        size = os.path.getsize(out)
        port = free_port("tcp")
        process = start([PROGRAM, "collect", "-c", description(folder, [("tcp", port, 0)], out)])
        wait_for("tcp", port)
        with socket.create_connection(("127.0.0.1", port)) as peer:
            begin = time.perf_counter()
            peer.sendall(flows)
        wait_size(out, size)
        by_connection = time.perf_counter() - begin
        process.kill()
        used_by(process)
        print(f"  {len(flows)} octets: a file {by_file:.2f} s, one connection {by_connection:.2f} s, {by_connection / by_file:.2f} times as long")


def resident(process):
    with open(f"/proc/{process.pid}/status", encoding="ascii") as status:
        return int(re.search(r"VmRSS:\s+(\d+) kB", status.read())[1]) / 1024


def silent_connections(folder):
    port = free_port("tcp")
    process = start([PROGRAM, "collect", "-c", description(folder, [("tcp", port, 0)])])
    wait_for("tcp", port)
    before = resident(process)
    peers = []
    for _ in range(SILENT):
        peers.append(socket.create_connection(("127.0.0.1", port)))
        peers[-1].sendall(EMPTY)
    time.sleep(1)
    print(f"  {SILENT} connections: {resident(process) - before:.1f} MB more than the {before:.1f} MB without")
    for peer in peers:
        peer.close()
    process.kill()
    used_by(process)


def main(steps):
    with tempfile.TemporaryDirectory() as folder:
        sender = os.path.join(folder, "send_flows")
        subprocess.run([os.environ.get("CC", "cc"), "-O2", "-o", sender, os.path.join(HERE, "send_flows.c")], check=True)
        if "udp" in steps:
            for rate in (50_000, 100_000, 200_000):
                datagrams(sender, folder, rate)
                if shutil.which("nfcapd"):
                    with_nfcapd(sender, folder, rate)
        if "beside" in steps:
            datagrams(sender, folder, 100_000)
            datagrams(sender, folder, 100_000, [("udp", free_port("udp"), OVER), ("tcp", free_port("tcp"), TICKS)])
        if "tcp" in steps:
            one_connection(folder)
        if "silent" in steps:
            silent_connections(folder)


if __name__ == "__main__":
    main(sys.argv[1:] or ["udp", "beside", "tcp", "silent"])
