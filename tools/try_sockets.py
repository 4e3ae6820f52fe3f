#!/usr/bin/env python3
"""try_sockets.py PROGRAM: tries the built socket_bench with few descriptors, over loopback.

600 connections come at once to a process that may have 64 descriptors. It takes as many as leave some to others, and the
rest as these close: in the end all were opened and closed, and all of their octets came. It ends in some ten seconds.
"""
import os
import re
import resource
import socket
import subprocess
import sys
import time

PROGRAM = os.path.abspath(sys.argv[1])
LIMIT = 64
LEFT = 8  # what socket_io leaves to others
CONNECTIONS = 600
MESSAGE = bytes.fromhex("000a001400000064000000000000000101000004")
wrong = 0


def tell(why):
    global wrong
    wrong += 1
    print(why)


def free_port():
    with socket.socket() as listener:
        listener.bind(("127.0.0.1", 0))
        return listener.getsockname()[1]


def wait_for(port):
    """Returns once something listens there; that connection is the first of all."""
    for _ in range(200):
        try:
            return socket.create_connection(("127.0.0.1", port))
        except ConnectionRefusedError:
            time.sleep(0.05)
    sys.exit("nothing listens")


def connect_all(port, first):
    """All connections at once, each with a message in it."""
    peers = [first] + [socket.create_connection(("127.0.0.1", port)) for _ in range(CONNECTIONS - 1)]
    for peer in peers:
        peer.sendall(MESSAGE)
    return peers


def counts_of(printed):
    return {name: int(count) for name, count in re.findall(r"(\w+): (\d+)", printed)}


def main():
    soft, hard = resource.getrlimit(resource.RLIMIT_NOFILE)
    if hard != resource.RLIM_INFINITY and hard < CONNECTIONS + 50:
        sys.exit(f"this script itself wants {CONNECTIONS + 50} descriptors")
    resource.setrlimit(resource.RLIMIT_NOFILE, (max(soft, CONNECTIONS + 50), hard))
    port = free_port()
    process = subprocess.Popen(
        [PROGRAM, "tcp", f"127.0.0.1:{port}", "8"],
        stdout=subprocess.PIPE,
        stdin=subprocess.DEVNULL,
        preexec_fn=lambda: resource.setrlimit(resource.RLIMIT_NOFILE, (LIMIT, LIMIT)),
    )
    peers = connect_all(port, wait_for(port))
    time.sleep(2.5)
    held = len(os.listdir(f"/proc/{process.pid}/fd"))
    if not LIMIT - LEFT - 2 <= held <= LIMIT - LEFT:
        tell(f"{held} descriptors are held, of {LIMIT}")
    ticks = os.sysconf("SC_CLK_TCK")
    with open(f"/proc/{process.pid}/stat") as file:
        used = sum(map(int, file.read().rsplit(")", 1)[1].split()[11:13])) / ticks
    if used > 0.5:
        tell(f"{used} seconds of processor time while nothing could be taken")
    for peer in peers:
        peer.close()
    printed = process.communicate(timeout=60)[0].decode()
    counts = counts_of(printed)
    wanted = {"opened": CONNECTIONS, "closed": CONNECTIONS, "octets": CONNECTIONS * len(MESSAGE), "failed": 0}
    for name, count in wanted.items():
        if counts.get(name) != count:
            tell(f"{name} {counts.get(name)}, not {count}")
    print(f"{held} descriptors held of {LIMIT}, then {printed.strip()}")


main()
print("wrong:", wrong)
sys.exit(1 if wrong else 0)
