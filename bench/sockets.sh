#!/usr/bin/env bash
# sockets.sh: sends over loopback to `socket_bench`, at most 5 seconds a step, and prints what came of it: datagrams of 200
# and of 1,400 octets at three rates, one connection as fast as it goes with 100 others beside it, and 2,000 connections
# that open and close. The program has to be built before (rt run in crates/socket_bench); the buffer that it gets is up
# to net.core.rmem_max.
set -eu
here=$(cd "$(dirname "$0")" && pwd)
work=$(mktemp -d)
trap 'rm -rf "$work"' EXIT
cc -O2 -o "$work/send_datagrams" "$here/send_datagrams.c"
python3 - "$here/../crates/socket_bench/out/socket_bench" "$work/send_datagrams" <<'PY'
import re, socket, subprocess, sys, threading, time

program, sender = sys.argv[1:]


def start(kind):
    family = socket.SOCK_DGRAM if kind == 'udp' else socket.SOCK_STREAM
    with socket.socket(socket.AF_INET, family) as free:
        free.bind(('127.0.0.1', 0))
        port = free.getsockname()[1]
    process = subprocess.Popen([program, kind, f'127.0.0.1:{port}', '7'], stdout=subprocess.PIPE)
    row = f' 0100007F:{port:04X} '
    for _ in range(100):
        if any(row in line for line in open(f'/proc/net/{kind}')):
            return process, port
        time.sleep(0.02)
    sys.exit('nothing listens')


def end(process):
    printed = process.communicate(timeout=60)[0].decode()
    counts = {name: int(count) for name, count in re.findall(r'(\w+): (\d+)', printed)}
    return counts, int(printed.split()[-1])


def datagrams(octets, rate):
    process, port = start('udp')
    sent = int(subprocess.run([sender, str(port), str(rate), '4', str(octets)], check=True, stdout=subprocess.PIPE).stdout)
    counts, spent = end(process)
    lost = sent - counts['datagrams']
    print('  %5d octets, %7d a second: %8d sent, %.2f %% lost, %.2f us of processor time each'
          % (octets, rate, sent, 100 * lost / sent, spent / max(1, counts['datagrams'])))


def one_stream():
    process, port = start('tcp')
    others = [socket.create_connection(('127.0.0.1', port)) for _ in range(100)]
    fast = socket.create_connection(('127.0.0.1', port))
    block, sent = bytes(1 << 20), 0

    def trickle():
        for _ in range(20):
            for other in others:
                other.sendall(bytes(1000))
            time.sleep(0.1)

    beside = threading.Thread(target=trickle)
    beside.start()
    begin = time.perf_counter()
    while time.perf_counter() - begin < 3:
        fast.sendall(block)
        sent += len(block)
    spent = time.perf_counter() - begin
    beside.join()
    for peer in [fast, *others]:
        peer.close()
    counts, processor = end(process)
    whole = sent + 20 * 1000 * len(others)
    print('  %.2f GB a second sent, %d octets of %d came, %.2f ns of processor time an octet, %d closed'
          % (sent / spent / 1e9, counts['octets'], whole, processor * 1000 / max(1, counts['octets']), counts['closed']))


def many_connections():
    process, port = start('tcp')
    for _ in range(20):
        peers = [socket.create_connection(('127.0.0.1', port)) for _ in range(100)]
        for peer in peers:
            peer.sendall(b'octets')
        for peer in peers:
            peer.close()
    counts, processor = end(process)
    print('  %d opened, %d closed, %d octets, %.1f us of processor time a connection'
          % (counts['opened'], counts['closed'], counts['octets'], processor / max(1, counts['opened'])))


print('datagrams')
for octets in (200, 1400):
    for rate in (50_000, 100_000, 200_000):
        datagrams(octets, rate)
print('one connection as fast as it goes, and 100 that send 20,000 octets each')
one_stream()
print('2,000 connections, 100 at a time, each with 6 octets')
many_connections()
PY
