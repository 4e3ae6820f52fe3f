#!/usr/bin/env bash
# cutter.sh: prints the least seconds of five runs of `cut_bench` over small messages in large pieces, and over the
# longest messages octet by octet, each for twice as much as before. The program has to be built before (rt run in
# crates/cut_bench).
set -eu
here=$(cd "$(dirname "$0")" && pwd)
python3 - "$here/../crates/cut_bench/out/cut_bench" <<'PY'
import subprocess, sys, time


def least_seconds(*words):
    rows = []
    for _ in range(5):
        begin = time.perf_counter()
        subprocess.run([sys.argv[1], *map(str, words)], check=True, stdout=subprocess.DEVNULL)
        rows.append(time.perf_counter() - begin)
    return min(rows)


def show(octets, *words):
    octets *= max(words)
    least = least_seconds(*words)
    print('  %11d octets: %.3f s, %.2f ns an octet' % (octets, least, least / octets * 1e9))


print('messages of 20 octets in pieces of 65,535')
for times in (50, 100, 200, 400):
    show(20 * 65535, times, 0)
print('messages of 65,535 octets in pieces of 1')
for times in (50, 100, 200, 400):
    show(65535, 0, times)
PY
