#!/usr/bin/env bash
# direct.sh [MEGABYTES]: makes an IPFIX File, and prints the least seconds of five runs of `ipfixcol direct` over it
# beside those of a converter in C that trusts its input. Both have to write the same octets. The program has to be
# built before (rt run in crates/ipfixcol).
set -eu
here=$(cd "$(dirname "$0")" && pwd)
program=$here/../crates/ipfixcol/out/ipfixcol
megabytes=${1:-60}
folder=$(mktemp -d)
trap 'rm -rf "$folder"' EXIT
"${CC:-cc}" -O3 -march=native -o "$folder/converter" "$here/converter.c"
python3 "$here/make_file.py" "$megabytes" "$folder/flows.ipfix"
"$program" direct "$folder/flows.ipfix" "$folder/direct.json"
"$folder/converter" "$folder/flows.ipfix" "$folder/converter.json"
cmp "$folder/direct.json" "$folder/converter.json"
python3 - "$program" "$folder" <<'PY'
import os, subprocess, sys, time

program, folder = sys.argv[1:]
file = os.path.join(folder, 'flows.ipfix')


def seconds(words):
    begin = time.perf_counter()
    subprocess.run(words, check=True)
    return time.perf_counter() - begin


rows = [(seconds([program, 'direct', file, '/dev/null']),
         seconds([os.path.join(folder, 'converter'), file, '/dev/null'])) for _ in range(5)]
direct, converter = (min(column) for column in zip(*rows))
print('%d octets: direct %.3f s (%.0f MB/s), converter in C %.3f s, ratio %.2f'
      % (os.path.getsize(file), direct, os.path.getsize(file) / direct / 1e6, converter, direct / converter))
PY
