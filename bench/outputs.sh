#!/usr/bin/env bash
# outputs.sh [MEGABYTES [ROUNDS]]: makes an IPFIX File of 3 fields and one of 12, and prints what `ipfixcol collect` takes of
# processor time with one output of JSON (J), of IPFIX Files (F) and of a listing (V), with one behind a filter that drops all
# (D), and with all three side by side (A); and A beside J + F + V - 2 D, which is what three outputs take that share the
# reading. All are run in turn, and the least of the rounds is taken. The program has to be built before (rt run in
# crates/ipfixcol).
set -eu
here=$(cd "$(dirname "$0")" && pwd)
program=$here/../crates/ipfixcol/out/ipfixcol
megabytes=${1:-60}
rounds=${2:-7}
folder=$(mktemp -d)
trap 'rm -rf "$folder"' EXIT
output() { printf '[[output]]\nname = "%s"\nkind = "%s"\npath = "%s"\n' "$1" "$1" "$folder/$1"; }
for fields in 3 12; do
    file=$folder/flows-$fields.ipfix
    python3 "$here/make_file.py" "$megabytes" "$file" "$fields"
    head=$(printf 'version = 1\n[[input]]\nname = "in"\nkind = "file"\npath = "%s"' "$file")
    for kind in json ipfix view; do
        ln -sf /dev/null "$folder/$kind"
        { echo "$head"; output "$kind"; } > "$folder/$kind.toml"
    done
    { echo "$head"; printf '[[intermediate]]\nname = "none"\nkind = "filter"\ndefault = "drop"\n'; output json; } > "$folder/dropped.toml"
    { echo "$head"; output json; output ipfix; output view; } > "$folder/all.toml"
    python3 - "$program" "$folder" "$rounds" "$fields" <<'PY'
import os, subprocess, sys

program, folder, rounds, fields = sys.argv[1:]
names = ['json', 'ipfix', 'view', 'dropped', 'all']
least = dict.fromkeys(names, float('inf'))
for _ in range(int(rounds)):
    for name in names:
        child = subprocess.Popen([program, 'collect', '-c', f'{folder}/{name}.toml'], stdout=subprocess.DEVNULL)
        _, status, usage = os.wait4(child.pid, 0)
        assert status == 0, name
        least[name] = min(least[name], usage.ru_utime + usage.ru_stime)
j, f, v, d, a = (least[name] for name in names)
print(f'{fields} fields: J {j:.2f} F {f:.2f} V {v:.2f} D {d:.2f} A {a:.2f} seconds; A / (J + F + V - 2 D) = {a / (j + f + v - 2 * d):.2f}')
PY
done
