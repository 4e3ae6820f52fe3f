#!/usr/bin/env bash
# collect.sh [MEGABYTES [ROUNDS [CONVERTER]]]: makes an IPFIX File of 3 fields and one of 12, and prints what `ipfixcol
# collect` takes over each, of processor time and of memory, beside `direct` and beside a converter in C that trusts its
# input, and what it takes with an output of IPFIX Files in the place of JSON. CONVERTER is a program that is called with IN and
# OUT; without it converter.c is compiled, which knows the elements of the 3 fields alone. All are run in turn, and the least and
# the median of the rounds' ratios are printed. What `collect` and `direct` write of JSON is to be the same. The program has to be
# built before (rt run in crates/ipfixcol).
set -eu
here=$(cd "$(dirname "$0")" && pwd)
program=$here/../crates/ipfixcol/out/ipfixcol
megabytes=${1:-60}
rounds=${2:-15}
folder=$(mktemp -d)
trap 'rm -rf "$folder"' EXIT
converter=${3:-$folder/converter}
if [ $# -lt 3 ]; then
    "${CC:-cc}" -O3 -march=native -o "$converter" "$here/converter.c"
fi
for fields in 3 12; do
    file=$folder/flows-$fields.ipfix
    python3 "$here/make_file.py" "$megabytes" "$file" "$fields"
    for out in "$folder/out.json" /dev/null; do
        printf 'version = 1\n[[input]]\nname = "in"\nkind = "file"\npath = "%s"\n' "$file" > "$folder/$(basename "$out").toml"
        printf '[[output]]\nname = "out"\nkind = "json"\npath = "%s"\n' "$out" >> "$folder/$(basename "$out").toml"
    done
    sed 's/kind = "json"/kind = "ipfix"/' "$folder/null.toml" > "$folder/ipfix.toml"
    "$program" collect -c "$folder/out.json.toml" > /dev/null
    "$program" direct "$file" "$folder/direct.json"
    cmp "$folder/out.json" "$folder/direct.json"
    rm "$folder/out.json" "$folder/direct.json"
    [ $# -lt 3 ] && [ "$fields" = 12 ] && converter=
    python3 - "$program" "$folder/null.toml" "$file" "$rounds" "$fields" "$converter" <<'PY'
import os, resource, statistics, sys

program, description, file, rounds, fields, converter = sys.argv[1:]
commands = {'collect': [program, 'collect', '-c', description], 'direct': [program, 'direct', file, '/dev/null']}
commands['files'] = [program, 'collect', '-c', os.path.join(os.path.dirname(description), 'ipfix.toml')]
if converter:
    commands['C'] = [converter, file, '/dev/null']


def run(words):
    """Seconds of processor time, and KiB of memory at most."""
    child = os.fork()
    if child == 0:
        os.dup2(os.open(os.devnull, os.O_WRONLY), 1)
        os.execv(words[0], words)
    _, status, used = os.wait4(child, 0)
    if status != 0:
        sys.exit(f'{words}: status {status}')
    return used.ru_utime + used.ru_stime, used.ru_maxrss


rows = [{name: run(words) for name, words in commands.items()} for _ in range(int(rounds))]
least = {name: min(row[name][0] for row in rows) for name in commands}
print(f"{fields} fields, {os.path.getsize(file)} octets: " + ', '.join(f'{name} {seconds:.3f} s' for name, seconds in least.items()))
for other in [name for name in ('direct', 'C') if name in commands]:
    ratios = [row['collect'][0] / row[other][0] for row in rows]
    print(f"  collect beside {other}: {statistics.median(ratios):.2f} (median), {least['collect'] / least[other]:.2f} (least of each)")
ratios = [row['files'][0] / row['collect'][0] for row in rows]
print(f"  files beside collect: {statistics.median(ratios):.2f} (median), {least['files'] / least['collect']:.2f} (least of each)")
print(f"  memory at most {max(row['collect'][1] for row in rows) / 1024:.1f} MB")
PY
    rm "$file"
done
