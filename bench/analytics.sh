#!/usr/bin/env bash
# analytics.sh ARCHIVE [STEP..]: times the scripts of examples/analytics over an archive of IPFIX Files, as that of
# examples/analytics/make_sample --flows 10000000 --clients 20000 --servers 5000 --lines '' FOLDER
# Steps are direct, load, ask, report, and workers1, workers2, workers4 of `archive`; without any all are taken. load
# and report need what direct leaves, ask what load leaves. Each prints its seconds by the clock, its processor time and
# the load of the machine. IPFIXCOL is the program, if it isn't at crates/ipfixcol/out/ipfixcol. What is written stands
# in the folder SCRATCH, if it is given, and is removed else.
set -eu
here=$(cd "$(dirname "$0")/.." && pwd)
scripts=$here/examples/analytics
export IPFIXCOL=${IPFIXCOL:-$here/crates/ipfixcol/out/ipfixcol}
archive=$1
shift
[ $# -gt 0 ] || set -- direct load ask report workers1 workers2 workers4
scratch=${SCRATCH:-$(mktemp -d)}
[ -n "${SCRATCH:-}" ] || trap 'rm -rf "$scratch"' EXIT
TIMEFORMAT='%R s, processor %U s and %S s of the system'
lines=$scratch/flows.json
direct() {
    : > "$lines"
    find "$archive" -name '*.ipfix' | sort | while read -r file; do
        "$IPFIXCOL" direct "$file" "$scratch/one.json"
        cat "$scratch/one.json" >> "$lines"
    done
    rm -f "$scratch/one.json"
}
load() { rm -f "$scratch/flows.db"; "$scripts/load" "$scratch/flows.db" "$lines" > /dev/null; }
ask() { "$scripts/ask" --json "$scratch/flows.db" > "$scratch/ask.json"; }
report() { "$scripts/report" "$lines" "$scratch/flows.html"; }
workers() {
    "$scripts/archive" --workers "$1" --json "$scratch/archive.json" "$archive" "$scratch/lines"
    # the answers are those of sqlite3, where it was asked
    if [ -e "$scratch/ask.json" ]; then cmp "$scratch/ask.json" "$scratch/archive.json"; fi
}
for step in "$@"; do
    echo "$step (load $(cut -d' ' -f1 /proc/loadavg)):"
    case $step in
        workers*)
            rm -rf "$scratch/lines"
            time workers "${step#workers}"
            echo "$step again, with the lines there (load $(cut -d' ' -f1 /proc/loadavg)):"
            time workers "${step#workers}"
            ;;
        *) time "$step" ;;
    esac
done
du -sh --apparent-size "$scratch"/* | sed "s|$scratch/||"
