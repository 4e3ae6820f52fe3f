#!/usr/bin/env bash
# templates.sh: prints the least nanoseconds of a call of a template manager (a template of 1,000 resolved on a stream; an
# export time that arrives, with 65,000 IDs; a template of 1,000 that comes again as it was; a snapshot of 1,000), and the
# most memory that is held after 10,000 and after 1,000,000 definitions over UDP, one a second for 16 IDs in turn. The
# program has to be built before (rt run in crates/template_bench).
set -eu
here=$(cd "$(dirname "$0")" && pwd)
program=$here/../crates/template_bench/out/template_bench
"$program" 1000 times | grep ' ns '
python3 - "$program" <<'PY'
import os, subprocess, sys

for rounds in (10_000, 100_000, 1_000_000):
    process = subprocess.Popen([sys.argv[1], str(rounds), 'hold'], stdout=subprocess.PIPE)
    line = process.stdout.read().decode().strip()
    _, status, usage = os.wait4(process.pid, 0)
    print('%s, at most %d KiB resident, status %d' % (line, usage.ru_maxrss, status))
PY
