#!/usr/bin/env bash
# json.sh [MEGABYTES [ROUNDS]]: times lines of JSON. It makes bodies of records (make_bodies.py), and has json_bench map each to
# lines in memory, in turn with programs in C where they know the fields: converter_lines (the function of converter.c) and
# json_lines, each compiled with -O3 -march=native, and json_lines once more for the instructions that json_bench is
# compiled for (x86-64-v2). It sees that all make the same octets. Each round runs all programs one after another on one
# processor, and a ratio is the median of those of the rounds, with its quartiles: times drift on a shared machine, and
# ratios of neighbours less. The program has to be built before (rt run in crates/json_bench).
set -eu
here=$(cd "$(dirname "$0")" && pwd)
work=$(mktemp -d)
trap 'rm -rf "$work"' EXIT
cc -O3 -march=native -o "$work/converter_lines" "$here/converter_lines.c"
cc -O3 -march=native -o "$work/json_lines" "$here/json_lines.c"
cc -O3 -march=x86-64-v2 -o "$work/json_lines_v2" "$here/json_lines.c"
python3 - "$here" "$work" "${1:-8}" "${2:-15}" <<'PY'
import os, re, resource, statistics, subprocess, sys

here, work, size, rounds = sys.argv[1:]
ours = here + '/../crates/json_bench/out/json_bench'
three = '0/8/4,0/12/4,0/1/8'
twelve = '0/8/4,0/12/4,0/7/2,0/11/2,0/4/1,0/1/8,0/2/8,0/152/8,0/153/8,0/6/2,0/10/4,0/14/4'
forty = ','.join([twelve, '0/5/1,0/9/1,0/13/1,0/15/4,0/16/4,0/17/4,0/18/4,0/21/4,0/22/4,0/32/2,0/58/2,0/60/1,0/61/1,0/85/8,0/86/8',
                  '0/136/1,0/148/8,0/149/4', ','.join(twelve.split(',')[:10])])
cases = [  # name, kind, fields, programs in C that know them
    ('3 fields', 'entry', three, ['converter_lines', 'json_lines', 'json_lines_v2']),
    ('12 fields', 'entry', twelve, ['json_lines', 'json_lines_v2']),
    ('40 fields, 10 of them twice', 'entry', forty, []),
    ('options, 2 fields', 'options', '0/149/4,0/10/4', []),
    ('3 fields, one a time in microseconds', 'entry', '0/8/4,0/154/8,0/1/8', []),
    ('2 strings of 16 octets', 'entry', '0/82/16,0/83/16', []),
    ('2 IPv6 addresses', 'entry', '0/27/16,0/28/16', []),
]
TIMES = 12


def run(words, times):
    """What a run prints first, and its processor time in nanoseconds."""
    before = resource.getrusage(resource.RUSAGE_CHILDREN)
    out = subprocess.run([*words, str(times)], check=True, capture_output=True, text=True).stdout.splitlines()
    after = resource.getrusage(resource.RUSAGE_CHILDREN)
    return out[0], (after.ru_utime + after.ru_stime - before.ru_utime - before.ru_stime) * 1e9


class Timed:
    """A program over a body, and the time that it takes beside mapping."""

    def __init__(self, words):
        self.words = words
        self.head, self.beside = min((run(words, 0) for _ in range(3)), key=lambda r: r[1])

    def once(self):
        head, time = run(self.words, TIMES)
        assert head == self.head
        return (time - self.beside) / TIMES


def shown(ratios):
    low, middle, high = statistics.quantiles(ratios, n=4)
    return '%.2f (%.2f to %.2f)' % (middle, low, high)


os.sched_setaffinity(0, {max(os.sched_getaffinity(0))})
bodies = {}
for name, kind, fields, known in cases:
    record = sum(int(f.split('/')[2]) for f in fields.split(','))
    piece = str(max(1, 1400 // record) * record)
    body = '%s/body%d' % (work, len(bodies))
    subprocess.run([sys.executable, here + '/make_bodies.py', fields, piece, size, body], check=True)
    bodies[name] = Timed([ours, kind, fields, piece, body])
    records, octets = (int(x) for x in re.findall(r'\d+', bodies[name].head)[:2])
    programs = [bodies[name], bodies['3 fields'], *(Timed([work + '/' + c, fields, piece, body]) for c in known)]
    assert all(p.head == bodies[name].head for p in programs[2:])
    times = [[p.once() for p in programs] for _ in range(int(rounds))]
    first = int(re.findall(r'\d+', bodies['3 fields'].head)[1])
    middle = statistics.median(t[0] for t in times)
    print('%-37s %6.1f ns a record, %.3f an octet of text, beside an octet of 3 fields %s' % (name, middle / records, middle / octets, shown([t[0] / octets / (t[1] / first) for t in times])), flush=True)
    for i, c in enumerate(known):
        print('    beside %-34s %s' % (c, shown([t[0] / t[2 + i] for t in times])), flush=True)
PY
