#!/usr/bin/env bash
# test.sh [PROGRAM [TRY..]]: tries what packaging/ has, with the built PROGRAM (crates/ipfixcol/out/ipfixcol), prints what
# isn't as it is to be, and at the end how many tries passed, failed and were skipped. It ends with 1 where one failed. It
# wants no root and no network but loopback. A try whose tools or program are missing is skipped, with a word: mandoc,
# systemd-analyze, strace, lintian, dpkg-deb with binutils, logrotate, python3.
# shellcheck disable=SC2317
set -u
here=$(realpath "$(dirname "$0")")
program=$(realpath -m "${1:-$here/../crates/ipfixcol/out/ipfixcol}")
work=$(mktemp -d)
started=()
# Only what was started here is ended.
cleanup() {
    for pid in "${started[@]}"; do kill "$pid" 2> /dev/null; done
    rm -rf "$work"
}
trap cleanup EXIT
passed=0 failed=0 skipped=0
name=
tell() {
    echo "$name: $1"
    broken=1
}
wants() {
    [ "$2" = "$3" ] || tell "$1: '$2', not '$3'"
}
# needs TOOL..: ends a try where a tool isn't there, or where it names the program and that isn't built.
needs() {
    for tool; do
        if [ "$tool" = program ]; then
            [ -x "$program" ] || { missing="$program isn't built"; return 1; }
        elif ! command -v "$tool" > /dev/null; then
            missing="there is no $tool"
            return 1
        fi
    done
}
try() {
    name=$1 broken=0 missing=
    mkdir "$work/$name"
    cd "$work/$name" || exit 1
    "$name"
    cd /
    if [ -n "$missing" ]; then
        echo "$name: skipped: $missing"
        skipped=$((skipped + 1))
    elif [ "$broken" = 0 ]; then
        passed=$((passed + 1))
    else
        failed=$((failed + 1))
    fi
}
# until_true SECONDS COMMAND..
until_true() {
    local tenths=$(($1 * 10))
    shift
    while ! "$@"; do
        tenths=$((tenths - 1))
        [ "$tenths" -gt 0 ] || return 1
        sleep 0.1
    done
}
free_port() {
    python3 -c 'import socket; s = socket.socket(socket.AF_INET, socket.SOCK_DGRAM); s.bind(("127.0.0.1", 0)); print(s.getsockname()[1])'
}
listens() {
    grep -q "$(printf ' 0100007F:%04X ' "$1")" /proc/net/udp
}
has_lines() {
    [ -e "$1" ] && [ "$(wc -l < "$1")" -ge "$2" ]
}
# describe PORT PATH: a description of one UDP input and one output of JSON, as ./run.toml
describe() {
    cat > run.toml << END
version = 1
[[input]]
name = "exporters"
kind = "udp"
listen = "127.0.0.1:$1"
[[output]]
name = "flows"
kind = "json"
path = "$2"
END
}
# collect PORT: a run in the background, once it listens; its process is $run
collect() {
    "$program" collect -c run.toml > said.txt &
    run=$!
    started+=("$run")
    until_true 10 listens "$1" || tell "nobody listens at port $1"
}
stop() {
    kill -"${2:-TERM}" "$1"
    wait "$1" 2> /dev/null
}
# numbers FILE..: the octet counts of lines, in order
numbers() {
    cat "$@" | sed 's/.*"iana:octetDeltaCount":\([0-9]*\).*/\1/'
}

pages_are_clean() {
    needs mandoc || return
    # mandoc looks for pages that are referred to where they are installed.
    wants lint "$(mandoc -T lint "$here"/man/* 2> /dev/null | grep -v 'referenced manual not found: Xr ipfixcol')" ""
    for page in "$here"/man/*; do
        wants "$page" "$(mandoc -T ascii "$page" > /dev/null 2>&1; echo $?)" 0
    done
}

pages_are_as_the_code() {
    needs python3 || return
    wants pages "$("$here/tests/pages.py")" "the pages are as the code is"
}

conformance_names_what_is_there() {
    needs python3 || return
    "$here/tests/names.py" "$here/../docs/CONFORMANCE.md" > names.txt || tell "$(cat names.txt)"
    "$here/tests/rows.py" "$here/../docs/CONFORMANCE.md" > rows.txt || tell "$(cat rows.txt)"
}

units_are_hardened() {
    needs systemd-analyze || return
    for unit in ipfixcol.service ipfixcol-health.service ipfixcol-lines.service; do
        cp "$here/$unit" .
        local line
        if ! line=$(systemd-analyze security --offline=true --no-pager "./$unit" 2> security.txt | tail -n 1); then
            missing="systemd-analyze doesn't look at files: $(head -n 1 security.txt)"
            return
        fi
        [[ $line =~ (OK|SAFE) ]] || tell "$line"
    done
}

# The filter of system calls, by what a run makes that reads a file, a connection and datagrams, and that pauses.
calls_are_within_the_filter() {
    needs strace systemd-analyze python3 program || return
    local port stream
    port=$(free_port)
    stream=$(free_port)
    cp "$here/../examples/one_flow.ipfix" in.ipfix
    describe "$port" flows.json
    sed -i 's|^version = 1|&\norder-log = "order"|' run.toml
    cat >> run.toml << END
[[input]]
name = "file"
kind = "file"
path = "in.ipfix"
[[input]]
name = "stream"
kind = "tcp"
listen = "127.0.0.1:$stream"
[[output]]
name = "copy"
kind = "ipfix"
path = "copy.ipfix"
END
    strace -f -o calls.txt "$program" collect -c run.toml > said.txt &
    started+=("$!")
    until_true 10 listens "$port" || tell "nobody listens"
    run=$(pgrep -P "${started[-1]}")
    started+=("$run")
    "$here/tests/send.py" "$port" 1 20 1
    python3 -c 'import socket, sys; socket.create_connection(("127.0.0.1", int(sys.argv[1]))).sendall(b"no message of ours")' "$stream"
    sleep 0.5
    kill "$run"
    wait "${started[-2]}" 2> /dev/null
    "$here/tests/calls.py" "$here/ipfixcol.service" calls.txt > told.txt 2>&1 || tell "$(cat told.txt)"
    for call in recvfrom accept4 openat write; do
        grep -q "$call(" calls.txt || tell "there is no $call"
    done
}

# A limit of memory as LimitAS sets it: the output ends that wants more, with whole lines, and the run tells it.
a_limit_of_memory_is_told() {
    needs python3 program || return
    "$here/tests/swell.py" in.ipfix
    cat > run.toml << END
version = 1
[[input]]
name = "in"
kind = "file"
path = "in.ipfix"
[[output]]
name = "flows"
kind = "json"
path = "flows.json"
[[output]]
name = "copy"
kind = "ipfix"
path = "copy.ipfix"
END
    (ulimit -v 1048576 && exec "$program" collect -c run.toml > said.txt)
    wants status $? 6
    wants "what is said" "$(head -n 4 said.txt | tr '\n' ' ')" "memory: flows sessions 1 messages 3 records 60001 "
    wants "the lines" "$(cat flows.json)" '{"@type":"ipfix.entry","iana:octetDeltaCount":7}'
    # a template message and a message of records for each definition, which is all that came
    wants "octets of the copy" "$(stat -c %s copy.ipfix)" $((28 + 28 + 24 + 15001 * 4 + 20 + 60000))
}

outputs_are_set_aside() {
    mkdir -p state/sub state/before/old
    echo one > state/flows.json
    echo two > state/sub/more.json
    echo old > state/before/old/flows.json
    : > state/empty.json
    mkfifo state/pipe
    "$here/set-aside" state || tell "it failed"
    wants "what stays" "$(cd state && find . -path ./before -prune -o ! -type d -print | sort | tr '\n' ' ')" "./empty.json ./pipe "
    wants "what was moved" "$(cd state/before && cat 2*/flows.json 2*/sub/more.json old/flows.json | tr '\n' ' ')" "one two old "
    echo three > state/flows.json
    "$here/set-aside" state || tell "it failed in the same second"
    wants "all of it" "$(cat state/before/2*/flows.json | sort | tr '\n' ' ')" "one three "
    "$here/set-aside" state || tell "it failed with nothing to move"
    wants folders "$(find state/before -mindepth 1 -maxdepth 1 | wc -l)" 3
    "$here/set-aside" nowhere 2> /dev/null && tell "a folder that isn't there is well"
}

# Three starts of a service: what its unit does before each, and then a run that is ended.
three_starts_keep_all() {
    needs python3 program || return
    local port
    port=$(free_port)
    mkdir state
    cd state || return
    describe "$port" flows.json
    mv run.toml said.txt .. 2> /dev/null
    for start in 1 2 3; do
        "$here/set-aside" . || tell "set-aside failed"
        "$program" collect -c ../run.toml > ../said.txt &
        run=$!
        started+=("$run")
        until_true 10 listens "$port" || tell "nobody listens"
        "$here/tests/send.py" "$port" $((start * 1000)) 500 0.2
        until_true 10 has_lines flows.json 500 || tell "start $start: $(wc -l < flows.json) lines"
        stop "$run" "$([ "$start" = 2 ] && echo KILL || echo TERM)"
    done
    wants "all records" "$(find . -name flows.json -exec cat {} + | sort -u | wc -l)" 1500
    wants "lines" "$(find . -name flows.json -exec cat {} + | wc -l)" 1500
    wants "of the last start" "$(numbers flows.json | head -n 1)" 3000
}

# The program writes a pipe, and its reader is ended and begun anew, once by SIGTERM and once by SIGKILL. The pipe is kept
# open, as systemd keeps that of a socket unit.
rotation_loses_nothing() {
    needs python3 program || return
    local port reader sender
    port=$(free_port)
    mkfifo pipe
    exec 9<> pipe
    describe "$port" pipe
    mkdir out
    "$here/rotate-lines" out flows.json 1 < pipe & reader=$!
    started+=("$reader")
    collect "$port"
    "$here/tests/send.py" "$port" 100000 6000 6 & sender=$!
    sleep 2
    stop "$reader"
    sleep 1
    "$here/rotate-lines" out flows.json 1 < pipe & reader=$!
    started+=("$reader")
    wait "$sender"
    all_there() { [ "$(cat out/* | wc -l)" -ge 6000 ]; }
    until_true 10 all_there || tell "$(cat out/* | wc -l) lines"
    stop "$run"
    stop "$reader"
    exec 9>&-
    wants "lines, in the order of the files' names" "$(numbers out/2*-flows.json out/flows.json | md5sum)" "$(seq 100000 105999 | md5sum)"
    [ "$(find out -name '2*-flows.json' | wc -l)" -ge 3 ] || tell "few files: $(ls out)"
    for file in out/2*-flows.json; do
        wants "the last octet of $file" "$(tail -c 1 "$file" | od -An -tx1 | tr -d ' ')" 0a
    done
}

# Lines of a size: cut exactly behind the line that is whole once the file is due, whatever pieces come.
rotation_cuts_at_lines() {
    needs python3 || return
    mkdir out
    seq 1 20000 | (while IFS= read -r -n 997 piece || [ -n "$piece" ]; do printf '%s\n' "$piece"; done) | "$here/rotate-lines" out n.txt 3600 5000
    wants lines "$(cat out/2*-n.txt out/n.txt | md5sum)" "$(seq 1 20000 | md5sum)"
    for file in out/2*-n.txt; do
        wants "the last octet of $file" "$(tail -c 1 "$file" | od -An -tx1 | tr -d ' ')" 0a
    done
}

# The rule as it is shipped, over a file that the program writes: it is cut without a hole, each line is there at most
# once, and those that aren't came between copy and cut. How many these are depends on the disk.
logrotate_cuts_without_a_hole() {
    needs logrotate python3 program || return
    local port sender gaps
    port=$(free_port)
    mkdir -p state/before
    describe "$port" "$PWD/state/flows.json"
    sed "s|/var/lib/ipfixcol|$PWD/state|g; /^    su /d; /compress/d" "$here/ipfixcol.logrotate" > rule
    chmod 644 rule
    collect "$port"
    "$here/tests/send.py" "$port" 100000 6000 3 & sender=$!
    for _ in 1 2; do
        sleep 1.1
        logrotate --force --state "$PWD/logrotate.state" rule > logrotate.txt 2>&1 || tell "$(cat logrotate.txt)"
    done
    wait "$sender"
    until_true 20 grep -q ':105999[,}]' state/flows.json || tell "the last line doesn't come"
    stop "$run"
    wants "files that were rotated" "$(find state/before -type f | wc -l)" 2
    wants "octets that aren't text" "$(cat state/flows.json state/before/* | tr -d '\40-\176\n' | wc -c)" 0
    numbers state/before/* state/flows.json | sort -n > numbers.txt
    wants "lines that stand twice" "$(uniq -d numbers.txt)" ""
    wants "the first and the last" "$(sed -n '1p;$p' numbers.txt | tr '\n' ' ')" "100000 105999 "
    # A gap for each rotation at most: logrotate flushes its copy to the disk before it cuts the file.
    gaps=$(awk 'NR > 1 && $1 != before + 1 { gaps++ } { before = $1 } END { print gaps + 0 }' numbers.txt)
    [ "$gaps" -le 2 ] || tell "$gaps gaps in two rotations"
    echo "$name: $((6000 - $(wc -l < numbers.txt))) of 6000 lines were lost in two rotations, at 2,000 a second"
}

health_tells_troubles() {
    mkdir state
    echo '  sl  local_address rem_address   st tx_queue rx_queue tr tm->when retrnsmt   uid  timeout inode ref pointer drops' > table
    echo ' 1: 00000000:1283 00000000:0000 07 00000000:00000000 00:00000000 00000000   0 0 1 2 0000000000000000 0' >> table
    echo ' 2: 00000000:1284 00000000:0000 07 00000000:00000000 00:00000000 00000000   0 0 1 2 0000000000000000 99' >> table
    export HEALTH_FOLDER=$PWD/state HEALTH_STATE=$PWD/drops HEALTH_TABLES=$PWD/table HEALTH_ROOM=0
    look() { "$here/health" > told.txt; }
    touch state/flows.json
    look || tell "well: $(cat told.txt)"
    wants "well" "$(cat told.txt)" well
    sed -i '2s/0$/12/' table
    look && tell "drops are well"
    wants drops "$(cat told.txt)" "port 4739: 12 datagrams were dropped since the last look"
    look || tell "old drops: $(cat told.txt)"
    touch -d '-1 hour' state/flows.json
    look && tell "silence is well"
    wants silence "$(sed 's/36[0-9][0-9]/N/' told.txt)" "output $PWD/state/flows.json: nothing was written for N seconds"
    HEALTH_QUIET=4000 look || tell "silence of an hour where that is allowed: $(cat told.txt)"
    touch state/flows.json
    HEALTH_ROOM=999999999 look && tell "a full disk is well"
    wants "disk" "$(sed 's/[0-9]* mega/N mega/' told.txt)" "disk of $PWD/state: N megabytes are free"
    HEALTH_PORTS=9 look && tell "a port without a socket is well"
    wants "no socket" "$(cat told.txt)" "port 9: no UDP socket is open"
    HEALTH_OUTPUTS=nothing look && tell "a missing output is well"
    rm state/flows.json
    look && tell "no output is well"
    unset HEALTH_FOLDER HEALTH_STATE HEALTH_TABLES HEALTH_ROOM
}

progress_tells_how_far() {
    needs python3 program || return
    local file=$PWD/flows.ipfix reader
    for _ in $(seq 1 2000); do cat "$here/../examples/hundred_flows.ipfix"; done > "$file"
    mkfifo pipe
    # A reader that takes some 2 MB a second.
    python3 -c '
import sys, time
with open("pipe", "rb", 0) as pipe:
    while pipe.read(65536):
        time.sleep(0.03)
' & reader=$!
    "$program" direct "$file" pipe > said.txt &
    run=$!
    started+=("$run" "$reader")
    sleep 0.5
    for which in "$run" "$file"; do
        "$here/../tools/progress.sh" "$which" 1 > told.txt || tell "$which: it failed"
        grep -q "process $run: .*direct" told.txt || tell "$which: no process in $(cat told.txt)"
        grep -Eq "read +$file: [0-9]+%, [0-9]+ of $(stat -c %s "$file") octets, [0-9]+ a second, [0-9hms]+ to go" told.txt || tell "$which: $(cat told.txt)"
    done
    stop "$run"
    wait "$reader" 2> /dev/null
    "$here/../tools/progress.sh" "$file" 1 2> /dev/null && tell "a file that nobody reads is well"
}

# The package, unpacked in a folder of its own: the program runs from there, over the examples that it brings.
package_installs() {
    needs dpkg-deb objdump strip program || return
    local package root
    package=$("$here/build-deb" "$program" "$PWD") || { tell "no package"; return; }
    root=$PWD/root
    dpkg-deb -x "$package" "$root"
    cd "$root/usr/share/doc/ipfixcol/examples" || { tell "no examples"; return; }
    for description in descriptions/*.toml; do
        wants "$description" "$("$root/usr/bin/ipfixcol" check -c "$description")" ok
    done
    sed "s|/usr/share|$root/usr/share|" "$root/etc/ipfixcol/ipfixcol.toml" > default.toml
    wants "the default description" "$("$root/usr/bin/ipfixcol" check -c default.toml)" ok
    wants "a run" "$("$root/usr/bin/ipfixcol" collect -c descriptions/simple.toml | head -n 3 | tr '\n' ' ')" "sessions 1 messages 1 records 1 "
    for unit in "$root"/lib/systemd/system/*; do
        # What a unit starts is there.
        sed -n 's/^Exec[A-Za-z]*=\([^ ]*\).*/\1/p' "$unit" | while read -r started_by; do
            [ -x "$root$started_by" ] || echo "$unit: no $started_by"
        done
    done > missing.txt
    wants "what units start" "$(cat missing.txt)" ""
    (cd "$root" && dpkg-deb --fsys-tarfile "$package" | tar -tv | awk '$2 != "root/root"' | head -n 3) > owners.txt
    wants "owners" "$(cat owners.txt)" ""
    if command -v systemd-sysusers > /dev/null; then
        systemd-sysusers --root="$root" ipfixcol.conf > sysusers.txt 2>&1 || tell "$(cat sysusers.txt)"
        grep -q '^ipfixcol:.*:/var/lib/ipfixcol:' "$root/etc/passwd" || tell "no user in $(cat "$root/etc/passwd")"
    fi
    if command -v systemd-analyze > /dev/null && [ -e /lib/systemd/system/sysinit.target ]; then
        mkdir "$root/units"
        for unit in "$root"/lib/systemd/system/*; do sed "s|=/usr/|=$root/usr/|" "$unit" > "$root/units/$(basename "$unit")"; done
        wants "verify" "$(systemd-analyze verify --man=no "$root"/units/* 2>&1 | grep ipfixcol)" ""
    fi
    if command -v man > /dev/null && command -v mandoc > /dev/null; then
        mandoc -T ascii <(zcat "$root/usr/share/man/man5/ipfixcol.toml.5.gz") > /dev/null || tell "the packed page isn't one"
    fi
}

package_is_lintian_clean() {
    needs lintian dpkg-deb objdump strip program || return
    local package
    package=$("$here/build-deb" "$program" "$PWD") || { tell "no package"; return; }
    # lintian doesn't like to be root, and says so.
    lintian --fail-on error --allow-root "$package" > lintian.txt 2>&1 || tell "$(grep '^E:' lintian.txt)"
}

tries=(pages_are_clean pages_are_as_the_code conformance_names_what_is_there units_are_hardened
    calls_are_within_the_filter a_limit_of_memory_is_told outputs_are_set_aside
    three_starts_keep_all rotation_loses_nothing rotation_cuts_at_lines logrotate_cuts_without_a_hole health_tells_troubles
    progress_tells_how_far package_installs package_is_lintian_clean)
[ $# -le 1 ] || tries=("${@:2}")
for one in "${tries[@]}"; do try "$one"; done
echo "$passed passed, $failed failed, $skipped skipped"
[ "$failed" = 0 ]
