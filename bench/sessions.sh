#!/usr/bin/env bash
# sessions.sh: prints the least nanoseconds of a call of the sessions of an input with 4,096 peers (a datagram of a peer that
# is known, a tick that closes nobody), and of a whole input over a source in memory that gives such datagrams, and a tick
# a second. The program has to be built before (rt run in crates/session_bench).
set -eu
here=$(cd "$(dirname "$0")" && pwd)
"$here/../crates/session_bench/out/session_bench" "${1:-200}" times | grep ' ns '
