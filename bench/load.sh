#!/usr/bin/env bash
# load.sh [COUNT]: prints the least nanoseconds of a message of the generator of load, over nine times COUNT messages
# (1,000,000, the most, without a word). The program has to be built before (rt run in crates/load_run).
set -eu
here=$(cd "$(dirname "$0")" && pwd)
"$here/../crates/load_run/out/load_run" 1 "${1:-1000000}" times
