#!/usr/bin/env bash
# parsers.sh [ROUNDS]: prints the least nanoseconds of a message that a parser works off and that is let go at once: with 115
# records of three fields of fixed length (1,400 octets), with one, with none, and with 115 whose last field varies in length;
# and, by the first and the second, what a record costs. The program has to be built before (rt run in crates/parser_bench).
set -eu
here=$(cd "$(dirname "$0")" && pwd)
"$here/../crates/parser_bench/out/parser_bench" "${1:-200}" times | awk '
    / ns a message/ { print; least[$1] = $2 }
    END { printf "a record of fixed length: %.2f ns\n", (least["fixed:"] - least["one:"]) / 114 }
'
