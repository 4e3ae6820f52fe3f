#!/usr/bin/env bash
# acts.sh: prints the least nanoseconds of a call of a prepared intermediate, over 1,024 records of twelve fields: a filter of
# 1,024 rules, two of them on elements that the records have; an anonymiser of two addresses with 4,096 rows of eight
# lengths; and one without rows. The program has to be built before (rt run in crates/act_bench).
set -eu
here=$(cd "$(dirname "$0")" && pwd)
"$here/../crates/act_bench/out/act_bench" 1000 times | grep ' ns '
