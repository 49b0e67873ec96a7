#!/bin/sh
# Times turns through a hall beside the same turns under a std Mutex, with 2, 4, 8 and 16 threads, in one run of the program hall_bench.
# Usage: bench/hall.sh [TURNS], where each thread takes so many turns, 100,000 if none are given.
# The program is the one that `rt run` in crates/hall_bench, or the gate, has built there.
set -eu
cd "$(dirname "$0")/.."
turns=${1:-100000}
program=crates/hall_bench/out/hall_bench
if [ ! -x "$program" ]; then
    (cd crates/hall_bench && rt run -- 10 >/dev/null 2>&1)
fi
echo "turns for each thread: $turns"
"$program" "$turns" 2>&1 >/dev/null | awk '{
    printf "%2d threads: hall %10.3f ms, mutex %10.3f ms, ratio %.2f\n", $1, $2 / 1000, $3 / 1000, ($3 > 0 ? $2 / $3 : 0)
}'
