#!/bin/sh
# Times making 96 regions of the largest size, adding and reading arrays, and six loops of the machine (counting; sums and products; fields; comparisons; pairs; texts), beside the same loops in node where the machine has it, in one run of the program machine_bench.
# Usage: bench/machines.sh [TURNS], where each loop takes so many turns, 1,000,000 if none are given.
# The program is the one that `rt run` in crates/machine_bench, or the gate, has built there.
set -eu
cd "$(dirname "$0")/.."
turns=${1:-1000000}
program=crates/machine_bench/out/machine_bench
if [ ! -x "$program" ]; then
    (cd crates/machine_bench && rt run -- 10 >/dev/null 2>&1)
fi
echo "turns for each loop: $turns"
times=$(mktemp)
trap 'rm -f "$times"' EXIT
if [ -x /usr/bin/time ]; then
    /usr/bin/time -f "peak 1 %M" "$program" "$turns" 2>"$times" >/dev/null
else
    "$program" "$turns" 2>"$times" >/dev/null
fi
if command -v node >/dev/null; then
    node bench/machines.js "$turns" >>"$times"
fi
awk -v turns="$turns" '
    # steps of one turn: a number, a difference, a comparison, an if and a go, and what the loop adds
    BEGIN { steps["loop0"] = 5; steps["loop1"] = 25; steps["loop2"] = 15; steps["loop3"] = 25; steps["loop4"] = 8; steps["loop5"] = 7 }
    $1 == "make" { printf "96 regions made in %.3f ms\n", $3 / 1e6 }
    $1 == "add" { printf "an array of three fields added and two read: %.1f ns\n", $3 / turns }
    $1 == "peak" { printf "peak memory: %d KB\n", $3 }
    $1 in steps { time[$1] = $3; printf "%s: %.2f ns a step, %.0f million steps a second\n", $1, $3 / turns / steps[$1], 1e3 * turns * steps[$1] / $3 }
    $1 ~ /^node/ { name = substr($1, 5); printf "%s: %.2f of the time that node takes\n", name, time[name] / $3 }
' "$times"
