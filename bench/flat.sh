#!/usr/bin/env bash
# Times hoisting, dictionaries and slices of programs of 4,000, 8,000, 16,000 and 65,535 labels, as both compilers build them:
# milliseconds of each pass and of all three, and the growth of each against the program of half the labels. Twice the labels are
# to take at most 2.4 times the time, and 16,000 labels under 100 ms in all; for 65,535 labels the time is only printed. A line
# that misses its bar ends in a star, and the status is then 1. Each time is the least of twenty rounds on cold caches, in which
# the programs take turns, so that a machine that is slower for a while slows all of them.
# The programs are those that `rt ci` has built.
set -u
cd "$(dirname "$0")/.." || exit 1
[ $# -eq 0 ] || { echo "usage: bench/flat.sh" >&2; exit 1; }
folder=$(mktemp -d)
trap 'rm -rf "$folder"' EXIT
missed=0

for build in '' .by-rattle; do
  program=crates/flat_bench/out/flat_bench$build
  [ -x "$program" ] || { echo "bench: $program is not built: run rt ci first"; exit 1; }
  if [ -z "$build" ]; then echo 'built by LLVM'; else echo "built by Rattle's own compiler"; fi
  "$program" 20 > "$folder/said" 2> "$folder/times" || { echo "bench: $program failed"; exit 1; }
  awk '
    function cell(pass,  growth, text) {
      growth = before ? least[pass, size] / least[pass, before] : 0
      text = sprintf(" %9.3f %6s", least[pass, size] / 1e6, growth && size == 2 * before ? sprintf("%.2f", growth) : "-")
      if (size == 2 * before && growth > 2.4) bad = 1
      all += least[pass, size]
      return text
    }
    FILENAME ~ /times$/ { if (!(($1, $2) in least) || $3 < least[$1, $2]) least[$1, $2] = $3; next }
    / labels: [0-9]+ type lines/ { sizes[++n] = $1; lines[$1] = $3; next }
    { print; wrong = 1 }
    END {
      printf "%8s %11s %9s %6s %12s %6s %9s %6s %9s\n", "labels", "type lines", "hoist", "", "dictionaries", "", "slice", "", "all"
      for (i = 1; i <= n; i++) {
        size = sizes[i]; all = 0; bad = 0
        row = cell("hoist") "   " cell("dictionaries") cell("slice")
        if (size <= 16000 && all > 100000000) bad = 1
        printf "%8s %11s%s %9.3f%s\n", size, lines[size], row, all / 1e6, bad ? " *" : ""
        if (bad) missed = 1
        before = size
      }
      exit missed || wrong || n != 4
    }' "$folder/times" "$folder/said" || missed=1
done
exit "$missed"
