#!/usr/bin/env bash
# Prints the seconds that each crate took in a run of `rt ci`, from its log with the time before each line.
#
#   rt ci 2>&1 | tools/gate-times.sh stamp > LOG       passes each line on with the second at which it came
#   tools/gate-times.sh LOG                            prints the table
#
# A crate's proof and its tests begin when the last of its libraries is proved, and the log tells their ends; so a crate
# that waits for a free processor is told to take longer. Of edits the log tells when the first of a crate is begun, and
# their results at the end alone: so their seconds are told where the log is that of `rt ci NAME` and no other crate has
# edits to try, else how many there are. Crates that were kept take nothing and are left out.
set -u
if [ "${1:-}" = stamp ]; then
  printf '%(%s)T begun\n' -1
  while IFS= read -r line; do printf '%(%s)T %s\n' -1 "$line"; done
  exit 0
fi
[ $# -eq 1 ] && [ -r "$1" ] || { echo "usage: tools/gate-times.sh LOG, or tools/gate-times.sh stamp"; exit 1; }
crates=$(dirname "$0")/../crates.txt
awk '
  FNR == NR {
    if ($1 ~ /^[a-z0-9_]+:?$/) {
      split($0, halves, ":")
      name = $1
      sub(/:$/, "", name)
      below[name] = halves[2]
      order[++count] = name
    }
    next
  }
  $1 !~ /^[0-9]+$/ { next }
  { now = $1; if (!first) first = now }
  $2 != "rt:" { next }
  $4 == "proved" { proof[$3] = now; last_proof = now }
  $4 == "is" && $5 == "kept:" { kept[$3] = now }
  $4 == "its" && $5 == "tests" && $7 == "proved" { name = $3; sub(/:$/, "", name); tests[name] = now; last_proof = now }
  $4 == "trying" { name = $3; sub(/:$/, "", name); edits[name] = now; number[name] = $NF; gsub(/[()]/, "", number[name]); tried++ }
  END {
    printf "%-16s %8s %8s %8s\n", "crate", "proof", "tests", "edits"
    for (i = 1; i <= count; i++) {
      name = order[i]
      if (!(name in proof) && !(name in tests) && !(name in edits)) continue
      begun = first
      parts = split(below[name], libraries, " ")
      for (j = 1; j <= parts; j++) if (proof[libraries[j]] > begun) begun = proof[libraries[j]]
      shown = "-"
      if (name in edits) shown = tried == 1 ? (now - edits[name]) "" : "(" number[name] ")"
      printf "%-16s %8s %8s %8s\n", name, name in proof ? proof[name] - begun : "-", name in tests ? tests[name] - begun : "-", shown
    }
    printf "%-16s %8d\n%-16s %8d\n", "to last proof", last_proof - first, "whole run", now - first
  }
' "$crates" "$1"
