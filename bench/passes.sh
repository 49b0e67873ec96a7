#!/usr/bin/env bash
# Times the conversion to blocks on programs of about 4,000, 8,000 and nearly 16,000 nodes of the shapes of bench/check.sh,
# as both compilers build it: nodes, blocks, steps, milliseconds, and the growth of the time against the program of half the
# size. Twice the nodes are to take at most 2.4 times the time, and the largest under 150 ms. Then 7,410 parts of tuples, each
# in the last part of the one around it, and 399 nested levels of several forms, in 8 MiB of stack. A line that misses its
# bar ends in a star, and the status is then 1. Each time is the least of a hundred conversions on cold caches; the programs
# take turns, twenty rounds of them, so that a machine that is slower for a while slows all of them.
# The programs are those that `rt ci` has built.
set -u
cd "$(dirname "$0")/.." || exit 1
. bench/shapes.sh
folder=$(mktemp -d)
trap 'rm -rf "$folder"' EXIT
ulimit -s 8192
missed=0

# A program that is deep in one way.
deep() {
  awk -v shape="$1" 'function times(n, text,  i, out) { for (i = 0; i < n; i++) out = out text; return out }
  BEGIN {
    if (shape == "tuples") {
      # 19 tuples of 390 parts, since a type has at most 1,024 nodes and is at most 400 deep.
      print "fun ~f (t : int" times(389, " * int") ") : int = 1"
      print "main = let val t = " times(19, "f (" times(389, "1, ")) "1" times(19, ")") " in () end"
    } else if (shape == "spawns") print "main = " times(399, "spawn ") "()"
    else if (shape == "gets") print "main = " times(399, "from home get ") "()"
    else if (shape == "conditionals") print "main = " times(399, "if true then () else ") "()"
    else if (shape == "functions") print "main = let val f = " times(398, "fn (x : int) => ") "() in () end"
    else print "main = " times(199, "let do () in ") "()" times(199, " end")
  }'
}

# Five conversions of each program, twenty times in turn: the least nanoseconds of each, and its blocks and steps, as files
# beside it. One that is not converted has no steps.
convert() {
  for _ in 1 2 3 4 5 6 7 8 9 10 11 12 13 14 15 16 17 18 19 20; do
    for file in "$@"; do
      "$program" 5 < "$file" 2>> "$file.times" > "$file.said"
    done
  done
  for file in "$@"; do
    sed -n 's/^to_cps: \([0-9]*\) blocks, \([0-9]*\) steps$/\1 \2/p' "$file.said" > "$file.made"
    awk '$1 == "to_cps" && (least == "" || $2 < least) { least = $2 } END { print least }' "$file.times" > "$file.least"
    rm "$file.times"
  done
}

# A line of the table: the shape, the nodes, the program, and the least nanoseconds of one of half its size.
line() {
  read -r blocks steps < "$3.made" || { echo "$1 $2: no blocks *"; missed=1; return; }
  least=$(cat "$3.least")
  awk -v shape="$1" -v nodes="$2" -v blocks="$blocks" -v steps="$steps" -v least="$least" -v half="$4" 'BEGIN {
    bad = least > 150000000 || (half > 0 && least > 2.4 * half)
    growth = half > 0 ? sprintf("%.2f", least / half) : "-"
    printf "%-12s %8s %8s %8s %9.3f %7s%s\n", shape, nodes, blocks, steps, least / 1e6, growth, bad ? " *" : ""
    exit bad }' || missed=1
}

shapes=('one let' functions 'large types' 'case chains')
depths=(tuples spawns gets conditionals functions lets)
files=()
for shape in "${shapes[@]}"; do
  for nodes in 3900 7800 15600; do
    input "$shape" "$nodes" > "$folder/$shape $nodes"
    files+=("$folder/$shape $nodes")
  done
done
for shape in "${depths[@]}"; do
  deep "$shape" > "$folder/$shape"
  files+=("$folder/$shape")
done

for build in '' .by-rattle; do
  program=crates/passes_bench/out/passes_bench$build
  [ -x "$program" ] || { echo "bench: $program is not built: run rt ci first"; exit 1; }
  if [ -z "$build" ]; then echo 'built by LLVM'; else echo "built by Rattle's own compiler"; fi
  convert "${files[@]}"
  printf '%-12s %8s %8s %8s %9s %7s\n' shape nodes blocks steps ms growth
  for shape in "${shapes[@]}"; do
    least=0
    for nodes in 3900 7800 15600; do
      line "$shape" "$nodes" "$folder/$shape $nodes" "$least"
    done
  done
  for shape in "${depths[@]}"; do
    line "$shape" - "$folder/$shape" 0
  done
done
exit "$missed"
