#!/usr/bin/env bash
# Times `ml5 ref`: an endless function at 5,000 steps a site with 1, 8 and 32 sessions, where time is to grow as the
# sessions; a fold over a list of 500 elements, which ends at its 5,000 steps; a text that is doubled 12 times. Prints seconds,
# peak memory in KiB, and the growth of the seconds a session against the row before, which is to stay near 1. Each is to
# take under two seconds and under 512 MiB.
set -u
cd "$(dirname "$0")/.." || exit 1
. bench/measure.sh

# An endless function, in so many sessions.
endless() {
  printf 'fun ~f (x : int) : int = f x\nmain = let val y = f 1 in () end\n%%%%\nsessions %s\nregion 262144\n' "$1"
}

# A list of 500 elements, in two parts of 250, and its sum.
fold() {
  awk 'BEGIN {
    print "extern val say : string -> unit @ home"
    print "fun ~sum (p : int * int list) : int = case snd p of nil => fst p | h :: t => sum (fst p + h, t) end"
    for (part = 0; part < 2; part++) {
      line = part == 0 ? "main = let val a = " : "val b = "
      for (i = 1; i <= 250; i++) line = line i " :: "
      print line (part == 0 ? "nil[int]" : "a")
    }
    print "in say (str (sum (0, b))) end"
    print "%%"
    print "region 262144"
  }'
}

# A text of two bytes, doubled 12 times, and how long it is by then.
doubling() {
  awk 'BEGIN {
    print "extern val say : string -> unit @ home"
    print "fun ~d (s : string) : string = s ^ s"
    line = "\"ab\""
    for (i = 0; i < 12; i++) line = "d (" line ")"
    print "main = say " "(if " line " == \"ab\" then \"short\" else \"long\")"
    print "%%"
    print "region 262144"
  }'
}

printf '%-18s %8s %10s %8s  %s\n' input seconds 'peak KiB' growth answer
for sessions in 1 8 32; do endless "$sessions" > "$folder/endless-$sessions"; done
fold > "$folder/fold-500"
doubling > "$folder/doubled-12"
least ref "$folder/endless-1" "$folder/endless-8" "$folder/endless-32" "$folder/fold-500" "$folder/doubled-12" > "$folder/seconds"
last=0
before=1
for name in 'endless-1' 'endless-8' 'endless-32' fold-500 doubled-12; do
  read -r seconds <&3
  sessions=${name#endless-}
  share=-
  if [ "$sessions" != "$name" ]; then
    [ "$last" = 0 ] || share=$(awk -v a="$seconds" -v b="$last" -v s="$sessions" -v t="$before" 'BEGIN { if (b > 0) printf "%.2f", (a / s) / (b / t); else print "-" }')
    last=$seconds
    before=$sessions
  fi
  printf '%-18s %8s %10s %8s  %s\n' "$name" "$seconds" "$(peak ref "$folder/$name")" "$share" "$("$program" ref < "$folder/$name" | tail -n 1)"
done 3< "$folder/seconds"
