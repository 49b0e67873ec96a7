#!/usr/bin/env bash
# Times `ml5 run` on inputs of the first form of 64, 128 and 256 KiB: bytes, seconds, peak memory in KiB, and the growth of
# the seconds against the input of half the size. Twice the bytes is to take at most 2.4 times the seconds, and 256 KiB
# under a second and under 64 MiB.
set -u
cd "$(dirname "$0")/.." || exit 1
. bench/measure.sh

# A program of about so many KiB: nested blocks of declarations that say and join texts.
input() {
  awk -v want=$(($1 * 1024 - 160)) 'BEGIN {
    print "extern val say : string -> unit @ home"
    print "main = let"
    size = 60
    block = 0
    # A text of 90 bytes a saying, so that 256 KiB stay below 16,000 nodes.
    long = ""
    while (length(long) < 90) long = long "yz"
    while (size < want - 160 && block < 390) {
      text = "do let val a" block " = \"x\" ^ str " block
      for (i = 0; i < 40 && size + length(text) < want - 180; i++) text = text " do say (a" block " ^ \"" long "\")"
      text = text " in say a" block " end"
      print text
      size += length(text) + 1
      block++
    }
    print "in () end"
    print "%%"
    print "sessions 1"
  }'
}

printf '%10s %10s %12s %8s\n' bytes seconds 'peak KiB' growth
for size in 64 128 256; do input "$size" > "$folder/$size"; done
last=0
least run "$folder/64" "$folder/128" "$folder/256" > "$folder/seconds"
for size in 64 128 256; do
  read -r seconds <&3
  printf '%10s %10s %12s %8s\n' "$(wc -c < "$folder/$size")" "$seconds" "$(peak run "$folder/$size")" "$(growth "$seconds" "$last")"
  last=$seconds
done 3< "$folder/seconds"
"$program" run < "$folder/256" | tail -n 1
