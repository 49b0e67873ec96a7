#!/usr/bin/env bash
# Times lexing, parsing and scope by `ml5 run`, on program texts of 64, 128 and nearly 256 KiB of several shapes: bytes,
# seconds, peak memory in KiB, and the growth of the seconds against the text of half the size. Twice the bytes is to
# take at most 2.4 times the seconds, and the largest under two seconds and under 256 MiB. The last column is what is
# answered: the program's own line, since most of these are read and not run.
set -u
cd "$(dirname "$0")/.." || exit 1
. bench/measure.sh

# A text of a shape and of about so many bytes.
input() {
  awk -v shape="$1" -v want="$2" 'function put(text) { printf "%s", text; size += length(text) }
  BEGIN {
    word = "abcdefghijklmnopqrstuvwxyz"
    if (shape == "expression") {
      # One tuple of up to 7,900 parts, whose texts are as long as the size asks for.
      count = 7900
      long = ""
      while (length(long) < want / count - 5) long = long "x"
      put("main = (\"" long "\"")
      for (i = 1; i < count; i++) put(",\n\"" long "\"")
      put(")")
    } else if (shape == "functions") {
      # Functions of seven nodes each, one in 140 bytes, the rest of which is a comment.
      long = ""
      while (length(long) < 90) long = long "."
      for (i = 0; size < want - 160; i++) put("fun ~f" i " (x : int) : int = (* " long " *) x + 1 * 2\n")
      put("main = ()")
    } else if (shape == "nesting") {
      # Brackets at the limit of the level, again and again.
      deep = ""; close_all = ""
      for (i = 0; i < 398; i++) { deep = deep "("; close_all = close_all ")" }
      put("main = (()")
      while (size < want - 900) put(",\n" deep "()" close_all)
      put(")")
    } else if (shape == "comment") {
      put("(* ")
      while (size < want - 60) put("(* " word " *)\n")
      put("*) main = ()")
    } else if (shape == "one name") {
      put("main = let val " word " = () in (" word)
      count = 1
      while (size < want - 60 && count < 7900) { put(",\n" word); count++ }
      while (size < want - 60) put("\n(* " word " *)")
      put(") end")
    } else {
      # Many different names: functions whose names and parameters are all different.
      put("")
      for (i = 0; size < want - 120 && i < 3100; i++) put("fun ~" word i " (" word "_" i " : unit) : unit = " word "_" i "\n")
      while (size < want - 60) put("(* " word " *)\n")
      put("main = ()")
    }
  }'
}

printf '%-12s %8s %9s %10s %7s  %s\n' shape bytes seconds 'peak KiB' growth answer
for shape in expression functions nesting comment 'one name' 'many names'; do
  for size in 65536 131072 262000; do input "$shape" "$size" > "$folder/$size"; done
  last=0
  least run "$folder/65536" "$folder/131072" "$folder/262000" > "$folder/seconds"
  for size in 65536 131072 262000; do
    read -r seconds <&3
    printf '%-12s %8s %9s %10s %7s  %s\n' "$shape" "$(wc -c < "$folder/$size")" "$seconds" "$(peak run "$folder/$size")" \
      "$(growth "$seconds" "$last")" "$(answer run "$folder/$size")"
    last=$seconds
  done 3< "$folder/seconds"
done
