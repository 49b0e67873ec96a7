#!/usr/bin/env bash
# Times `ml5 expand` on texts of three shapes, each in three sizes: towers of 63, 127 and 255 instances; texts of 64, 128 and
# 256 KiB without a use; and texts whose walk reads about a quarter, a half and nearly all of the 4,194,304 tokens that it may
# read. It prints bytes, tokens read, seconds, peak memory in KiB, and the growth of the seconds against the text before. For
# twice the tokens read the seconds are to grow at most 2.4 times; each is to take under two seconds and under 512 MiB.
set -u
cd "$(dirname "$0")/.." || exit 1
. bench/measure.sh

# A text of a shape and a size.
input() {
  awk -v shape="$1" -v size="$2" 'BEGIN {
    if (shape == "tower") {
      # So many storeys, each of which uses the one below it at two types.
      print "fun [a] ~g0 (x : a) : int = 1"
      for (k = 1; k < size; k++)
        printf "fun [a] ~g%d (x : a) : int = g%d[a list] (nil[a]) + g%d[a ref] (ref x)\n", k, k - 1, k - 1
      printf "main = let val u = g%d[int] 1 in () end\n", size - 1
    } else if (shape == "no use") {
      # Functions of 96 bytes and four nodes, and blanks up to the size.
      for (i = 0; i < int(size / 96); i++) {
        line = sprintf("fun ~a_function_of_a_longer_name_%06d (its_parameter : int) : int = its_parameter", i)
        printf "%s%*s\n", line, 95 - length(line), ""
      }
      last = "main = ()"
      printf "%s%*s", last, size - 96 * i - length(last), ""
    } else {
      # So many functions of 100 uses each, every use at a type of 1,201 tokens.
      print "fun [a] ~f0 (x : int) : int = x"
      for (k = 1; k <= size; k++) {
        line = sprintf("fun [a] ~f%d (x : int) : int = f%d[a] x", k, k - 1)
        for (i = 1; i < 100; i++) line = line sprintf(" + f%d[a] x", k - 1)
        print line
      }
      printf "main = let val u = f%d[int", size
      for (i = 0; i < 600; i++) printf " * int"
      print "] 1 in () end"
    }
  }'
}

# The tokens that the walk reads: of main, and of each instance anew.
reads() {
  awk -v shape="$1" -v size="$2" 'BEGIN {
    if (shape == "tower") {
      # main has 15. An instance has 12 tokens in the lowest storey and 32 above, of which 1 and 4 are variables; in the storey
      # i below the top these stand for a type of 3 i + 1 tokens with its parentheses.
      read = 15
      for (i = 0; i < size; i++) read += 2 ^ i * (i == size - 1 ? 11 + 3 * i + 1 : 28 + 4 * (3 * i + 1))
    } else if (shape == "no use") read = 12 * int(size / 96) + 4
    else read = 14 + 1201 + 12 + size * (11 + 100 * (1203 + 4) + 99)
    print read
  }'
}

printf '%-8s %8s %8s %9s %10s %7s  %s\n' shape bytes read seconds 'peak KiB' growth answer
for shape in tower 'no use' uses; do
  case $shape in
    tower) sizes='6 7 8' ;;
    'no use') sizes='65536 131072 262144' ;;
    uses) sizes='8 17 34' ;;
  esac
  files=()
  for size in $sizes; do
    input "$shape" "$size" > "$folder/$size"
    files+=("$folder/$size")
  done
  last=0
  least expand "${files[@]}" > "$folder/seconds"
  for size in $sizes; do
    read -r seconds <&3
    printf '%-8s %8s %8s %9s %10s %7s  %s\n' "$shape" "$(wc -c < "$folder/$size")" "$(reads "$shape" "$size")" "$seconds" \
      "$(peak expand "$folder/$size")" "$(growth "$seconds" "$last")" "$(answer expand "$folder/$size")"
    last=$seconds
  done 3< "$folder/seconds"
done
