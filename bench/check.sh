#!/usr/bin/env bash
# Times `ml5 check` on programs of about 4,000, 8,000 and nearly 16,000 nodes of several shapes: nodes, bytes, seconds,
# peak memory in KiB, and the growth of the seconds against the program of half the size. Time is to grow at most as the
# nodes times the size of their types, and the largest is to take under two seconds and under 512 MiB.
set -u
cd "$(dirname "$0")/.." || exit 1
. bench/measure.sh
. bench/shapes.sh

printf '%-12s %8s %8s %9s %10s %7s  %s\n' shape nodes bytes seconds 'peak KiB' growth answer
for shape in 'one let' functions 'large types' 'case chains'; do
  for nodes in 3900 7800 15600; do input "$shape" "$nodes" > "$folder/$nodes"; done
  last=0
  least check "$folder/3900" "$folder/7800" "$folder/15600" > "$folder/seconds"
  for nodes in 3900 7800 15600; do
    read -r seconds <&3
    printf '%-12s %8s %8s %9s %10s %7s  %s\n' "$shape" "$nodes" "$(wc -c < "$folder/$nodes")" "$seconds" \
      "$(peak check "$folder/$nodes")" "$(growth "$seconds" "$last")" "$(answer check "$folder/$nodes")"
    last=$seconds
  done 3< "$folder/seconds"
done
