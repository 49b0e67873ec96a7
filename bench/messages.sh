#!/usr/bin/env bash
# Times packing and unpacking of lists of 1 to 20,000 numbers and of texts of 200,000 and 400,000 bytes, which a closure has: the
# bytes in the second format beside those of the same message in the first; and the least microseconds of the test whether a
# thread has bytes, of packing, and of unpacking each format. Where the machine has node, v8.serialize and v8.deserialize of the
# same numbers and bytes follow. Twice the size is to take at most 2.4 times the time, where it takes at least 20 microseconds; a
# line that misses its bar ends in a star, and the status is then 1.
# The allocator is told to keep the pages that it is given back, since else most of the time of packing a large text is that of
# its pages' first use.
# Usage: bench/messages.sh [ROUNDS], where each is made so often, 60 times if none are given.
# The program is the one that `rt run` in crates/message_bench, or the gate, has built there.
set -u
cd "$(dirname "$0")/.." || exit 1
rounds=${1:-60}
program=crates/message_bench/out/message_bench
[ -x "$program" ] || { echo "bench: $program is not built: run rt ci first"; exit 1; }
times=$(mktemp)
trap 'rm -f "$times"' EXIT
MALLOC_TRIM_THRESHOLD_=268435456 MALLOC_MMAP_THRESHOLD_=268435456 "$program" "$rounds" > "$times" 2> "$times.more" || exit 1
cat "$times.more" >> "$times"
rm -f "$times.more"
if command -v node > /dev/null; then node bench/messages.js "$rounds" >> "$times"; fi
awk '
  function grown(name, what,  growth) {
    if (size != 2 * last[name] || least[name, last[name], what] < 20000) return
    growth = least[name, size, what] / least[name, last[name], what]
    if (growth > worst) worst = growth
    if (growth > 2.4) { star = " *"; missed = 1 }
  }
  $1 == "node" { node[$2, $3] = sprintf("%9d %9.1f %9.1f", $4, $5 / 1e3, $6 / 1e3); next }
  $3 == "bytes" { order[++n] = $1 " " $2; bytes[$1, $2] = sprintf("%9d %9d", $4, $5); if ($6 != "true") wrong = 1; next }
  !(($1, $2, $3) in least) || $4 < least[$1, $2, $3] { least[$1, $2, $3] = $4 }
  END {
    printf "%-12s %9s %9s %9s %9s %9s %9s %7s %9s %9s %9s\n", "value", "bytes", "bytes 1", "test", "pack", "unpack", "unpack 1", "growth", "v8 bytes", "serialize", "back"
    for (i = 1; i <= n; i++) {
      split(order[i], part, " ")
      name = part[1]; size = part[2]; worst = 0; star = ""
      grown(name, "test"); grown(name, "pack"); grown(name, "unpack1"); grown(name, "unpack2")
      printf "%-12s %s %9.1f %9.1f %9.1f %9.1f %7s %s%s\n", order[i], bytes[name, size], least[name, size, "test"] / 1e3, least[name, size, "pack"] / 1e3, least[name, size, "unpack2"] / 1e3, least[name, size, "unpack1"] / 1e3, worst ? sprintf("%.2f", worst) : "-", node[name, size], star
      last[name] = size
    }
    if (wrong) print "a thread was packed otherwise after it was unpacked"
    exit missed || wrong || n == 0
  }' "$times"
