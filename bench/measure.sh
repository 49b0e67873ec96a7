# What the benches of the program share: the built program, a folder that goes away, seconds, memory and growth. A bench
# sources this file at the top of the repository.
program=crates/ml5/out/ml5
[ -x "$program" ] || { echo "bench: $program is not built: run rt ci first"; exit 1; }
folder=$(mktemp -d)
trap 'rm -rf "$folder"' EXIT

# The least seconds of a job over each input, a line each. The inputs take turns, nine rounds of them, so that a machine
# that is slower for a while slows all of them.
least() {
  job=$1
  shift
  for _ in 1 2 3 4 5 6 7 8 9; do
    for input in "$@"; do
      printf '%s ' "$input"
      bash -c 'TIMEFORMAT=%R; time "$0" "$1" < "$2" > "$3"' "$program" "$job" "$input" "$folder/answer" 2>&1
    done
  done | awk '!($1 in least) { order[++n] = $1; least[$1] = $2 } $2 < least[$1] { least[$1] = $2 }
    END { for (i = 1; i <= n; i++) print least[order[i]] }'
}

# The peak KiB of a job over an input, or a dash where it cannot be had. It is never less than what starting a program takes.
peak() {
  python3 -c 'import resource, subprocess, sys
subprocess.run(sys.argv[1:3], stdin=open(sys.argv[3]), stdout=subprocess.DEVNULL)
print(resource.getrusage(resource.RUSAGE_CHILDREN).ru_maxrss)' "$program" "$1" "$2" 2>/dev/null || echo -
}

# How often the second number holds the first, or a dash for the first of a row.
growth() {
  awk -v a="$1" -v b="$2" 'BEGIN { if (b > 0) printf "%.2f", a / b; else print "-" }'
}

# The first line of what a job answers.
answer() {
  "$program" "$1" < "$2" | head -n 1 | cut -c1-40
}
