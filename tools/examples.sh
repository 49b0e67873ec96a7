#!/usr/bin/env bash
# Runs every example and every row of the tables with the built program, and compares what is written and the status.
# An example is NAME.ml5 with NAME.script beside it, and NAME.trace (job run, or the job that NAME.job names) or NAME.refusal;
# its status is the one that goes with its last line. Where NAME.expanded stands beside it, that is what `expand` writes of the
# program, and the job is done on it. `replay` is to say yes to each trace, and what it says of changed traces is compared by
# tools/replay-changes.py. examples/tables/README.md says how a table is written.
set -u
cd "$(dirname "$0")/.." || exit 1
program=crates/ml5/out/ml5
[ -x "$program" ] || { echo "examples: $program is not built"; exit 1; }
written=$(mktemp) || exit 1
trap 'rm -f "$written"' EXIT

# The status that goes with the last line of what is written.
status_of() {
  case $(tail -n 1 "$1") in
    accepted | rest | yes) echo 0 ;;
    'refused byte '* | 'refused number '* | 'refused syntax '* | 'refused deep '*) echo 4 ;;
    'refused script '*) echo 6 ;;
    'refused memory') echo 7 ;;
    'refused long') echo 8 ;;
    'stopped '*) echo 10 ;;
    'no '*) echo 12 ;;
    'spent '*) echo 13 ;;
    'refused unbuilt') echo 11 ;;
    'refused '*) echo 5 ;;
    *) echo none ;;
  esac
}

# Prints what `replay` answers of an example's trace, unless that is yes.
confirm() {
  { cat "$2"; printf '%%%%\n'; [ -e "$1.script" ] && cat "$1.script"; printf '%%%%\n'; cat "$1.trace"; } | "$program" replay > "$written" 2>/dev/null
  [ "${PIPESTATUS[1]} $(cat "$written")" = '0 yes' ] || echo "$1.trace is answered '$(head -c 100 "$written")' by replay"
}

# Prints how an example differs, or nothing.
compare() {
  local name=$1 source=$1.ml5 job=run wanted=$1.trace status
  [ -e "$name.job" ] && job=$(cat "$name.job")
  [ -e "$wanted" ] || wanted=$name.refusal
  [ -e "$wanted" ] || { echo "$name has neither trace nor refusal"; return; }
  if [ -e "$name.expanded" ]; then
    source=$name.expanded
    "$program" expand < "$name.ml5" > "$written" 2>/dev/null || echo "$name is not expanded"
    cmp -s "$written" "$source" || echo "$name expands otherwise than to $source"
  fi
  { cat "$source"; printf '%%%%\n'; [ -e "$name.script" ] && cat "$name.script"; } | "$program" "$job" > "$written" 2>/dev/null
  status=${PIPESTATUS[1]}
  cmp -s "$written" "$wanted" || echo "$name differs from $wanted"
  [ "$status" = "$(status_of "$wanted")" ] || echo "$name ends with status $status, and not $(status_of "$wanted")"
  [ "$wanted" != "$name.trace" ] || confirm "$name" "$source"
}

passed=0
failed=0
for source in examples/*.ml5 examples/*/*.ml5; do
  [ -e "$source" ] || continue
  differs=$(compare "${source%.ml5}")
  if [ -z "$differs" ]; then
    passed=$((passed + 1))
  else
    printf 'examples: %s\n' "$differs"
    failed=$((failed + 1))
  fi
done
echo "examples: $passed passed, $failed failed"
python3 tools/tables.py "$program" examples/tables/*.table || failed=$((failed + 1))
python3 tools/replay-changes.py "$program" examples examples/tutorial examples/generic || failed=$((failed + 1))
[ "$failed" -eq 0 ] && [ "$passed" -gt 0 ]
