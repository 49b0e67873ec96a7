#!/bin/sh
# Runs the built `ml5` on a file and shows where it is refused, or which sites stopped.
#
#   tools/explain.sh FILE WORD ..
#
# The words are those of a job, as `run`. What `ml5` writes is written, and its status is the status. Under a refusal stand
# the line at fault, a caret, and the section of docs/ on this kind of refusal; under a last line `stopped N` the sites that
# stopped, each with its cause and the section on it.
set -u
program=$(dirname "$0")/../crates/ml5/out/ml5
case ${1-} in
  --help | -h)
    cat <<'END'
tools/explain.sh FILE WORD ..

Runs the job WORD .. of the built `ml5` on FILE, with the output and the status of `ml5`, and then says more under a line

  refused KIND LINE:COLUMN      the line of the program, a caret below the column, the kind's section in docs/refusals.md
  refused script LINE KIND      the line of the script, a caret below its first word, the kind's section in docs/formats.md
  stopped N, the last line      which sites stopped, and for each cause what it means, with its section in docs/language.md

FILE is a program, or a program, a line %% and its script. Where FILE is NAME.ml5, has no such line, and NAME.script stands
beside it, that is its script.

The words are those of a job: `check`, `run`, `ref`, `expand` or `replay`. As in: tools/explain.sh examples/chat.ml5 ref
END
    exit 0 ;;
esac
[ $# -ge 2 ] || { echo "usage: tools/explain.sh FILE WORD .. (tools/explain.sh --help says more)" >&2; exit 1; }
file=$1
shift
[ -e "$file" ] || { echo "explain: there is no file $file" >&2; exit 1; }
[ ! -d "$file" ] || { echo "explain: $file is a folder, and no program" >&2; exit 1; }
[ -r "$file" ] || { echo "explain: $file cannot be read" >&2; exit 1; }
[ -x "$program" ] || { echo "explain: $program is not built: run rt ci first" >&2; exit 1; }

folder=$(mktemp -d) || exit 1
trap 'rm -rf "$folder"' EXIT
trap 'exit 129' HUP
trap 'exit 130' INT
trap 'exit 143' TERM
cat < "$file" > "$folder/input" || exit 1
script=${file%.ml5}.script
if [ "$script" != "$file.script" ] && [ -r "$script" ] && ! LC_ALL=C grep -aq "^%%$(printf '\r')\{0,1\}\$" "$folder/input"; then
  # A last line without its line feed gets one, so that the line %% stands alone.
  [ ! -s "$folder/input" ] || [ "$(tail -c 1 "$folder/input" | wc -l)" -eq 1 ] || echo >> "$folder/input"
  { echo %%; cat < "$script"; } >> "$folder/input"
fi
"$program" "$@" < "$folder/input" > "$folder/answer"
status=$?
cat "$folder/answer"
LC_ALL=C awk '
  # The line at fault, and a caret below a column. Columns count bytes. A tab stays a tab and a later byte of one character
  # takes no room, so the caret stands below its place.
  function show(line, column,  i, byte, caret) {
    sub(/\r$/, "", line)
    print line
    for (i = 1; i < column; i++) {
      byte = substr(line, i, 1)
      if (byte ~ /[\200-\277]/) continue
      caret = caret (byte == "\t" ? "\t" : " ")
    }
    print caret "^"
  }

  FILENAME != ARGV[1] {
    if (script_line == "" ? FNR == place[1] : divided && FNR == divided + script_line) fault = $0
    if (!divided && /^%%\r?$/) divided = FNR
    next
  }
  FNR == 1 && $1 == "refused" && $2 == "script" { script_line = $3; kind = $4 }
  FNR == 1 && $1 == "refused" && $3 ~ /^[0-9]+:[0-9]+$/ { kind = $2; split($3, place, ":") }
  $3 == "stop" { site[++stops] = $1 " " $2; cause[stops] = $4 }
  { last = $0 }

  END {
    if (script_line != "") {
      match(fault, /[^ \t]/)
      show(fault, RSTART)
      print "docs/formats.md, section The script, kind " kind
    } else if (kind != "") {
      show(fault, place[2])
      print "docs/refusals.md, section " kind
    } else if (last ~ /^stopped [0-9]+$/) {
      means["spent"] = "its steps reached the budget: docs/language.md, section Runs"
      means["region"] = "its weight reached the region: docs/language.md, section Runs"
      means["table"] = "it had 4,096 threads, cells or handlers: docs/language.md, section The meaning"
      for (i = 1; i <= stops; i++) print site[i] " stopped by " cause[i]
      for (i = 1; i <= stops; i++) if (!told[cause[i]]++) print cause[i] ": " means[cause[i]]
    }
  }
' "$folder/answer" "$folder/input"
exit $status
