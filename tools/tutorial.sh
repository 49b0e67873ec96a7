#!/usr/bin/env bash
# Types each program, script and command of docs/tutorial.md anew from the page, runs the commands with the built program,
# and compares what they print with what the page shows. What was typed has to be what examples/tutorial has, file by file.
#
# From the page's first step on, a block is a file where the last line before it is its name in quotes and a colon; a command
# where it begins with ```sh; and otherwise what the command before it prints.
set -u
cd "$(dirname "$0")/.." || exit 1
[ $# -eq 0 ] || { echo "usage: tools/tutorial.sh" >&2; exit 1; }
program=crates/ml5/out/ml5
[ -x "$program" ] || { echo "tutorial: $program is not built"; exit 1; }
page=docs/tutorial.md
folder=$(mktemp -d) || exit 1
trap 'rm -rf "$folder"' EXIT
mkdir -p "$folder/page/examples/tutorial" "$folder/blocks" || exit 1
ln -s "$PWD/tools" "$folder/page/tools"
failed=0

complain() {
  echo "tutorial: $1"
  failed=1
}

# The blocks of the page: files in page/examples/tutorial, and commands and what they print, numbered, in blocks.
awk -v files="$folder/page/examples/tutorial" -v blocks="$folder/blocks" '
  function wrong(why) { print "line " FNR ": " why; bad = 1 }
  /^## / { begun = 1 }
  !begun { next }
  /^```/ && inside { inside = 0; close(target); last = ""; next }
  inside { print > target; next }
  /^```sh$/ {
    if (waiting) wrong("a command, and nothing shows what the one before it prints")
    target = blocks "/" sprintf("%03d", ++count) ".command"
    waiting = 1; inside = 1; printf "" > target; next
  }
  /^```/ {
    if (last ~ /^`[A-Za-z0-9_]+\.(ml5|script)`:$/) {
      name = substr(last, 2, length(last) - 3)
      if (name in named) wrong(name " is shown twice")
      named[name] = 1
      target = files "/" name
    } else if (waiting) {
      target = blocks "/" sprintf("%03d", count) ".printed"
      waiting = 0
    } else {
      wrong("a block that is no file, and comes after no command")
      target = "/dev/null"
    }
    inside = 1; printf "" > target; next
  }
  !/^[ \t]*$/ { last = $0 }
  END { if (waiting) wrong("nothing shows what the last command prints"); exit bad }
' "$page" > "$folder/faults" || while IFS= read -r fault; do complain "$page, $fault"; done < "$folder/faults"

files=0
for file in examples/tutorial/*.ml5 examples/tutorial/*.script; do
  if [ ! -e "$folder/page/$file" ]; then
    complain "$page does not show $file"
  elif ! cmp -s "$folder/page/$file" "$file"; then
    complain "$page shows another $file"
  fi
done
for file in "$folder/page/examples/tutorial"/*; do
  files=$((files + 1))
  [ -e "examples/tutorial/${file##*/}" ] || complain "$page shows ${file##*/}, which is not in examples/tutorial"
done

commands=0
for command in "$folder/blocks"/*.command; do
  [ -e "$command" ] || continue
  commands=$((commands + 1))
  (cd "$folder/page" && sh "$command") > "$folder/printed" 2>&1
  cmp -s "$folder/printed" "${command%.command}.printed" || complain "$page shows other lines than this prints: $(cat "$command")"
done
[ "$commands" -gt 0 ] || complain "$page has no commands"
[ "$failed" -eq 0 ] && echo "tutorial: $files files and $commands commands are as the page shows them"
exit "$failed"
