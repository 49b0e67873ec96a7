#!/usr/bin/env bash
# Prints the index of crates and files: what each holds, by its own first sentence. The crates are grouped as in crates.txt.
# Fails where a file has no first sentence.
set -u
cd "$(dirname "$0")/.." || exit 1
. tools/crates.sh

# The files of each crate, its root first.
files() {
  crates_by_group | cut -f 2 | while read -r crate; do
    ls "crates/$crate"/src/lib.rt "crates/$crate"/src/main.rt 2> /dev/null
    find "crates/$crate/src" -name '*.rt' ! -path '*/src/lib.rt' ! -path '*/src/main.rt' | LC_ALL=C sort
    [ -d "crates/$crate/specs" ] && find "crates/$crate/specs" -name '*.antt' ! -name Lib.antt | LC_ALL=C sort
  done
}

# For each file that is named on a line, its name and the first sentence of its first comment, parted by a tab.
first_sentences() {
  while read -r file; do
    mark='//!'
    case $file in *.antt) mark=-- ;; esac
    awk -v file="$file" -v mark="$mark" '
      index($0, mark) == 1 { text = text substr($0, length(mark) + 1); next }
      { exit }
      END {
        gsub(/[ \t]+/, " ", text); sub(/^ /, "", text); sub(/ $/, "", text)
        if (text == "") print file " has no first sentence" > "/dev/stderr"
        end = index(text, ". ")
        print file "\t" (end > 0 ? substr(text, 1, end) : text)
      }' "$file"
  done
}

missing=$(mktemp) || exit 1
trap 'rm -f "$missing"' EXIT
files | first_sentences 2> "$missing" | awk -F '\t' '
  FNR == NR { group[$2] = $1; sentence[$1] = $3; next }
  {
    split($1, part, "/")
    crate = part[2]
    name = substr($1, length("crates/" crate "/") + 1)
    gsub(/\|/, "\\|", $2)
  }
  group[crate] != last_group {
    print (last_group == "" ? "" : "\n") "### " group[crate] ": " sentence[group[crate]]
    last_group = group[crate]
  }
  name ~ /^src\/(lib|main)\.rt$/ { print "\n**`" crate "`** " $2; table = ""; next }
  table != crate { print "\n| File | What it holds |\n|---|---|"; table = crate }
  { print "| `" name "` | " $2 " |" }' <(crates_by_group) -
cat "$missing" >&2
[ ! -s "$missing" ]
