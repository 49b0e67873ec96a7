#!/usr/bin/env bash
# Compares the words that the files of editors/ know with the language's own lists, which it reads from the definitions, and
# fails where a word is missing or is none. A word stands in Vim's files on a line `syntax keyword GROUP WORD ..`, and in
# TextMate's in a match of the form `(?<!..)(WORD|..)(?!..)`.
set -u
cd "$(dirname "$0")/.." || exit 1
[ $# -eq 0 ] || { echo "usage: tools/check-editors.sh" >&2; exit 1; }
failed=0

# The words that a definition names as `codes "WORD"`: from a line that begins so, to the next line that is empty. Where
# there are none, a line that no editor knows tells it.
defined() {
  awk -v begins="$2" '
    index($0, begins) == 1 { inside = 1 }
    /^$/ { inside = 0 }
    inside {
      while (match($0, /codes "[^"]*"/)) {
        count = split(substr($0, RSTART + 7, RLENGTH - 8), words, " ")
        for (i = 1; i <= count; i++) if (words[i] ~ /^[a-z_]+$/) { print words[i]; printed++ }
        $0 = substr($0, RSTART + RLENGTH)
      }
    }
    END { if (!printed) print "any word of \"" begins "\" in " FILENAME }' "$1"
}

in_vim() { awk '$1 == "syntax" && $2 == "keyword" { for (i = 4; i <= NF; i++) print $i }' "$1"; }

in_textmate() {
  awk '
    match($0, /\(\?<![^)]*\)\([a-z_|]*\)\(\?!/) {
      found = substr($0, RSTART, RLENGTH - 3)
      sub(/^\(\?<![^)]*\)\(/, "", found); sub(/\)$/, "", found)
      count = split(found, words, "|")
      for (i = 1; i <= count; i++) print words[i]
    }' "$1"
}

# Compares the words of a language's two files with those that come on standard input.
compare() {
  local name=$1 wanted found file
  wanted=$(LC_ALL=C sort -u)
  for file in "editors/vim/syntax/$name.vim" "editors/textmate/syntaxes/$name.tmLanguage.json"; do
    case $file in *.vim) found=$(in_vim "$file") ;; *) found=$(in_textmate "$file") ;; esac || failed=1
    found=$(LC_ALL=C sort <<< "$found")
    report "$file lacks" "$(comm -23 <(echo "$wanted") <(echo "$found"))"
    report "$file has, and the language has not," "$(comm -13 <(echo "$wanted") <(uniq <<< "$found"))"
    report "$file has twice" "$(uniq -d <<< "$found")"
  done
}

report() {
  [ -z "$2" ] && return
  echo "check-editors: $1 $(paste -sd ' ' <<< "$2")"
  failed=1
}

compare ml5 < <(
  defined crates/m5_lex/specs/Alphabet.antt 'keywords ='
  defined crates/m5_terms/specs/Primitives.antt 'abbrev pub primitive_name :'
)
compare ml5script < <(
  defined crates/m5_script/specs/Line.antt 'keyword_of word ='
  defined crates/m5_script/specs/Trace.antt 'abbrev pub world_word :' | grep -vx any
)
compare ml5trace < <(
  defined crates/m5_script/specs/Trace.antt 'abbrev pub world_word :' | grep -vx any
  defined crates/m5_script/specs/Trace.antt 'abbrev pub cause_word :'
  defined crates/m5_script/specs/Trace.antt 'abbrev pub words_of :'
  defined crates/m5_script/specs/Trace.antt 'abbrev pub last_words :'
)
[ "$failed" -eq 0 ] && echo "check-editors: the editors' words are the language's"
exit "$failed"
