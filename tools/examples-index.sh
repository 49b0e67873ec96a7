#!/usr/bin/env bash
# Prints a line for each example: what it shows, by its own first comment and its refusal, and which primitives and forms of
# docs/language.md stand in it. Fails where an example has neither a first comment nor a refusal.
set -u
cd "$(dirname "$0")/.." || exit 1
missing=$(mktemp) || exit 1
trap 'rm -f "$missing"' EXIT

# A line of the table, for the program that is named.
line() {
  awk -v name="$(basename "$1" .ml5)" -v refusal="$(cat "${1%.ml5}.refusal" 2> /dev/null)" -v file="$1" '
    BEGIN {
      primitives = split("say set_text get_text on read write watch show", order, " ")
      count = primitives + split("fun fn rec fst snd inl inr nil :: case if < - ^ == str div ref ! := val do put leta lets hold here sham from spawn", forms, " ")
      for (i = primitives + 1; i <= count; i++) order[i] = forms[i - primitives]
    }
    { text = text $0 "\n" }
    END {
      tokens()
      shows = comment
      if (refusal != "") shows = shows (shows == "" ? "" : " ") "[`" refusal "`](" section(refusal) ")"
      if (shows == "") print "examples-index: " file " has neither a first comment nor a refusal" > "/dev/stderr"
      gsub(/\|/, "\\|", shows)
      for (i = 1; i <= count; i++) if (order[i] in used) list = list (list == "" ? "" : " ") "`" order[i] "`"
      print "| `" name "` | " shows " | " list " |"
    }

    # Marks the words and signs of the program, without its comments and texts; the comment before all else is kept. A sign of
    # a case arm, as `inl x`, is none of a value, as `inl[T] e`, and an extern line has no `val` of its own.
    function tokens(  token, before, depth, part) {
      while (match(text, /\(\*|\*\)|"([^"\\]|\\[^\n])*"|[A-Za-z][A-Za-z0-9_\047]*(\[)?|:=|::|==|=>|->|[^ \t\n]/)) {
        if (depth > 0 && !started) part = part substr(text, 1, RSTART - 1)
        token = substr(text, RSTART, RLENGTH)
        text = substr(text, RSTART + RLENGTH)
        if (token == "(*") { depth++; continue }
        if (token == "*)" && depth > 0) { if (--depth == 0 && !started) { comment = trimmed(part); started = 1 }; continue }
        if (depth > 0) { if (!started) part = part token; continue }
        started = 1
        if (sub(/\[$/, "", token)) used[token] = 1
        else if (token !~ /^(inl|inr|nil)$/ && !(token == "val" && before == "extern") && !(before == "val" && last == "extern")) used[token] = 1
        last = before
        before = token
      }
    }

    # The section of docs/ on a refusal.
    function section(refusal,  word) {
      split(refusal, word, " ")
      if (word[2] == "script") return "../docs/formats.md#the-script"
      return word[3] == "" ? "../docs/formats.md#refusals-and-statuses" : "../docs/refusals.md#" tolower(word[2])
    }

    function trimmed(part) { gsub(/[ \t\n]+/, " ", part); sub(/^ /, "", part); sub(/ $/, "", part); return part }' "$1"
}

for folder in examples examples/tutorial examples/generic examples/drawn examples/refused; do
  printf '%s**%s/**\n\n| Example | Shows | Primitives and forms |\n|---|---|---|\n' "${parted-}" "$folder"
  parted=$'\n'
  for program in "$folder"/*.ml5; do line "$program" 2>> "$missing"; done
done
for folder in examples/*/; do
  case $folder in examples/tutorial/ | examples/generic/ | examples/drawn/ | examples/refused/) continue ;; esac
  ls "$folder"*.ml5 > /dev/null 2>&1 && echo "examples-index: $folder has programs, and no table" >> "$missing"
done
cat "$missing" >&2
[ ! -s "$missing" ]
