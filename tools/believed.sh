#!/usr/bin/env bash
# Prints the files of definitions that a reader of the headline has to believe: those that its statement reaches by `use`
# lines, each with its lines and the sections of docs/ to hold it against; then those that other claims reach besides; and
# how many files are left. Which section a file belongs to is read off the paragraphs of docs/ that begin with
# 'Definitions:'. Fails where a file to be believed stands in none of these, or one of these names a file that is not there.
set -u
cd "$(dirname "$0")/.." || exit 1
. tools/crates.sh

# Where the headline's statement begins, and where the statements of other claims begin.
headline='m5_cli/specs/Headline m5_cli/specs/Status'
claims='m5_terms/specs/Laws m5_terms/specs/Related m5_keys/specs/Keys m5_lex/specs/Shown m5_poly/specs/Expansion m5_poly/specs/Plain
  m5_scope/specs/Binders m5_typing/specs/Laws m5_network/specs/Laws m5_site_sound/specs/Laws m5_sound/specs/Laws m5_hall/specs/Passes
  m5_hall/specs/History m5_cps/specs/Machine m5_cps/specs/Program m5_cps_typing/specs/Laws m5_cps_convert/specs/Laws
  m5_cps_runs/specs/Greeting m5_cps_runs/specs/Chat
  m5_flat/specs/Program m5_flat_typing/specs/Laws m5_close/specs/Closing m5_hoist/specs/Hoisting
  m5_dict/specs/Dictionaries m5_slice/specs/Slicing m5_slice/specs/Going m5_slice/specs/Apart
  m5_region/specs/Layout m5_region/specs/Bench m5_machine/specs/Run m5_emit/specs/Laws m5_message/specs/Laws m5_marshal/specs/Pack m5_marshal/specs/Unpack
  m5_dict_typing/specs/Laws m5_site/specs/Kind
  m5_replay/specs/Laws'

# The files that are reached by `use` lines from those that are named, one on a line.
reached() {
  local seen=' ' todo="$*" next file
  while [ -n "$todo" ]; do
    next=
    for file in $todo; do
      case $seen in *" $file "*) continue ;; esac
      [ -f "crates/$file.antt" ] || { echo "believed: there is no crates/$file.antt" >&2; return 1; }
      seen="$seen$file "
      next="$next $file"
    done
    todo=
    [ -n "$next" ] && todo=$(uses $next)
  done
  printf '%s\n' $seen
}

# The files of definitions that these files use; declared items and models of types stand in src/ and are none.
uses() {
  sed -nE 's/^ *(pub )?use Rattle\.((m5|ml5)[a-z0-9_]*)\.specs\.((code\.)?[A-Z][A-Za-z0-9]*).*/\2\/specs\/\4/p' \
    $(printf 'crates/%s.antt ' "$@") | sed 's/specs\/code\./specs\/code\//' | LC_ALL=C sort -u
}

# The files of src/ whose declared items or models these files use.
declared() {
  sed -nE 's/^ *(pub )?use Rattle\.((m5|ml5)[a-z0-9_]*)\.specs\.(declared|contracts)\.([a-z0-9_.]*)\..*/\2 \5/p' \
    $(printf 'crates/%s.antt ' "$@") | sed 's/\.[A-Z].*//; s/\./\//g' | LC_ALL=C sort -u
}

# Which section of docs/ names which file: lines of a file, and a link to the section.
sections() {
  for page in docs/language.md docs/formats.md docs/hall.md docs/proofs.md docs/claims.md; do
    awk -v page="${page#docs/}" '
      /^#+ / { title = $0; sub(/^#+ /, "", title) }
      /^Definitions: / { inside = 1 }
      /^[ \t]*$/ { if (inside) flush_names(); inside = 0 }
      inside { text = text " " $0 }
      END { if (inside) flush_names() }
      function flush_names(  crate, name, anchor, part) {
        anchor = tolower(title); gsub(/[^a-z0-9 _-]/, "", anchor); gsub(/ /, "-", anchor)
        while (match(text, /`[^`]*`/)) {
          name = substr(text, RSTART + 1, RLENGTH - 2)
          text = substr(text, RSTART + RLENGTH)
          sub(/\.antt$/, "", name); sub(/^crates\//, "", name)
          if (name ~ /^[a-z0-9_]+\/specs$/) { split(name, part, "/"); crate = part[1]; continue }
          if (name ~ /^[a-z0-9_]+\/specs\//) { split(name, part, "/"); crate = part[1]; sub(/^[a-z0-9_]+\/specs\//, "", name) }
          if (name ~ /^(code\/)?[A-Z]/ && crate != "") print crate "/specs/" name "\t[" title "](" page "#" anchor ")"
        }
        text = ""
      }' "$page"
  done
}

# A table of files, in the order of the crates.
table() {
  printf '| File | Lines | Hold it against |\n|---|---|---|\n'
  for file in "$@"; do printf '%s\t%s\n' "$file" "$(wc -l < "crates/$file.antt")"; done | awk -F '\t' '
    FILENAME == ARGV[1] { order[$2] = ++crates; next }
    FILENAME == ARGV[2] { link[$1] = link[$1] (link[$1] == "" ? "" : ", ") $2; next }
    {
      split($1, part, "/")
      printf "%03d\t%s\t%s\t%s\n", order[part[1]], $1, $2, link[$1]
      if (link[$1] == "") print "believed: no section of docs/ has " $1 > "/dev/stderr"
    }' <(crates_by_group) <(sections) - | LC_ALL=C sort | awk -F '\t' '{ print "| `" $2 "` | " $3 " | " $4 " |" }'
}

# How many lines files have, and how many of these are neither blank nor a comment nor a `use`.
lines() {
  cat $(printf 'crates/%s.antt ' "$@") | awk '
    /^[ \t]*$/ || /^[ \t]*--/ || /^(pub )?use / { next }
    { written++ }
    END { printf "%d lines, of which %d define", NR, written }'
}

# The members of the first list that are not in the second.
without() { comm -23 <(printf '%s\n' $1 | LC_ALL=C sort -u) <(printf '%s\n' $2 | LC_ALL=C sort -u); }

believed=$(reached $headline) || exit 1
besides=$(reached $claims) || exit 1
besides=$(without "$besides" "$believed")
all=$(cd crates && find . -path './*/specs/*' ! -path './*/out/*' -name '*.antt' ! -name Lib.antt | sed 's/^\.\///; s/\.antt$//')
rest=$(without "$all" "$believed $besides")

problems=$(mktemp) || exit 1
trap 'rm -f "$problems"' EXIT
sections | while IFS=$'\t' read -r file section; do
  [ -f "crates/$file.antt" ] || echo "believed: $section names $file, which is not there" >> "$problems"
done
echo "The headline reaches $(wc -w <<< "$believed") files of definitions ($(lines $believed)):"
echo
table $believed 2>> "$problems"
echo
echo "These name enums, structs and what contracts see of them, which stand in these files of src/:"
echo "$(declared $believed | awk '$1 != crate { printf "%s`%s`: ", (crate == "" ? "" : "; "), $1; crate = $1; sep = "" } { printf "%s`%s`", sep, $2; sep = ", " } END { print "." }')"
echo
echo "The laws and calls that are no part of it reach $(wc -w <<< "$besides") files more ($(lines $besides)):"
echo
table $besides 2>> "$problems"
echo
echo "Neither reaches the other $(wc -w <<< "$rest") files ($(lines $rest)): contracts of calls on the way cite them."
cat "$problems" >&2
[ ! -s "$problems" ]
