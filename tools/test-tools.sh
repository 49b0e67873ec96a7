#!/usr/bin/env bash
# Tests the tools that people call: what they say of bad use (one clear line, a status that is not 0, nothing on standard
# output, no file left behind), and what tools/draw.sh and tools/explain.sh write. Needs the built program.
set -u
cd "$(dirname "$0")/.." || exit 1
[ $# -eq 0 ] || { echo "usage: tools/test-tools.sh" >&2; exit 1; }
program=crates/ml5/out/ml5
[ -x "$program" ] || { echo "test-tools: $program is not built"; exit 1; }
top=$PWD
work=$(mktemp -d) || exit 1
trap 'rm -rf "$work"' EXIT
mkdir "$work/temporary" "$work/here" || exit 1
passed=0
failed=0

count() {
  if [ "$1" = yes ]; then passed=$((passed + 1)); else failed=$((failed + 1)); echo "test-tools: $2"; fi
}

# Runs a tool in a folder of its own, with its own folder for temporary files; its status is left in `status`.
run() {
  (cd "$work/here" && TMPDIR=$work/temporary bash -c '"$@"' tool "$top/tools/$1" "${@:2}") > "$work/out" 2> "$work/err" < /dev/null
  status=$?
  count "$([ -z "$(ls -A "$work/temporary")" ] && echo yes)" "$* leaves files behind"
}

# What a tool says of bad use: refuses LINE TOOL WORD ..
refuses() {
  local line=$1
  shift
  run "$@"
  count "$([ "$status" -ne 0 ] && [ ! -s "$work/out" ] && [ "$(cat "$work/err")" = "$line" ] && echo yes)" \
    "$*: status $status, writes '$(head -c 200 "$work/out")', says '$(cat "$work/err")', and not '$line'"
}

# What a tool writes, and with which status: writes STATUS TOOL WORD .., with what is wanted on standard input.
writes() {
  local wanted=$1
  shift
  cat > "$work/wanted"
  run "$@"
  count "$([ "$status" = "$wanted" ] && cmp -s "$work/out" "$work/wanted" && [ ! -s "$work/err" ] && echo yes)" \
    "$* writes otherwise, with status $status:
$(diff "$work/wanted" "$work/out" | head -n 20)$(cat "$work/err")"
}

# Writes a file of the folder in which tools are run.
file() { cat > "$work/here/$1"; }

# No trace, or not the whole of one.
for tool in draw.sh explain.sh; do
  name=${tool%.sh}
  words=$([ "$name" = draw ] && echo TRACE || echo 'FILE WORD ..')
  refuses "usage: tools/$tool $words (tools/$tool --help says more)" "$tool"
done
refuses 'usage: tools/draw.sh TRACE (tools/draw.sh --help says more)' draw.sh a b
refuses 'usage: tools/explain.sh FILE WORD .. (tools/explain.sh --help says more)' explain.sh a
refuses 'draw: there is no file a' draw.sh a
refuses 'explain: there is no file a' explain.sh a ref
refuses 'draw: . is a folder, and no trace' draw.sh .
refuses 'explain: . is a folder, and no program' explain.sh . ref

missing='is missing: a trace ends with "rest", "stopped N" or "wrong .."'
no_line='is no line of a trace'
no_trace() {
  file t
  refuses "draw: t: line $1 $2" draw.sh t
}
no_trace 1 "$missing" < /dev/null
no_trace 1 "$no_line" < examples/chat.ml5
no_trace 1 "$no_line" < examples/chat.script
no_trace 1 "$no_line" < docs/pictures/chat.svg
no_trace 1 "$no_line" < <(head -c 3000 "$program")
no_trace 1 "$no_line" < <(printf '\n')
no_trace 49 "$missing" < <(head -n 48 examples/chat.trace)
no_trace 50 'has a line after its last one, which is "rest"' < <(cat examples/chat.trace; echo)
no_trace 1 'takes a message that was never sent' < <(printf '1 home take server\nrest\n')
no_trace 3 'takes a message that was never sent' < <(printf '1 home send server\n1 server take home\n1 server take home\nrest\n')
no_trace 2 'takes a message that was never sent' < <(printf '1 home send server\n2 server take home\nrest\n')
no_trace 2 'tells another number of stops than the lines before it' < <(printf '1 home stop spent\nrest\n')
no_trace 2 'tells another number of stops than the lines before it' < <(printf '1 home stop spent\nstopped 2\n')
while IFS= read -r line; do
  no_trace 1 "$no_line" < <(printf '%s\nrest\n' "$line")
done <<'END'
0 home say "a"
01 home say "a"
1 any say "a"
1 server say "a"
1 home read "k" none
1 home say
1 home say "a
1 home say "a"b"
1 home say "a" "b"
1 home say "\q"
1 home say  "a"
1  home say "a"
1 home say "a" 
1 home say "é"
1 home set "a"
1 home shout "a"
1 server read "k" nothing
1 server read "k"
1 home send home
1 home send any
1 home send server now
1 home refuse it
1 home stop tired
END

# What is drawn: no more than fits, and no text that SVG would read as its own.
drawn() {
  run draw.sh "$1"
  count "$([ "$status" = 0 ] && [ ! -s "$work/err" ] && echo yes)" "draw.sh $1 ends with $status: $(cat "$work/err")"
}
has() { count "$(grep -qF -- "$1" "$work/out" && echo yes)" "$2 has no '$1'"; }
rows() { grep -c '<text class="number"' "$work/out"; }

awk 'BEGIN { for (i = 1; i <= 250; i++) print 1 + i % 4 " home say \"" i "\""; print "rest" }' | file long
drawn long
has 'Cut: the first 200 of 250 lines are drawn.' 'a long trace'
has 'Here the picture is cut: 50 lines more, and then rest.' 'a long trace'
count "$([ "$(rows)" = 200 ] && echo yes)" "a long trace has $(rows) rows"
awk 'BEGIN { for (i = 1; i <= 6; i++) { print i " home send server"; print i " home send panel" } print "rest" }' | file wide
drawn wide
has 'Cut: the first 5 of the 6 sessions of these lines are drawn.' 'a wide trace'
count "$([ "$(grep -c 'class="lane"' "$work/out")" = 15 ] && echo yes)" "a wide trace has $(grep -c 'class="lane"' "$work/out") lanes"
printf '1 home say "%s"\n1 home say "a & <b> ]]> \\" \\\\"\nrest\n' "$(printf '%03000d' 0)" | file ' -v&<x>=1.trace'
drawn ' -v&<x>=1.trace'
has '&#8230;' 'a long text'
has '"a &amp; &lt;b&gt; ]]&gt; \" \\"' 'a text with signs'
has ' -v&amp;&lt;x&gt;=1.trace</text>' 'a name with signs'
count "$(sed 's/&amp;//g; s/&lt;//g; s/&gt;//g; s/&#8230;//g' "$work/out" | grep -q '&' || echo yes)" 'a sign is left that SVG reads as its own'
printf 'rest\n' | file empty
drawn empty
has 'rest: every site came to rest' 'a trace of nothing'
printf '1 home send server\nwrong 1 server 7\n' | file wrong
drawn wrong
has 'wrong 1 server 7: a machine went wrong' 'a trace that ends wrong'
has 'sent, and not taken' 'a message that nothing took'

# What is explained.
cd examples/refused || exit 1
writes 6 explain.sh "$PWD/late_sessions.ml5" run <<'END'
refused script 2 late
sessions 2
^
docs/formats.md, section The script, kind late
END
writes 5 explain.sh "$PWD/server_read_at_home.ml5" check <<'END'
refused WrongWorld 3:13
main = case read "motto" of inl none => () | inr s => say s end
            ^
docs/refusals.md, section WrongWorld
END
cd ../.. || exit 1
# A program without a last line feed; then a program with its script after a line %%, and one that ends with a carriage return.
printf 'main = ()' | file p.ml5
printf '# a remark\n \tevent 2 "w" ""\n' | file p.script
printf 'main = ()\r\n%%%%\r\n\torder  \r\n' | file whole
writes 6 explain.sh p.ml5 ref < <(printf 'refused script 2 range\n \tevent 2 "w" ""\n \t^\ndocs/formats.md, section The script, kind range\n')
writes 6 explain.sh whole ref < <(printf 'refused script 1 syntax\n\torder  \n\t^\ndocs/formats.md, section The script, kind syntax\n')
writes 0 explain.sh p.ml5 check <<< accepted
writes 1 explain.sh p.ml5 chekc < <("$program" chekc < /dev/null)
writes 10 explain.sh "$top/examples/drawn/stops.ml5" ref < <(cat examples/drawn/stops.trace; cat <<'END'
2 home stopped by region
3 server stopped by spent
1 home stopped by spent
region: its weight reached the region: docs/language.md, section Runs
spent: its steps reached the budget: docs/language.md, section Runs
END
)
writes 0 explain.sh "$top/examples/chat.ml5" ref < examples/chat.trace

# What no run of today writes, or not here: by a program that answers as it is told, in a tree of its own.
mkdir -p "$work/tree/tools" "$work/tree/crates/ml5/out" && cp tools/explain.sh "$work/tree/tools/" || exit 1
told() {
  top=$work/tree
  printf '#!/bin/sh\ncat > /dev/null\nprintf "%s"\nexit %s\n' "$2" "$1" > "$work/tree/crates/ml5/out/ml5"
  chmod +x "$work/tree/crates/ml5/out/ml5"
  writes "$1" explain.sh p.ml5 ref
  top=$PWD
}
told 10 '1 panel stop table\n2 home say \"stop\"\n2 home stop table\nstopped 2\n' <<'END'
1 panel stop table
2 home say "stop"
2 home stop table
stopped 2
1 panel stopped by table
2 home stopped by table
table: it had 4,096 threads, cells or handlers: docs/language.md, section The meaning
END
told 2 '' < /dev/null
told 7 'refused memory\n' <<< 'refused memory'
told 4 'refused syntax 1:10\n' < <(printf 'refused syntax 1:10\nmain = ()\n         ^\ndocs/refusals.md, section syntax\n')
rm "$work/tree/crates/ml5/out/ml5"
top=$work/tree
refuses "explain: $work/tree/tools/../crates/ml5/out/ml5 is not built: run rt ci first" explain.sh p.ml5 ref
top=$PWD

# The sections that tools/explain.sh names.
for section in 'language.md:## Runs' 'language.md:## The meaning' 'formats.md:## The script' 'refusals.md:## WrongWorld'; do
  count "$(grep -qxF "${section#*:}" "docs/${section%%:*}" && echo yes)" "docs/${section%%:*} has no section '${section#*:}'"
done
for kind in syntax late again range sealed many; do
  count "$(grep -q "^| \`$kind\` | is\|^| \`$kind\` | has" docs/formats.md && echo yes)" "docs/formats.md has no line on the kind $kind"
done

# The other tools.
for tool in draw.sh explain.sh; do
  run "$tool" --help
  count "$([ "$status" = 0 ] && [ ! -s "$work/err" ] && grep -q "^tools/$tool " "$work/out" && echo yes)" "$tool --help does not help"
done
refuses 'usage: tools/pictures.sh, or tools/pictures.sh --write' pictures.sh all
for tool in tutorial.sh check-editors.sh test-tools.sh js-check.sh; do refuses "usage: tools/$tool" "$tool" all; done

echo "test-tools: $passed passed, $failed failed"
[ "$failed" -eq 0 ]
