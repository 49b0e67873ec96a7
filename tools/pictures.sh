#!/usr/bin/env bash
# Compares each picture of docs/pictures with what tools/draw.sh draws, and fails where they differ; with --write it draws
# them anew. docs/pictures/NAME.svg is the picture of the one trace NAME.trace of examples/ and its folders. There
# are those of the chat, of the tutorial's last step, and of each trace of examples/drawn.
set -u
shopt -s nullglob
cd "$(dirname "$0")/.." || exit 1
write=no
case $# in
  0) ;;
  *) [ $# -eq 1 ] && [ "$1" = --write ] || { echo "usage: tools/pictures.sh, or tools/pictures.sh --write" >&2; exit 1; }
    write=yes ;;
esac
drawn=$(mktemp) || exit 1
trap 'rm -f "$drawn"' EXIT
failed=0

complain() {
  echo "pictures: $1"
  failed=1
}

# Draws a picture anew, and compares it with the one that stands or puts it there.
compare() {
  local picture=$1 name traces
  name=$(basename "$picture" .svg)
  traces=(examples/"$name".trac[e] examples/*/"$name".trace)
  if [ ${#traces[@]} -ne 1 ]; then
    complain "$picture has no trace of its own: ${#traces[@]} have its name"
  elif ! sh tools/draw.sh "${traces[0]}" > "$drawn"; then
    complain "tools/draw.sh does not draw ${traces[0]}"
  elif [ $write = yes ]; then
    cat "$drawn" > "$picture" || complain "$picture is not written"
  elif ! cmp -s "$drawn" "$picture"; then
    complain "$picture is not what tools/draw.sh draws of ${traces[0]} (tools/pictures.sh --write draws it anew)"
  fi
}

pictures=$({
  printf 'docs/pictures/%s.svg\n' chat 7_panel
  for trace in examples/drawn/*.trace; do echo "docs/pictures/$(basename "$trace" .trace).svg"; done
  for picture in docs/pictures/*.svg; do echo "$picture"; done
} | LC_ALL=C sort -u)
for picture in $pictures; do compare "$picture"; done
[ "$failed" -eq 0 ] && echo "pictures: $(wc -l <<< "$pictures") are as tools/draw.sh draws them"
exit "$failed"
