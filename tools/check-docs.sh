#!/usr/bin/env bash
# Compares the blocks of documents that scripts make with what the scripts print, and fails where they differ.
# With --write it writes the blocks. A block stands between the lines `<!-- made by tools/NAME -->` and `<!-- end -->`.
set -u
cd "$(dirname "$0")/.." || exit 1
write=no
[ "${1-}" = --write ] && write=yes
failed=0
made=$(mktemp) || exit 1
page=$(mktemp) || exit 1
trap 'rm -f "$made" "$page"' EXIT

# A page with the block of a script.
check() {
  if ! bash "tools/$2" > "$made"; then
    echo "check-docs: tools/$2 failed, so $1 is not compared"
    failed=1
    return
  fi
  if [ "$(grep -cxF "<!-- made by tools/$2 -->" "$1")" != 1 ]; then
    echo "check-docs: $1 has no block made by tools/$2"
    failed=1
    return
  fi
  awk -v first="<!-- made by tools/$2 -->" -v made="$made" '
    $0 == first { print; print ""; while ((getline line < made) > 0) print line; print ""; inside = 1 }
    $0 == "<!-- end -->" { inside = 0 }
    !inside && $0 != first { print }' "$1" > "$page"
  if cmp -s "$page" "$1"; then return; fi
  if [ $write = yes ]; then
    cat "$page" > "$1"
    echo "check-docs: wrote the block of tools/$2 in $1"
  else
    echo "check-docs: $1 differs from what tools/$2 prints (tools/check-docs.sh --write writes it)"
    failed=1
  fi
}

check docs/claims.md believed.sh
check docs/architecture.md passes.sh
check docs/architecture.md index.sh
check examples/README.md examples-index.sh
[ "$failed" -eq 0 ] && echo "check-docs: the blocks are as the scripts print them"
exit "$failed"
