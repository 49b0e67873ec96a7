#!/usr/bin/env bash
# The block of docs/architecture.md on what passes make: the program text that `passes_shown` reads, and what it prints of it,
# which `rt ci` compares with what the program writes.
set -u
cd "$(dirname "$0")/../crates/passes_shown" || exit 1
printf '```\n'
cat stdin
printf '```\n\n```\n'
cat stdout
printf '```\n'
