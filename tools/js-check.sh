#!/usr/bin/env bash
# Runs each form of the JavaScript subset by node, where the machine has it, and compares what it computes with the machine of
# homes and panels. The codes and what the machine made of them are crates/code_forms/stdout, which the gate compares with what
# the program prints. It is no part of the gate.
set -u
cd "$(dirname "$0")/.." || exit 1
[ $# -eq 0 ] || { echo "usage: tools/js-check.sh" >&2; exit 1; }
command -v node > /dev/null || { echo "js-check: node is not installed" >&2; exit 1; }
exec node tools/js-check.js crates/code_forms/stdout
