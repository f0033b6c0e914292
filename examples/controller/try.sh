#!/usr/bin/env bash
# Builds the controller's library, links the C program with it, and compares what it says of some runs.
set -euo pipefail
here=$(cd "$(dirname "$0")" && pwd)
top=$here/../..
made=$(mktemp -d)
trap 'rm -rf "$made"' EXIT
(cd "$top/crates/controller" && rt lib > "$made/lib.log" 2>&1) || { cat "$made/lib.log" >&2; exit 1; }
cc -O2 -Wall -Wextra -o "$made/saw" "$here/saw.c" "$top/crates/controller/out/libcontroller.a"
for run in S JSK JMK SJ "" Ss SSSSSSSSSSSSSSSSS; do
    "$made/saw" "$top/examples/jig/book.txt" "$run" || true
done > "$made/said"
"$made/saw" /dev/null S >> "$made/said" || true
diff "$here/said.txt" "$made/said"
echo "the controller's C program says what it should"
