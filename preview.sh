#!/usr/bin/env bash
# Proves and builds the preview, and runs it on a file of lines (default: the example show), each line beside its answer.
set -eu
cd "$(dirname "$0")"
show=$(realpath "${1:-examples/crux.txt}")
echo 'Proving and building; the first time this takes some minutes.' >&2
log=$(mktemp)
answers=$(mktemp)
trap 'rm -f "$log" "$answers"' EXIT
(cd crates/preview && rt run < "$show" > "$answers" 2> "$log") || { tail -n 20 "$log" >&2; exit 1; }
paste -d '\n' "$show" "$answers" | sed '2~2s/^/    => /'
