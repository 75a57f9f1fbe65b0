#!/usr/bin/env bash
# Times sessions of the built program over 10,000 axioms: 2,000 edits of one axiom each and an export, and 200 modules; then
# replies that are asked for one at a time: 2,000 modules, the atoms of each kind, and the export of 32 MB.
set -eu
top="$(cd "$(dirname "$0")/.." && pwd)"
program="$top/crates/owlad/out/owlad"
work="$(mktemp -d)"
trap 'rm -rf "$work"' EXIT
run() {
  python3 "$top/bench/make.py" "$1" "$work/requests"
  /usr/bin/env time -f "$1: %e s, %M KB" "$program" script < "$work/requests" > "$work/replies"
  printf '  %s replies\n' "$(grep -c '^OK ' "$work/replies")"
}
run session
run modules
python3 -B "$top/bench/replies.py" "$program"
