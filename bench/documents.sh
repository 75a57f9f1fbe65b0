#!/usr/bin/env bash
# Times modules of the built program over documents as tools write them: seconds and peak memory of each side on 10,000
# axioms of several forms, and on the same axioms repeated up to 32 MiB.
set -eu
top="$(cd "$(dirname "$0")/.." && pwd)"
program="$top/crates/owlad/out/owlad"
work="$(mktemp -d)"
trap 'rm -rf "$work"' EXIT
run() {
  python3 "$top/bench/make.py" "$1" "$work/$1.ofn"
  /usr/bin/env time -f "$1 $2: %e s, %M KB" "$program" module "$2" 'Class=http://example.org/m#C5002' < "$work/$1.ofn" > "$work/out"
  printf '  %s lines in the module\n' "$(wc -l < "$work/out")"
}
run mixed bottom
run mixed top
run large bottom
