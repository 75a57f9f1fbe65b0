#!/usr/bin/env bash
# Times `module bottom` of the built program on documents of class axioms: seconds and peak memory of each.
set -eu
top="$(cd "$(dirname "$0")/.." && pwd)"
program="$top/crates/owlad/out/owlad"
work="$(mktemp -d)"
trap 'rm -rf "$work"' EXIT
run() {
  python3 "$top/bench/make.py" "$1" "$work/$1.ofn"
  /usr/bin/env time -f "$1: %e s, %M KB" "$program" module bottom "Class=$2" < "$work/$1.ofn" > "$work/out"
  printf '  %s axioms in the module\n' "$(grep -c '^SubClassOf' "$work/out" || true)"
}
run kind-order 'http://example.org/c#C16000'
run reverse-chains 'http://example.org/c#C0x0'
run repeats 'http://example.org/c#C0'
