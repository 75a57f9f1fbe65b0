#!/usr/bin/env bash
# Times the built program `bench_decompose` on a tree and on a chain of 16,384 classes, on one processor: seconds and peak
# memory of building the universe alone, with the genuine modules of all axioms, and with the whole decomposition. And of
# a thousand copies of the tree's universe, each with an axiom more and one less. A word, as `0-3`, names processors to
# use instead of one.
set -eu
top="$(cd "$(dirname "$0")/.." && pwd)"
program="$top/crates/bench_decompose/out/bench_decompose"
if [ ! -x "$program" ]; then
  (cd "$top/crates/bench_decompose" && rt run >/dev/null)
fi
processors="${1:-0}"
run() {
  /usr/bin/env time -f "$*: %e s, %M KB" taskset -c "$processors" "$program" "$@" >/dev/null
}
for shape in tree chain; do
  for part in universe rows atoms; do
    run "$shape" 16384 "$part"
  done
done
run tree 16384 copies
