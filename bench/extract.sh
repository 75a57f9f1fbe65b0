#!/usr/bin/env bash
# Times the built program `bench_extract`, which finds the module of the signature of each axiom of a tree of 16,384
# classes: seconds and peak memory of building the tree alone, and then with all modules of each kind.
set -eu
top="$(cd "$(dirname "$0")/.." && pwd)"
program="$top/crates/bench_extract/out/bench_extract"
if [ ! -x "$program" ]; then
  (cd "$top/crates/bench_extract" && rt run >/dev/null)
fi
run() {
  /usr/bin/env time -f "$*: %e s, %M KB" "$program" 16384 "$@"
}
run
for kind in bottom top star; do
  run "$kind"
done
