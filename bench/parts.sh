#!/usr/bin/env bash
# Times the built program on the generated ontology of size 10,000: writing it, its summary, and its parts of each kind:
# seconds and peak memory.
set -eu
top="$(cd "$(dirname "$0")/.." && pwd)"
program="$top/crates/owlad/out/owlad"
work="$(mktemp -d)"
trap 'rm -rf "$work"' EXIT
run() {
  /usr/bin/env time -f "$*: %e s, %M KB" "$program" "$@" < "$work/in" > "$work/out"
}
: > "$work/in"
run generate 10000
printf '  %s bytes\n' "$(wc -c < "$work/out")"
mv "$work/out" "$work/generated"
run summary 10000
sed 's/^/  /' "$work/out"
cp "$work/generated" "$work/in"
for kind in bottom top star; do
  run split "$kind"
  printf '  %s, %s bytes\n' "$(head -1 "$work/out")" "$(wc -c < "$work/out")"
done
