#!/usr/bin/env bash
# The crates of docs/map.md are those of crates.txt and the folders of crates/, each once.
set -u
cd "$(dirname "$0")/.." || exit 1
listed="$(sed -n 's/^\([a-z][a-z0-9_]*\)[^:#]*:.*/\1/p' crates.txt | sort)"
folders="$(find crates -mindepth 1 -maxdepth 1 -type d -printf '%f\n' | sort)"
mapped="$(sed -n '/^| Crate /,/^$/p' docs/map.md | sed -n 's/^| \(`[^|]*\) |.*/\1/p' | grep -o '`[a-z0-9_]*`' | tr -d '`' | sort)"
failed=0
compare() {
  local lines
  lines="$(diff <(printf '%s\n' "$2") <(printf '%s\n' "$4"))" || {
    printf 'map: %s (<) and %s (>) differ:\n%s\n' "$1" "$3" "$lines"
    failed=1
  }
}
compare crates.txt "$listed" 'folders of crates/' "$folders"
compare crates.txt "$listed" docs/map.md "$mapped"
[ -n "$listed" ] || { echo 'map: crates.txt lists no crate'; failed=1; }
exit "$failed"
