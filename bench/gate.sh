#!/usr/bin/env bash
# Runs the gate and prints what it cost: bench/gate.sh [WORD ..], with the words of `rt ci` (names of crates, --anew).
# The table goes to standard output, in Markdown; what the gate says goes to standard error. The status is the gate's.
here="$(cd "$(dirname "${BASH_SOURCE[0]}")" && pwd)"
exec python3 "$here/gate.py" "$@"
