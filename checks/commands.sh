#!/usr/bin/env bash
# Puts the cases of checks/cases to the program that rt ci built: words and input, and the output, the status and the
# note that they must give. commands.py tells how the files of cases are written.
#
#   checks/commands.sh [WORD]    with a word, only the cases whose place or name has it
#
# OWLAD names another program to try.
here="$(cd "$(dirname "${BASH_SOURCE[0]}")" && pwd)"
program="${OWLAD:-$here/../crates/owlad/out/owlad}"
if [ ! -x "$program" ]; then
  echo "commands: $program isn't there: the gate (.ci/run) or ./owlad builds it"
  exit 1
fi
exec python3 -B "$here/commands.py" "$program" "$@"
