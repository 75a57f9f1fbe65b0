#!/usr/bin/env bash
# Drives the program that rt ci built with the client in clients/python, through every request and every refusal that can be
# reached. client.py and split.py have the checks; the second runs those of both.
#
#   checks/client.sh [WORD]    with a word, only the checks whose name has it
#
# OWLAD names another program to try.
here="$(cd "$(dirname "${BASH_SOURCE[0]}")" && pwd)"
program="${OWLAD:-$here/../crates/owlad/out/owlad}"
if ! command -v python3 > /dev/null; then
  echo "client: skipped, python3 isn't there"
  exit 0
fi
if [ ! -x "$program" ]; then
  echo "client: $program isn't there: the gate (.ci/run) or ./owlad builds it"
  exit 1
fi
exec python3 -B "$here/split.py" "$program" "$@"
