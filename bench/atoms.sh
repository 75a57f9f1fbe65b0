#!/usr/bin/env bash
# Times the atoms of the built program, of each kind: seconds and peak memory on a tree and on a chain of 10,000 axioms
# between classes, and on 5,000 axioms with 3,000 classes and restrictions over a few roles, without and with one role
# in half of them.
set -eu
top="$(cd "$(dirname "$0")/.." && pwd)"
program="$top/crates/owlad/out/owlad"
work="$(mktemp -d)"
trap 'rm -rf "$work"' EXIT
python3 - "$work" <<'PYTHON'
import random
import sys

draw = random.Random(17)


def write(name, axioms):
    with open(f'{sys.argv[1]}/{name}.ofn', 'w') as out:
        out.write('Ontology(\n' + '\n'.join(axioms) + '\n)\n')


def restriction(hub):
    role = 0 if hub and draw.random() < 0.5 else draw.randrange(1, 6)
    form = draw.choice(['ObjectSomeValuesFrom', 'ObjectAllValuesFrom'])
    return f'SubClassOf(<u:C{draw.randrange(3000)}> {form}(<u:r{role}> <u:C{draw.randrange(3000)}>))'


write('tree', [f'SubClassOf(<u:C{n}> <u:C{n // 2}>)' for n in range(1, 10001)])
write('chain', [f'SubClassOf(<u:C{n}> <u:C{n + 1}>)' for n in range(10000)])
for name, hub in [('roles', False), ('hub', True)]:
    classes = [f'SubClassOf(<u:C{n}> <u:C{n // 2}>)' for n in range(1, 2501)]
    write(name, classes + [restriction(hub) for _ in range(2500)])
PYTHON
for name in tree chain roles hub; do
  for kind in bottom top star; do
    /usr/bin/env time -f "$name $kind: %e s, %M KB" "$program" atoms "$kind" < "$work/$name.ofn" > "$work/out"
    printf '  %s\n' "$(head -1 "$work/out")"
  done
done
