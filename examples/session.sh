#!/usr/bin/env bash
# A session over the pizzeria: puts the document in as an edit, asks for a module, changes one axiom, and asks again.
# OWLAD names another program to run.
cd "$(dirname "${BASH_SOURCE[0]}")" || exit 1
program="${OWLAD:-../owlad}"

# A request line with its payload.
request() {
  printf '%s %s\n%s' "$1" "$(printf %s "$2" | wc -c)" "$2"
}

# The document's prefixes, and each of its axioms, which stand one a line, as an addition.
document="$(sed -n -e '/^Prefix/p' -e '/^Prefix/!{/^Ontology/!{/^[A-Z]/s/^/+/p}}' pizza.ofn)"

seed='Prefix(:=<http://example.org/pizzeria#>) Class(:Cheese)'

change='Prefix(:=<http://example.org/pizzeria#>)
-SubClassOf(:Parmesan :Cheese)
+SubClassOf(:Cheese ObjectSomeValuesFrom(:comesFrom :Country))'

{
  request EDIT "$document"
  request 'MODULE bottom' "$seed"
  request EDIT "$change"
  request 'MODULE bottom' "$seed"
  echo QUIT
} | "$program" script
