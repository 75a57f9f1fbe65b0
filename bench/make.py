#!/usr/bin/env python3
"""Writes the inputs of the benchmarks: make.py KIND FILE."""
import sys

kind, path = sys.argv[1], sys.argv[2]


def axiom(a, b):
    return f"SubClassOf(<http://example.org/c#C{a}> <http://example.org/c#C{b}>)\n"


PREFIXES = """Prefix(:=<http://example.org/m#>)
Prefix(rdfs:=<http://www.w3.org/2000/01/rdf-schema#>)
"""


def mixed(i):
    """The i-th axiom of a document of several forms of axiom."""
    forms = [
        f"Declaration(Class(:C{i}))",
        f'AnnotationAssertion(rdfs:label :C{i - 1} "class {i - 1}"@en)',
        f"SubClassOf(:C{i - 2} :C{(i - 2) // 2})",
        f"SubClassOf(:C{i - 3} ObjectSomeValuesFrom(:p{i % 50} :C{i // 3}))",
        f"EquivalentClasses(:C{i - 4} ObjectIntersectionOf(:C{i // 2} ObjectAllValuesFrom(:q{i % 50} :D{i})))",
        f'SubClassOf(Annotation(rdfs:comment "told") :C{i - 5} DataHasValue(:d{i % 20} "{i}"))',
        f"DisjointClasses(:E{i} :E{i + 1} :E{i + 2})",
        f"ObjectPropertyDomain(:p{i % 50} :D{i})",
        f"ClassAssertion(:C{i - 8} :a{i})",
        f"ObjectPropertyAssertion(:q{i % 50} :a{i - 1} :a{i - 2})",
    ]
    return forms[i % 10] + "\n"


with open(path, "w") as out:
    if kind == "kind-order":
        # 16,000 axioms, each name before those above it
        out.write("Ontology(\n")
        for i in range(16000, 0, -1):
            out.write(axiom(i, i // 2))
        out.write(")\n")
    elif kind == "reverse-chains":
        # chains of 300 in reverse order, 15,900 axioms
        out.write("Ontology(\n")
        for chain in range(53):
            for i in range(299, -1, -1):
                out.write(axiom(f"{chain}x{i}", f"{chain}x{i + 1}"))
        out.write(")\n")
    elif kind == "repeats":
        # 30 MB of blanks and axioms that repeat
        out.write("Ontology(\n")
        size = 0
        i = 0
        while size < 30_000_000:
            line = "  \t\r\n   " * 3 + axiom(i % 1000, i % 1000 + 1)
            out.write(line)
            size += len(line)
            i += 1
        out.write(")\n")
    elif kind == "mixed":
        # 10,000 axioms of several forms
        out.write(PREFIXES + "Ontology(\n")
        out.writelines(mixed(i) for i in range(10_000))
        out.write(")\n")
    elif kind == "large":
        # the same axioms again and again, up to 32 MiB
        lines = [mixed(i) for i in range(10_000)]
        out.write(PREFIXES + "Ontology(\n")
        size = len(PREFIXES) + 12
        i = 0
        while size + len(lines[i % 10_000]) <= 33_554_432:
            out.write(lines[i % 10_000])
            size += len(lines[i % 10_000])
            i += 1
        out.write(")\n")
    elif kind == "session":
        # 10,000 axioms in one edit, 2,000 edits of one axiom each, and the whole ontology
        batch = "".join("+" + axiom(i, i // 2) for i in range(1, 10001))
        out.write(f"EDIT {len(batch)}\n{batch}")
        for i in range(10001, 12001):
            edit = "+" + axiom(i, i // 2)
            out.write(f"EDIT {len(edit)}\n{edit}")
        out.write("EXPORT\n")
    elif kind == "modules":
        # 10,000 axioms in one edit, and 200 modules
        batch = "".join("+" + axiom(i, i // 2) for i in range(1, 10001))
        out.write(f"EDIT {len(batch)}\n{batch}")
        for i in range(1, 201):
            seed = f"Class(<http://example.org/c#C{50 * i}>)\n"
            out.write(f"MODULE bottom {len(seed)}\n{seed}")
    else:
        sys.exit(f"no input of kind {kind}")
