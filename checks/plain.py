"""Ontologies of some forms of axiom, with their modules and atoms straight from the definitions, as slow as these are. What
client.py compares replies with; docs/definitions.md has the definitions in words.

An expression or axiom is its keyword and its operands. A name is a pair of its kind and its IRI, a number a number, a list of
operands a list. Property names stand for themselves.
"""

THING = ("Class", "http://www.w3.org/2002/07/owl#Thing")
NOTHING = ("Class", "http://www.w3.org/2002/07/owl#Nothing")
TOP = ("ObjectProperty", "http://www.w3.org/2002/07/owl#topObjectProperty")
BOTTOM = ("ObjectProperty", "http://www.w3.org/2002/07/owl#bottomObjectProperty")

EVERYTHING, EMPTY = (THING, TOP), (NOTHING, BOTTOM)

NAMES = ("Class", "ObjectProperty", "AnnotationProperty", "NamedIndividual")

CARRIED = ("Declaration", "AnnotationAssertion")

KINDS = ("bottom", "top", "star")


def is_name(it):
    return isinstance(it, tuple) and it[0] in NAMES and isinstance(it[1], str)


def text(it):
    """Returns the canonical text."""
    if isinstance(it, (int, str)):
        return str(it)
    if is_name(it):
        return f"<{it[1]}>"
    if it[0] == "Declaration":
        return f"Declaration({it[1][0]}({text(it[1])}))"
    operands = [operand for each in it[1:] for operand in (each if isinstance(each, list) else [each])]
    return f"{it[0]}({' '.join(map(text, operands))})"


def signature(it):
    """Returns the entities that occur, but for those that are built in."""
    if is_name(it):
        return set() if it in EVERYTHING + EMPTY else {it}
    return set().union(*(signature(each) for each in it if isinstance(each, (tuple, list))))


class Surely:
    """What is surely empty, everything and not empty on a side, for seen names."""

    def __init__(self, side, seen):
        self.side, self.seen = side, seen

    def outside(self, it):
        return it not in self.seen and it not in EVERYTHING + EMPTY

    def empty(self, it):
        if is_name(it):
            return it in EMPTY or self.side == "bottom" and self.outside(it)
        head, *rest = it
        if head == "ObjectIntersectionOf":
            return any(map(self.empty, rest[0]))
        if head == "ObjectUnionOf":
            return all(map(self.empty, rest[0]))
        if head == "ObjectComplementOf":
            return self.everything(rest[0])
        if head == "ObjectInverseOf":
            return self.empty(rest[0])
        if head == "ObjectSomeValuesFrom":
            return self.empty(rest[0]) or self.empty(rest[1])
        if head == "ObjectAllValuesFrom":
            return self.everything(rest[0]) and self.empty(rest[1])
        number, link, filler = rest
        if head == "ObjectMaxCardinality":
            return number == 0 and self.everything(link) and self.inhabited(filler)
        return number > 0 and (self.empty(link) or self.empty(filler))

    def everything(self, it):
        if is_name(it):
            return it in EVERYTHING or self.side == "top" and self.outside(it)
        head, *rest = it
        if head == "ObjectIntersectionOf":
            return all(map(self.everything, rest[0]))
        if head == "ObjectUnionOf":
            return any(map(self.everything, rest[0]))
        if head == "ObjectComplementOf":
            return self.empty(rest[0])
        if head == "ObjectInverseOf":
            return self.everything(rest[0])
        return self.restricted(it)

    def restricted(self, it):
        """Returns whether a restriction is surely everything, which it is where it is surely not empty."""
        head, *rest = it
        if head == "ObjectSomeValuesFrom":
            return self.everything(rest[0]) and self.inhabited(rest[1])
        if head == "ObjectAllValuesFrom":
            return self.empty(rest[0]) or self.everything(rest[1])
        number, link, filler = rest
        if head == "ObjectMaxCardinality":
            return self.empty(link) or self.empty(filler)
        return number == 0 or number == 1 and self.everything(link) and self.inhabited(filler)

    def inhabited(self, it):
        if is_name(it):
            return it in EVERYTHING or self.side == "top" and self.outside(it)
        head, *rest = it
        if head == "ObjectIntersectionOf":
            places = range(len(rest[0]))
            others = lambda place: (self.everything(rest[0][other]) for other in places if other != place)
            return any(self.inhabited(rest[0][place]) and all(others(place)) for place in places)
        if head == "ObjectUnionOf":
            return any(map(self.inhabited, rest[0]))
        if head == "ObjectComplementOf":
            return self.empty(rest[0])
        return self.restricted(it)

    def local(self, axiom):
        """Returns whether a logical axiom is local."""
        head, *rest = axiom
        if head == "EquivalentClasses":
            return len(rest[0]) == 1 or all(map(self.empty, rest[0])) or all(map(self.everything, rest[0]))
        if head == "DisjointClasses":
            return sum(not self.empty(operand) for operand in rest[0]) <= 1
        if head in ("ClassAssertion", "ObjectPropertyAssertion", "ReflexiveObjectProperty"):
            return self.everything(rest[0])
        if head == "FunctionalObjectProperty":
            return self.empty(rest[0])
        if head == "TransitiveObjectProperty":
            return self.empty(rest[0]) or self.everything(rest[0])
        # SubClassOf, SubObjectPropertyOf, ObjectPropertyDomain, ObjectPropertyRange
        return self.empty(rest[0]) or self.everything(rest[1])


def side_module(side, seed, axioms):
    """Returns the axioms of the module of a side: none but those left over is local."""
    found = []
    while True:
        surely = Surely(side, set(seed).union(*map(signature, found)))
        more = [axiom for axiom in axioms if axiom in found or not surely.local(axiom)]
        if more == found:
            return found
        found = more


def module(kind, seed, axioms):
    """Returns the axioms of a module, in their order, from logical ones."""
    if kind != "star":
        return side_module(kind, seed, axioms)
    while True:
        smaller = side_module("top", seed, side_module("bottom", seed, axioms))
        if smaller == axioms:
            return axioms
        axioms = smaller


def logical(ontology):
    return [axiom for axiom in ontology if axiom[0] not in CARRIED]


def document(axioms):
    """Returns the text of a document."""
    return "Ontology(\n" + "".join(text(axiom) + "\n" for axiom in axioms) + ")\n"


def module_document(kind, seed, ontology):
    """Returns the text of the document of a module, with the declarations and annotation assertions of its entities."""
    found = module(kind, seed, logical(ontology))
    entities = set(seed).union(*map(signature, found))
    names = {name for _, name in entities}

    def goes_with(axiom):
        if axiom[0] == "Declaration":
            return axiom[1] in entities
        return axiom[2][1] in names if axiom[0] == "AnnotationAssertion" else axiom in found

    return document(filter(goes_with, ontology))


class Decomposition:
    """The atoms of a kind: the axioms of each, what each needs, and how many axioms are in none."""

    def __init__(self, kind, ontology):
        axioms = logical(ontology)
        modules = [module(kind, signature(axiom), axioms) for axiom in axioms]
        self.genuine, self.atoms, self.tautologies = [], [], 0
        for axiom, found in zip(axioms, modules):
            if axiom not in found:
                self.tautologies += 1
            elif found in self.genuine:
                self.atoms[self.genuine.index(found)].append(axiom)
            else:
                self.genuine.append(found)
                self.atoms.append([axiom])

    def below(self, number):
        """Returns the other atoms whose axioms are in the module of this one."""
        found = self.genuine[number]
        return {other for other, atom in enumerate(self.atoms) if other != number and atom[0] in found}

    def needs(self, number):
        below = self.below(number)
        return sorted(other for other in below if not any(other in self.below(between) for between in below))

    def text(self):
        lines = [f"atoms {len(self.atoms)} tautologies {self.tautologies}\n"]
        for number, atom in enumerate(self.atoms):
            needs = self.needs(number)
            lines.append(f"atom {number} axioms {len(atom)}{' needs' if needs else ''}{''.join(f' {it}' for it in needs)}\n")
        return "".join(lines)


def counts(ontology):
    """Returns the text of the counts of an ontology."""
    axioms = logical(ontology)
    entities = len(set().union(*map(signature, axioms)))
    of = [Decomposition(kind, ontology) for kind in KINDS]
    return (
        f"axioms {len(axioms)} carried {len(ontology) - len(axioms)} entities {entities} bytes {len(document(ontology).encode())}\n"
        f"tautologies {of[0].tautologies}\natoms bottom {len(of[0].atoms)} top {len(of[1].atoms)} star {len(of[2].atoms)}\n"
    )


# Chance


class Chance:
    """Axioms by chance, over a few names."""

    def __init__(self, random, names):
        self.random = random
        self.classes = [("Class", f"u:C{number}") for number in range(names)]
        self.links = [("ObjectProperty", f"u:p{number}") for number in range(3)]
        self.individuals = [("NamedIndividual", f"u:a{number}") for number in range(2)]

    def link(self):
        if self.random.random() < 0.15:
            return ("ObjectInverseOf", self.random.choice(self.links))
        return self.random.choice(self.links * 4 + [TOP, BOTTOM])

    def expression(self, depth=2):
        """Returns a class expression of at most this depth."""
        if depth == 0 or self.random.random() < 0.6:
            return self.random.choice(self.classes * 4 + [THING, NOTHING])
        some = [self.expression(depth - 1) for _ in range(self.random.randint(1, 3))]
        number = self.random.randint(0, 2)
        return self.random.choice(
            [
                ("ObjectIntersectionOf", some),
                ("ObjectUnionOf", some),
                ("ObjectComplementOf", some[0]),
                ("ObjectSomeValuesFrom", self.link(), some[0]),
                ("ObjectAllValuesFrom", self.link(), some[0]),
                ("ObjectMinCardinality", number, self.link(), some[0]),
                ("ObjectMaxCardinality", number, self.link(), some[0]),
            ]
        )

    def axiom(self):
        """Returns an axiom, most often SubClassOf."""
        one, link = self.expression, self.link()
        some = [one(1) for _ in range(self.random.randint(1, 3))]
        individual = self.random.choice(self.individuals)
        name = self.random.choice(self.classes + self.links + self.individuals)
        rare = [
            ("EquivalentClasses", some),
            ("DisjointClasses", some),
            ("SubObjectPropertyOf", link, self.link()),
            ("ObjectPropertyDomain", link, one()),
            ("ObjectPropertyRange", link, one()),
            ("FunctionalObjectProperty", link),
            ("ReflexiveObjectProperty", link),
            ("TransitiveObjectProperty", link),
            ("ClassAssertion", one(), individual),
            ("ObjectPropertyAssertion", link, individual, self.random.choice(self.individuals)),
            ("Declaration", name),
            ("AnnotationAssertion", ("AnnotationProperty", "u:n"), name, f'"name {self.random.randint(0, 3)}\nof \\"it\\""'),
        ]
        return self.random.choice(rare) if self.random.random() < 0.5 else ("SubClassOf", one(), one())

    def seed(self):
        """Returns a seed of up to three entities."""
        return self.random.sample(self.classes + self.links + self.individuals, self.random.randint(0, 3))
