"""Checks of the client's `split` and of the page that it writes. What is wanted is worked out by hand or by plain.py. Called by
client.sh; it runs the checks of client.py too.

usage: split.py PROGRAM [WORD]    with a word, only the checks whose name has it
"""

import contextlib
import html.parser
import io
import json
import os
import random
import re
import shutil
import subprocess
import sys
import tempfile
import time
import urllib.parse

import client
import plain
from client import check, command, fails, over, refused, same, shown

import owlad_client  # noqa: E402  (client.py puts its folder on the path)
import owlad_page  # noqa: E402
from owlad_client import Broken, Part, ProtocolError, first_class, read_parts, safe_name, split

# How many ontologies by chance are split.
ONTOLOGIES = 24

BROWSERS = ("chromium", "chromium-browser", "google-chrome", "google-chrome-stable", "chrome", "firefox")


def document(*axioms):
    return "Ontology(\n" + "".join(axiom + "\n" for axiom in axioms) + ")\n"


# A below B below C, and D below C, and an axiom that says nothing. B's name goes with every part that has it.
TAUTOLOGY = "SubClassOf(<u:A> <http://www.w3.org/2002/07/owl#Thing>)"
AB, BC, DC = "SubClassOf(<u:A> <u:B>)", "SubClassOf(<u:B> <u:C>)", "SubClassOf(<u:D> <u:C>)"
A_IS, D_IS, B_NAME = "Declaration(Class(<u:A>))", "Declaration(Class(<u:D>))", 'AnnotationAssertion(<u:n> <u:B> "b")'
FORK = document(A_IS, AB, B_NAME, BC, D_IS, DC, TAUTOLOGY)


# Parts


@check
def parts_worked_out_by_hand():
    """On the bottom side each axiom needs those on what is above its classes: the second is needed by the first. On the top side
    it needs those on what is below them: the second and the third each need all others that share C, so they are one atom, which
    needs the first. Of stars none needs another. The tautology is in no part."""
    bottom = [Part(2, document(A_IS, AB, B_NAME, BC)), Part(1, document(D_IS, DC))]
    same("bottom", bottom, split(client.PROGRAM, "bottom", FORK))
    same("top", [Part(3, document(A_IS, AB, B_NAME, BC, D_IS, DC))], split(client.PROGRAM, "top", FORK))
    star = [Part(1, document(A_IS, AB, B_NAME)), Part(1, document(B_NAME, BC)), Part(1, document(D_IS, DC))]
    same("star", star, split(client.PROGRAM, "star", FORK.encode()))
    same("of nothing", [], split(client.PROGRAM, "star", "Ontology()"))
    same("of a tautology", [], split(client.PROGRAM, "bottom", document(TAUTOLOGY)))


def plain_parts(kind, ontology):
    """Returns the parts straight from the definitions."""
    atoms = plain.Decomposition(kind, ontology)
    numbers = range(len(atoms.atoms))
    tops = [number for number in numbers if not any(number in atoms.below(other) for other in numbers)]
    texts = [plain.module_document(kind, plain.signature(atoms.atoms[number][0]), ontology) for number in tops]
    return [Part(len(atoms.genuine[number]), text) for number, text in zip(tops, texts)]


@check
def parts_by_chance():
    for number in range(ONTOLOGIES):
        chance = plain.Chance(random.Random(1000 + number), 4 + number % 8)
        ontology = []
        for _ in range(number):
            axiom = chance.axiom()
            ontology += [] if axiom in ontology else [axiom]
        text = plain.document(ontology)
        for kind in plain.KINDS:
            same(f"the {kind} parts of\n{text}", plain_parts(kind, ontology), split(client.PROGRAM, kind, text))


@check
def documents_that_are_not_split():
    refused(23, [9, "Import"], split, client.PROGRAM, "star", "Ontology(Import(<u:o>))")
    refused(20, [0], split, client.PROGRAM, "top", "what")
    fails(ValueError, split, client.PROGRAM, "side", "Ontology()")
    fails(ValueError, split, client.PROGRAM, "star", b" " * (client.MOST_BYTES + 1))
    fails(Broken, split, sys.executable, "star", "Ontology()")


@check
def parts_that_are_none():
    good = b"parts 1\npart 0 axioms 1 bytes 36\n" + document(AB).encode()
    read = lambda output: list(read_parts(over(output), lambda *_: None))
    same("one part", [Part(1, document(AB))], read(good))
    for end in range(len(good)):
        fails(ProtocolError, read, good[:end])
    fails(ProtocolError, read, b"parts 1\npart 0 axioms 0 bytes 38\n" + document(A_IS).encode())
    for old, new in (
        (b"parts 1", b"parts 01"), (b"parts 1", b"parts 2"), (b"parts 1", b"parts 0"), (b"parts 1", b"part 1"), (b"parts 1", b"parts 1 "),
        (b"part 0", b"part 1"), (b"axioms 1", b"axioms 2"), (b"axioms 1", b"axioms 0"), (b"bytes 36", b"bytes 35"), (b"bytes 36", b"bytes 37"),
        (b"bytes 36", b"bytes 036"), (b"bytes 36", b"bytes 36\r"), (b"Ontology", b"ontology"), (b"<u:A>", b"<u:\xff>"), (b")\n)\n", b")\n)\n\n"),
        (b"SubClassOf(<u:A> <u:B>)", b"Declaration(Datatype(A))"[:23]),
    ):  # fmt: skip
        fails(ProtocolError, read, good.replace(old, new))


# Names


def plain_class(ontology):
    """Returns the first class that an ontology's text has, but for those that are built in."""

    def classes(it):
        if plain.is_name(it):
            return [it[1]] if it[0] == "Class" and it not in (plain.THING, plain.NOTHING) else []
        return [found for each in it[1:] if isinstance(each, (tuple, list)) for found in each_class(each)]

    def each_class(it):
        return [found for each in it for found in classes(each)] if isinstance(it, list) else classes(it)

    return next((found for axiom in ontology if axiom[0] != "AnnotationAssertion" for found in classes(axiom)), None)


@check
def first_classes():
    for text, wanted in (
        ("ObjectPropertyDomain(<u:p> <u:A>)", "u:A"), ("ObjectPropertyRange(ObjectInverseOf(<u:p>) <u:A>)", "u:A"),
        ("DataPropertyDomain(<u:p> <u:A>)", "u:A"), ("DataPropertyRange(<u:p> <u:d>)", None), ("ClassAssertion(<u:A> <u:i>)", "u:A"),
        ("ClassAssertion(ObjectOneOf(<u:i>) <u:j>)", None), ("HasKey(ObjectOneOf(<u:i>) (<u:p>) (<u:q>))", None), ("HasKey(<u:A> () ())", "u:A"),
        ("SubClassOf(ObjectMinCardinality(2 <u:p>) ObjectMinCardinality(2 <u:p> <u:A>))", "u:A"),
        ("SubClassOf(ObjectSomeValuesFrom(<u:p> <u:A>) <u:B>)", "u:A"), ("SubClassOf(DataSomeValuesFrom(<u:p> <u:d>) <u:B>)", "u:B"),
        ("SubClassOf(ObjectHasValue(<u:p> <u:i>) ObjectHasSelf(<u:p>))", None), ("DisjointUnion(<u:A> <u:B>)", "u:A"),
        ('SubClassOf(Annotation(<u:n> "(<u:x>)\\"") <u:A> <u:B>)', "u:A"), ('SubClassOf(DataHasValue(<u:p> "a"^^<u:d>) <u:A>)', "u:A"),
        ("SubClassOf(<http://www.w3.org/2002/07/owl#Thing> <u:B>)", "u:B"), ("AnnotationAssertion(<u:n> <u:A> <u:B>)", None),
        ("ObjectPropertyDomain(Annotation(Annotation(<u:n> <u:x>) <u:n> _:b) <u:p> <u:A>)", "u:A"), ("Declaration(Datatype(<u:A>))", None),
        ("SubObjectPropertyOf(ObjectPropertyChain(<u:p> <u:q>) <u:r>)", None), ("Declaration(Class(<u:A>))", "u:A"),
    ):  # fmt: skip
        same(text, wanted, first_class(document(text)))
    for number in range(200):
        chance = plain.Chance(random.Random(number), 6)
        ontology = [chance.axiom() for _ in range(3)]
        same(plain.document(ontology), plain_class(ontology), first_class(plain.document(ontology)))


@check
def names_that_files_may_have():
    for text, wanted in (
        ("Goat", "Goat"), ("a:b", "a_b"), ('a\\b|c*d?e%f"', "a_b_c_d_e_f"), ("", ""), ("..", ""), ("-rf", "rf"), (".profile", "profile"),
        ("end.", "end"), ("con", "_con"), ("Aux.b", "_Aux.b"), ("COM1", "_COM1"), ("COM\u00b9", "_COM\u00b9"), ("console", "console"),
        ("K\u00e4se", "K\u00e4se"), ("Ka\u0308se", "K\u00e4se"), ("\u5976\u916a", "\u5976\u916a"), ("a\0b\x1bc", "a_b_c"), ("a\u202eb", "a_b"),
        ("x" * 81, "x" * 80), ("\U00020000" * 80, "\U00020000" * 60),
    ):  # fmt: skip
        same(repr(text), wanted, safe_name(text))
    for iri, wanted in (("u:A", "u:A"), ("http://x/y#A", "A"), ("http://x/y/A", "A"), ("http://x#a/B", "B"), ("http://x/A#", "")):
        same(iri, wanted, owlad_client.local_name(iri))


@check
def names_are_given_once():
    names = owlad_client.Names()
    given = ("A", "a", "A", "A-2", "a-2", "K\u00e4se", "k\u00c4SE", "x" * 80, "X" * 80)
    wanted = ["A", "a-2", "A-3", "A-2-2", "a-2-3", "K\u00e4se", "k\u00c4SE-2", "x" * 80, "X" * 78 + "-2"]
    same("names", wanted, [names.unique(it) for it in given])
    same("a part without a class", "part-7", names.of_part(7, document("TransitiveObjectProperty(<u:p>)")))
    same("a part of a class without a name", "part-8", names.of_part(8, document("Declaration(Class(<u:x#>))")))


# The folder


@contextlib.contextmanager
def folder_of(kind, text):
    """Splits a text into a folder, and lends its path."""
    with tempfile.TemporaryDirectory() as above:
        path, folder = os.path.join(above, "given.ofn"), os.path.join(above, "made", "parts")
        with open(path, "w", encoding="utf-8", newline="") as file:
            file.write(text)
        same(f"the command on {shown(text)}", (0, "", ""), command("split", path, kind, folder))
        yield folder


def content(folder, name):
    with open(os.path.join(folder, name), encoding="utf-8", newline="") as file:
        return file.read()


@check
def folders_of_parts():
    with folder_of("bottom", FORK) as folder:
        same("the files", ["index.html", "u_A.ofn", "u_D.ofn"], sorted(os.listdir(folder)))
        same("a part", document(A_IS, AB, B_NAME, BC), content(folder, "u_A.ofn"))
        page = content(folder, "index.html")
        given = os.path.join(folder, "..", "..", "given.ofn")
        status, output, note = command("split", given, "bottom", folder)
        same("files are there", (1, "", True), (status, output, "has files already" in note and "--force" in note))
        same("nothing was written", 3, len(os.listdir(folder)))
        os.remove(os.path.join(folder, "u_D.ofn"))
        same("by force", (0, "", ""), command("split", "--force", given, "bottom", folder))
        same("the files", ["index.html", "u_A.ofn", "u_D.ofn"], sorted(os.listdir(folder)))
        same("the same page", page, content(folder, "index.html"))
        same("no folder", 1, command("split", given, "bottom", given)[0])
        same("no kind", 2, command("split", given, "side", folder)[0])


@check
def a_document_from_standard_input():
    with tempfile.TemporaryDirectory() as folder:
        words = [sys.executable, "-B", os.path.join(client.CLIENTS, "owlad_client.py"), "--program", client.PROGRAM, "split", "star", folder]
        run = subprocess.run(words, input=document(AB).encode(), capture_output=True, timeout=client.SECONDS)
        same("the run", (0, b"", b""), (run.returncode, run.stdout, run.stderr))
        same("the files", ["index.html", "u_A.ofn"], sorted(os.listdir(folder)))
        os.remove(os.path.join(folder, "index.html"))
        os.remove(os.path.join(folder, "u_A.ofn"))
        run = subprocess.run(words, input=b"Ontology(Import(<u:o>))", capture_output=True, timeout=client.SECONDS)
        same("a refusal", (1, True, []), (run.returncode, b"NO 23 9 Import" in run.stderr, os.listdir(folder)))


# The page


class Page(html.parser.HTMLParser):
    """What a page has: its tags, links, nodes with their titles, edges, and the content of each script."""

    def __init__(self, text):
        super().__init__()
        self.tags, self.links, self.nodes, self.edges, self.scripts, self.ids, self.open = set(), [], {}, [], [], [], []
        self.text = ""
        self.feed(text)
        self.close()
        same("elements that aren't closed", [], self.open)

    def handle_starttag(self, tag, attributes):
        told = dict(attributes)
        same(f"attributes of {tag} that load or run something", [], [it for it in told if it.startswith("on") or it in ("src", "style")])
        self.tags.add(tag)
        self.ids += [told["id"]] if "id" in told else []
        if tag == "a":
            self.links.append(told["href"])
        if told.get("class") == "atom":
            self.nodes[int(told["data-atom"])] = [told["aria-label"], "", ""]
        if told.get("class") == "cover":
            self.edges.append((int(told["data-from"]), int(told["data-to"])))
        if tag == "script":
            self.scripts.append("")
        if tag not in ("meta", "input", "link"):
            self.open.append(tag)

    def handle_startendtag(self, tag, attributes):
        self.handle_starttag(tag, attributes)
        self.open.pop()

    def handle_endtag(self, tag):
        same("the element that ends", self.open.pop(), tag)

    def handle_data(self, data):
        self.text += "" if self.open[-1:] in (["script"], ["style"]) else data
        if self.open[-1:] == ["script"]:
            self.scripts[-1] += data
        elif "g" in self.open:
            list(self.nodes.values())[-1][1 if self.open[-1] == "title" else 2] += data.strip("\n")


TAGS = set(
    "html head meta title style body main h1 h2 p table thead tbody tr th td a div label input ul span noscript svg rect text path g "
    "circle script".split()
)


def is_page_of(folder, kind, text):
    """Checks that a folder's page shows the atoms that the program tells, and returns it."""
    page = Page(content(folder, "index.html"))
    same("other tags", set(), page.tags - TAGS)
    same("identifiers that stand twice", len(page.ids), len(set(page.ids)))
    with client.client() as session:
        session.load(text)
        atoms = session.atoms(kind).atoms
        axioms = [session.atom(kind, atom.number).axioms for atom in atoms]
    same("the nodes", {atom.number for atom in atoms}, set(page.nodes))
    same("the edges", sorted((atom.number, need) for atom in atoms for need in atom.needs), sorted(page.edges))
    for atom, its in zip(atoms, axioms):
        size = f"{atom.axioms} axiom{'' if atom.axioms == 1 else 's'}"
        same("a node", [f"atom {atom.number}, {size}: {its[0]}", its[0], f"{atom.number} ×{atom.axioms}"], page.nodes[atom.number])
    data = [[list(needs), list(its)] for (_, _, needs), its in zip(atoms, axioms)]
    same("the atoms of the search", data, [it[1:] for it in json.loads(page.scripts[0])])
    files = [urllib.parse.unquote(it) for it in page.links if not it.startswith("#")]
    same("the links to files", sorted(set(os.listdir(folder)) - {"index.html"}), sorted(files))
    same("the links to atoms", [], [it for it in page.links if it.startswith("#") and it[1:] not in page.ids])
    return page


@check
def pages_show_the_atoms():
    for kind in plain.KINDS:
        with folder_of(kind, FORK) as folder:
            is_page_of(folder, kind, FORK)
    with open(os.path.join(client.HERE, "..", "examples", "catalogue.ofn"), encoding="utf-8") as file:
        text = file.read()
    with folder_of("bottom", text) as folder:
        is_page_of(folder, "bottom", text)


@check
def texts_are_escaped():
    """Names may hold all but blanks, angle brackets and quotation marks, and literals hold anything."""
    names = "<u:x/A&amp;'`;--!{}>", "<u:x/B&lt;script&gt;>", "<u:x/%41&#39;'>"
    literal = '"</title></script><script>alert(1)</script><!-- \' \\" &amp; ]]> \\\\ -->\u2028"'
    text = document(*(f"SubClassOf({name} DataHasValue(<u:p&q> {literal}))" for name in names), f"SubClassOf({names[0]} {names[1]})")
    with folder_of("star", text) as folder:
        page = is_page_of(folder, "star", text)
        same("scripts", 2, len(page.scripts))
        same("the page's own script", owlad_page.SCRIPT, page.scripts[1])


@check
def ontologies_without_axioms():
    for text in ("Ontology()", document(TAUTOLOGY, A_IS)):
        with folder_of("top", text) as folder:
            same("the files", ["index.html"], os.listdir(folder))
            page = is_page_of(folder, "top", text)
            same("it says so", True, "0 parts" in page.text and "no atoms" in page.text)


def atoms_of(needs, sizes):
    return [owlad_page.Drawn("", tuple(need), ("<>",) * size) for need, size in zip(needs, sizes)]


@check
def layers_and_sizes():
    atoms = atoms_of([(1, 3), (2,), (), (2,), (), (0, 4)], [1, 9, 2, 2, 1, 1])
    same("layers", [2, 1, 0, 1, 0, 3], owlad_page.layers(atoms))
    same("rows", [(0, [2, 4]), (1, [1, 3]), (2, [0]), (3, [5])], owlad_page.rows_of(atoms, range(6)))
    same("atoms that none needs", [5], owlad_page.tops(atoms))
    chain = atoms_of([(number + 1,) for number in range(20_000)] + [()], [1] * 20_001)
    same("a long chain", list(range(20_000, -1, -1)), owlad_page.layers(chain))
    same("radius", [6, 24, 6], [owlad_page.radius(*it) for it in ((1, 9), (9, 9), (1, 1))])


@check
def many_atoms():
    """Of 400 atoms the 300 largest are drawn, with the covers between them; the search has all."""
    atoms = atoms_of([()] + [(0,)] * 399, [1 + number % 4 for number in range(400)])
    drawn = {number for number in range(400) if number % 4 != 0}
    text = owlad_page.page("star", [(f"part-{number}.ofn", 1, 1) for number in range(399)], atoms)
    page = Page(text)
    same("the nodes", drawn, set(page.nodes))
    same("the edges", [], page.edges)
    same("it says so", True, "400 atoms" in page.text and "300 largest" in page.text)
    same("the search", 400, len(json.loads(page.scripts[0])))
    same("links to atoms", {f"#atom-{number}" for number in drawn}, {it for it in page.links if it.startswith("#")})
    atoms[0] = owlad_page.Drawn("", (), ("<>",) * 5)
    same("with the one that all need", 299, len(Page(owlad_page.page("star", [("a", 1, 1)] * 399, atoms)).edges))


def contrast(one, other):
    """Returns the contrast of two colours, as the guidelines for accessible content define it."""

    def light(colour):
        parts = [int(colour[at : at + 2], 16) / 255 for at in (1, 3, 5)]
        red, green, blue = (it / 12.92 if it <= 0.04045 else ((it + 0.055) / 1.055) ** 2.4 for it in parts)
        return 0.2126 * red + 0.7152 * green + 0.0722 * blue

    darker, lighter = sorted((light(one), light(other)))
    return (lighter + 0.05) / (darker + 0.05)


@check
def colours_can_be_told_apart():
    """Text has a contrast of 4.5 at least, lines and marks one of 3, in both modes."""
    modes = [dict(re.findall(r"--(\w+): (#\w{6});", it)) for it in re.findall(r":root \{(.*?)\}", owlad_page.STYLE, re.S)]
    same("modes", 2, len(modes))
    for colours in modes:
        for ground in ("page", "band"):
            for name, least in (("text", 4.5), ("link", 4.5), ("edge", 3), ("chosen", 3), ("below", 3), ("above", 3)):
                same(f"{name} on {ground}", True, contrast(colours[name], colours[ground]) >= least)


@check
def pages_in_a_browser():
    """Marks the atom that the address names, and makes buttons that sort."""
    found = next(filter(None, map(shutil.which, BROWSERS)), None)
    if found is None:
        print("client: skipped, there is no browser for the page of parts")
        return
    with folder_of("bottom", FORK) as folder, tempfile.TemporaryDirectory() as profile:
        address = "file://" + urllib.parse.quote(os.path.join(folder, "index.html")) + "#atom-0"
        if "firefox" in os.path.basename(found):
            picture = os.path.join(profile, "page.png")
            words = [found, "--headless", "--profile", profile, "--screenshot", picture, address]
            subprocess.run(words, capture_output=True, timeout=client.SECONDS)
            same("a picture", True, os.path.getsize(picture) > 0)
            return
        words = [found, "--headless", "--disable-gpu", "--no-sandbox", f"--user-data-dir={profile}", "--virtual-time-budget=3000", "--dump-dom", address]
        text = subprocess.run(words, capture_output=True, timeout=client.SECONDS).stdout.decode()
        same("buttons", 5, text.count('<button type="button">'))
        same("what is marked", (1, 1, 0), tuple(text.count(f'class="atom {it}"') for it in ("chosen", "below", "above")))


# Progress


class Terminal(io.StringIO):
    def isatty(self):
        return True


@check
def progress_on_a_terminal():
    for stream, seconds, wanted in ((Terminal(), 0.02, True), (Terminal(), 60, False), (io.StringIO(), 0.02, False)):
        with owlad_client.Progress(stream, seconds) as progress:
            progress.at("atoms", 3, 40)
            time.sleep(0.3 if seconds < 1 else 0)
        same("whether there is a line", wanted, "atoms, 3 of 40 done" in stream.getvalue())
        same("it goes at the end", True, not wanted or stream.getvalue().endswith("\r" + " " * len("owlad_client: atoms, 3 of 40 done") + "\r"))
        same("lines", 0, stream.getvalue().count("\n"))


if __name__ == "__main__":
    sys.exit(client.main(*sys.argv[1:]))
