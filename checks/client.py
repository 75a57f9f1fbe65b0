"""Drives the built program with the client in clients/python: every request, and every refusal that can be reached; and with
bytes that no client should send. What is wanted is the protocol's text, or is worked out by plain.py. Called by client.sh.

usage: client.py PROGRAM [WORD]    with a word, only the checks whose name has it
"""

import io
import os
import random
import re
import subprocess
import sys
import tempfile
import time

import plain

HERE = os.path.dirname(os.path.abspath(__file__))
CLIENTS = os.path.join(HERE, "..", "clients", "python")
sys.path.insert(0, CLIENTS)

from owlad_client import Atom, Atoms, Broken, Client, Document, Edited, ProtocolError, Refused, Stat  # noqa: E402

# A run of the program that takes longer has failed.
SECONDS = 60

# How many sessions by chance are tried, and how many edits each has.
SESSIONS, EDITS = 60, 5

MOST_BYTES = 33_554_432

PROGRAM = None

CHECKS = []


def check(function):
    """Puts a function among the checks. It fails by an exception."""
    CHECKS.append(function)
    return function


def same(what, wanted, found):
    if wanted != found:
        raise AssertionError(f"{what}: {shown(wanted)} wanted, {shown(found)} found")


def shown(it):
    text = repr(it)
    return text if len(text) <= 400 else f"{text[:200]} .. {text[-180:]}"


def refused(code, words, call, *arguments, **options):
    """Checks that a call is refused, and returns the refusal."""
    line = " ".join(map(str, [f"NO {code}", *words]))
    try:
        found = call(*arguments, **options)
    except Refused as why:
        same("the line", line, why.line)
        same("the code and the words", (code, tuple(map(str, words))), (why.code, why.words))
        return why
    raise AssertionError(f"{line} wanted, {shown(found)} found")


def ran(given, output, status=0, note=""):
    """Checks a run of a session on bytes."""
    run = subprocess.run([PROGRAM, "script"], input=given, capture_output=True, timeout=SECONDS)
    what = f"on {shown(given)}"
    same(f"the output {what}", output, run.stdout)
    same(f"the status and the note {what}", (status, note.encode()), (run.returncode, run.stderr))


def client():
    return Client.start(PROGRAM)


def payload(words, text):
    """Returns a request with a payload."""
    return f"{words} {len(text)}\n".encode() + text


# Lines

NO_LINE = b"NO 10\n"

WITH_PAYLOAD = ("LOAD", "EDIT", "MODULE bottom", "MODULE top", "MODULE star", "GENUINE bottom", "GENUINE top", "GENUINE star")

WITH_NUMBER = (*WITH_PAYLOAD, "EDIT 0 IF", "ATOM bottom", "ATOM top", "ATOM star")

NO_NUMBERS = (
    "", " ", "+0", "-0", "-1", "+25", "00", "01", "007", "0000000000", "10000000000", "00000000000", "99999999999",
    "18446744073709551616", "99999999999999999999", "0x0", "1e1", "0.", "1,0", "\u0661", "a", "0a", "0 ", " 0", "0\t", "0 0", "0\r",
)  # fmt: skip

NO_REQUESTS = (
    b"", b" ", b"edit 0", b"Edit 0", b"EDIT", b"EDIT0", b" EDIT 0", b"EDIT\t0", b"EDIT  0", b"EDIT 0 IF", b"EDIT 0 IF ", b"EDIT 0 if 0",
    b"EDIT 0  IF 0", b"EDIT 0 IF  0", b"EDIT 0 IF 0 IF 0", b"EDIT IF 0", b"EDIT 0 0", b"LOAD 0 IF 0", b"MODULE bottom 0 IF 0",
    b"GENUINE star 0 IF 0", b"MODULE", b"MODULE 0", b"MODULE bottom", b"MODULE side 0", b"MODULE Bottom 0", b"MODULE bottom0",
    b"MODULE  bottom 0", b"MODULE bottom top 0", b"GENUINE", b"GENUINE 0", b"GENUINE bottom", b"GENUINE side 0", b"ATOMS", b"ATOMS side",
    b"ATOMS bottom ", b"ATOMS bottom 0", b"ATOMS  bottom", b"ATOM", b"ATOM bottom", b"ATOM 0", b"ATOM side 0", b"ATOM bottom 0 0",
    b"EXPORT ", b"EXPORT 0", b"EXPORTS", b"export", b"EXPORT\r", b"EXPORT\0", b"\0EXPORT", b"\xef\xbb\xbfEXPORT", b"STAT ", b"STAT 0",
    b"STAT\r", b"QUIT ", b"QUIT 0", b"QUIT\r", b"quit", b"\0", b"\xff\xfe", bytes(range(11, 256)), b"OK 0 12", b"NO 10", b"#", b"x" * 256,
)  # fmt: skip


@check
def lines_that_are_no_requests():
    given = b"".join(line + b"\nEXPORT\n" for line in NO_REQUESTS)
    ran(given, (NO_LINE + b"OK 0 12\nOntology(\n)\n") * len(NO_REQUESTS))


@check
def numbers_that_are_none():
    lines = [f"{words} {number}\n".encode() for words in WITH_NUMBER for number in NO_NUMBERS]
    ran(b"".join(lines) + b"EXPORT\n", NO_LINE * len(lines) + b"OK 0 12\nOntology(\n)\n")


@check
def lines_that_are_too_long():
    for byte in (b"x", b" ", b"\0", b"\xff"):
        ran(byte * 256 + b"\nQUIT\n", NO_LINE)
        ran(b"EXPORT\n" + byte * 257 + b"\nEXPORT\n", b"OK 0 12\nOntology(\n)\n", 3, "owlad: too long\n")
        ran(byte * 257, b"", 3, "owlad: too long\n")
    ran(b"x" * 256, b"", 3, "owlad: cut\n")


# Payloads


@check
def payloads_that_are_too_long():
    for words in WITH_PAYLOAD:
        for size in (33_554_433, 4_294_967_296, 9_999_999_999):
            ran(f"STOP\n{words} {size}\nEXPORT\n".encode(), NO_LINE, 3, "owlad: too long\n")
        ran(f"{words} {MOST_BYTES}\nEXPORT\n".encode(), b"", 3, "owlad: cut\n")
    ran(b"EDIT 33554433 IF 1\nEXPORT\n", b"", 3, "owlad: too long\n")


@check
def payloads_of_a_byte_more_or_less():
    axiom = b"+SubClassOf(<u:A> <u:B>)\n"
    ran(b"EDIT 26\n" + axiom, b"", 3, "owlad: cut\n")
    ran(b"EDIT 26\n" + axiom + b"EXPORT\n", b"NO 20 25\n" + NO_LINE)
    ran(b"EDIT 24\n" + axiom + b"STAT", b"OK 1 37\nadded 1 already 0 removed 0 absent 0\n" + NO_LINE, 3, "owlad: cut\n")
    ran(b"EDIT 23\n" + axiom, b"NO 20 23\n" + NO_LINE)
    ran(b"MODULE star 14\nClass(<u:A>)\nQUIT\n", b"NO 20 13\n" + NO_LINE)
    ran(b"MODULE star 11\nClass(<u:A>)\nQUIT\n", b"NO 20 11\n" + NO_LINE)
    ran(b"GENUINE top 22\nSubClassOf(<u:A> <u:B>)\n", b"NO 20 22\n" + NO_LINE)
    ran(b"LOAD 9\nOntology()\n", b"NO 20 9\n" + NO_LINE)
    ran(b"LOAD 12\nOntology()\nEXPORT\n", b"NO 20 11\n" + NO_LINE)


@check
def inputs_that_are_cut():
    whole = b"".join(payload(words, b"\n") for words in WITH_PAYLOAD) + b"EDIT 1 IF 1\n\nATOMS star\nATOM top 7\nSTAT\nEXPORT\n"
    behind, lines = {0}, whole.splitlines(keepends=True)
    for at, line in enumerate(lines):
        if line != b"\n" and lines[at + 1 : at + 2] != [b"\n"] or line == b"\n":
            behind.add(len(b"".join(lines[: at + 1])))
    for end in range(len(whole)):
        run = subprocess.run([PROGRAM, "script"], input=whole[:end], capture_output=True, timeout=SECONDS)
        wanted = (0, b"") if end in behind else (3, b"owlad: cut\n")
        same(f"the status and the note where byte {end} is the end", wanted, (run.returncode, run.stderr))


@check
def bytes_that_are_no_text():
    """The first byte that begins no character of UTF-8 is named, before any other fault."""
    for bad in (b"\xff", b"\x80", b"\xc0\x80", b"\xc3", b"\xe2\x82", b"\xed\xa0\x80", b"\xf4\x90\x80\x80", b"\xf8\x88\x80\x80\x80"):
        given = b""
        for words in WITH_PAYLOAD:
            given += payload(words, b"what(((\xc3\xa9" + bad + b" <u:A>)\n\xff")
        ran(given, b"NO 20 9\n" * len(WITH_PAYLOAD))


@check
def bytes_that_are_kept():
    """Any character but a few may stand in a name, and any in a literal."""
    name = bytes(it for it in range(1, 128) if it not in b'<>" \t\r\n') + "\u00e9\u2028\U0001f600\ufeff".encode() + b"\0"
    literal = bytes(range(128)).replace(b"\\", b"\\\\").replace(b'"', b'\\"') + "\u0085\U0010ffff".encode()
    axiom = b"AnnotationAssertion(<u:n> <" + name + b'> "' + literal + b'")'
    document = b"Ontology(\n" + axiom + b"\n)\n"
    reply = f"OK 1 37\nadded 1 already 0 removed 0 absent 0\nOK 1 {len(document)}\n".encode() + document
    ran(payload("EDIT", b"+" + axiom) + b"EXPORT\n", reply)
    ran(payload("LOAD", document) + b"EXPORT\n", reply)
    with client() as session:
        session.load(document)
        same("the axioms", (axiom.decode(),), session.export().axioms)


# Requests


@check
def every_request():
    with client() as session:
        same("STAT at first", Stat(0, 0, 0, 0, 12, 0, 0, 0, 0), session.stat())
        same("EXPORT at first", Document(0, (), "Ontology(\n)\n"), session.export())
        chain = ("SubClassOf(<u:A> <u:B>)", "SubClassOf(<u:B> <u:C>)")
        same("LOAD", Edited(1, 2, 0, 0, 0), session.load(f"Ontology({chain[0]} {chain[1]})"))
        same("EDIT", Edited(2, 1, 1, 1, 1), session.edit([chain[0], chain[1]], [chain[0], "SubClassOf(<u:X> <u:Y>)"]))
        text = f"Ontology(\n{chain[1]}\n{chain[0]}\n)\n"
        same("EXPORT", Document(2, chain[::-1], text), session.export())
        same("STAT", Stat(2, 2, 0, 3, 60, 0, 2, 2, 2), session.stat())
        same("MODULE", chain[1:], session.module("bottom", ["Class=u:B"]).axioms)
        same("MODULE of two", chain[::-1], session.module("top", ["Class=u:A", "Class=u:C"]).axioms)
        same("GENUINE", chain[:1], session.genuine("star", chain[0]).axioms)
        same("ATOMS bottom", Atoms(2, 0, (Atom(0, 1, ()), Atom(1, 1, (0,)))), session.atoms("bottom"))
        same("ATOMS top", Atoms(2, 0, (Atom(0, 1, (1,)), Atom(1, 1, ()))), session.atoms("top"))
        same("ATOM", chain[:1], session.atom("bottom", 1).axioms)
        same("EDIT of nothing", Edited(3, 0, 0, 0, 0), session.edit(expected=2))
        same("an empty seed", (), session.module("star", []).axioms)


@check
def edits_that_expect_an_edition():
    with client() as one:
        same("the first", Edited(1, 1, 0, 0, 0), one.edit(["SubClassOf(<u:A> <u:B>)"], expected=0))
        for expected in (0, 2, 4_294_967_295, 4_294_967_296, 9_999_999_999):
            why = refused(50, [1], one.edit, ["SubClassOf(<u:A> <u:B>)"], expected=expected)
            same("the edition", (1, Refused.MOVED), (why.edition, why.code))
        refused(20, [1], one.edit_payload, b"+a\n", expected=7)
        same("again", Edited(2, 0, 1, 0, 0), one.edit(["SubClassOf(<u:A> <u:B>)"], expected=1))


@check
def refusals_and_their_attributes():
    with client() as session:
        refused(10, [], session.ask, "HELLO")
        session.ask("STAT")
        same("a place", 4, refused(20, [4], session.edit_payload, b"    what").place)
        deep = "ObjectComplementOf(" * 128 + "<u:A>" + ")" * 128
        same("the nesting", 129, refused(21, [129], session.edit, [f"SubClassOf({deep} <u:B>)"]).nesting)
        same("an unknown prefix", 12, refused(22, [12], session.edit, ["SubClassOf(a:A <u:B>)"]).place)
        refused(22, [22], session.edit_payload, "Prefix(a:=<u:>)Prefix(a:=<u:>)")
        why = refused(23, [9, "Import"], session.load, "Ontology(Import(<u:o>))")
        same("an import", (9, "Import"), (why.place, why.part))
        why = refused(23, [0, "DLSafeRule"], session.genuine, "star", "DLSafeRule(Body() Head())")
        same("a rule", (0, "DLSafeRule"), (why.place, why.part))
        axiom = "SubClassOf(<u:A> DataSomeValuesFrom(<u:p> <u:q> <u:d>))"
        same("several", "n-ary", refused(23, [axiom.index("<u:d>") + 1, "n-ary"], session.edit, [axiom]).part)
        why = refused(41, [0, 0], session.atom, "bottom", 0)
        same("no atom", (0, 0), (why.edition, why.count))
        refused(22, [6], session.module, "top", b"Class(x:A)")
        same("no edit was done", Document(0, (), "Ontology(\n)\n"), session.export())


@check
def dialogues_of_the_reference():
    """The requests of docs/protocol.md, one behind another, get its replies."""
    with open(os.path.join(HERE, "..", "docs", "protocol.md"), encoding="utf-8") as file:
        blocks = re.findall(r"^```(request|reply)\n(.*?)^```$", file.read(), re.M | re.S)
    same("requests and replies by turns", ["request", "reply"] * (len(blocks) // 2), [kind for kind, _ in blocks])
    same("a dialogue for each request", True, len(blocks) >= 2 * 10)
    requests, replies = ("".join(text for kind, text in blocks if kind == which).encode() for which in ("request", "reply"))
    ran(requests + b"EXPORT\n", replies)


# Limits


@check
def limit_of_entities():
    with client() as session:
        many = lambda count: "EquivalentClasses(" + " ".join(f"<u:C{it}>" for it in range(count)) + ")"
        why = refused(30, [0, "entities", 65_537], session.edit, [many(65_537)])
        same("the limit", (0, "entities", 65_537), (why.edition, why.limit, why.count))
        same("as many as there may be", Edited(1, 1, 0, 0, 0), session.edit([many(65_536)]))
        same("how many there are", 65_536, session.stat().entities)
        refused(30, [1, "entities", 65_537], session.load, "Ontology(SubClassOf(<u:C0> <u:D>))")


@check
def limit_of_axioms():
    with client() as session:
        many = [f"SubClassOf(owl:Nothing <u:C{it}>)" for it in range(20_481)]
        refused(30, [0, "axioms", 20_481], session.load, f"Ontology({' '.join(many)})")
        same("as many as there may be", Edited(1, 20_480, 0, 0, 0), session.edit(many[1:]))
        same("counts", (20_480, 20_480, 0), session.stat()[1:2] + session.stat()[5:7])
        refused(30, [1, "axioms", 20_481], session.edit, many[:1])
        same("one for another", Edited(2, 1, 0, 1, 0), session.edit(many[:1], many[1:2]))
        same("all are in no atom", Atoms(2, 20_480, ()), session.atoms("star"))


def long_document(last):
    """Returns the payload of an edit whose names are long, and the document that it makes, with a last literal of this size."""
    name = "u:" + "x" * 16_000
    lines = [f'AnnotationAssertion(%sn> %s{it}> "")' for it in range(1_046)] + [f'AnnotationAssertion(%sn> %sl> "{"y" * last}")']
    short = f"Prefix(a:=<{name}>)" + "".join("+" + it.replace(">", "") % ("a:", "a:") + "\n" for it in lines)
    return short.encode(), "Ontology(\n" + "".join(it % (("<" + name,) * 2) + "\n" for it in lines) + ")\n"


@check
def limit_of_bytes():
    size = MOST_BYTES - len(long_document(0)[1])
    with client() as session:
        refused(30, [0, "bytes", MOST_BYTES + 1], session.edit_payload, long_document(size + 1)[0])
        text, document = long_document(size)
        same("as many as there may be", Edited(1, 1_047, 0, 0, 0), session.edit_payload(text))
        same("the document", True, session.export().text == document)
        why = refused(30, [1, "bytes", MOST_BYTES + 24], session.edit, ["SubClassOf(<u:A> <u:B>)"])
        same("the limit", (1, "bytes", MOST_BYTES + 24), (why.edition, why.limit, why.count))
        refused(30, [1, "axioms", 20_481], session.edit, [f"SubClassOf(<u:A{it}> <u:B>)" for it in range(20_481)])
        same("the same document is loaded", Edited(2, 0, 1_047, 0, 0), session.load(document))


# Chance


def edited(chance, ontology):
    """Returns an edit by chance, as the text of its payload, the counts, and the ontology behind it."""
    counts, behind, text = [0, 0, 0, 0], list(ontology), ""
    for _ in range(chance.random.randint(0, 20)):
        takes = chance.random.random() < 0.3
        axiom = chance.random.choice(behind) if behind and chance.random.random() < 0.4 else chance.axiom()
        there = axiom in behind
        counts[(2 if there else 3) if takes else (1 if there else 0)] += 1
        if takes and there:
            behind.remove(axiom)
        elif not takes and not there:
            behind.append(axiom)
        text += ("-" if takes else "+") + plain.text(axiom) + "\n"
    return text, counts, behind


def queried(chance, session, edition, ontology):
    """Checks the replies to queries on an edition."""
    same("EXPORT", (edition, plain.document(ontology).encode()), session.ask("EXPORT"))
    same("STAT", (edition, plain.counts(ontology).encode()), session.ask("STAT"))
    for kind in plain.KINDS:
        all_atoms = plain.Decomposition(kind, ontology)
        same(f"ATOMS {kind}", (edition, all_atoms.text().encode()), session.ask(f"ATOMS {kind}"))
        for number, atom in enumerate(all_atoms.atoms):
            found = session.atom(kind, number)
            same(f"ATOM {kind} {number}", (edition, plain.document(atom)), (found.edition, found.text))
        refused(41, [edition, len(all_atoms.atoms)], session.atom, kind, len(all_atoms.atoms))
        for axiom in [*plain.logical(ontology), plain.logical(iter(chance.axiom, None).__next__() for _ in range(40))[0]]:
            wanted = plain.module_document(kind, plain.signature(axiom), ontology)
            same(f"GENUINE {kind} {plain.text(axiom)}", (edition, wanted), session.genuine(kind, plain.text(axiom))[::2])
        for seed in [chance.seed() for _ in range(4)]:
            words = [f"{entity}={name}" for entity, name in seed]
            same(f"MODULE {kind} {words}", (edition, plain.module_document(kind, seed, ontology)), session.module(kind, words)[::2])


@check
def sessions_by_chance():
    """After each edit every query is answered as the definitions say."""
    for number in range(SESSIONS):
        chance = plain.Chance(random.Random(number), 4 + number % 8)
        ontology, edition = [], 0
        with Client.start(PROGRAM, 1 + number % 4) as session:
            for _ in range(EDITS):
                text, counts, ontology = edited(chance, ontology)
                edition += 1
                expected = edition - 1 if chance.random.random() < 0.5 else None
                same(f"session {number}, the edit\n{text}", Edited(edition, *counts), session.edit_payload(text, expected))
                queried(chance, session, edition, ontology)


def closed(atoms, number):
    """Returns an atom and all that it needs."""
    found, left = set(), [number]
    while left:
        at = left.pop()
        if at not in found:
            found.add(at)
            left += atoms.atoms[at].needs
    return found


def is_of_atoms(session, kind, document, atoms):
    """Checks that the logical axioms of a document are those of whole atoms with all that they need, and returns these."""
    axioms = {axiom for axiom in document.axioms if not axiom.startswith(CARRIED)}
    found = {number for number, atom in atoms.items() if atom <= axioms}
    same(f"the {kind} module as a union of atoms", axioms, set().union(*(atoms[number] for number in found)))
    return found


CARRIED = ("Declaration(", "AnnotationAssertion(", "SubAnnotationPropertyOf(", "AnnotationPropertyDomain(", "AnnotationPropertyRange(")


@check
def modules_of_an_example_are_whole_atoms():
    """The module for each axiom's names is a union of whole atoms, and for the first axiom of an atom the atom with all that
    it needs."""
    with open(os.path.join(HERE, "..", "examples", "pizza.ofn"), "rb") as file, client() as session:
        session.load(file.read())
        stat, axioms = session.stat(), [it for it in session.export().axioms if not it.startswith(CARRIED)]
        same("logical axioms", stat.axioms, len(axioms))
        for kind, count in (("bottom", stat.bottom), ("top", stat.top), ("star", stat.star)):
            listed = session.atoms(kind)
            atoms = {atom.number: set(session.atom(kind, atom.number).axioms) for atom in listed.atoms}
            same("how many atoms", (count, stat.tautologies), (len(atoms), listed.tautologies))
            same("their sizes", [atom.axioms for atom in listed.atoms], [len(atoms[it]) for it in range(count)])
            same("all axioms", len(axioms) - stat.tautologies, len(set().union(*atoms.values())))
            for axiom in axioms:
                found = is_of_atoms(session, kind, session.genuine(kind, axiom), atoms)
                own = [number for number, atom in atoms.items() if axiom in atom]
                same("below an axiom's atom", set().union(*(closed(listed, it) for it in own)) if own else found, found)


@check
def what_is_exported_is_loaded():
    """A session that loads what another exports answers the same but for the edition."""
    with client() as one, client() as other:
        with open(os.path.join(HERE, "..", "examples", "university.ofn"), "rb") as file:
            one.load(file.read())
        axioms = one.export().axioms
        for axiom in axioms[::3]:
            one.edit(removals=[axiom])
        one.edit(axioms[::-1])
        text = one.export().text
        same("all is added", len(axioms), other.load(text).added)
        same("the export", text, other.export().text)
        for words in ("STAT", "ATOMS bottom", "ATOMS top", "ATOMS star"):
            same(words, one.ask(words)[1], other.ask(words)[1])


# The client by itself


def over(replies):
    """Returns a client over a stream of replies."""
    return Client(io.BytesIO(replies), io.BytesIO())


def fails(exception, call, *arguments, **options):
    try:
        found = call(*arguments, **options)
    except exception:
        return
    raise AssertionError(f"{exception.__name__} wanted, {shown(found)} found")


@check
def replies_that_are_none():
    for replies in (b"", b"OK", b"OK 0 12", b"OK 0 12\nOntology(\n", b"NO 41 0"):
        session = over(replies)
        fails(Broken, session.export)
        fails(Broken, session.stat)
    for replies in (b"\n", b"HELLO\n", b"OK 0\n", b"OK 00 1\n", b"OK 0 12 \n", b"NO\n", b"NO 11\n", b"NO 20\n", b"NO 20 01\n", b"NO 10 1\n",
                    b"NO 23 1 Rule\n", b"NO 30 0 payload 1\n", b"\xff\n", b"x" * 300, b"OK 0 3\n(\n)", b"OK 0 2\n\xff\n"):  # fmt: skip
        session = over(replies)
        fails(ProtocolError, session.export)
        fails(Broken, session.stat)
    for body in (b"", b"atoms 1 tautologies 0\n", b"atoms 1 tautologies 0\natom 1 axioms 1\n", b"atoms 1 tautologies 0\natom 0 axioms 1 needs 1\n"):
        fails(ProtocolError, over(b"OK 0 %d\n" % len(body) + body).atoms, "star")


@check
def values_that_no_request_spells():
    session = over(b"")
    for call, arguments in (
        (session.module, ("side", [])), (session.module, ("star", ["u:A"])), (session.module, ("star", ["Thing=u:A"])),
        (session.module, ("star", ["Class=u:A>"])), (session.module, ("star", ["Class=u: A"])), (session.module, ("star", "Class=u:A")),
        (session.atoms, ("Bottom",)), (session.atom, ("star", -1)), (session.atom, ("star", 10**10)), (session.atom, ("star", True)),
        (session.edit, ((), (), -1)), (session.edit, ("SubClassOf(<u:A> <u:B>)",)), (session.load, (b" " * (MOST_BYTES + 1),)),
    ):  # fmt: skip
        fails(ValueError, call, *arguments)
    same("nothing was written", b"", session.sink.getvalue())
    same("the client can be used", True, session.in_step)


@check
def refusals_that_are_rare():
    for line, attributes in (("NO 90", {}), ("NO 91", {}), ("NO 30 4294967295 editions 4294967296", {"limit": "editions", "count": 4_294_967_296})):
        why = refused(int(line[3:5]), line.split()[2:], over(line.encode() + b"\n").edit, ["SubClassOf(<u:A> <u:B>)"])
        same("attributes", attributes, {name: vars(why)[name] for name in attributes})
        same("a meaning", True, why.meaning in str(why) and line in str(why))


@check
def ends_of_the_program():
    session = Client.start(PROGRAM, 17)
    fails(Broken, session.stat)
    same("the status and the note", (2, "owlad: usage"), (session.status, session.note))
    session = client()
    session.stat()
    session.quit()
    same("the status and the note", (0, ""), (session.status, session.note))
    fails(Broken, session.stat)
    try:
        with client() as session:
            raise KeyError("of the caller")
    except KeyError:
        same("the status", 0, session.status)


def command(*words):
    path = os.path.join(CLIENTS, "owlad_client.py")
    run = subprocess.run([sys.executable, "-B", path, "--program", PROGRAM, *words], capture_output=True, timeout=SECONDS)
    return run.returncode, run.stdout.decode(), run.stderr.decode()


@check
def the_client_as_a_command():
    with tempfile.TemporaryDirectory() as folder:
        good, bad = os.path.join(folder, "good.ofn"), os.path.join(folder, "bad.ofn")
        for path, text in ((good, "Ontology(SubClassOf(<u:A> <u:B>) SubClassOf(<u:B> <u:C>))"), (bad, "Ontology(Import(<u:o>))")):
            with open(path, "w", encoding="utf-8") as file:
                file.write(text)
        chain = "Ontology(\nSubClassOf(<u:A> <u:B>)\nSubClassOf(<u:B> <u:C>)\n)\n"
        same("export", (0, chain, ""), command("export", good))
        same("module", (0, chain.replace("SubClassOf(<u:A> <u:B>)\n", ""), ""), command("module", good, "bottom", "Class=u:B"))
        same("atoms", (0, "atoms 2 tautologies 0\natom 0 axioms 1\natom 1 axioms 1\n", ""), command("atoms", good, "star"))
        same("stat", (0, "axioms 2 carried 0 entities 3 bytes 60\ntautologies 0\natoms bottom 2 top 2 star 2\n", ""), command("stat", good))
        status, output, note = command("stat", bad)
        same("a refusal", (1, "", True, 1), (status, output, "NO 23 9 Import" in note, note.count("\n")))
        same("no file", (1, ""), command("stat", os.path.join(folder, "none.ofn"))[:2])


# Generated ontologies


def generated(size):
    """Returns the axioms of the generated ontology of this size."""
    axioms = [f"Declaration(Class(<u:C{number}>))" for number in range(size + 1)]
    for number in range(1, size + 1):
        axioms.append(f"SubClassOf(<u:C{number}> <u:C{number // 2}>)")
        if number % 10 == 0:
            axioms.append(f"EquivalentClasses(<u:C{number}> <u:D{number}>)")
        if number % 100 == 0:
            axioms.append(f"SubClassOf(<u:C{number}> <http://www.w3.org/2002/07/owl#Thing>)")
    return axioms


def printed(*words):
    """Returns what the program prints for these words, which reads nothing."""
    run = subprocess.run([PROGRAM, *words], stdin=subprocess.DEVNULL, capture_output=True, timeout=SECONDS)
    same(f"the status and the note of {words}", (0, b""), (run.returncode, run.stderr))
    return run.stdout.decode()


@check
def generated_documents():
    for size in (0, 1, 9, 10, 99, 100, 101, 1000, 10000):
        wanted = "".join(f"{line}\n" for line in ["Ontology(", *generated(size), ")"])
        same(f"of size {size}", wanted, printed("generate", str(size)))


@check
def summaries_of_generated_ontologies():
    for size in (0, 1, 10, 300):
        with client() as session:
            session.load(printed("generate", str(size)))
            found, lines = session.stat(), printed("summary", str(size)).splitlines()
            wanted = [f"axioms {found.axioms} carried {found.carried} entities {found.entities}", f"tautologies {found.tautologies}"]
            for kind in ("bottom", "top", "star"):
                atoms = session.atoms(kind).atoms
                wanted.append(f"{kind} atoms {len(atoms)} covers {sum(len(atom.needs) for atom in atoms)}")
            same(f"the summary of size {size}", wanted, lines)


# Running


def main(program, word=""):
    global PROGRAM
    PROGRAM, started, failed = os.path.abspath(program), time.monotonic(), 0
    chosen = [function for function in CHECKS if word in function.__name__]
    for function in chosen:
        try:
            function()
        except Exception as why:  # a check may fail in any way
            failed += 1
            print(f"FAILED {function.__name__}\n  {type(why).__name__}: {str(why)[:1200]}")
    print(f"client: {time.monotonic() - started:.1f} seconds")
    print(f"{len(chosen) - failed} passed, {failed} failed")
    return 1 if failed or not chosen else 0


if __name__ == "__main__":
    sys.exit(main(*sys.argv[1:]))
