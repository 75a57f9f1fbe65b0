"""A client of owlad's session protocol, with the standard library alone. Python 3.9 or later.

    from owlad_client import Client, Refused

    with Client.start("./owlad") as client:
        client.load(open("pizza.ofn", "rb").read())
        print(client.module("bottom", ["Class=http://example.org/pizzeria#Cheese"]).text)
        try:
            client.edit(additions=["SubClassOf(<u:A> <u:B>)"], expected=1)
        except Refused as why:
            if why.code == Refused.MOVED:
                print("edited meanwhile, now edition", why.edition)

docs/protocol.md has the bytes behind each call. A client asks one request at a time and belongs to one thread.

As a command it loads a file and asks one request of it:

    owlad_client.py [--program PATH] module FILE KIND SEED ..
    owlad_client.py [--program PATH] atoms FILE KIND
    owlad_client.py [--program PATH] stat FILE
    owlad_client.py [--program PATH] export FILE

or writes the parts of an ontology into a folder, a file each, with a page that shows them (made by owlad_page.py beside):

    owlad_client.py [--program PATH] split [--force] [FILE] KIND DIR

The status is 0; or 1 with a line on standard error, where owlad refuses or its replies break off; or 2 for words of no form.
"""

import argparse
import os
import re
import subprocess
import sys
import tempfile
import threading
import unicodedata
from typing import NamedTuple, Tuple

KINDS = ("bottom", "top", "star")

ENTITIES = ("Class", "Datatype", "ObjectProperty", "DataProperty", "AnnotationProperty", "NamedIndividual")

# A payload of more bytes ends the session, so a client doesn't send it.
MOST_BYTES = 33_554_432

# The greatest number that a request line can spell.
MOST_SPELLED = 9_999_999_999

# No reply's line is longer.
LINE_BYTES = 256

# How long a process may take to end once its input has ended, before it is killed.
SECONDS = 10

NUMBER = r"(0|[1-9][0-9]{0,9})"


class Edited(NamedTuple):
    """What an edit did: the edition that it made, and how many of its operations added an axiom, found it there already,
    took it out, or found it absent."""

    edition: int
    added: int
    already: int
    removed: int
    absent: int


class Document(NamedTuple):
    """A document of an edition: each axiom in full, in the ontology's order, and the whole text."""

    edition: int
    axioms: Tuple[str, ...]
    text: str


class Atom(NamedTuple):
    """An atom: its number, how many axioms it has, and the numbers of the atoms that it needs with none between."""

    number: int
    axioms: int
    needs: Tuple[int, ...]


class Atoms(NamedTuple):
    """The atoms of one kind, each at the place of its number, and how many axioms are in no atom."""

    edition: int
    tautologies: int
    atoms: Tuple[Atom, ...]


class Stat(NamedTuple):
    """The counts of an edition: logical axioms, carried ones, entities in the signatures of the logical ones, bytes of the
    document of all axioms, axioms that are in no atom, and the atoms of each kind."""

    edition: int
    axioms: int
    carried: int
    entities: int
    bytes: int
    tautologies: int
    bottom: int
    top: int
    star: int


class Part(NamedTuple):
    """A part of an ontology: how many logical axioms it has, and its document."""

    axioms: int
    text: str


class ProtocolError(Exception):
    """The program answered what isn't defined. The client can't be used any more."""


class Broken(ProtocolError):
    """The stream of replies ended before a whole reply, or requests can't be written any more."""


class Refused(Exception):
    """owlad refused a request, which then changed nothing.

    `code` is the number behind NO, `line` the whole line, and `words` are the words behind the code. Where the code has them:
    `place`, a byte of the payload, counted from 0; `nesting`, how deep the payload nests; `part`, the part of OWL that is
    left out; `edition`, the newest edition that the refusal speaks of; `limit`, the limit's name; `count`, what it would
    come to, or how many atoms there are. The others are None.
    """

    # The line is no request.
    LINE = 10
    # At `place` the payload isn't what was asked for.
    FORM = 20
    # The payload's parentheses nest `nesting` deep, more than 128.
    NESTING = 21
    # At `place` stands a name whose prefix isn't known, or a prefix that is declared twice.
    PREFIX = 22
    # At `place` begins a `part` of OWL that owlad leaves out.
    LEFT_OUT = 23
    # On `edition` the edit would pass the `limit`, which would come to `count`.
    LIMIT = 30
    # On `edition` there are `count` atoms, and the number is no lower.
    ATOM = 41
    # The edit expects another edition than `edition`, the newest. Read again, and edit what is there now.
    MOVED = 50
    # Memory is wanting for this request. Ask later, or ask for less.
    MEMORY = 90
    # The editions are shut for this session. Begin another one.
    SHUT = 91

    MEANINGS = {
        LINE: "the line is no request",
        FORM: "the text is no text of what is asked for, at byte {place}",
        NESTING: "the parentheses nest {nesting} deep",
        PREFIX: "the prefix at byte {place} is unknown, or declared twice",
        LEFT_OUT: "{part} at byte {place} is a part of OWL that owlad leaves out",
        LIMIT: "the limit of {limit} is passed on edition {edition}, with {count}",
        ATOM: "edition {edition} has {count} atoms",
        MOVED: "the newest edition is {edition}, and another one is expected",
        MEMORY: "memory is wanting",
        SHUT: "the editions are shut for this session",
    }

    # The words behind each code, as a pattern with the names of the attributes.
    FORMS = {
        LINE: "",
        FORM: " (?P<place>N)",
        NESTING: " (?P<nesting>N)",
        PREFIX: " (?P<place>N)",
        LEFT_OUT: " (?P<place>N) (?P<part>Import|DLSafeRule|n-ary)",
        LIMIT: " (?P<edition>N) (?P<limit>axioms|entities|bytes|editions) (?P<count>N)",
        ATOM: " (?P<edition>N) (?P<count>N)",
        MOVED: " (?P<edition>N)",
        MEMORY: "",
        SHUT: "",
    }

    def __init__(self, code, place, words, line):
        super().__init__(line)
        self.code, self.place, self.words, self.line = code, place, words, line
        self.nesting = self.part = self.edition = self.limit = self.count = None

    @property
    def meaning(self):
        """What the refusal means, in words."""
        return self.MEANINGS[self.code].format(**vars(self))

    def __str__(self):
        return f"{self.line}: {self.meaning}"

    @classmethod
    def of(cls, line):
        """Returns the refusal that a line of the program is, None if it is none."""
        for code, form in cls.FORMS.items():
            found = re.fullmatch(f"NO {code}" + form.replace("N)", NUMBER[1:]), line)
            if found:
                told = {name: int(text) if text.isdigit() else text for name, text in found.groupdict().items()}
                why = cls(code, told.get("place"), tuple(line.split(" ")[2:]), line)
                vars(why).update(told)
                return why
        return None


# Payloads


def as_bytes(text):
    """Returns a text's bytes, and bytes as they are."""
    return text.encode("utf-8") if isinstance(text, str) else bytes(text)


def kind_word(kind):
    if kind not in KINDS:
        raise ValueError(f"no kind of modules: {kind!r}")
    return kind


def spelled(number, name):
    """Returns a number as a request line spells it."""
    if isinstance(number, bool) or not isinstance(number, int) or not 0 <= number <= MOST_SPELLED:
        raise ValueError(f"no {name}: {number!r}")
    return str(number)


def entity(word):
    """Returns the text of the entity that a word `Class=IRI` names, as in the commands of the program."""
    kind, equals, iri = word.partition("=")
    if not equals or kind not in ENTITIES or re.search(r'[<>" \t\r\n]', iri):
        raise ValueError(f"no entity: {word!r}")
    return f"{kind}(<{iri}>)"


def seed_payload(seed):
    """Returns the payload of a seed: words `Class=IRI`, or bytes that are a payload already."""
    if isinstance(seed, (bytes, bytearray)):
        return bytes(seed)
    if isinstance(seed, str):
        raise ValueError("a seed is a list of words")
    return "".join(entity(word) + "\n" for word in seed).encode("utf-8")


def edit_lines(sign, axioms):
    if isinstance(axioms, (str, bytes)):
        raise ValueError("axioms are a list of texts")
    return b"".join(sign + as_bytes(axiom) + b"\n" for axiom in axioms)


# Bodies


def numbers(pattern, text):
    """Returns the numbers of a text of this form, N for each, None if it has another one."""
    found = re.fullmatch(pattern.replace("N", NUMBER), text)
    return [int(it) for it in found.groups()] if found else None


def axioms_of(text):
    """Returns the axioms of a document as owlad writes it. A literal may hold line feeds, which end no axiom."""
    if not text.startswith("Ontology(\n") or not text.endswith("\n)\n"):
        return None
    axioms, start, end = [], len("Ontology(\n"), len(text) - len(")\n")
    for found in re.compile(r'"[^"\\]*(?:\\.[^"\\]*)*"|\n', re.S).finditer(text, start, end):
        if found[0] == "\n":
            axioms.append(text[start : found.start()])
            start = found.end()
    return tuple(axioms) if start == end else None


def atom_of(number, line):
    """Returns the atom of this number from its line, None if it isn't one."""
    found = re.fullmatch(f"atom {number} axioms {NUMBER}(?: needs((?: {NUMBER})+))?", line)
    if not found:
        return None
    needs = tuple(int(it) for it in (found[2] or "").split())
    return Atom(number, int(found[1]), needs) if list(needs) == sorted(set(needs)) else None


def atoms_of(edition, text):
    """Returns the atoms that a text lists, None if it is no list of atoms."""
    first, *lines = text.split("\n")
    counts = numbers("atoms N tautologies N", first)
    if not counts or len(lines) != counts[0] + 1 or lines[-1] != "":
        return None
    atoms = tuple(atom_of(number, line) for number, line in enumerate(lines[:-1]))
    if any(atom is None or any(need >= counts[0] for need in atom.needs) for atom in atoms):
        return None
    return Atoms(edition, counts[1], atoms)


EDITED = "added N already N removed N absent N\n"

STAT = "axioms N carried N entities N bytes N\ntautologies N\natoms bottom N top N star N\n"

# How the axioms begin that aren't logical.
CARRIED = ("Declaration(", "AnnotationAssertion(", "SubAnnotationPropertyOf(", "AnnotationPropertyDomain(", "AnnotationPropertyRange(")


def close(stream):
    try:
        stream.close()
    except OSError:
        pass


class Client:
    """A session over a pair of binary streams: the replies are read from `source`, the requests written to `sink`."""

    def __init__(self, source, sink, process=None):
        self.source, self.sink, self.process = source, sink, process
        self.in_step, self.status, self.note = True, None, None

    @classmethod
    def start(cls, program, workers=1):
        """Returns a client of a process of its own, that this program runs as `script`."""
        return cls.run([program, "script", "--workers", str(workers)], subprocess.PIPE)

    @classmethod
    def run(cls, words, source):
        """Returns a client of a process of these words, whose input is `source`: a file, or a pipe that the client writes."""
        process = subprocess.Popen(words, stdin=source, stdout=subprocess.PIPE, stderr=subprocess.PIPE)
        return cls(process.stdout, process.stdin or source, process)

    def __enter__(self):
        return self

    def __exit__(self, kind, why, trace):
        if kind is None and self.in_step:
            self.quit()
        else:
            self.close()

    # Requests

    def load(self, document):
        """Adds the axioms of a document, a text or its bytes."""
        return self.edited("LOAD", as_bytes(document))

    def edit(self, additions=(), removals=(), expected=None):
        """Takes axioms out, then puts axioms at the end, each a text. Where `expected` is given, only on the edition of this
        number."""
        return self.edit_payload(edit_lines(b"-", removals) + edit_lines(b"+", additions), expected)

    def edit_payload(self, payload, expected=None):
        """Does the operations of a payload, in its order."""
        behind = "" if expected is None else " IF " + spelled(expected, "edition")
        return self.edited("EDIT", as_bytes(payload), behind)

    def module(self, kind, seed):
        """Returns the module of a kind for the entities of a seed, words `Class=IRI`."""
        return self.document("MODULE " + kind_word(kind), seed_payload(seed))

    def genuine(self, kind, axiom):
        """Returns the module of a kind for the signature of an axiom, a text. The ontology needn't have it."""
        return self.document("GENUINE " + kind_word(kind), as_bytes(axiom))

    def atoms(self, kind):
        """Returns the atoms of a kind."""
        return self.parsed("ATOMS " + kind_word(kind), None, atoms_of)

    def atom(self, kind, number):
        """Returns the axioms of an atom, by its number in the list of the same edition."""
        return self.document(f"ATOM {kind_word(kind)} {spelled(number, 'atom')}", None)

    def stat(self):
        """Returns the counts of the newest edition."""
        return self.parsed("STAT", None, lambda edition, text: (it := numbers(STAT, text)) and Stat(edition, *it))

    def export(self):
        """Returns all axioms."""
        return self.document("EXPORT", None)

    def quit(self):
        """Ends the session in good order, and the process of its own if it has one."""
        self.write(b"QUIT\n")
        close(self.sink)
        rest = b"" if self.process is None else self.source.read()
        self.close()
        if self.status not in (0, None):
            raise Broken(f"status {self.status} of the program, note {self.note!r}")
        if rest:
            raise ProtocolError(f"bytes behind the last reply: {rest[:80]!r}")

    def close(self):
        """Gives the session up, and ends the process of its own if it has one."""
        self.in_step = False
        close(self.sink)
        close(self.source)
        if self.process is not None:
            self.end()

    # Replies

    def edited(self, words, payload, behind=""):
        return self.parsed(words, payload, lambda edition, text: (it := numbers(EDITED, text)) and Edited(edition, *it), behind)

    def document(self, words, payload):
        def made(edition, text):
            axioms = axioms_of(text)
            return None if axioms is None else Document(edition, axioms, text)

        return self.parsed(words, payload, made)

    def parsed(self, words, payload, made, behind=""):
        """Asks a request, and returns what `made` makes of the reply's edition and text, which isn't None."""
        edition, body = self.ask(words, payload, behind)
        try:
            value = made(edition, body.decode("utf-8"))
        except UnicodeDecodeError:
            value = None
        if value is None:
            raise self.out_of_step(ProtocolError(f"no body of {words}: {body[:80]!r}"))
        return value

    def ask(self, words, payload=None, behind=""):
        """Asks the request of these words, with the payload if it has one and the words behind its size, and returns the
        edition and the body of the reply, in bytes.

        A program that doesn't know a request reads its payload as lines, so the client can't be used any more after that.
        """
        if payload is not None:
            if len(payload) > MOST_BYTES:
                raise ValueError(f"a payload of {len(payload)} bytes would end the session")
            words = f"{words} {len(payload)}{behind}"
        self.write(words.encode("ascii") + b"\n" + (payload or b""))
        line = self.read_line()
        found = numbers("OK N N", line)
        if found:
            return found[0], self.read_bytes(found[1])
        why = Refused.of(line)
        if why is None:
            raise self.out_of_step(ProtocolError(f"no reply: {line[:80]!r}"))
        raise self.out_of_step(why) if why.code == Refused.LINE and payload else why

    def write(self, request):
        if not self.in_step:
            raise Broken("the session has ended")
        try:
            self.sink.write(request)
            self.sink.flush()
        except (OSError, ValueError) as why:
            raise self.broken("requests can't be written") from why

    def read_line(self):
        try:
            line = self.source.readline(LINE_BYTES)
        except (OSError, ValueError) as why:
            raise self.broken("replies can't be read") from why
        if not line.endswith(b"\n") and len(line) < LINE_BYTES:
            raise self.broken("the replies end before a whole line")
        return line.decode("ascii", "backslashreplace").rstrip("\n")

    def read_bytes(self, size):
        pieces, left = [], size
        while left > 0:
            try:
                piece = self.source.read(left)
            except (OSError, ValueError) as why:
                raise self.broken("replies can't be read") from why
            if not piece:
                raise self.broken(f"a reply's last {left} bytes are missing")
            pieces.append(piece)
            left -= len(piece)
        return b"".join(pieces)

    def broken(self, what):
        """Returns the exception of a stream that broke off, with the status and the note of a process of its own."""
        self.close()
        return Broken(what if self.process is None else f"{what}: status {self.status} of the program, note {self.note!r}")

    def out_of_step(self, why):
        self.in_step = False
        return why

    def end(self):
        """Ends the process of its own, which has no input any more."""
        try:
            self.process.wait(SECONDS)
        except subprocess.TimeoutExpired:
            self.process.kill()
        if self.note is None:
            self.note = self.process.stderr.read().decode("utf-8", "backslashreplace").strip()
            self.process.stderr.close()
        self.status = self.process.wait()


# Parts


def split(program, kind, document):
    """Returns the parts of the ontology of a document, a text or its bytes: a list of `Part`, in the order of their atoms.

    A refused document is `Refused`, as by LOAD. `parts_of` hands on each part alone, where all of them take too much memory.
    """
    return list(parts_of(program, kind, document))


def parts_of(program, kind, document, told=lambda number, count: None):
    """Runs the program as `split`, and yields each part as soon as it is read. `told` is called with how many parts are read
    and how many there are."""
    words, payload = [program, "split", kind_word(kind)], as_bytes(document)
    if len(payload) > MOST_BYTES:
        raise ValueError(f"a document of {len(payload)} bytes would be refused")
    with tempfile.TemporaryFile() as given:
        given.write(payload)
        given.seek(0)
        run = Client.run(words, given)
        try:
            yield from read_parts(run, told)
        except Broken as why:
            raise refusal(run) or why
        finally:
            run.close()


def read_parts(run, told):
    """Yields the parts that a run writes, to its end."""
    count = read_numbers(run, "parts N")[0]
    for number in range(count):
        told(number, count)
        yield read_part(run, number)
    told(count, count)
    if run.source.read(1):
        raise ProtocolError("bytes behind the last part")
    run.close()
    if run.status not in (0, None):
        raise run.broken("the parts are no answer")


def read_part(run, number):
    axioms, size = read_numbers(run, f"part {number} axioms N bytes N")
    try:
        text = run.read_bytes(size).decode("utf-8")
    except UnicodeDecodeError as why:
        raise ProtocolError(f"part {number} is no text") from why
    found = axioms_of(text)
    if found is None or axioms == 0 or sum(not axiom.startswith(CARRIED) for axiom in found) != axioms:
        raise ProtocolError(f"part {number} is no document of {axioms} axioms: {text[:80]!r}")
    return Part(axioms, text)


def read_numbers(run, pattern):
    """Returns the numbers of the next line, which is of this form."""
    line = run.read_line()
    found = numbers(pattern, line)
    if found is None:
        raise ProtocolError(f"no line {pattern!r}: {line[:80]!r}")
    return found


def refusal(run):
    """Returns the refusal that the status and the note of a run that ended tell, None if they tell none."""
    if run.status == 6:
        return Refused.of(f"NO {Refused.MEMORY}")
    begin = "owlad: refused "
    return Refused.of("NO " + run.note[len(begin) :]) if run.status == 3 and run.note.startswith(begin) else None


# Names of parts

# An IRI, a literal, a parenthesis, or what else stands in canonical text.
TOKEN = re.compile(r'<[^>]*>|"[^"\\]*(?:\\.[^"\\]*)*"|[()]|[^\s()<>"]+', re.S)

# The forms of which every operand is a class, of which the first is one, and of which the one behind a property is one. (The
# number of a cardinality isn't counted, nor are annotations.)
ALL_CLASSES = {
    "SubClassOf", "EquivalentClasses", "DisjointClasses", "DisjointUnion", "ObjectIntersectionOf", "ObjectUnionOf", "ObjectComplementOf",
}  # fmt: skip

FIRST_CLASS = {"Class", "ClassAssertion", "HasKey"}

SECOND_CLASS = {
    "ObjectSomeValuesFrom", "ObjectAllValuesFrom", "ObjectMinCardinality", "ObjectMaxCardinality", "ObjectExactCardinality",
    "ObjectPropertyDomain", "ObjectPropertyRange", "DataPropertyDomain",
}  # fmt: skip

BUILT_IN = {"http://www.w3.org/2002/07/owl#Thing", "http://www.w3.org/2002/07/owl#Nothing"}

# What the files of no system may be called, whatever stands behind a dot.
DEVICES = {"con", "prn", "aux", "nul", *(f"{name}{digit}" for name in ("com", "lpt") for digit in range(10))}

# How long a name may be, without its ending: most systems take 255 bytes.
NAME_LENGTH, NAME_BYTES = 80, 240


def is_class_at(head, place):
    return head in ALL_CLASSES or place == 0 and head in FIRST_CLASS or place == 1 and head in SECOND_CLASS


def first_class(text):
    """Returns the IRI of the first class in a text of owlad, but for those that are built in, and None if there is none."""
    frames, word = [["", 0]], ""
    for token in (found[0] for found in TOKEN.finditer(text)):
        if token == "(":
            frames.append([word, 0])
        elif token == ")":
            head, _ = frames.pop()
            frames[-1][1] += head != "Annotation"
        elif token[0] == "<":
            if is_class_at(*frames[-1]) and token[1:-1] not in BUILT_IN:
                return token[1:-1]
            frames[-1][1] += 1
        word = token if token[0] not in '()<"' else ""
    return None


def local_name(iri):
    """Returns what stands behind the last # or / of an IRI."""
    return re.split("[#/]", iri)[-1]


def safe_name(text):
    """Returns a name for a file that all systems take, made of a text; it is empty if nothing of the text is left."""
    kept = "".join(it if unicodedata.category(it)[0] in "LMN" or it in "-._" else "_" for it in unicodedata.normalize("NFC", text))
    name = shortened(kept.strip("_").lstrip("-."), "")
    return "_" + name[: NAME_LENGTH - 1] if folded(name).split(".")[0] in DEVICES else name


def shortened(name, ending):
    """Returns the longest front of a name that may stand before this ending, with the ending."""
    name = name[: NAME_LENGTH - len(ending)]
    while len((name + ending).encode("utf-8")) > NAME_BYTES:
        name = name[:-1]
    return name.rstrip(".") + ending


def folded(name):
    """Returns what two names have in common that some system takes for the same."""
    return unicodedata.normalize("NFKC", unicodedata.normalize("NFKC", name).casefold())


class Names:
    """Names for files, each given once: `-2`, `-3` and so on stand behind those that were there before."""

    def __init__(self):
        self.given, self.last = set(), {}

    def unique(self, name):
        number, found = self.last.get(folded(name), 0), name
        while number == 0 or folded(found) in self.given:
            number += 1
            found = name if number == 1 else shortened(name, f"-{number}")
        self.last[folded(name)] = number
        self.given.add(folded(found))
        return found

    def of_part(self, number, text):
        """Returns the name for the part of this number and text."""
        return self.unique(safe_name(local_name(first_class(text) or "")) or f"part-{number}")


# The folder of parts


class Progress:
    """A line on standard error, where that is a terminal, that tells how far long work is. It comes after a second, is written
    anew each second, and goes at the end."""

    def __init__(self, stream=None, seconds=1):
        self.stream, self.seconds = sys.stderr if stream is None else stream, seconds
        self.line, self.width, self.over = "", 0, threading.Event()
        self.thread = threading.Thread(target=self.run, daemon=True) if self.stream.isatty() else None

    def __enter__(self):
        if self.thread:
            self.thread.start()
        return self

    def __exit__(self, *_):
        if self.thread:
            self.over.set()
            self.thread.join()

    def at(self, what, done, count):
        self.line = f"owlad_client: {what}, {done} of {count} done"

    def run(self):
        while not self.over.wait(self.seconds):
            self.show(self.line)
        if self.width:
            self.show("")
            self.stream.write("\r")
            self.stream.flush()

    def show(self, line):
        self.stream.write("\r" + line.ljust(self.width))
        self.stream.flush()
        self.width = len(line)


def usable(folder, force):
    """Makes a folder if it isn't there. One that has files already is refused, unless by force."""
    os.makedirs(folder, exist_ok=True)
    if not force and os.listdir(folder):
        raise FileExistsError(f"{folder} has files already: name another folder, or write over them with --force")


def write_parts(words, document, progress):
    """Writes a file for each part, and returns of each its file's name, how many axioms it has, and its bytes."""
    rows, names = [], Names()
    for part in parts_of(words.program, words.kind, document, lambda *counts: progress.at("parts", *counts)):
        body, name = part.text.encode("utf-8"), names.of_part(len(rows), part.text) + ".ofn"
        with open(os.path.join(words.folder, name), "wb") as file:
            file.write(body)
        rows.append((name, part.axioms, len(body)))
    return rows


def all_atoms(words, document, progress):
    """Returns the atoms of a kind, and the axioms of each."""
    with Client.start(words.program) as client:
        client.load(document)
        atoms, axioms = client.atoms(words.kind).atoms, []
        for atom in atoms:
            progress.at("atoms", atom.number, len(atoms))
            axioms.append(client.atom(words.kind, atom.number).axioms)
    if [atom.axioms for atom in atoms] != [len(it) for it in axioms]:
        raise ProtocolError("the atoms aren't of the sizes that are told")
    return atoms, axioms


def split_into(words, document):
    """Writes the parts of a document into the folder of the words, and behind them the page that shows them."""
    import owlad_page

    usable(words.folder, words.force)
    with Progress() as progress:
        progress.line = "owlad_client: waiting for the parts"
        rows = write_parts(words, document, progress)
        atoms, axioms = all_atoms(words, document, progress)
        names = [local_name(first_class(it[0]) or "") for it in axioms]
        page = owlad_page.page(words.kind, rows, [owlad_page.Drawn(*it) for it in zip(names, (it.needs for it in atoms), axioms)])
        with open(os.path.join(words.folder, "index.html"), "w", encoding="utf-8", newline="\n") as file:
            file.write(page)


# The command


def words_of(arguments):
    """Returns the words of the command."""
    parser = argparse.ArgumentParser(description="Loads a file into a session of owlad, and asks one request of it.")
    parser.add_argument("--program", default="owlad", help="the program, by default owlad on the path")
    asks = parser.add_subparsers(dest="request", required=True, metavar="REQUEST")
    requests = {"module": "the module of a kind for a seed", "atoms": "the atoms of a kind", "stat": "counts", "export": "all axioms"}
    for name, what in requests.items():
        ask = asks.add_parser(name, help=what)
        ask.add_argument("--program", default=argparse.SUPPRESS, help=argparse.SUPPRESS)
        ask.add_argument("file", help="a document in functional-style syntax")
        if name in ("module", "atoms"):
            ask.add_argument("kind", choices=KINDS)
        if name == "module":
            ask.add_argument("seed", nargs="*", help="an entity, as Class=IRI")
    ask = asks.add_parser("split", help="the parts of a kind, and a page that shows them, into a folder")
    ask.add_argument("--program", default=argparse.SUPPRESS, help=argparse.SUPPRESS)
    ask.add_argument("--force", action="store_true", help="write into a folder that has files already")
    ask.add_argument("file", nargs="?", help="a document in functional-style syntax, by default standard input")
    ask.add_argument("kind", choices=KINDS)
    ask.add_argument("folder", metavar="DIR", help="the folder, made if it isn't there")
    return parser.parse_args(arguments)


def asked(client, words):
    """Returns the body of the reply to the request of the words."""
    if words.request == "module":
        return client.ask("MODULE " + words.kind, seed_payload(words.seed))[1]
    return client.ask("ATOMS " + words.kind if words.request == "atoms" else words.request.upper())[1]


def read_document(path):
    """Returns the bytes of a file, or of standard input where there is no path."""
    if path is None:
        return sys.stdin.buffer.read()
    with open(path, "rb") as file:
        return file.read()


def main(arguments):
    words = words_of(arguments)
    try:
        text = read_document(words.file)
        if words.request == "split":
            split_into(words, text)
            return 0
        with Client.start(words.program) as client:
            client.load(text)
            body = asked(client, words)
    except (Refused, ProtocolError, ValueError, OSError) as why:
        print(f"owlad_client: {why}", file=sys.stderr)
        return 1
    sys.stdout.buffer.write(body)
    return 0


if __name__ == "__main__":
    sys.exit(main(sys.argv[1:]))
