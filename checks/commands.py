"""Puts the cases of the folder cases to the built program: words and input, and the output, the status and the note that
they must give. Called by commands.sh.

usage: commands.py PROGRAM [WORD]    with a word, only the cases whose place or name has it

Both kinds of files are lists of lines. A line that begins with two blanks is data, one that begins with # a comment, and
any other one says what follows. In data, words and notes a pair of braces stands for bytes:

  {EF BB BF}                these bytes, in hexadecimal; {7B} is a left brace, and {} is no byte
  {127 times (}             a text so many times
  {3 numbered <u:C%>}       the same, with the numbers 0, 1, 2 for %
  {size of NAME}            how many bytes the payload of this name has
  {payload NAME}            the payload

A file NAME.cases has one case behind another, and payloads that they name:

  case A NAME               begins a case
  words module bottom       the words behind the program's name, none if left out
  input                     the lines of standard input, none if left out
  output                    the lines of standard output, none if left out
  status 0                  the exit status, 0 if left out
  note owlad: usage         the one line on standard error, none if left out
  reads /                   what is opened as standard input in place of the lines
  writes /dev/full          what is opened as standard output
  notes /dev/full           what is opened as standard error
  fronts 33:45 63:89        each front of the input is a case of its own: for each item of a session, the byte behind it and how
                            many bytes the replies up to its own have. Elsewhere the input is cut
  payload NAME              begins a payload, whose lines follow; they are put one behind another with no line feed

The line feed of a line of input or output is left out where the line ends with {}.

A file NAME.table has tables. A line 'table SHAPE' begins one; each row is a line of data with ' | ' between two cells. The
shapes are the functions of Tables below, which say what their cells are.
"""

import concurrent.futures
import difflib
import os
import re
import subprocess
import sys
import time

FOLDER = os.path.join(os.path.dirname(os.path.abspath(__file__)), "cases")

# A run that takes longer has failed.
SECONDS = 60

# How many lines of each side of a difference are shown.
SHOWN = 20

EMPTY = b"Ontology(\n)\n"

ADDED = b"OK 1 37\nadded 1 already 0 removed 0 absent 0\n"

STANDARD = {
    b"owl": b"http://www.w3.org/2002/07/owl#",
    b"rdf": b"http://www.w3.org/1999/02/22-rdf-syntax-ns#",
    b"rdfs": b"http://www.w3.org/2000/01/rdf-schema#",
    b"xsd": b"http://www.w3.org/2001/XMLSchema#",
}


class Mistake(Exception):
    """A file of cases can't be read."""


class Case:
    """One run of the program. The output and the note are bytes, or a pattern that the whole of them must match."""

    def __init__(self, place, name, words=()):
        self.place, self.name, self.words = place, name, list(words)
        self.input, self.output, self.status, self.note = b"", b"", 0, b""
        self.reads = self.writes = self.notes = self.fronts = None

    def split(self):
        """Returns this case, or those of the fronts of its input."""
        if self.fronts is None:
            return [self]
        items = [tuple(map(int, it.split(":"))) for it in self.fronts.split(" ")]
        return [self.front(items, end) for end in range(len(self.input) + 1)]

    def front(self, items, end):
        case = Case(self.place, f"{self.name}, byte {end}", self.words)
        case.input = self.input[:end]
        case.output = self.output[: max([0, *(size for behind, size in items if behind <= end)])]
        if end != 0 and end not in [behind for behind, _ in items]:
            case.status, case.note = 3, b"owlad: cut\n"
        return case


# Reading


def bytes_of(inside, payloads):
    """Returns what stands for the inside of a pair of braces."""
    if re.fullmatch(r"([0-9A-F]{2}( [0-9A-F]{2})*)?", inside):
        return bytes.fromhex(inside)
    found = re.fullmatch(r"(\d+) times (.*)", inside, re.S)
    if found:
        return found[2].encode() * int(found[1])
    found = re.fullmatch(r"(\d+) numbered (.*)", inside, re.S)
    if found:
        return b"".join(found[2].replace("%", str(number)).encode() for number in range(int(found[1])))
    found = re.fullmatch(r"(size of|payload) (.*)", inside)
    if found and found[2] in payloads:
        payload = payloads[found[2]]
        return payload if found[1] == "payload" else str(len(payload)).encode()
    raise Mistake(f"no such braces: {{{inside}}}")


def decoded(text, payloads={}):
    """Returns the bytes of a text with braces."""
    out = b""
    for plain, inside in re.findall(r"([^{]+)|\{([^}]*)\}", text):
        out += plain.encode() if plain else bytes_of(inside, payloads)
    if text.count("{") != len(re.findall(r"\{[^}]*\}", text)):
        raise Mistake("a brace without its other one")
    return out


def lines_of(path):
    """Returns the numbers and texts of a file's lines but for comments and empty ones."""
    with open(path, encoding="utf-8", newline="\n") as file:
        lines = [(number, line.rstrip("\n")) for number, line in enumerate(file, 1)]
    return [(number, line) for number, line in lines if line.strip() and not line.startswith("#")]


def ended(line, payloads):
    """Returns a line of input or output with its line feed."""
    return decoded(line, payloads) + (b"" if line.endswith("{}") else b"\n")


def set_line(case, key, value, payloads):
    """Sets what a line of a case says."""
    if key == "words":
        case.words = [decoded(word, payloads) for word in value.split(" ")] if value else []
    elif key == "status":
        case.status = int(value)
    elif key == "note":
        case.note = decoded(value, payloads) + b"\n"
    elif key in ("reads", "writes", "notes", "fronts"):
        setattr(case, key, value)
    elif key not in ("input", "output"):
        raise Mistake(f"no such line: {key}")


def read_cases(path):
    """Returns the cases of a file."""
    cases, payloads, case, part = [], {}, None, None
    for number, line in lines_of(path):
        place = f"{os.path.basename(path)}:{number}"
        try:
            if line.startswith("  "):
                if part in ("input", "output"):
                    setattr(case, part, getattr(case, part) + ended(line[2:], payloads))
                elif part in payloads:
                    payloads[part] += decoded(line[2:], payloads)
                else:
                    raise Mistake("data of nothing")
                continue
            key, _, value = line.partition(" ")
            part = key
            if key == "case":
                case = Case(place, value)
                cases.append(case)
            elif key == "payload":
                payloads[value], part = b"", value
            else:
                set_line(case, key, value, payloads)
        except Mistake as why:
            raise Mistake(f"{place}: {why}") from why
    return [each for case in cases for each in case.split()]


def read_table(path):
    """Returns the cases of the rows of a file's tables."""
    cases, tables = [], Tables()
    for number, line in lines_of(path):
        place = f"{os.path.basename(path)}:{number}"
        try:
            if line.startswith("  "):
                cells = [decoded(cell.strip()) for cell in line.split(" | ")]
                cases += tables.shape(place, line.strip(), *cells)
            elif line.startswith("table "):
                tables.begin(line[len("table ") :])
            elif line.startswith("all "):
                tables.all = line.encode().split(b" ")[1:]
            else:
                raise Mistake("neither a table nor a row")
        except (Mistake, TypeError) as why:
            raise Mistake(f"{place}: {why}") from why
    return cases


# Tables


def full(text):
    """Returns an axiom's text with the standard prefixes put in."""
    pattern = rb'(<[^>]*>|"(?:\\.|[^"\\])*")|\b(owl|rdf|rdfs|xsd):(\w*)'
    return re.sub(pattern, lambda it: it[1] or b"<" + STANDARD[it[2]] + it[3] + b">", text)


def document(axioms):
    """Returns the document of these axioms, each in canonical text."""
    return b"Ontology(\n" + b"".join(axiom + b"\n" for axiom in axioms) + b")\n"


def request(line, payload):
    """Returns a request with its payload."""
    return line + b" " + str(len(payload)).encode() + b"\n" + payload


def module(place, name, side, seed, axioms, are_in):
    """Returns the case that from an ontology of these axioms just some are in a module."""
    case = Case(place, f"{name}, {side.decode()}, {b' '.join(seed).decode()}", [b"module", side, *seed])
    case.input = b"Ontology(" + b" ".join(axioms) + b")"
    case.output = document(full(axiom) for axiom, is_in in zip(axioms, are_in) if is_in)
    return case


def refusal(place, name, words, given, output=b"", status=0, note=b""):
    case = Case(place, name, words)
    case.input, case.output, case.status, case.note = given, output, status, note
    return case


LOCAL = {b"both": b"BT", b"bottom": b"B", b"top": b"T", b"neither": b""}

# Whether an expression below a seen class is local, and whether it is above it.
SURE = {b"empty": (True, False), b"everything": (False, True), b"neither": (False, False), b"both": (True, True)}

SIDES = ((b"bottom", b"B"), (b"top", b"T"))


class Tables:
    """The shapes of tables. Each takes the place, the name and the cells of a row, and returns its cases."""

    def __init__(self):
        self.shape, self.all = None, []

    def begin(self, name):
        self.shape, self.all = getattr(self, name.replace(" ", "_"), None), []
        if self.shape is None:
            raise Mistake("no such shape")

    def local(self, place, name, axiom, none, every):
        """An axiom; the sides on which it is local for no names; the same where all names are seen, those of the line
        'all'. An axiom alone is local exactly where it isn't in its module."""
        return self.local_for(place, name, axiom, b"", none) + self.local_for(place, name, axiom, b" ".join(self.all), every)

    def local_for(self, place, name, axiom, seen, sides):
        """An axiom, the seen names as words of a command, and the sides on which it is local for them."""
        where = LOCAL[sides]
        return [module(place, name, side, seen.split(), [axiom], [letter not in where]) for side, letter in SIDES]

    def sure(self, place, name, expression, bottom, top, every):
        """A class expression; what is sure of it on side bottom and on side top for no names; and on both where all are
        seen. Where a class is seen, the expression below it is local where it is surely empty, and the expression above
        it where it is surely everything."""
        seen = b" ".join(self.all)
        return self.sure_for(place, name, expression, b"", bottom, top) + self.sure_for(place, name, expression, seen, every, every)

    def sure_for(self, place, name, expression, seen, bottom, top):
        """A class expression, the seen names, and what is sure of it on side bottom and on side top."""
        cases, seed = [], [b"Class=u:X", *seen.split()]
        for side, sure in ((b"bottom", SURE[bottom]), (b"top", SURE[top])):
            below, above = b"SubClassOf(" + expression + b" <u:X>)", b"SubClassOf(<u:X> " + expression + b")"
            for axiom, is_local in zip((below, above), sure):
                cases.append(module(place, name, side, seed, [axiom], [not is_local]))
        return cases

    def modules(self, place, name, axioms, seed, bottom, top):
        """Axioms with ' ; ' between them, a seed, and for each axiom 1 where it is in the module of the side and else 0."""
        axioms = axioms.split(b" ; ")
        return [
            module(place, name, side, seed.split(), axioms, [mark == ord("1") for mark in marks])
            for side, marks in ((b"bottom", bottom), (b"top", top))
        ]

    def kept(self, place, name, axiom):
        """An axiom in canonical text: added, it is exported as it is."""
        return self.written(place, name, b"+" + axiom, axiom)

    def written(self, place, name, payload, axiom):
        """The payload of an edit that adds one axiom, and the canonical text that this is exported as."""
        whole = document([axiom])
        case = Case(place, name, [b"script"])
        case.input = request(b"EDIT", payload) + b"EXPORT\n"
        case.output = ADDED + b"OK 1 " + str(len(whole)).encode() + b"\n" + whole
        return [case]

    def edit(self, place, name, payload, reply):
        """The payload of an edit, and the line that refuses it. The ontology stays empty."""
        case = Case(place, name, [b"script"])
        case.input = request(b"EDIT", payload) + b"EXPORT\n"
        case.output = reply + b"\nOK 0 12\n" + EMPTY
        return [case]

    def seed(self, place, name, payload, reply):
        """The payload of a query for a module, and the line that refuses it."""
        return [refusal(place, name, [b"script"], request(b"MODULE bottom", payload), reply + b"\n")]

    def document(self, place, name, text, cause):
        """A document, and the cause for which it is refused, on both sides."""
        note = b"owlad: refused " + cause + b"\n"
        return [refusal(place, name, [b"module", side], text, status=3, note=note) for side, _ in SIDES]

    def needed_in_edit(self, place, name, payload):
        """The payload of an edit of one addition as its tokens, with one blank between two: it is accepted, and without any
        one token it is refused for its form."""
        tokens = payload.split(b" ")
        case = Case(place, name, [b"script"])
        for at in range(len(tokens)):
            case.input += request(b"EDIT", b" ".join(tokens[:at] + tokens[at + 1 :]))
        case.input += request(b"EDIT", payload)
        case.output = re.compile(rb"(NO 20 \d+\n){%d}" % len(tokens) + re.escape(ADDED))
        return [case]

    def needed_in_document(self, place, name, text):
        """The same of a document, of which nothing is in the module for no names."""
        tokens = text.split(b" ")
        cases = [refusal(place, name, [b"module", b"bottom"], text, EMPTY)]
        for at in range(len(tokens)):
            case = Case(place, f"{name}, without token {at}", [b"module", b"bottom"])
            case.input, case.status = b" ".join(tokens[:at] + tokens[at + 1 :]), 3
            case.note = re.compile(rb"owlad: refused 20 \d+\n")
            cases.append(case)
        return cases


# Running


def is_as(wanted, found):
    return wanted.fullmatch(found) is not None if isinstance(wanted, re.Pattern) else wanted == found


def shown(text):
    """Returns a text's lines as they are shown."""
    lines = text.decode("utf-8", "backslashreplace").splitlines(keepends=True)
    return [line[:-1] if line.endswith("\n") else line + "  (no line feed)" for line in lines]


def difference(what, wanted, found):
    """Returns how the bytes differ, in lines: a few before the first that differs, and some from there on."""
    left, right = shown(wanted.pattern if isinstance(wanted, re.Pattern) else wanted), shown(found)
    same = next((at for at, (one, other) in enumerate(zip(left, right)) if one != other), min(len(left), len(right)))
    left, right = (lines[max(same - 3, 0) :][:SHOWN] for lines in (left, right))
    lines = [line for line in difflib.ndiff(left, right) if not line.startswith("?")]
    return [f"  {what} from line {max(same - 3, 0) + 1}, - wanted and + found:", *(f"    {line[:200]}" for line in lines)]


def opened(path, mode, otherwise):
    return otherwise if path is None else open(path, mode)


def opened_for_reading(path):
    return subprocess.PIPE if path is None else os.open(path, os.O_RDONLY)


def tried(program, case):
    """Runs a case, and returns the lines that say why it failed, none if it passed."""
    ins = opened_for_reading(case.reads)
    outs, errs = (opened(path, "wb", subprocess.PIPE) for path in (case.writes, case.notes))
    given = case.input if case.reads is None else None
    run = subprocess.Popen([program, *case.words], stdin=ins, stdout=outs, stderr=errs)
    try:
        output, note = run.communicate(given, timeout=SECONDS)
    except subprocess.TimeoutExpired:
        run.kill()
        run.communicate()
        return [f"  not done after {SECONDS} seconds"]
    finally:
        if case.reads is not None:
            os.close(ins)
        for file in (outs, errs):
            if file is not subprocess.PIPE:
                file.close()
    output, note, lines = output or b"", note or b"", []
    if run.returncode != case.status:
        lines.append(f"  status: {case.status} wanted, {run.returncode} found")
    for what, wanted, found in (("output", case.output, output), ("note", case.note, note)):
        if not is_as(wanted, found):
            lines += difference(what, wanted, found)
    return lines


def read_all():
    """Returns the cases of all files."""
    cases = []
    for name in sorted(os.listdir(FOLDER)):
        path = os.path.join(FOLDER, name)
        if name.endswith(".cases"):
            cases += read_cases(path)
        elif name.endswith(".table"):
            cases += read_table(path)
        else:
            raise Mistake(f"{name}: neither cases nor tables")
    return cases


def main(program, word=""):
    started = time.monotonic()
    try:
        cases = [case for case in read_all() if word in f"{case.place} {case.name}"]
    except (Mistake, OSError) as why:
        print(f"commands: {why}")
        return 1
    if not cases:
        print(f"commands: no case has {word} in its place or name")
    failed = 0
    with concurrent.futures.ThreadPoolExecutor(os.cpu_count() or 1) as pool:
        for case, lines in zip(cases, pool.map(lambda it: tried(program, it), cases)):
            if lines:
                failed += 1
                print("\n".join([f"FAILED {case.place} {case.name[:150]}", *lines]))
    print(f"commands: {time.monotonic() - started:.1f} seconds")
    print(f"commands: {len(cases) - failed} cases passed, {failed} cases failed")
    return 1 if failed or not cases else 0


if __name__ == "__main__":
    sys.exit(main(*sys.argv[1:]))
