"""The page that `owlad_client.py split` writes beside the parts of an ontology: a list of the files, and the atoms as a graph.

The page is one file that loads nothing. The list and the graph are there without JavaScript; sorting, marking and searching
need it. Every text of the ontology is escaped, and no script but the page's own can run in it.
"""

import base64
import hashlib
import json
import math
from html import escape
from typing import NamedTuple, Tuple
from urllib.parse import quote

# How many atoms are drawn at most.
MOST_DRAWN = 300

# How many atoms stand in a row of the graph at most. A layer of more has several rows.
ROW = 16

# The radius of the smallest circle and of the largest, the height of a row, the room above a layer and left of all.
SMALLEST, LARGEST, HEIGHT, ABOVE, LEFT = 6, 24, 84, 30, 80


class Drawn(NamedTuple):
    """An atom: the name of its first class or nothing, the numbers of the atoms that it covers, and its axioms."""

    name: str
    needs: Tuple[int, ...]
    axioms: Tuple[str, ...]


# Layers


def layers(atoms):
    """Returns the layer of each atom: one above the highest that it covers, and 0 where it covers none."""
    found, above, missing = [0] * len(atoms), [[] for _ in atoms], [len(atom.needs) for atom in atoms]
    for number, atom in enumerate(atoms):
        for need in atom.needs:
            above[need].append(number)
    ready = [number for number, count in enumerate(missing) if count == 0]
    for number in ready:
        for other in above[number]:
            found[other] = max(found[other], found[number] + 1)
            missing[other] -= 1
            if missing[other] == 0:
                ready.append(other)
    if len(ready) != len(atoms):
        raise ValueError("atoms that need each other")
    return found


def largest(atoms):
    """Returns the numbers of the atoms that are drawn, rising: the largest, of equal ones the first."""
    return sorted(sorted(range(len(atoms)), key=lambda number: (-len(atoms[number].axioms), number))[:MOST_DRAWN])


def rows_of(atoms, chosen):
    """Returns the rows of the graph from the lowest layer on, each its layer and its atoms in order. Within a layer atoms stand
    by where the atoms that they cover stand."""
    layer_of, places, rows = layers(atoms), {}, []
    for layer in sorted({layer_of[number] for number in chosen}):

        def wanted(number):
            below = [places[need] for need in atoms[number].needs if need in places]
            return sum(below) / len(below) if below else 0.5

        members = sorted((number for number in chosen if layer_of[number] == layer), key=lambda number: (wanted(number), number))
        for start in range(0, len(members), ROW):
            row = members[start : start + ROW]
            rows.append((layer, row))
            places.update((number, (place + 1) / (len(row) + 1)) for place, number in enumerate(row))
    return rows


# The graph


def shown(text):
    """Returns a text as it stands in HTML. Characters that HTML can't hold are shown as such."""
    return escape("".join("\ufffd" if ord(it) < 32 and it not in "\n\t" or 127 <= ord(it) < 160 else it for it in text))


def counted(number, what):
    return f"{number} {what}" if number == 1 else f"{number} {what}s"


def radius(size, most):
    return round(SMALLEST + (LARGEST - SMALLEST) * math.sqrt((size - 1) / max(1, most - 1)), 1)


def node(number, atom, place, most, first):
    """Returns the element of an atom. Of all atoms only the first is a stop of the tabulator; arrows lead on from there."""
    (x, y), size, first_axiom = place, len(atom.axioms), shown(atom.axioms[0])
    reach = radius(size, most)
    return (
        f'<g class="atom" id="atom-{number}" data-atom="{number}" data-x="{x}" data-y="{y}" role="button" tabindex="{0 if first else -1}" '
        f'aria-label="atom {number}, {counted(size, "axiom")}: {first_axiom}"><title>{first_axiom}</title>'
        f'<circle class="ring" cx="{x}" cy="{y}" r="{reach + 5}"/><circle class="body" cx="{x}" cy="{y}" r="{reach}"/>'
        f'<text x="{x}" y="{y + LARGEST + 18}">{number} ×{size}</text></g>\n'
    )


def edge(above, below, places):
    """Returns the element of a cover."""
    (x, y), (far_x, far_y) = places[above], places[below]
    middle = (y + far_y) / 2
    return f'<path class="cover" data-from="{above}" data-to="{below}" d="M{x} {y}C{x} {middle} {far_x} {middle} {far_x} {far_y}"/>\n'


def graph(atoms, chosen):
    """Returns the drawing of the chosen atoms."""
    rows, most = rows_of(atoms, chosen), max(len(atom.axioms) for atom in atoms)
    wide = max(64, 8 * max(len(f"{number} ×{len(atoms[number].axioms)}") for number in chosen) + 16)
    width = LEFT + wide * max(len(row) for _, row in rows)
    places, bands, y = {}, [], 0
    for at, (layer, row) in reversed(list(enumerate(rows))):
        if at + 1 == len(rows) or rows[at + 1][0] != layer:
            bands.append([layer, y, ABOVE])
            y += ABOVE
        bands[-1][2] += HEIGHT
        step = (width - LEFT) / len(row)
        places.update((number, (round(LEFT + step * (place + 0.5), 1), y + LARGEST)) for place, number in enumerate(row))
        y += HEIGHT
    parts = [
        f'<rect class="band{at % 2}" x="0" y="{top}" width="{width}" height="{height}"/>'
        f'<text class="layer" x="8" y="{top + 20}">layer {layer}</text>\n'
        for at, (layer, top, height) in enumerate(bands)
    ]
    parts += [edge(number, need, places) for number in chosen for need in atoms[number].needs if need in places]
    order = [number for _, row in reversed(rows) for number in row]
    parts += [node(number, atoms[number], places[number], most, at == 0) for at, number in enumerate(order)]
    label = "The atoms, each above those that it needs"
    return (
        f'<svg xmlns="http://www.w3.org/2000/svg" id="graph" role="group" aria-label="{label}" width="{width}" height="{y}" '
        f'viewBox="0 0 {width} {y}">\n{"".join(parts)}</svg>\n'
    )


# The page


def tops(atoms):
    """Returns the numbers of the atoms that none needs, rising: that of each part."""
    needed = {need for atom in atoms for need in atom.needs}
    return [number for number in range(len(atoms)) if number not in needed]


def part_row(number, part, atom, is_drawn):
    name, axioms, size = part
    told = f'<a href="#atom-{atom}">{atom}</a>' if is_drawn else str(atom)
    return (
        f'<tr><td data-key="{number}">{number}</td><td data-key="{shown(name)}"><a href="{escape(quote(name))}">{shown(name)}</a></td>'
        f'<td data-key="{axioms}">{axioms}</td><td data-key="{size}">{size}</td><td data-key="{atom}">{told}</td></tr>\n'
    )


def table(parts, atoms, chosen):
    """Returns the list of the parts."""
    drawn, above = set(chosen), tops(atoms)
    if len(above) != len(parts):
        raise ValueError(f"{len(parts)} parts, but {len(above)} atoms that none needs")
    body = "".join(part_row(number, part, atom, atom in drawn) for number, (part, atom) in enumerate(zip(parts, above)))
    heads = "".join(f'<th scope="col"{kind}>{name}</th>' for name, kind in (
        ("Part", ""), ("File", ' data-text="yes"'), ("Axioms", ""), ("Bytes", ""), ("Atom", ""),
    ))  # fmt: skip
    return f'<table id="parts">\n<thead><tr>{heads}</tr></thead>\n<tbody>\n{body}</tbody>\n</table>\n'


def as_script(value):
    """Returns a value as JSON that can stand in an element `script`."""
    text = json.dumps(value, ensure_ascii=True, separators=(",", ":"))
    return text.replace("<", "\\u003c").replace(">", "\\u003e").replace("&", "\\u0026")


def digest(text):
    """Returns the word that lets a text run, or be a style, in a page that lets no other."""
    return "'sha256-" + base64.b64encode(hashlib.sha256(text.encode("utf-8")).digest()).decode("ascii") + "'"


def drawing(atoms, chosen):
    """Returns the part of the page that is on atoms."""
    if not atoms:
        return "<p>The ontology has no atoms.</p>\n"
    left_out = f" Drawn are the {len(chosen)} largest; the search finds all." if len(chosen) < len(atoms) else ""
    return GRAPH.replace("@COUNT", counted(len(atoms), "atom")).replace("@LEFT", left_out).replace("@GRAPH", graph(atoms, chosen))


def page(kind, parts, atoms):
    """Returns the page of the parts of a kind, each its file's name, how many axioms it has, and its bytes, and of all atoms."""
    chosen = largest(atoms)
    data = as_script([[atom.name, atom.needs, atom.axioms] for atom in atoms])
    rules = f"default-src 'none'; style-src {digest(STYLE)}; script-src {digest(SCRIPT)}; base-uri 'none'; form-action 'none'"
    title = f"Parts of an ontology ({kind})"
    return (
        f'<!DOCTYPE html>\n<html lang="en">\n<head>\n<meta charset="utf-8">\n<meta http-equiv="Content-Security-Policy" content="{rules}">\n'
        f'<meta name="viewport" content="width=device-width, initial-scale=1">\n<title>{title}</title>\n<style>{STYLE}</style>\n</head>\n'
        f"<body>\n<main>\n<h1>{title}</h1>\n<h2>Parts</h2>\n<p>{counted(len(parts), 'part')}, each the {kind} module of an atom "
        f"that no other atom needs. Parts may share axioms.</p>\n{table(parts, atoms, chosen)}<h2>Atoms</h2>\n"
        f"{drawing(atoms, chosen)}</main>\n"
        f'<script type="application/json" id="data">{data}</script>\n<script>{SCRIPT}</script>\n</body>\n</html>\n'
    )


GRAPH = """<p>@COUNT. An atom is a set of axioms that stand together in every module. Its label is its number and, behind ×, how many
axioms it has. Lines lead down to the atoms that it needs, with none between.@LEFT</p>
<noscript><p>Marking and searching need JavaScript.</p></noscript>
<div id="tools" hidden>
<p><label for="search">Find atoms by number, name or text of an axiom</label> <input type="search" id="search" autocomplete="off"></p>
<p id="found" role="status"></p>
<ul id="hits"></ul>
<p>Click on an atom to mark it, or reach it by Tab and the arrows and press Enter; Escape clears.
Marks: <span class="key chosen">the atom</span> (double ring), <span class="key below">what it depends on</span> (thick ring),
<span class="key above">what depends on it</span> (dashed ring).</p>
<div id="told" role="status"></div>
</div>
<div id="frame" role="region" aria-label="Graph of the atoms" tabindex="0">
@GRAPH</div>
"""

STYLE = """
:root { color-scheme: light dark; --page: #ffffff; --band: #f3f5f7; --text: #1b1f24; --link: #0550ae; --edge: #6e7781;
  --body: #dbe7f5; --chosen: #0550ae; --below: #1a7f37; --above: #bc4c00; }
@media (prefers-color-scheme: dark) { :root { --page: #0d1117; --band: #161b22; --text: #e6edf3; --link: #79c0ff; --edge: #8b949e;
  --body: #1f3a5f; --chosen: #79c0ff; --below: #3fb950; --above: #f0883e; } }
body { margin: 0; background: var(--page); color: var(--text); font: 1rem/1.5 system-ui, sans-serif; }
main { padding: 1rem; }
p, #told { max-width: 50rem; }
a { color: var(--link); }
:focus-visible { outline: 3px solid var(--link); outline-offset: 2px; }
table { border-collapse: collapse; }
th, td { border: 1px solid var(--edge); padding: 0.25rem 0.6rem; text-align: left; overflow-wrap: anywhere; }
th button { font: inherit; color: inherit; background: var(--band); border: 1px solid var(--edge); padding: 0.1rem 0.5rem; cursor: pointer; }
input { font: inherit; color: var(--text); background: var(--page); border: 1px solid var(--edge); max-width: 100%; }
code { overflow-wrap: anywhere; white-space: pre-wrap; unicode-bidi: isolate; }
.key { padding: 0 0.3rem; border: 2px solid var(--edge); }
.key.chosen { border: 4px double var(--chosen); }
.key.below { border: 3px solid var(--below); }
.key.above { border: 3px dashed var(--above); }
#frame { overflow: auto; max-height: 90vh; border: 1px solid var(--edge); }
svg text { fill: var(--text); font-size: 13px; text-anchor: middle; paint-order: stroke; stroke: var(--page); stroke-width: 3px; }
svg text.layer { text-anchor: start; }
.band0 { fill: var(--page); } .band1 { fill: var(--band); }
.cover { fill: none; stroke: var(--edge); stroke-width: 1px; }
.atom { cursor: pointer; }
.atom .body { fill: var(--body); stroke: var(--link); stroke-width: 1.5px; }
.atom .ring { fill: none; stroke: none; }
.atom.chosen .body { stroke: var(--chosen); stroke-width: 4px; }
.atom.chosen .ring { stroke: var(--chosen); stroke-width: 3px; }
.atom.below .body { stroke: var(--below); stroke-width: 4px; }
.atom.above .body { stroke: var(--above); stroke-width: 4px; stroke-dasharray: 5 3; }
.cover.below { stroke: var(--below); stroke-width: 3px; }
.cover.above { stroke: var(--above); stroke-width: 3px; stroke-dasharray: 6 4; }
"""

SCRIPT = """
"use strict";
(() => {
  const atoms = JSON.parse(document.getElementById("data").textContent).map(([name, needs, axioms]) => ({ name, needs, axioms, above: [] }));
  atoms.forEach((atom, number) => atom.needs.forEach((need) => atoms[need].above.push(number)));
  const most = 50;
  const at = (id) => document.getElementById(id);
  const counted = (count, what) => count + " " + what + (count === 1 ? "" : "s");

  function made(name, text, parent) {
    const element = document.createElement(name);
    element.textContent = text;
    parent.appendChild(element);
    return element;
  }

  // The list of the parts

  const rows = Array.from(document.querySelectorAll("#parts tbody tr"));
  const heads = Array.from(document.querySelectorAll("#parts th"));

  function sort(place, downwards) {
    const key = (row) => row.children[place].getAttribute("data-key");
    const isText = heads[place].hasAttribute("data-text");
    const order = (one, other) => (isText ? key(one).localeCompare(key(other)) : key(one) - key(other));
    rows.sort((one, other) => (downwards ? order(other, one) : order(one, other)));
    rows.forEach((row) => row.parentNode.appendChild(row));
    heads.forEach((head, other) => head.setAttribute("aria-sort", other !== place ? "none" : downwards ? "descending" : "ascending"));
  }

  heads.forEach((head, place) => {
    const name = head.textContent;
    head.textContent = "";
    const button = made("button", name, head);
    button.setAttribute("type", "button");
    button.addEventListener("click", () => sort(place, head.getAttribute("aria-sort") === "ascending"));
  });

  // Marks

  const nodes = Array.from(document.querySelectorAll(".atom"));
  const edges = Array.from(document.querySelectorAll(".cover"));
  const number = (node) => Number(node.getAttribute("data-atom"));

  function reached(start, next) {
    const found = new Set();
    const left = [start];
    while (left.length) {
      for (const other of atoms[left.pop()][next]) {
        if (!found.has(other)) {
          found.add(other);
          left.push(other);
        }
      }
    }
    return found;
  }

  function clear() {
    nodes.concat(edges).forEach((element) => element.classList.remove("chosen", "below", "above"));
    nodes.forEach((node) => node.setAttribute("aria-pressed", "false"));
    at("told").textContent = "";
  }

  function link(other, parent) {
    const made_link = made("a", other + (atoms[other].name ? " " + atoms[other].name : ""), parent);
    made_link.setAttribute("href", "#atom-" + other);
  }

  function tell_links(what, others) {
    if (!others.length) return;
    const line = made("p", what, at("told"));
    others.slice(0, most).forEach((other, place) => {
      made("span", place ? ", " : " ", line);
      link(other, line);
    });
    if (others.length > most) made("span", " and " + (others.length - most) + " more", line);
  }

  function tell(chosen, below, above) {
    const atom = atoms[chosen];
    const drawn = at("atom-" + chosen) ? "" : " It isn't among those that are drawn.";
    made("p", "Atom " + chosen + " has " + counted(atom.axioms.length, "axiom") + ". It depends on " + counted(below.size, "atom") +
      "; on it " + (above.size === 1 ? "depends " : "depend ") + counted(above.size, "atom") + "." + drawn, at("told"));
    tell_links("It needs, with none between:", atom.needs);
    tell_links("It is needed, with none between, by:", atom.above);
    const list = made("ul", "", at("told"));
    atom.axioms.slice(0, most).forEach((axiom) => made("code", axiom, made("li", "", list)));
    if (atom.axioms.length > most) made("li", "and " + (atom.axioms.length - most) + " more", list);
  }

  function mark(chosen) {
    clear();
    const below = reached(chosen, "needs");
    const above = reached(chosen, "above");
    nodes.forEach((node) => {
      const its = number(node);
      node.setAttribute("aria-pressed", String(its === chosen));
      if (its === chosen) node.classList.add("chosen");
      if (below.has(its)) node.classList.add("below");
      if (above.has(its)) node.classList.add("above");
    });
    edges.forEach((edge) => {
      const from = Number(edge.getAttribute("data-from"));
      const to = Number(edge.getAttribute("data-to"));
      if (from === chosen || below.has(from)) edge.classList.add("below");
      if (to === chosen || above.has(to)) edge.classList.add("above");
    });
    tell(chosen, below, above);
  }

  function marked_in_address() {
    const found = /^#atom-(\\d+)$/.exec(location.hash);
    if (found && Number(found[1]) < atoms.length) mark(Number(found[1]));
  }

  function choose(node) {
    focus(node, false);
    mark(number(node));
    try {
      history.replaceState(null, "", "#atom-" + number(node));
    } catch (why) {
      // The address stays as it is.
    }
  }

  // Keys

  function focus(node, really) {
    nodes.forEach((other) => other.setAttribute("tabindex", other === node ? "0" : "-1"));
    if (really) node.focus();
  }

  const place = (node) => [Number(node.getAttribute("data-x")), Number(node.getAttribute("data-y"))];

  function beside(node, key) {
    const [x, y] = place(node);
    const side = { ArrowLeft: [0, -1], ArrowRight: [0, 1], ArrowUp: [1, -1], ArrowDown: [1, 1] }[key];
    const rated = nodes.filter((other) => other !== node).map((other) => [other, place(other)]).filter(([, [far_x, far_y]]) =>
      side[0] ? (far_y - y) * side[1] > 0 : far_y === y && (far_x - x) * side[1] > 0);
    const far = ([, [far_x, far_y]]) => Math.abs(far_y - y) * 10000 + Math.abs(far_x - x);
    return rated.length ? rated.reduce((one, other) => (far(other) < far(one) ? other : one))[0] : null;
  }

  nodes.forEach((node) => {
    node.addEventListener("click", () => choose(node));
    node.addEventListener("keydown", (event) => {
      if (event.key === "Enter" || event.key === " ") {
        event.preventDefault();
        choose(node);
      } else if (event.key.startsWith("Arrow")) {
        event.preventDefault();
        const other = beside(node, event.key);
        if (other) focus(other, true);
      }
    });
  });
  document.addEventListener("keydown", (event) => {
    if (event.key === "Escape" && atoms.length) clear();
  });

  // Search

  function search() {
    const words = at("search").value.trim().toLowerCase();
    at("hits").textContent = "";
    at("found").textContent = "";
    if (!words) return;
    const fits = (atom, its) => String(its) === words || atom.name.toLowerCase().includes(words) ||
      atom.axioms.some((axiom) => axiom.toLowerCase().includes(words));
    const found = atoms.map((atom, its) => [atom, its]).filter(([atom, its]) => fits(atom, its)).map(([, its]) => its);
    found.sort((one, other) => (String(other) === words) - (String(one) === words) || one - other);
    at("found").textContent = counted(found.length, "atom") + " found" + (found.length > most ? ", the first " + most + " are listed" : "");
    found.slice(0, most).forEach((its) => {
      const item = made("li", "", at("hits"));
      link(its, item);
      made("span", " ×" + atoms[its].axioms.length + " ", item);
      made("code", atoms[its].axioms[0].slice(0, 300), item);
    });
  }

  if (atoms.length) {
    let waiting = 0;
    at("tools").hidden = false;
    at("search").addEventListener("input", () => {
      clearTimeout(waiting);
      waiting = setTimeout(search, 200);
    });
    addEventListener("hashchange", marked_in_address);
    marked_in_address();
  }
})();
"""
