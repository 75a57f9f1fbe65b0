#!/usr/bin/env python3
"""Times replies of a session, asked one at a time: replies.py PROGRAM. Called by session.sh.

Each line has the seconds of the requests alone, their replies read whole, and what is asked of them on an idle machine.
"""
import os
import random
import sys
import time

sys.path.insert(0, os.path.join(os.path.dirname(os.path.abspath(__file__)), "..", "clients", "python"))

from owlad_client import Client, seed_payload  # noqa: E402

AXIOMS = 10_000

QUERIES = 2_000

MOST_BYTES = 33_554_432


def tree(stem):
    """Returns the axioms of a tree of classes, each below the one of half its number."""
    return [f"SubClassOf(<{stem}{i}> <{stem}{i // 2}>)" for i in range(1, AXIOMS + 1)]


def timed(name, asked, requests, client):
    """Asks the requests, each its words and its payload, and prints how long that took."""
    started, size = time.perf_counter(), 0
    for words, payload in requests:
        size += len(client.ask(words, payload)[1])
    seconds = time.perf_counter() - started
    print(f"{name}: {seconds:.3f} s, {size} bytes (asked: {asked} s){'' if seconds < asked else ', TOO SLOW'}", flush=True)


def filled(program, axioms):
    """Returns a session that has these axioms."""
    client, started = Client.start(program), time.perf_counter()
    client.edit(axioms)
    print(f"an edit of {len(axioms)} axioms: {time.perf_counter() - started:.3f} s", flush=True)
    return client


def main(program):
    draw, stem = random.Random(17), "http://example.org/c#C"
    seeds = [[f"Class={stem}{draw.randrange(AXIOMS)}" for _ in range(draw.randint(1, 3))] for _ in range(QUERIES)]
    with filled(program, tree(stem)) as client:
        queries = [("MODULE bottom", seed_payload(seed)) for seed in seeds]
        timed(f"{QUERIES} bottom modules for one to three classes", 1.0, queries, client)
        for kind in ("bottom", "top", "star"):
            timed(f"{kind} atoms", 0.3, [(f"ATOMS {kind}", None)], client)
        timed("counts", 0.3, [("STAT", None)], client)
    longer = (MOST_BYTES - sum(len(axiom) + 1 for axiom in tree(stem)) - 12) // (2 * AXIOMS)
    with filled(program, tree(stem + "x" * longer)) as client:
        timed("the whole document", 0.5, [("EXPORT", None)], client)


if __name__ == "__main__":
    main(*sys.argv[1:])
