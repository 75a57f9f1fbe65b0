#!/usr/bin/env python3
"""Runs the gate, watches the processes that it starts, and prints the processor seconds of each crate for its first
proof, its tests and its must-fail edits: gate.py [WORD ..], with the words of `rt ci`.

The gate prints no times. So this adds up, from /proc, what each process that the gate starts takes with all that it
starts itself, twice a second. A process that ended since the last look is made whole by what the gate's own count of
its ended children rose. The gate is neither slowed nor changed; this takes about a hundredth of a processor."""
import os
import re
import signal
import subprocess
import sys
import threading
import time

TOP = os.path.dirname(os.path.dirname(os.path.abspath(__file__)))
PAUSE = 0.5
TICK = os.sysconf("SC_CLK_TCK")
PAGE = os.sysconf("SC_PAGE_SIZE")
PROOF, TESTS, EDITS, REST = "proof", "tests", "edits", "rest"
BUDGET = 400


def crates():
    """Returns the crates of crates.txt in their order, each with those of the repository that it stands on."""
    found = {}
    with open(f"{TOP}/crates.txt", encoding="utf-8") as lines:
        for line in lines:
            name, colon, below = line.partition("#")[0].partition(":")
            if name.strip():
                found[name.split()[0]] = below.split() if colon else []
    return {name: [it for it in below if it in found] for name, below in found.items()}


def look():
    """Returns each process: its parent, its seconds with those of its ended children, and its memory, by its number and start."""
    found = {}
    for entry in os.scandir("/proc"):
        if entry.name.isdigit():
            try:
                with open(f"/proc/{entry.name}/stat", "rb") as it:
                    fields = it.read().rpartition(b")")[2].split()
            except OSError:
                continue
            own, ended = (sum(map(int, fields[at : at + 2])) / TICK for at in (11, 13))
            found[int(entry.name)] = int(fields[1]), own, ended, int(fields[21]) * PAGE, int(fields[19])
    return found


def work_of(number, names):
    """Returns the crate that a process of the gate works on and the kind of its work, or None where its words don't tell (yet)."""
    try:
        with open(f"/proc/{number}/cmdline", "rb") as it:
            words = it.read().decode(errors="replace").split("\0")[:-1]
        folder = os.readlink(f"/proc/{number}/cwd")
    except OSError:
        return None
    if "--crate-name" in words[:-1]:
        name = words[words.index("--crate-name") + 1]
        is_edit = re.search(r"/rt-edit-\d+-", folder)
        return name, EDITS if is_edit else TESTS if "--test" in words else PROOF
    # A run of the program or of the tests, then what links or lays out.
    run = re.search(r"/rt-run-[^\0]*/bin/(\w+)", "\0".join(words))
    if run:
        is_named = run[1] in names and not any(it.endswith("/rattle-test") for it in words)
        return run[1] if is_named else run[1].removesuffix("_tests"), TESTS
    at = re.search(r"/crates/(\w+)(/|$)", folder) or re.search(r"/crates/(\w+)/", "\0".join(words))
    if at and words and not os.path.basename(words[0]).startswith("rt"):
        return at[1], TESTS if any(it.endswith(f"out/{at[1]}_tests") for it in words) else PROOF
    return None


class Watch:
    """What the processes of one run of the gate took."""

    def __init__(self, gate, names):
        self.gate, self.names = gate, names
        self.living, self.taken, self.memory, self.reaped, self.own = {}, {}, {}, 0.0, 0.0

    def sample(self):
        """Looks at the processes once."""
        processes, below = look(), {}
        if self.gate not in processes:
            return
        for number, (parent, *_) in processes.items():
            below.setdefault(parent, []).append(number)
        seen = {}
        for top in below.get(self.gate, []):
            key = top, processes[top][4]
            seen[key] = job = self.living.get(key) or {"work": None, "seconds": 0.0}
            job["work"] = job["work"] or work_of(top, self.names)
            seconds, memory, left = 0.0, 0, [top]
            while left:
                number = left.pop()
                left += below.get(number, [])
                _, own, ended, held, _ = processes[number]
                seconds, memory = seconds + own + ended, memory + held
            job["seconds"] = max(job["seconds"], seconds)
            if job["work"]:
                self.memory[job["work"]] = max(self.memory.get(job["work"], 0), memory)
        self.end([job for key, job in self.living.items() if key not in seen], processes[self.gate])
        self.living = seen

    def end(self, gone, gate):
        """Books the processes that ended, made whole by what the gate's count of its ended children rose."""
        _, self.own, reaped, _, _ = gate
        rose, self.reaped = reaped - self.reaped, reaped
        lacks = max(rose - sum(it["seconds"] for it in gone), 0.0)
        for job in gone:
            self.book(job["work"], job["seconds"] + lacks / len(gone))
        if not gone:
            self.book(None, lacks)

    def book(self, work, seconds):
        work = work or ("", REST)
        self.taken[work] = self.taken.get(work, 0.0) + seconds

    def finish(self):
        """Books what still lives, and the gate's own seconds."""
        for job in self.living.values():
            self.book(job["work"], job["seconds"])
        self.living = {}
        self.book(None, self.own)


def pass_on(stream, said):
    """Hands the gate's lines on to standard error, and keeps those that say what was not done in this run."""
    for line in stream:
        sys.stderr.write(line)
        sys.stderr.flush()
        kept = re.match(r"rt: (\w+) is kept: ", line) or re.match(r"rt: (\w+): (\d+ of its \d+ must-fail edits) were tried by an earlier run", line)
        if kept:
            said.append(" ".join(it for it in kept.groups() if it))


def counted(name):
    """Returns how many lines, tests and must-fail edits a crate has."""
    lines = tests = 0
    for at, _, files in os.walk(f"{TOP}/crates/{name}/src"):
        for file in files:
            if file.endswith(".rt"):
                with open(f"{at}/{file}", encoding="utf-8") as it:
                    text = it.read()
                lines, tests = lines + text.count("\n"), tests + len(re.findall(r"(?m)^\s*#\[test\]", text))
    folder = f"{TOP}/crates/{name}/must-fail"
    edits = sum(it.endswith(".edit") for it in os.listdir(folder)) if os.path.isdir(folder) else 0
    return lines, tests, edits


def longest_chain(stands_on, proof):
    """Returns the chain of crates whose first proofs take longest one after another, lowest first."""
    chains = {}

    def chain(name):
        if name not in chains:
            below = max(map(chain, stands_on[name]), key=lambda it: sum(map(proof, it)), default=[])
            chains[name] = [*below, name]
        return chains[name]

    return max(map(chain, stands_on), key=lambda it: sum(map(proof, it)), default=[])


def table(watch, stands_on, said, clock, ended):
    """Returns the lines to print."""
    took = lambda name, kind: watch.taken.get((name, kind), 0.0)
    whole = lambda name: sum(took(name, it) for it in (PROOF, TESTS, EDITS))
    shown = sorted((it for it in stands_on if whole(it) > 0), key=lambda it: (-whole(it), it))
    figure = lambda seconds: f"{seconds:,.0f}" if seconds >= 0.05 else "-"
    lines = ["| Crate | lines | tests | edits | first proof s | tests s | edits s | all s | GB |", "|---|--:|--:|--:|--:|--:|--:|--:|--:|"]
    sums = [0, 0, 0]
    for name in shown:
        counts = counted(name)
        sums = [a + b for a, b in zip(sums, counts)]
        most = max(watch.memory.get((name, it), 0) for it in (PROOF, TESTS, EDITS)) / 1e9
        figures = [figure(took(name, it)) for it in (PROOF, TESTS, EDITS)]
        lines.append(f"| {name} | {' | '.join(f'{it:,}' for it in counts)} | {' | '.join(figures)} | {figure(whole(name))} | {most:.1f} |")
    by_kind = [sum(took(it, kind) for it in stands_on) for kind in (PROOF, TESTS, EDITS)]
    lines.append(f"| **all** | {' | '.join(f'{it:,}' for it in sums)} | {' | '.join(map(figure, by_kind))} | {figure(sum(by_kind))} | |")
    chain = longest_chain(stands_on, lambda it: took(it, PROOF))
    length = sum(took(it, PROOF) for it in chain)
    chain = [it for it in chain if took(it, PROOF) > 0]
    over = [f"{it} ({figure(whole(it))})" for it in shown if whole(it) > BUDGET]
    rest = sum(watch.taken.values()) - sum(by_kind)
    lines += [
        "",
        f"Whole: {figure(sum(watch.taken.values()))} processor seconds, {figure(rest)} of them beside the crates (the gate itself), in {figure(clock)} s with {len(os.sched_getaffinity(0))} processors{'' if ended else ', CUT SHORT'}.",
        f"Longest chain of first proofs: {figure(length)} s, {' < '.join(chain) or 'none'}.",
        f"Over the budget of {BUDGET} s: {', '.join(over) or 'none'}.",
    ]
    if said:
        lines.append(f"Kept from earlier runs on this machine, and so not counted (--anew counts all): {', '.join(said)}.")
    return lines


def main(words):
    stands_on, said, begun, told = crates(), [], time.monotonic(), []
    gate = subprocess.Popen(["rt", "ci", *words], cwd=TOP, stdin=subprocess.DEVNULL, stdout=subprocess.PIPE, text=True, errors="replace")

    def cut(*_):
        told.append(True)
        gate.terminate()

    for it in (signal.SIGINT, signal.SIGTERM, signal.SIGHUP):
        signal.signal(it, cut)
    hand = threading.Thread(target=pass_on, args=(gate.stdout, said), daemon=True)
    hand.start()
    watch = Watch(gate.pid, stands_on)
    has_ended = False
    while not has_ended:
        # (looked at before it is reaped, so that the last sample has its whole count)
        has_ended = os.waitid(os.P_PID, gate.pid, os.WEXITED | os.WNOHANG | os.WNOWAIT) is not None
        watch.sample()
        if not has_ended:
            time.sleep(PAUSE)
    status = gate.wait()
    watch.finish()
    hand.join(5)
    print(*table(watch, stands_on, said, time.monotonic() - begun, not told), sep="\n", flush=True)
    return status if status >= 0 else 128 - status


if __name__ == "__main__":
    sys.exit(main(sys.argv[1:]))
