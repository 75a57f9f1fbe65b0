#!/usr/bin/env python3
"""Builds the program owlad where it isn't built or its sources have changed since, and says on standard error how far it
is: on a terminal in one line that is rewritten, elsewhere in a line for each crate. Status 70: the build failed; 130: it
was stopped.

A build proves the crates that the program stands on, those that don't stand on each other side by side. What was proved
stays in the user's cache folder (XDG_CACHE_HOME or ~/.cache, in owlad/), so that a build that was stopped goes on where it
was, and one after an edit proves what changed. It takes some GB there, and may be removed.

`rt` locks the crate that it works in and all below it, so two of its commands in one tree would wait for each other.
Therefore each crate has a tree of its own in the cache, with those below it and their libraries."""
import contextlib
import fcntl
import hashlib
import os
import shutil
import signal
import subprocess
import sys
import time

TOP = os.path.dirname(os.path.dirname(os.path.abspath(__file__)))
NAME = "owlad"
PARTS = ("src", "specs", "proofs")
BUILT = f"{TOP}/crates/{NAME}/out/{NAME}"
STAMP = f"{BUILT}.sources"
ROOM = os.path.join(os.environ.get("XDG_CACHE_HOME") or os.path.expanduser("~/.cache"), NAME)
FAILED, STOPPED = 70, 130
# What a check of a crate takes of memory, and each further job of it.
MEMORY, MEMORY_OF_JOB = 2.5e9, 1.5e9
MOST_JOBS = 4


class Failed(Exception):
    """The build can't go on; what to say."""


class Stopped(Exception):
    """A signal ends the build."""


class Screen:
    """Standard error: lines that stay, and on a terminal one below them that is rewritten."""

    def __init__(self):
        self.is_terminal, self.shown = sys.stderr.isatty(), ""

    def say(self, text):
        """Writes a line that stays."""
        self.show("")
        print(f"{NAME}: {text}", file=sys.stderr, flush=True)

    def show(self, text):
        """Rewrites the line of a terminal; elsewhere nothing is written."""
        if self.is_terminal and text != self.shown:
            width = max(shutil.get_terminal_size().columns - 1, 20)
            line = f"{NAME}: {text}"[:width] if text else ""
            print(f"\r\033[K{line}", end="", file=sys.stderr, flush=True)
            self.shown = text


class Crate:
    """A crate that the program stands on, or the program, with its text as it stood when the build began."""

    def __init__(self, name, line, below):
        self.name, self.line, self.below, self.files = name, line, below, {}
        sum = hashlib.sha256(repr((line, [it.sum for it in below])).encode())
        for part in PARTS:
            for at, folders, files in os.walk(f"{TOP}/crates/{name}/{part}"):
                folders.sort()
                for file in sorted(it for it in files if it.endswith((".rt", ".antt"))):
                    with open(f"{at}/{file}", "rb") as it:
                        text = it.read()
                    path = os.path.relpath(f"{at}/{file}", f"{TOP}/crates/{name}")
                    self.files[path] = text
                    sum.update(repr((path, text)).encode())
        self.sum = sum.hexdigest()
        self.lines = sum_of_lines(self.files)
        self.tree = f"{ROOM}/{name}"
        self.own = f"{self.tree}/crates/{name}"
        self.rlib = f"{self.own}/out/rlib"

    def is_done(self, kit):
        """Returns whether an earlier build in the cache made the crate's library from the same text."""
        return read(f"{self.tree}/done") == f"{kit} {self.sum}" and (self.name == NAME or os.path.isdir(self.rlib))


def sum_of_lines(files):
    return sum(text.count(b"\n") for path, text in files.items() if path.startswith("src/"))


def read(path):
    """Returns a file's text, or nothing where there is none."""
    try:
        with open(path, encoding="utf-8") as it:
            return it.read()
    except OSError:
        return ""


def write(path, data):
    """Writes a file so that no one meets half of it."""
    os.makedirs(os.path.dirname(path), exist_ok=True)
    with open(f"{path}.new", "wb") as it:
        it.write(data)
    os.replace(f"{path}.new", path)


def sum_of(path):
    with open(path, "rb") as it:
        return hashlib.sha256(it.read()).hexdigest()


def crates_needed():
    """Returns the program's crate and those that it stands on, lowest first."""
    lines = {}
    for line in read(f"{TOP}/crates.txt").split("\n"):
        name, colon, below = line.partition("#")[0].strip().partition(":")
        if name:
            lines[name.split()[0]] = f"{name}{colon}{below}", below.replace(",", " ").split()
    found = {}

    def take(name):
        if name not in found:
            line, below = lines[name]
            every = {}
            for it in (take(it) for it in below if it in lines):
                every.update({one.name: one for one in [*it.below, it]})
            found[name] = Crate(name, line, [*every.values()])
        return found[name]

    if NAME not in lines:
        raise Failed(f"{TOP}/crates.txt has no line for {NAME}")
    take(NAME)
    return [*found.values()]


def is_current(crates, sources):
    """Returns whether the program that stands in this copy of the repository is of these sources, or why not."""
    if not os.access(BUILT, os.X_OK):
        return "the program isn't built yet"
    known = read(STAMP).split("\n")
    if len(known) > 2 and known[1] == sum_of(BUILT):
        return None if known[2] == sources else "the sources have changed since the program was built"
    # The gate or `rt run` built it. What is younger isn't in it.
    paths = [f"{TOP}/crates.txt"]
    for crate in crates:
        for part in PARTS:
            for at, _, files in os.walk(f"{TOP}/crates/{crate.name}/{part}"):
                paths += [at, *(f"{at}/{it}" for it in files)]
    youngest = max(os.lstat(it).st_mtime_ns for it in paths)
    return None if youngest <= os.stat(BUILT).st_mtime_ns else "the sources are newer than the program"


def put_stamp(crates, sources, begun):
    """Writes what `./owlad` and the next build know the program by. What was touched after `begun` is looked at again."""
    found = os.stat(BUILT)
    lines = [f"{found.st_ino} {found.st_size} {int(found.st_mtime)}", sum_of(BUILT), sources, *(it.name for it in crates)]
    write(STAMP, "\n".join([*lines, ""]).encode())
    os.utime(STAMP, (begun - 1, begun - 1))


def put_program(path):
    """Copies a built program to its place in this copy of the repository."""
    os.makedirs(os.path.dirname(BUILT), exist_ok=True)
    room = f"{BUILT}.new-{os.getpid()}"
    shutil.copyfile(path, room)
    os.chmod(room, 0o755)
    os.replace(room, BUILT)


def processors():
    """Returns how many processors this process may use, by the quota of its control group too."""
    number = len(os.sched_getaffinity(0))
    quota, _, period = read("/sys/fs/cgroup/cpu.max").strip().partition(" ")
    return max(min(number, int(quota) // int(period)), 1) if quota.isdigit() and period.isdigit() else number


def free_memory():
    """Returns the free memory in bytes, by the limit of the control group too."""
    found = [1024 * int(line.split()[1]) for line in read("/proc/meminfo").split("\n") if line.startswith("MemAvailable:")]
    most, used = read("/sys/fs/cgroup/memory.max").strip(), read("/sys/fs/cgroup/memory.current").strip()
    if most.isdigit() and used.isdigit():
        found.append(int(most) - int(used))
    return min(found, default=4e9)


def link(one, other):
    """Gives a library's file a second name: rt removes such a file before it makes it anew."""
    try:
        os.link(one, other)
    except OSError:
        shutil.copyfile(one, other)


def clear(crate):
    """Removes what stands in a crate's tree beside itself."""
    for name in os.listdir(f"{crate.tree}/crates") if os.path.isdir(f"{crate.tree}/crates") else []:
        if name != crate.name:
            shutil.rmtree(f"{crate.tree}/crates/{name}")


def lay(crate):
    """Writes a crate's tree: its text, and text and library of those below."""
    clear(crate)
    every = [*crate.below, crate]
    for it in every:
        folder = f"{crate.tree}/crates/{it.name}"
        for part in PARTS:
            shutil.rmtree(f"{folder}/{part}", ignore_errors=True)
        for path, text in it.files.items():
            write(f"{folder}/{path}", text)
        if it is not crate:
            shutil.copytree(it.rlib, f"{folder}/out/rlib", copy_function=link)
    write(f"{crate.tree}/crates.txt", "".join(f"{it.line}\n" for it in every).encode())


class Build:
    """One build of the crates that aren't done, in the cache."""

    def __init__(self, crates, kit, screen):
        self.crates, self.kit, self.screen, self.begun = crates, kit, screen, time.monotonic()
        self.done = {it.name for it in crates if it.is_done(kit) and it.name != NAME}
        self.left = [it for it in crates if it.name not in self.done]
        self.running, self.last = {}, ""
        self.lanes, self.memory = processors(), free_memory()
        # First those with most to prove behind them.
        self.behind = {}
        for it in reversed(crates):
            self.behind[it.name] = it.lines + max((self.behind[one.name] for one in crates if it in one.below), default=0)
        self.left.sort(key=lambda it: -self.behind[it.name])

    def run(self):
        """Builds all that is left."""
        try:
            while self.left or self.running:
                self.start()
                for crate in [*self.running]:
                    status = self.running[crate][0].poll()
                    if status is not None:
                        del self.running[crate]
                        self.end(crate, status)
                self.tell()
                time.sleep(0.2)
        finally:
            # What an rt started ends with it.
            for ran, _, _ in self.running.values():
                ran.terminate()
            for ran, _, _ in self.running.values():
                ran.wait()

    def tell(self):
        """Shows how far the build is, here and to those who wait for it."""
        now = self.told()
        if now != self.last:
            self.last = now
            self.screen.show(now)
            write(f"{ROOM}/progress", now.encode())

    def start(self):
        """Starts the crates whose libraries are there, as many as there are processors and memory for."""
        ready = [it for it in self.left if all(one.name in self.done for one in it.below)]
        for at, crate in enumerate(ready):
            idle = self.lanes - sum(jobs for _, _, jobs in self.running.values())
            # (of the memory that was free when the build began: what runs takes its own only bit by bit)
            promised = sum(MEMORY + MEMORY_OF_JOB * (jobs - 1) for _, _, jobs in self.running.values())
            room = 0.85 * self.memory - promised
            # The crate with the most behind it holds all others up. It gets a job for each processor, and is counted as
            # half of them: its jobs wait for one another, and the rest fills the gaps.
            leads = all(self.behind[crate.name] >= self.behind[it.name] for it in [*self.left, *self.running])
            if idle < 1 and not leads or self.running and room < MEMORY:
                return
            spare = 1 + max(int((room - MEMORY) / MEMORY_OF_JOB), 0)
            share = self.lanes if leads else idle // (len(ready) - at)
            jobs = max(min(MOST_JOBS, share, spare), 1)
            self.left.remove(crate)
            lay(crate)
            verb = "run" if crate.name == NAME else "lib"
            if verb == "run" and os.path.exists(f"{crate.own}/out/{NAME}"):
                os.remove(f"{crate.own}/out/{NAME}")
            with open(f"{crate.tree}/log", "wb") as log:
                words = ["rt", verb, "--jobs", str(jobs)]
                # In a session of its own, so that Ctrl-C reaches this process alone.
                ran = subprocess.Popen(words, cwd=crate.own, stdin=subprocess.DEVNULL, stdout=log, stderr=subprocess.STDOUT, start_new_session=True)
            self.running[crate] = ran, time.monotonic(), max(self.lanes // 2, 1) if leads else jobs

    def end(self, crate, status):
        """Notes that a crate's rt ended, with that status."""
        # (the status of `rt run` is the program's, which is run with no words)
        made = f"{crate.own}/out/{NAME}" if crate.name == NAME else crate.rlib
        if not os.path.exists(made) or status and crate.name != NAME:
            said = read(f"{crate.tree}/log").rstrip("\n").split("\n")
            raise Failed("\n".join([f"the build failed at the crate {crate.name}; the end of its log, {crate.tree}/log:", *said[-40:]]))
        write(f"{crate.tree}/done", f"{self.kit} {crate.sum}".encode())
        clear(crate)
        self.done.add(crate.name)
        if not self.screen.is_terminal:
            self.screen.say(f"{crate.name} is built; {self.told()}")

    def told(self):
        """Returns how far the build is."""
        now = time.monotonic()
        work = [f"{it.name} {period(now - begun)}" for it, (_, begun, _) in self.running.items()]
        return f"{len(self.done)} of {len(self.crates)} crates, {period(now - self.begun)}; in work: {', '.join(work) or 'none'}"


def period(seconds):
    return f"{int(seconds) // 60}:{int(seconds) % 60:02}"


def wait_for_others(screen):
    """Waits until no other build works in the cache, and returns what keeps others out until it is closed."""
    lock = open(f"{ROOM}/lock", "w")
    has_told = False
    while True:
        try:
            fcntl.flock(lock, fcntl.LOCK_EX | fcntl.LOCK_NB)
            return lock
        except BlockingIOError:
            if not has_told:
                screen.say("waiting for another build of this user to end")
                has_told = True
            screen.show(f"another build: {read(f'{ROOM}/progress')}")
            time.sleep(0.5)


def kit_id():
    if not shutil.which("rt"):
        raise Failed("there is no command rt, which builds the program: put the Rattle kit's bin/ on the PATH")
    return subprocess.run(["rt", "version"], stdin=subprocess.DEVNULL, capture_output=True, text=True, check=True).stdout.strip()


def build(crates, sources, why, screen):
    """Builds the program in the cache, or takes the one that stands there, and copies it to the repository."""
    kit = kit_id()
    os.makedirs(ROOM, exist_ok=True)
    with wait_for_others(screen):
        program = f"{ROOM}/{NAME}/crates/{NAME}/out/{NAME}"
        if crates[-1].is_done(kit) and os.access(program, os.X_OK):
            screen.say(f"{why}; one that was built earlier from the same sources is taken from {ROOM}")
        else:
            if read(f"{ROOM}/kit") != kit:
                for it in os.scandir(ROOM):
                    if it.is_dir():
                        shutil.rmtree(it.path)
                write(f"{ROOM}/kit", kit.encode())
            work = Build(crates, kit, screen)
            stand = f" ({len(work.done)} of them stand from earlier builds)" if work.done else ""
            screen.say(f"{why}; building it, which proves {len(crates)} crates{stand}")
            work.run()
            screen.say(f"built in {period(time.monotonic() - work.begun)}")
        put_program(program)


def main():
    screen, begun = Screen(), time.time()

    def stop(*_):
        raise Stopped

    for it in (signal.SIGINT, signal.SIGTERM, signal.SIGHUP):
        signal.signal(it, stop)
    try:
        crates = crates_needed()
        sources = crates[-1].sum
        why = is_current(crates, sources)
        if why:
            build(crates, sources, why, screen)
        with contextlib.suppress(PermissionError):
            put_stamp(crates, sources, begun)
        return 0
    except (Failed, OSError, subprocess.CalledProcessError) as error:
        screen.say(str(error))
        return FAILED
    except Stopped:
        screen.say("stopped; the next run goes on from here")
        return STOPPED


if __name__ == "__main__":
    sys.exit(main())
