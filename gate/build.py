#!/usr/bin/env python3
"""Proves and builds crates side by side, each as soon as those below it are built: a library by `rt lib`, a program by `rt run`.

build.py CRATE..           these crates and those below them
build.py --below CRATE..   those below them
build.py --drop-old        takes away libraries that are older than what they are made of, and builds nothing

It is called under the lock on ./seamless, so that there is one build at a time.

`rt` holds each crate below the one that it builds until it ends, so that two builds in one tree wait for each other. So each has a
room: a folder with a crates.txt of its own, copies of the sources, and hard links to the libraries that stand built. What is built
there goes back into the tree in one step, once it is whole; what was proved goes back also where the build failed or was broken off.
The rooms are below .git, where neither git nor `rt ci` looks, or among the temporary files where there is no such folder. A build
that ends, however it ends, leaves none that the next one does not take away.

First comes what has the longest chain of others above it, by the times of the last builds (times.py). As many go on at a time as there
are processors, and memory for each; where fewer are ready, one gets several processors. Standard error has a line for each crate, with
the time that is left."""
import contextlib
import ctypes
import os
import shutil
import signal
import subprocess
import sys
import tempfile
import time
from dataclasses import dataclass
from pathlib import Path

from times import Times
from workspace import PARTS, closure, crates_below, free_memory, is_library_old, processors

ROOT = Path(__file__).resolve().parent.parent
MEMORY_OF_A_BUILD = 3_000_000_000
MOST_JOBS = 4
ENDS_WITH_PARENT = 1


class BrokenOff(Exception):
    """A signal that ends the build."""


def say(text):
    print(f"seamless: {text}", file=sys.stderr, flush=True)


def end_with_parent():
    """Has this process end when the one that started it does, however that ends."""
    ctypes.CDLL(None).prctl(ENDS_WITH_PARENT, signal.SIGTERM)


def link_or_copy(one, other):
    """Gives a file a second name, or copies it where it lies on another file system."""
    try:
        os.link(one, other)
    except OSError:
        shutil.copyfile(one, other)


def link_proof(one, other):
    """As `link_or_copy` for what the prover replaces and never changes; what else it keeps is copied."""
    (link_or_copy if one.endswith(".oantt") else shutil.copyfile)(one, other)


class Room:
    """A folder with what the build of a crate reads."""

    def __init__(self, root, below, name, folder):
        self.root, self.name, self.folder = root, name, folder
        needed = closure(below, [name])
        lines = (root / "crates.txt").read_text().split("\n")
        (folder / "crates.txt").write_text("".join(f"{line}\n" for line in lines if line.split(":")[0].split(" ")[0] in needed))
        if (root / "HANDLES").is_file():
            shutil.copyfile(root / "HANDLES", folder / "HANDLES")
        for crate in needed:
            for part in PARTS:
                self.take(crate, part, shutil.copyfile)
            self.take(crate, "out/rlib", link_or_copy)
        self.take(name, "out/incremental", link_proof)

    def take(self, crate, part, copy):
        """Gives the room a part of a crate, where the crate has it."""
        one, other = self.root / "crates" / crate / part, self.folder / "crates" / crate / part
        if one.is_dir():
            shutil.copytree(one, other, copy_function=copy)
        elif part == "src":
            raise FileNotFoundError(one)

    def date(self, day):
        """Says of the library that it is of this time, from which on its sources were read: `is_library_old` asks."""
        library = self.folder / "crates" / self.name / "out" / "rlib" / f"{self.name}.rlib"
        if library.is_dir():
            os.utime(library, (day, day))

    def give_back(self, part):
        """Puts what was made into the tree, in the place of what is there."""
        made, kept = self.folder / "crates" / self.name / "out" / part, self.root / "crates" / self.name / "out" / part
        if made.is_dir():
            kept.parent.mkdir(exist_ok=True)
            with contextlib.suppress(FileNotFoundError):
                os.rename(kept, self.folder / f"old-{part}")
            os.rename(made, kept)


@dataclass
class Running:
    """A build that goes on: its crate, its room where it has one, its log, how many processors it got, when it began by the clock of
    files and by that of intervals, and its process."""

    name: str
    room: Room
    log: Path
    jobs: int
    day: float
    began: float
    process: subprocess.Popen


class Build:
    """The build of some crates, as far as it is."""

    def __init__(self, root, names, rooms):
        self.root, self.rooms, self.below, self.times = root, rooms, crates_below(root), Times(root)
        self.needed = closure(self.below, names)
        self.lower = {it: [lower for lower in self.below[it] if lower in self.below] for it in self.needed}
        # What looks built takes a moment; `rt` alone knows.
        self.fresh = {it for it in self.needed if not is_library_old(root, self.below, it)}
        self.expected = {it: 1.0 if it in self.fresh else max(1.0, self.times.of(it, "proof")) for it in self.needed}
        self.built, self.running, self.failed, self.done, self.seconds = set(), [], None, [], {}
        self.lanes = max(1, min(processors(), free_memory() // MEMORY_OF_A_BUILD))
        # The longest chain from a crate to the last above it.
        self.chain = dict(self.expected)
        for name in reversed(self.needed):
            for lower in self.lower[name]:
                self.chain[lower] = max(self.chain[lower], self.expected[lower] + self.chain[name])

    def ready(self):
        """What can begin, the longest chain first."""
        begun = self.built | {it.name for it in self.running}
        ready = [it for it in self.needed if it not in begun and self.built.issuperset(self.lower[it])]
        return sorted(ready, key=lambda it: -self.chain[it])

    def left(self):
        """The seconds that are left, as fast as it has gone so far."""
        now = time.monotonic()
        went = {it.name: now - it.began for it in self.running}
        left = {it: max(0.0, self.expected[it] - went.get(it, 0)) for it in self.needed if it not in self.built}
        chain = max((left[it] + self.chain[it] - self.expected[it] for it in left), default=0)
        expected = sum(self.expected[it] for it in self.done)
        pace = sum(self.seconds[it] for it in self.done) / expected if expected >= 60 else 1
        return pace * max(chain, sum(left.values()) / self.lanes)

    def arguments(self, name):
        """The arguments of a program's shortest run, which are those of the gate."""
        file = self.root / "crates" / name / "args"
        return file.read_text().splitlines() if file.is_file() else []

    def begin(self, name, jobs):
        """Begins a build."""
        day, began, folder = time.time(), time.monotonic(), Path(tempfile.mkdtemp(prefix=f"{name}-", dir=self.rooms))
        is_program = (self.root / "crates" / name / "src" / "main.rt").is_file()
        # Over a program nothing is built: it goes on in the tree, where its executable stays.
        room = None if is_program else Room(self.root, self.below, name, folder)
        words = ["rt", "run", "--", *self.arguments(name)] if is_program else ["rt", "lib", "--jobs", str(jobs)]
        top = self.root if is_program else folder
        log = folder / "log"
        with open(log, "w") as said:
            # What it inherits holds the lock, and the toolchain's allocator keeps the pages that it frees, as in ./check.
            process = subprocess.Popen(words, cwd=top / "crates" / name, stdin=subprocess.DEVNULL, stdout=said, stderr=said, close_fds=False,
                                       preexec_fn=end_with_parent, env={**os.environ, "MIMALLOC_PURGE_DELAY": "-1"})
        self.running.append(Running(name, room, log, jobs, day, began, process))

    def begin_all(self):
        """Begins what there are processors for. After a failure nothing is begun."""
        ready = [] if self.failed else self.ready()
        for at, name in enumerate(ready):
            idle = self.lanes - sum(it.jobs for it in self.running)
            if idle > 0:
                self.begin(name, max(1, min(MOST_JOBS, idle // (len(ready) - at))))

    def end(self, build, status):
        """Takes what a build made, and tells of it."""
        self.running.remove(build)
        taken = time.monotonic() - build.began
        if build.room:
            if status == 0:
                build.room.date(build.day)
                build.room.give_back("rlib")
            build.room.give_back("incremental")
        if status == 0:
            self.built.add(build.name)
            self.done.append(build.name)
            self.seconds[build.name] = taken * build.jobs
            behind = f", about {minutes(self.left())} left" if len(self.built) < len(self.needed) else ""
            say(f"{build.name} is built, {len(self.built)} of {len(self.needed)} after {time.monotonic() - self.began:.0f} seconds{behind}")
        elif status is not None:
            self.failed = build.name
            say(f"{build.name} is not built:")
            sys.stderr.write(build.log.read_text(errors="replace"))
        shutil.rmtree(build.log.parent)

    def run(self):
        """Builds all, and returns whether all is built."""
        self.began = time.monotonic()
        say(f"proving and building {len(self.needed)} crates, {self.lanes} at a time: about {minutes(self.left())}")
        try:
            while True:
                self.begin_all()
                if not self.running:
                    break
                number, status, used = os.wait4(-1, 0)
                build = next((it for it in self.running if it.process.pid == number), None)
                if build:
                    # The process has ended, and `Popen` is not to wait for it.
                    build.process.returncode = os.waitstatus_to_exitcode(status)
                    self.note(build.name, used.ru_utime + used.ru_stime)
                    self.end(build, build.process.returncode)
        finally:
            self.break_off()
        return not self.failed

    def note(self, name, seconds):
        """Notes what a build took, where it was one: what stands built takes a moment. Nothing rests on these figures, so a build goes
        on where they can't be written."""
        if name not in self.fresh:
            with contextlib.suppress(OSError):
                self.times.note({(name, "proof"): seconds})

    def break_off(self):
        """Ends the builds that go on, and keeps what they have proved."""
        for build in self.running:
            build.process.terminate()
        for build in list(self.running):
            build.process.wait()
            self.end(build, None)


def minutes(seconds):
    return f"{seconds:.0f} seconds" if seconds < 100 else f"{seconds / 60:.0f} minutes"


@contextlib.contextmanager
def rooms_of(root):
    """A folder for the rooms of a build, which goes with it. What a build that was killed left there is taken away first."""
    git = root / ".git"
    if git.is_dir():
        rooms = git / "seamless-rooms"
        shutil.rmtree(rooms, ignore_errors=True)
        rooms.mkdir()
    else:
        rooms = Path(tempfile.mkdtemp(prefix="seamless-rooms-"))
    try:
        yield rooms
    finally:
        shutil.rmtree(rooms, ignore_errors=True)


def break_off(*_):
    for it in (signal.SIGINT, signal.SIGTERM, signal.SIGHUP):
        signal.signal(it, signal.SIG_IGN)
    raise BrokenOff


def main(words, root=ROOT):
    below = crates_below(root)
    if words == ["--drop-old"]:
        for name in below:
            if is_library_old(root, below, name):
                shutil.rmtree(root / "crates" / name / "out" / "rlib", ignore_errors=True)
        return 0
    names = words if words[:1] != ["--below"] else [lower for it in words[1:] for lower in below[it] if lower in below]
    end_with_parent()
    for it in (signal.SIGINT, signal.SIGTERM, signal.SIGHUP):
        signal.signal(it, break_off)
    try:
        with rooms_of(root) as rooms:
            return 0 if Build(root, names, rooms).run() else 1
    except BrokenOff:
        say("the build was broken off")
        return 2
    except OSError as why:
        # A full disk, say.
        say(f"the build was broken off: {why}")
        return 2


if __name__ == "__main__":
    sys.exit(main(sys.argv[1:]))
