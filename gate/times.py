#!/usr/bin/env python3
"""What the parts of the gate take of the processors, crate by crate.

times.py COMMAND..   runs the command, and notes in out/times.txt what the checks that it starts take: of each crate its proof, its
                     tests, its must-fail edits and its rounds of wrong bodies
times.py --write     writes what was noted on this machine into gate/times.txt, which is the table for those that noted nothing

A line of either file is a crate, a part and seconds. Of a crate that no table has the time is taken from its lines. Nothing rests on
these figures but what is said of the time, and in which order crates are built."""
import os
import re
import subprocess
import sys
import tempfile
import threading
from pathlib import Path

from workspace import crates_below, lines_of

ROOT = Path(__file__).resolve().parent.parent
PARTS = ("proof", "tests", "edits", "rounds")
# Where no table has a crate: seconds that a part takes at the least, and for each line of source, definitions and proofs.
AT_LEAST = {"proof": 15, "tests": 15, "edits": 30, "rounds": 30}
OF_A_LINE = {"proof": 0.06, "tests": 0.1, "edits": 0.04, "rounds": 0.04}
EVERY = 1.0
TICKS = os.sysconf("SC_CLK_TCK")
HEAD = "# Seconds of a processor that a part of each crate takes in the gate. Written by gate/times.py --write alone.\n"


def read(file):
    """The seconds of a table, by crate and part."""
    lines = file.read_text().split("\n") if file.is_file() else []
    found = (re.fullmatch(r"(\w+) (\w+) (\d+)", line) for line in lines)
    return {(it[1], it[2]): int(it[3]) for it in found if it}


class Times:
    """The times that are known: those of this machine, or else those of the repository."""

    def __init__(self, root):
        self.root, self.noted, self.given = root, root / "out" / "times.txt", root / "gate" / "times.txt"
        self.seconds = {**read(self.given), **read(self.noted)}

    def of(self, name, part):
        """The seconds that this part of a crate takes, as it took before, or else by its lines."""
        known = self.seconds.get((name, part))
        return AT_LEAST[part] + OF_A_LINE[part] * lines_of(self.root, name) if known is None else known

    def note(self, seconds):
        """Writes these down, beside what this machine noted before. Of rounds, which often try a part of a crate's wrong bodies, the
        longest stays."""
        before = read(self.noted)
        now = {it: max(round(taken), before.get(it, 0) if it[1] == "rounds" else 0) for it, taken in seconds.items()}
        write(self.noted, {**before, **now})

    def write(self):
        """Writes what is known of crates that are there into the table of the repository."""
        below = crates_below(self.root)
        write(self.given, {it: taken for it, taken in self.seconds.items() if it[0] in below}, HEAD)


def write(file, seconds, head=""):
    """Writes a table, at once."""
    file.parent.mkdir(exist_ok=True)
    with tempfile.NamedTemporaryFile("w", dir=file.parent, prefix="times-", delete=False) as made:
        made.write(head + "".join(f"{name} {part} {seconds[name, part]}\n" for name, part in sorted(seconds)))
    os.chmod(made.name, 0o644)
    os.replace(made.name, file)


def part_of(words, folder):
    """The crate and the part that a command of the prover is, by its words and by the folder that it works in; None of another."""
    if len(words) < 2 or Path(words[0]).name != "rattle" or "--crate-name" not in words[:-1]:
        return None
    part = "edits" if "/rt-edit" in folder else "rounds" if "/rounds-" in folder else "tests" if "--test" in words else "proof"
    return words[words.index("--crate-name") + 1], part


def checks_below(top):
    """The prover's processes below a process: of each its number, its crate and part, and its seconds so far."""
    parents, ticks = {}, {}
    for entry in os.listdir("/proc"):
        if entry.isdigit():
            try:
                stat = Path("/proc", entry, "stat").read_text().rpartition(")")[2].split()
            except OSError:
                continue
            parents[int(entry)], ticks[int(entry)] = int(stat[1]), int(stat[11]) + int(stat[12])
    for number in parents:
        above = number
        while above in parents and above != top:
            above = parents[above]
        if above == top:
            try:
                words = Path("/proc", str(number), "cmdline").read_bytes().decode(errors="replace").split("\0")
                part = part_of(words, os.readlink(f"/proc/{number}/cwd"))
            except OSError:
                continue
            if part:
                yield number, part, ticks[number] / TICKS


def watched(command, every=EVERY):
    """Runs a command: its status, and the seconds that the prover took below it, by crate and part."""
    ran, found, ended = subprocess.Popen(command), {}, threading.Event()

    def watch():
        while not ended.wait(every):
            found.update({(number, part): seconds for number, part, seconds in checks_below(ran.pid)})

    watcher = threading.Thread(target=watch)
    watcher.start()
    try:
        status = ran.wait()
    finally:
        ended.set()
        watcher.join()
    taken = {}
    for (_, part), seconds in found.items():
        taken[part] = taken.get(part, 0) + seconds
    return status, taken


def main(words):
    times = Times(ROOT)
    if words == ["--write"]:
        times.write()
        return 0
    if not words or words[0].startswith("-"):
        print(__doc__)
        return 2
    try:
        status, taken = watched(words)
    except KeyboardInterrupt:
        return 130
    times.note(taken)
    return status if status >= 0 else 128 - status


if __name__ == "__main__":
    sys.exit(main(sys.argv[1:]))
