"""The ledger of refusals, gate/refused.txt: of each crate the wrong bodies that the rounds have seen refused, by their texts, with the
sum of what that hangs on. While both are the same, trying them anew shows the same.

A refusal hangs on the wrong body itself, on the crate's sources, definitions and proofs, on those of each crate of the repository
below it, on the lines of crates.txt of all these, on the logic that the kit proves by, and on what is asked of the prover and how its
words are read (judge.py). It hangs on no path, no time, no other wrong body and nothing that was built.

What no sum can see (a kit of the same logic that judges otherwise, a flaw of the rounds) is found on the crate's own day of five, and
by `./check --all`, which looks at no ledger."""
import hashlib
import subprocess
from pathlib import Path

from workspace import PARTS, closure, crates_below, files_of

DAYS = 5
JUDGE = Path(__file__).resolve().parent / "judge.py"
HEAD = """# Of each crate the sum of what the refusal of its wrong bodies hangs on, and those that were refused over it (gate/ledger.py).
# Written by gate/rounds.py --write alone.
"""


def is_of_the_day(name, day):
    """Whether a crate's wrong bodies are tried on this day, counted from any, whatever the ledger has: each crate once in five."""
    return int(hashlib.sha256(name.encode()).hexdigest(), 16) % DAYS == day % DAYS


def logic_of_kit():
    """The logic that the kit proves by, as its own line names it: 'KIT logic SUM'. Kits of one logic prove and refuse the same."""
    line = subprocess.run(["rt", "version"], capture_output=True, text=True, check=True).stdout.strip()
    return line.partition(" logic ")[2] or line


def body_sum(path):
    """The sum by which the ledger knows a wrong body: of its text, wherever it stands."""
    return hashlib.sha256(path.read_bytes()).hexdigest()[:12]


class Ledger:
    """What the ledger of a repository has, and what it is to have."""

    def __init__(self, root):
        self.root, self.file, self.below = root, root / "gate" / "refused.txt", crates_below(root)
        lines = self.file.read_text().split("\n") if self.file.is_file() else []
        words = [line.replace(":", "", 1).split() for line in lines if ": " in line and not line.startswith("#")]
        self.entries = {name: (sum, set(bodies)) for name, sum, *bodies in words}
        self.logic, self.judge, self.sums = logic_of_kit(), JUDGE.read_bytes(), {}

    def part_sum(self, name):
        """The sum of the files of a crate that proofs hang on, and of its line of crates.txt."""
        if name not in self.sums:
            found = hashlib.sha256(repr((name, self.below[name])).encode())
            for path in files_of(self.root, name, PARTS):
                inside = path.relative_to(self.root / "crates" / name).as_posix()
                found.update(repr((inside, path.read_bytes())).encode())
            self.sums[name] = found.hexdigest()
        return self.sums[name]

    def sum_of(self, name):
        """The sum of all that the refusal of any wrong body of a crate hangs on, but for the body itself."""
        parts = [self.part_sum(it) for it in sorted(closure(self.below, [name]))]
        return hashlib.sha256(repr((self.logic, self.judge, parts)).encode()).hexdigest()

    def refused(self, name):
        """The sums of the wrong bodies that were seen refused over the crate as it stands."""
        sum, bodies = self.entries.get(name, ("", set()))
        return bodies if sum == self.sum_of(name) else set()

    def left(self, name, paths):
        """Of these wrong bodies of a crate those that were not seen refused as all stands."""
        known = self.refused(name)
        return [it for it in paths if body_sum(it) not in known]

    def enter(self, name, sum, refused, missed):
        """Notes what was tried over a crate that had this sum before: the sums of the wrong bodies that were refused, and of those that
        were not. Where files have changed since, it is not known over which of them."""
        self.sums.clear()
        known = self.refused(name)
        here = {body_sum(it) for it in (self.root / "crates" / name / "wrong").glob("*")}
        bodies = (known | refused if sum == self.sum_of(name) else known) - missed
        self.entries[name] = (self.sum_of(name), bodies & here)

    def write(self, names):
        """Writes the ledger, of these crates alone."""
        lines = [f"{' '.join([f'{name}:', sum, *sorted(bodies)])}\n" for name, (sum, bodies) in sorted(self.entries.items()) if name in names and bodies]
        self.file.write_text(HEAD + "".join(lines))
