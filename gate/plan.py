#!/usr/bin/env python3
"""What ./check is about to do, and how long that is likely to take.

plan.py [--all]         prints how many proofs are to be done and how many the toolchain keeps on this machine, which wrong bodies are
                        to be tried, and the time by the tables of times.py; with --all, wrong bodies are all tried
plan.py --lanes         prints how many checks `rt ci` is to run at a time (RT_JOBS), or nothing where it is to choose
plan.py --since COMMIT  prints the crates that differ from that commit, and those above them"""
import importlib.machinery
import importlib.util
import json
import hashlib
import os
import shutil
import subprocess
import sys
import time
from pathlib import Path

from ledger import Ledger
from rounds import bodies_of, count, due
from times import Times
from workspace import PARTS, and_above, closure, crates_below, free_memory, processors

ROOT = Path(__file__).resolve().parent.parent
# The most memory that a check of this repository was seen to take, and what most of them stay below.
LARGEST_CHECK, MOST_CHECKS = 8_000_000_000, 3_000_000_000
# The proofs of this repository together take about four times as long as the longest chain of them.
WIDTH = 4


def lanes(processors, free):
    """How many checks `rt ci` is to run at a time, each on one processor; None where it is to choose for itself.

    Left to itself it holds a crate back where its own estimate of memory, which is twice and more what a check takes, does not fit, so
    that processors stand idle. In exchange it gives a check that runs beside few others up to four processors. On up to four
    processors there is nearly always a check for each, and as many lanes end sooner; on more, the longest chain of proofs is the time,
    and the spare processors shorten it. Of the lanes one may be as large as the largest seen while the others are like most."""
    if processors > WIDTH:
        return None
    held = min(processors, 1 + int(free - LARGEST_CHECK) // MOST_CHECKS)
    return held if held > 1 else None


def toolchain():
    """The module of the toolchain's own command."""
    loader = importlib.machinery.SourceFileLoader("rt", os.path.realpath(shutil.which("rt")))
    made = importlib.util.module_from_spec(importlib.util.spec_from_loader("rt", loader))
    loader.exec_module(made)
    return made


def kept(root, store=None):
    """The proofs that `rt ci` keeps on this machine of the crates as they stand: pairs of a crate, and of whether they are those of its
    tests. None where that can't be known: how the toolchain names what it keeps is its own affair, and this reads it as it is today."""
    try:
        rt = toolchain()
        rt.Crate.allowed = rt.handles_of(str(root))
        keeper, found = rt.Kept.__new__(rt.Kept), set()
        keeper.at, keeper.rlibs = store or rt.STORE, {}
        for crate in rt.crates_of(str(root)):
            if all(it.name in keeper.rlibs for it in crate.below()):
                key = keeper.key(crate)
                if os.path.isdir(keeper.place(crate, True, key)):
                    found.add((crate.name, True))
                entry = Path(keeper.place(crate, False, key), "made.json")
                if entry.is_file():
                    files = [] if crate.is_program else [tuple(it) for it in json.loads(entry.read_text())["files"]]
                    keeper.rlibs[crate.name] = hashlib.sha256(repr(files).encode()).hexdigest()
                    found.add((crate.name, False))
        return found
    except (Exception, SystemExit):
        return None


def has_tests(root, name):
    """Whether a crate has tests."""
    return any("#[test]" in path.read_text() for path in (root / "crates" / name / "src").rglob("*.rt"))


def git(root, *words):
    return subprocess.run(["git", "-C", root, *words], capture_output=True, text=True, check=True).stdout


def differing(root, commit):
    """The crates that differ from a commit, and those above the ones whose sources do."""
    changed = git(root, "diff", "--name-only", commit, "--").splitlines() + git(root, "ls-files", "--others", "--exclude-standard").splitlines()
    parts = [path.split("/") for path in changed if path.startswith("crates/") and not path.endswith("/README.md")]
    below, before = crates_below(root), crates_below(root, git(root, "show", f"{commit}:crates.txt"))
    own = {part[1] for part in parts if part[2] in PARTS} | {it for it in below if below[it] != before.get(it)}
    alone = {part[1] for part in parts}
    above = and_above(below, own)
    return [it for it in below if it in above or it in alone]


def minutes(seconds):
    return f"{seconds / 60:.0f} minutes"


def tell(root, tries_all):
    """Prints the plan."""
    below, times, ledger = crates_below(root), Times(root), Ledger(root)
    proofs = {(it, False) for it in below} | {(it, True) for it in below if has_tests(root, it)}
    known = kept(root)
    to_prove = proofs - known if known is not None else proofs
    if known is None:
        print(f"check: {len(proofs)} proofs of {len(below)} crates and of their tests; what the toolchain keeps of them is not known")
    else:
        print(f"check: {len(to_prove)} of {len(proofs)} proofs of crates and of their tests are to be done; the others are kept on this machine")
    bodies = bodies_of(root)
    tried = bodies if tries_all else due(bodies, ledger, time.time() // 86400)
    print(f"check: {count(tried)} of {count(bodies)} wrong bodies are to be tried in rounds, those of {len(tried)} of {len(bodies)} crates")
    parts = {
        "proofs": sum(times.of(name, "tests" if of_tests else "proof") for name, of_tests in to_prove),
        "must-fail edits": sum(times.of(it, "edits") for it in below if (root / "crates" / it / "must-fail").is_dir() and (it, False) in to_prove),
        "rounds": sum(times.of(it, "rounds") * len(tried[it]) / len(bodies[it]) for it in tried),
    }
    # No crate is proved before those below it.
    alone = {it: times.of(it, "proof") * ((it, False) in to_prove) for it in below}
    chain = max(sum_of_chain(below, alone).values())
    wall = max(chain, (parts["proofs"] + parts["must-fail edits"]) / processors()) + parts["rounds"] / processors()
    told = ", ".join(f"{name} {minutes(taken)}" for name, taken in parts.items())
    print(f"check: about {minutes(wall)} on {processors()} processors, by the times of earlier runs (gate/times.txt); of a processor: {told}", flush=True)


def sum_of_chain(below, alone):
    """Of each crate the longest chain of these times that ends with it."""
    chain = {}
    for name in closure(below, below):
        chain[name] = alone[name] + max((chain[it] for it in below[name] if it in chain), default=0)
    return chain


def main(words):
    if words == ["--lanes"]:
        held = lanes(processors(), free_memory())
        print(held or "")
    elif len(words) == 2 and words[0] == "--since":
        try:
            print("\n".join(differing(ROOT, words[1])))
        except subprocess.CalledProcessError as failed:
            print(f"plan: {failed.stderr.strip()}", file=sys.stderr)
            return 2
    elif words in ([], ["--all"]):
        tell(ROOT, bool(words))
    else:
        print(__doc__)
        return 2
    return 0


if __name__ == "__main__":
    sys.exit(main(sys.argv[1:]))
