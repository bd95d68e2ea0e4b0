#!/usr/bin/env python3
"""Tries the wrong bodies crates/NAME/wrong/*.edit in rounds: many at a time, each in a function of its own.

rounds.py [--write] [CRATE..]         those of these crates; of every crate where none is named
rounds.py --due [--write] [CRATE..]   of these, those that the ledger of refusals does not have as they stand now, and all of a fifth
                                      of the crates, by the day

In a round as many are put into a copy of the crate as stand in different functions, and the prover is asked once for these
functions and for what they call. A wrong body that is masked, or one of a round that does not compile, waits for a later round.
What a wrong body comes to is told in judge.py.

The ledger is gate/refused.txt: the wrong bodies that were refused, with the sum of what that hangs on (ledger.py). Nothing writes it
but this script, and this script only with --write: it puts in each wrong body that it has just seen refused, and takes out each of
which it saw another thing.

The libraries below a crate have to be built as `rt ci` or `rt check` leaves them. Prints a line for each wrong body, with the
goal that refused it, and exits with 1 where one was not refused. The last line is 'N passed, M failed'. What the prover says of
each round goes to the folder that the environment names as ROUNDS_SAID, where it does."""
import argparse
import os
import resource
import shutil
import subprocess
import sys
import tempfile
import time
from concurrent.futures import ThreadPoolExecutor, as_completed
from pathlib import Path

from judge import BAD, MASKED, REFUSED, UNKNOWN, Unusable
from judge import crate_functions, edited, first_error, question, reaches, read_edit, verdict_on_whole, verdicts_on
from ledger import Ledger, body_sum, is_of_the_day
from workspace import PARTS, crates_below, free_memory, processors

MEMORY_OF_A_CHECK = 4_000_000_000


class Crate:
    """A copy of a crate to put wrong bodies into."""

    def __init__(self, root, name, room):
        self.root, self.name, self.room = root, name, Path(room)
        self.folder = root / "crates" / name
        for part in PARTS:
            if (self.folder / part).is_dir():
                shutil.copytree(self.folder / part, self.room / part)
        kept = self.folder / "out" / "incremental"
        if kept.is_dir():
            shutil.copytree(kept, self.room / "kept", copy_function=link_or_copy)
        self.functions = crate_functions(self.folder)
        self.checks = 0

    def check(self, edits):
        """What the prover says of the crate with these wrong bodies."""
        words = question(self.root, self.name, sorted({it.path for edit in edits for it in edit.functions}))
        texts = {file: edited((self.folder / file).read_text(), [it for it in edits if it.file == file]) for file in {it.file for it in edits}}
        for file, text in texts.items():
            (self.room / file).write_text(text)
        for _ in range(2):
            ran = subprocess.run(words, cwd=self.room, stdin=subprocess.DEVNULL, stdout=subprocess.PIPE, stderr=subprocess.STDOUT, text=True, errors="replace")
            # One that was killed, most likely for memory, is tried once more.
            if ran.returncode >= 0:
                break
        for file in texts:
            shutil.copyfile(self.folder / file, self.room / file)
        self.checks += 1
        if os.environ.get("ROUNDS_SAID"):
            Path(os.environ["ROUNDS_SAID"], f"{self.name}-{self.checks}.out").write_text(ran.stdout)
        return ran.stdout


def link_or_copy(one, other):
    """Gives a proof that is kept a second name: the prover replaces such a file, and changes none."""
    if one.endswith(".oantt"):
        os.link(one, other)
    else:
        shutil.copyfile(one, other)


def chosen(left, blocks):
    """As many of these wrong bodies as stand in different functions, none of which is known to mask another's."""
    taken, functions = [], set()
    for edit in left:
        own = {it.path for it in edit.functions}
        masks = {it for path in own for it in blocks.get(path, ())}
        masked = {path for path in functions if own & set(blocks.get(path, ()))}
        if not own & functions and not masks & functions and not masked:
            taken.append(edit)
            functions |= own
    return taken


def settle(crate, batch, blocks):
    """What each wrong body of the batch comes to, those apart that have to wait. Where nothing is settled, it is tried by halves."""
    said = crate.check(batch)
    verdicts = verdicts_on(said, crate.name, crate.functions, batch)
    if verdicts:
        functions = [it for edit in batch for it in edit.functions]
        for edit, (kind, _) in verdicts.items():
            if kind == MASKED:
                for own in edit.functions:
                    blocks.setdefault(own.path, set()).update(it.path for it in functions if it.path != own.path and reaches(said, crate.name, own, it))
        if any(kind != MASKED for kind, _ in verdicts.values()):
            return verdicts
    if len(batch) == 1:
        return {batch[0]: (UNKNOWN, "its function is not tried though it stands alone") if verdicts else (BAD, first_error(said))}
    half = len(batch) // 2
    return settle(crate, batch[:half], blocks) | settle(crate, batch[half:], blocks)


def try_crate(root, name, files):
    """The lines that tell of these wrong bodies of a crate, the names of those that were refused, and of those that were not."""
    began, lines, refused, missed = time.time(), [], set(), set()

    def tell(edit, kind, why):
        (refused if kind == REFUSED else missed).add(edit)
        lines.append(f"wrong {name}/{edit}: {kind}: {why}")

    with tempfile.TemporaryDirectory(prefix="rounds-") as room:
        crate, left, blocks = Crate(root, name, room), [], {}
        for path in sorted(files):
            try:
                if path.suffix != ".edit":
                    raise Unusable("it is no .edit file")
                left.append(read_edit(path, crate.folder, crate.functions))
            except Unusable as why:
                tell(path.stem, BAD, why)
        try:
            for edit in [it for it in left if not it.functions]:
                tell(edit.name, *verdict_on_whole(crate.check([edit]), crate.functions))
                left.remove(edit)
            while left:
                verdicts = settle(crate, chosen(left, blocks), blocks)
                for edit, (kind, why) in verdicts.items():
                    if kind != MASKED:
                        tell(edit.name, kind, why)
                settled = {it for it, (kind, _) in verdicts.items() if kind != MASKED}
                # Those that were masked go first in the next round.
                left = [it for it in left if it in verdicts and it not in settled] + [it for it in left if it not in verdicts]
        except Unusable as why:
            for edit in left:
                tell(edit.name, UNKNOWN, why)
    lines.append(f"rounds: {name}: {len(refused | missed)} wrong bodies in {crate.checks} checks, {time.time() - began:.0f} seconds")
    return lines, refused, missed


def lanes():
    """How many checks run at a time: one for each processor, as many as memory holds."""
    return max(1, min(processors(), free_memory() // MEMORY_OF_A_CHECK))


def bodies_of(root):
    """The wrong bodies of each crate that has any, as files."""
    found = {it: sorted((root / "crates" / it / "wrong").glob("*")) for it in crates_below(root)}
    return {it: files for it, files in found.items() if files}


def due(bodies, ledger, day):
    """Of these wrong bodies those that are tried on a day, by crate: what the ledger does not have, and the day's fifth."""
    found = {it: files if is_of_the_day(it, day) else ledger.left(it, files) for it, files in bodies.items()}
    return {it: files for it, files in found.items() if files}


def count(bodies):
    """How many wrong bodies these are."""
    return sum(map(len, bodies.values()))


def try_all(root, wanted, ledger, known):
    """Tries these wrong bodies, which are given by crate, and prints what comes of them. How many were refused, and how many not. The
    ledger is written crate by crate, of the known ones alone, where such are given."""
    weight = {it: len(files) * len(crate_functions(root / "crates" / it)) for it, files in wanted.items()}
    sums, passed, failed = {it: ledger.sum_of(it) for it in wanted}, 0, 0
    bodies = {it: {path.stem: body_sum(path) for path in files} for it, files in wanted.items()}
    with ThreadPoolExecutor(lanes()) as pool:
        # The longest begin first.
        tasks = {pool.submit(try_crate, root, it, wanted[it]): it for it in sorted(wanted, key=lambda it: -weight[it])}
        for task in as_completed(tasks):
            name, (lines, refused, missed) = tasks[task], task.result()
            print("\n".join(lines), flush=True)
            passed, failed = passed + len(refused), failed + len(missed)
            ledger.enter(name, sums[name], {bodies[name][it] for it in refused}, {bodies[name][it] for it in missed})
            if known:
                ledger.write(known)
    return passed, failed


def main(words, root=Path(__file__).resolve().parent.parent, day=None):
    parser = argparse.ArgumentParser(description="Tries wrong bodies in rounds.")
    parser.add_argument("--due", action="store_true", help="those that the ledger does not have, and the day's fifth of the others")
    parser.add_argument("--write", action="store_true", help="write the ledger")
    parser.add_argument("names", metavar="CRATE", nargs="*", help="a crate; all where none is given")
    given = parser.parse_args(words)
    bodies, ledger = bodies_of(root), Ledger(root)
    unknown = [it for it in given.names if it not in crates_below(root)]
    if unknown:
        print(f"rounds: crates.txt has no crate {' '.join(unknown)}")
        return 2
    asked = {it: bodies[it] for it in given.names or bodies if it in bodies}
    wanted = asked
    if given.due:
        wanted = due(asked, ledger, time.time() // 86400 if day is None else day)
        print(f"rounds: {count(asked) - count(wanted)} wrong bodies were refused as they stand (gate/refused.txt): not tried anew", flush=True)
    passed, failed = try_all(root, wanted, ledger, bodies if given.write else None)
    used = resource.getrusage(resource.RUSAGE_CHILDREN)
    print(f"rounds: {used.ru_utime + used.ru_stime:.0f} CPU seconds")
    print(f"{passed} passed, {failed} failed")
    return 1 if failed or not bodies or wanted and not passed else 0


if __name__ == "__main__":
    sys.exit(main(sys.argv[1:]))
