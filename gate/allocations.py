#!/usr/bin/env python3
"""Refuses each allocation of each test in turn, and sees that the test passes all the same.

    gate/allocations.py [WORD..]     the tests whose names have one of these words; all without a word

The drivers of the tests make a call that was refused again, and see that nothing changed in between. So a test that passes with
its Nth allocation refused, for every N, shows that of each call it makes. One run of the test forks at each allocation
(gate/c/refusing.c); behind the start of a thread there is a run for each N. Tests are built as `rt test` leaves them in out/, and
proved first where a source is newer. A long test is run once instead, with every Kth allocation of its first thread
refused. The program is run on cases of examples/cases too, once for each N (gate/allocation_runs.py). gate/allocations.txt names the
calls and the test in which each is swept, the long tests, the cases, and the tests that are left out. The last line is
`N passed, M failed`.
"""
import concurrent.futures
import fnmatch
import functools
import os
import re
import subprocess
import sys
import tempfile

import allocation_runs

TOP = os.path.dirname(os.path.dirname(os.path.realpath(__file__)))
CRATES = tuple(f"sr_tests_{it}" for it in "format table capture node network script ports workers threaded".split())
# A child that takes longer hangs.
SECONDS = 20
# So many allocations of a test are refused one after the other, and as many of those behind them.
EACH = 2000
# How many tests are looked at in one go.
AT_ONCE = max(1, (os.cpu_count() or 1) - 1)


class Found:
    """What came of one test: how many allocations it made and how many were refused, and what went wrong."""

    def __init__(self):
        self.refused = self.asked = self.live = 0
        self.faults = []

    def read(self, text):
        """Takes what the library wrote. Returns whether there is a second thread."""
        has_threads, left = False, []
        for line in text.splitlines():
            words = line.split()
            if words[0] == "refused":
                self.refused, self.asked = int(words[1]), int(words[3])
            elif words[0] == "live":
                self.live = int(words[1])
            elif words[0] == "threads":
                has_threads = True
            elif words[2] == "left":
                left.append((int(words[3]), line))
            else:
                self.faults.append(line)
        known = {line.split()[1] for line in self.faults if line.startswith("at ")}
        # A thread that ended leaves some blocks, which the C library uses again for the next one.
        self.faults += [line for blocks, line in left if blocks > self.live and line.split()[1] not in known]
        return has_threads


def call(program, test, library, way, room, number=0, seconds=0):
    """Runs one test for some time at most. Returns its status and what the library wrote."""
    to = f"{room}/{re.sub('[^a-z_0-9]', '_', test)}_{number}"
    env = {"LD_PRELOAD": library, "REFUSE": way, "REFUSE_TO": to, "REFUSE_SECONDS": str(SECONDS), "REFUSE_MOST": str(2 * EACH)}
    try:
        ran = subprocess.run([program, test], env=env, cwd=room, stdin=subprocess.DEVNULL, stdout=subprocess.DEVNULL,
                             stderr=subprocess.DEVNULL, timeout=seconds or SECONDS)
        status = ran.returncode
    except subprocess.TimeoutExpired:
        status = "hangs"
    text = ""
    if os.path.exists(to):
        with open(to, encoding="ascii") as file:
            text = file.read()
        os.remove(to)
    return status, text


def sweep(program, test, library, room):
    """Refuses each allocation of one test."""
    found = Found()
    status, text = call(program, test, library, "each", room, seconds=60 * SECONDS)
    if status != 0:
        found.faults.append(f"with all its memory: {status}")
    if not found.read(text):
        return found
    # What comes behind the first thread's start is another's each time: one run for each number.
    whole = found.asked
    first = int(re.search(r"^threads (\d+)$", text, re.M)[1])
    for number in range(first, min(whole, first + EACH) + 1):
        status, text = call(program, test, library, f"at {number}", room, number)
        left = re.search(r"^live (\d+)$", text, re.M)
        if status != 0:
            found.faults.append(f"at {number} {status}")
        elif left and int(left[1]) > found.live:
            found.faults.append(f"at {number} left {left[1]}")
        found.refused += 1
    return found


def soak(program, test, library, room, step):
    """Runs a test with every Kth allocation of its first thread refused, and once with none."""
    found = Found()
    status, text = call(program, test, library, "at 0", room, seconds=30 * SECONDS)
    if status != 0:
        found.faults.append(f"with all its memory: {status}")
    whole = re.search(r"^live (\d+)$", text, re.M)
    status, text = call(program, test, library, f"every {step}", room, step, seconds=30 * SECONDS)
    if status != 0:
        found.faults.append(f"every {step}: {status}")
    found.read(text)
    if not found.refused:
        found.faults.append("nothing was refused")
    if whole and found.live > int(whole[1]):
        found.faults.append(f"every {step} left {found.live - int(whole[1])}")
    return found


class Table:
    """The calls with their tests, the tests that are left out, each with the reason, the long tests, each with its K, and the
    subcommands of the program with a case each."""

    def __init__(self, path):
        self.calls, self.left_out, self.soaks, self.runs = [], {}, {}, []
        with open(path, encoding="utf-8") as file:
            for line in file:
                left, _, right = line.split("#")[0].strip().partition(": ")
                kind, _, name = left.partition(" ")
                if kind == "not":
                    self.left_out[name] = right
                elif kind == "every":
                    self.soaks[right] = int(name)
                elif kind == "seamless":
                    self.runs += [(name, case) for case in right.split()]
                elif left:
                    self.calls.append((left, right.split()))

    def leaves_out(self, name):
        """Whether this test is left out. A name with `*` is that of many: of these the tests that a call names are swept all the
        same."""
        return all(name not in tests for _, tests in self.calls) and any(fnmatch.fnmatch(name, it) for it in self.left_out)

    def lost(self, known):
        """What of the table is no test."""
        for name in sorted(it for it in self.left_out if not fnmatch.filter(known, it)):
            yield f"leaves out {name}"
        for name in sorted(it for it in self.soaks if it not in known):
            yield f"soaks {name}"


def is_old(program, crate):
    """Whether the tests have to be built."""
    if not os.path.exists(program):
        return True
    built = os.stat(program).st_mtime
    for at, folders, files in os.walk(f"{TOP}/crates"):
        folders[:] = [it for it in folders if it != "out"]
        if any(it.endswith((".rt", ".antt")) and os.stat(f"{at}/{it}").st_mtime > built for it in files):
            return True
    return False


def programs(folder):
    """The programs of the tests, by crate: those of this folder, or those that the toolchain builds."""
    made = {}
    for crate in CRATES:
        program = f"{folder}/{crate}_tests" if folder else f"{TOP}/crates/{crate}/out/{crate}_tests"
        if not folder and is_old(program, crate):
            print(f"allocations: building {crate}", flush=True)
            subprocess.run(["rt", "test"], cwd=f"{TOP}/crates/{crate}", stdout=subprocess.DEVNULL)
            os.utime(program)
        made[crate] = program
    return made


def the_program(folder):
    """The program itself: that of this folder, or the one that is built where a source is newer."""
    if folder:
        return f"{folder}/planted"
    subprocess.run([f"{TOP}/seamless", "--version"], stdout=subprocess.DEVNULL)
    return f"{TOP}/crates/sr_cli/out/sr_cli"


def tests_of(program):
    """The tests of a program, by name."""
    ran = subprocess.run([program, "--list"], stdout=subprocess.PIPE, text=True, check=True)
    return re.findall(r"^(\S+): test$", ran.stdout, re.M)


def library_in(room):
    """Builds the library that refuses."""
    library = f"{room}/refusing.so"
    subprocess.run([os.environ.get("CC", "cc"), "-O2", "-Wall", "-Werror", "-shared", "-fPIC", "-o", library,
                    f"{TOP}/gate/c/refusing.c"], check=True)
    return library


def jobs(made, program, listed, library, room):
    """What is to be tried: a name, and a call that answers what was found."""
    for crate, tests in made.items():
        for test in tests_of(tests):
            name = f"{crate}::{test}"
            if name in listed.soaks:
                yield name, functools.partial(soak, tests, test, library, room, listed.soaks[name])
            elif not listed.leaves_out(name):
                yield name, functools.partial(sweep, tests, test, library, room)
    for subcommand, case in listed.runs:
        yield f"{subcommand}::{case}", functools.partial(allocation_runs.sweep, Found(), program, subcommand, case, library, room, SECONDS,
                                                        EACH)


def sweep_all(made, program, words, listed, room):
    """Tries what is asked for, and prints a line for each."""
    swept = {}
    with concurrent.futures.ThreadPoolExecutor(AT_ONCE) as pool:
        wanted = jobs(made, program, listed, library_in(room), room)
        wanted = [it for it in wanted if not words or any(word in it[0] for word in words)]
        running = {pool.submit(job): name for name, job in wanted}
        for done in concurrent.futures.as_completed(running):
            name, found = running[done], done.result()
            swept[name] = found
            verdict = "ok" if not found.faults else f"FAILED ({len(found.faults)}): {'; '.join(found.faults[:5])}"
            print(f"allocations: {name}: {found.refused} of {found.asked} ... {verdict}", flush=True)
    return swept


def main(words, folder=None, listed=f"{TOP}/gate/allocations.txt"):
    listed = Table(listed)
    made = programs(folder)
    program = the_program(folder) if listed.runs else None
    with tempfile.TemporaryDirectory(prefix="allocations-") as room:
        swept = sweep_all(made, program, words, listed, room)
    failed = sum(bool(it.faults) for it in swept.values())
    if not words:
        known = {f"{crate}::{test}" for crate, program in made.items() for test in tests_of(program)}
        for lost in listed.lost(known):
            print(f"allocations: gate/allocations.txt {lost}, which is no test")
            failed += 1
        for name, tests in listed.calls:
            lost = [it for it in tests if it not in swept]
            failed += bool(lost)
            of = [f"{swept[it].refused} of {swept[it].asked}" for it in tests if it in swept]
            print(f"allocations: {name}: {', '.join(of)}" + (f" ... FAILED: not swept: {' '.join(lost)}" if lost else ""))
    print(f"{len(swept) - sum(bool(it.faults) for it in swept.values())} passed, {failed} failed")
    return bool(failed)


if __name__ == "__main__":
    words = sys.argv[1:]
    if words and words[0].startswith("-"):
        sys.exit(__doc__)
    sys.exit(main(words))
