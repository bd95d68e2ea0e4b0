"""Runs of the program on cases of examples/cases, in each of which one allocation is refused.

Such a run either does without and writes what it writes with all its memory; or it ends with status 1, names the fault `memory` and
has written a front of that, in whole lines if it writes text, and behind the front of a script of captures the comment that tells
the fault; or it ends with status 2 and has written nothing, where the command line could not be read.
"""
import os
import re
import subprocess
from pathlib import Path

import cases

TOP = Path(__file__).resolve().parent.parent
CASES = TOP / "examples" / "cases"
# Subcommands that write octets and no lines.
OCTETS = ("merge",)


class Ran:
    """What came of a run."""

    def __init__(self, status, out, err, text):
        self.status, self.out, self.err = status, out, err
        asked = re.search(r"^refused \d+ of (\d+)$", text, re.M)
        live = re.search(r"^live (\d+)$", text, re.M)
        self.asked, self.live = int(asked[1]) if asked else 0, int(live[1]) if live else 0


def run(program, case, library, room, number, seconds):
    """A run in which the allocation with this number is refused."""
    folder = CASES / case
    to = f"{room}/{case}_{number}"
    stdin = cases.place(TOP, folder, "stdin")
    env = {"LD_PRELOAD": library, "REFUSE": f"at {number}", "REFUSE_TO": to}
    with open(stdin if stdin.exists() else os.devnull, "rb") as source:
        try:
            ran = subprocess.run([program, *cases.lines(cases.octets(folder / "args"))], env=env, cwd=TOP, stdin=source,
                                 capture_output=True, timeout=seconds)
            status, out, err = ran.returncode, ran.stdout, ran.stderr
        except subprocess.TimeoutExpired:
            status, out, err = "hangs", b"", b""
    text = ""
    if os.path.exists(to):
        with open(to, encoding="ascii") as file:
            text = file.read()
        os.remove(to)
    return Ran(status, out, err, text)


def flaw(ran, whole, has_lines):
    """What is wrong with a run, beside one with all its memory; nothing where it is as it has to be."""
    if ran.live > whole.live:
        return f"left {ran.live - whole.live}"
    if ran.status == whole.status:
        return None if ran.out == whole.out else "another output"
    if ran.status == 2:
        return "output without a command line" if ran.out else None
    if ran.status != 1:
        return f"status {ran.status}"
    if not re.search(rb'^(fault (\S+ )?memory\b|\{"line":"fault",.*"fault":"memory",)', ran.err, re.M):
        return f"told as {ran.err!r}"
    front = re.sub(rb"(^|\n)# fault \S+ memory( \d+)?\n$", rb"\1", ran.out)
    if not whole.out.startswith(front):
        return "no front of the output"
    if has_lines and front and not front.endswith(b"\n"):
        return "a part of a line"
    return None


def sweep(found, program, subcommand, case, library, room, seconds, most):
    """Refuses each allocation of the program on a case, up to so many."""
    whole = run(program, case, library, room, 0, seconds)
    found.asked, found.live = whole.asked, whole.live
    if whole.status != 0:
        found.faults.append(f"with all its memory: {whole.status}")
        return found
    for number in range(1, min(whole.asked, most) + 1):
        wrong = flaw(run(program, case, library, room, number, seconds), whole, subcommand not in OCTETS)
        if wrong:
            found.faults.append(f"at {number} {wrong}")
        found.refused += 1
    return found
