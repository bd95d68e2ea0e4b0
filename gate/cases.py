#!/usr/bin/env python3
"""Runs the program on each case of examples/cases, from the top of the repository, and compares what comes of it with what
the case says. The last line counts the cases that passed and failed; exits with 1 where one failed or there is none.

A case is a folder that is named for what it shows. Of its files only `args` has to be there:

    args            the arguments, one a line
    stdin           the standard input; empty where there is no such file
    stdout          the standard output, octet for octet; nothing where there is no such file
    stderr          standard error, octet for octet; nothing where none of these three is there
    stderr-begins   its first lines, where the rest is not looked at
    stderr-has      texts, one a line, that stand in it somewhere
    status          the exit status; 0 where there is no such file
    stdin-is, stdout-is   in place of `stdin` and `stdout`: the path of the file, where a document or another case has it too
    *.pcap, *.pcapng   captures that `args` names
    names           a file of names of nodes that `args` names

In the place of all but `args`, captures and names there may be `rows`: many runs in one file, each with a name (gate/case_rows.py).

cases.py [--program PATH] [NAME..]: the cases of these names, all where none is given, of the program at PATH, ./seamless
where none is given."""
import argparse
import os
import signal
import subprocess
import sys
import tempfile
from pathlib import Path

from case_rows import Flaw, rows_of

ROOT = Path(__file__).resolve().parent.parent
FILES = {"args", "stdin", "stdin-is", "stdout", "stdout-is", "stderr", "stderr-begins", "stderr-has", "status", "names", "rows"}
CAPTURES = {".pcap", ".pcapng"}
MOST_SECONDS = 60
# How much of a line is shown before and behind the first octet that differs: a frame has up to 3000 digits.
SHOWN = 50


def place(root, folder, name):
    """Where a file of a case lies: in its folder, or where a file beside says."""
    elsewhere = folder / f"{name}-is"
    return root / elsewhere.read_text().strip() if elsewhere.exists() else folder / name


def flaws(root, folder):
    """What is wrong with the folder of a case itself."""
    if not folder.is_dir():
        yield "is no folder of examples/cases"
        return
    names = sorted(os.listdir(folder))
    if "args" not in names:
        yield "has no `args`"
    for name in names:
        if name not in FILES and Path(name).suffix not in CAPTURES:
            yield f"`{name}` is no file of a case"
        elif not (folder / name).is_file():
            yield f"`{name}` is no file"
        elif name.endswith("-is") and (name.removesuffix("-is") in names or not place(root, folder, name.removesuffix("-is")).is_file()):
            yield f"`{name}` names no file, or the file is here too"
        elif name in FILES - {"args", "names", "rows"} and "rows" in names:
            yield f"`{name}` stands beside `rows`"
    if "rows" in names:
        try:
            rows_of((folder / "rows").read_text())
        except Flaw as flaw:
            yield f"`rows`: {flaw}"


def octets(path):
    """What a file of a case holds; nothing where it is not there."""
    return path.read_bytes() if path.exists() else b""


def lines(text):
    """The lines of a text, without their ends."""
    # An argument may have octets that are no UTF-8, as a name of a file.
    return text.decode(errors="surrogateescape").splitlines()


def run(program, folder, args, stdin):
    """The standard output, standard error and exit status of a run; `TimeoutExpired` where it does not end."""
    with subprocess.Popen(
        # The name by which the parser's text speaks of the program.
        ["seamless", *args],
        executable=program,
        cwd=folder,
        stdin=stdin,
        stdout=subprocess.PIPE,
        stderr=subprocess.PIPE,
        # A group of its own: what the program started ends with it.
        start_new_session=True,
    ) as process:
        try:
            printed, said = process.communicate(timeout=MOST_SECONDS)
        except BaseException:
            os.killpg(process.pid, signal.SIGKILL)
            raise
    return printed, said, process.returncode


def difference(name, wanted, got):
    """The first line in which two texts differ, shortened around the place."""
    if wanted == got:
        return
    texts = [text.decode(errors="backslashreplace").splitlines(keepends=True) for text in (wanted, got)]
    number = len(os.path.commonprefix(texts))
    differing = ["".join(text[number : number + 1]) for text in texts]
    start = max(0, len(os.path.commonprefix(differing)) - SHOWN)
    shown = [repr(line[start : start + 2 * SHOWN]) if line else "nothing" for line in differing]
    yield f"{name}, line {number + 1}, from column {start + 1}: wanted {shown[0]}, got {shown[1]}"


def run_of_folder(program, root, folder):
    """The run of a case that is one run."""
    stdin = place(root, folder, "stdin")
    with open(stdin if stdin.exists() else os.devnull, "rb") as source:
        return run(program, root, lines(octets(folder / "args")), source)


def run_of_row(program, root, folder, row):
    """The run of one row of a case."""
    with tempfile.TemporaryFile() as source, tempfile.TemporaryDirectory() as room:
        source.write(row.stdin)
        source.seek(0)
        for name, text in row.files.items():
            Path(room, name).write_bytes(text)
        return run(program, room if row.files else root, lines(octets(folder / "args")) + row.args, source)


def differing_status(wanted, status):
    """Whether a run ended otherwise."""
    if wanted != str(status):
        yield f"status: wanted {wanted}, got {status}"


def differences_of_folder(root, folder, printed, said, status):
    """In what a run differs from the files of its case."""
    yield from differing_status(octets(folder / "status").decode().strip() or "0", status)
    yield from difference("stdout", octets(place(root, folder, "stdout")), printed)
    begins, has = octets(folder / "stderr-begins"), octets(folder / "stderr-has")
    if (folder / "stderr").exists() or not begins + has:
        yield from difference("stderr", octets(folder / "stderr"), said)
    yield from difference("stderr", begins, said[: len(begins)])
    for text in lines(has):
        if text.encode() not in said:
            yield f"stderr: has no {text!r}"


def differences_of_row(row, printed, said, status):
    """In what a run differs from its row."""
    yield from differing_status(row.status, status)
    yield from difference("stdout", row.stdout, printed)
    if not row.stderr:
        yield from difference("stderr", b"", said)
    for text in row.stderr:
        if text.encode() not in said.splitlines():
            yield f"stderr: has no line {text!r}"


def differences(program, root, folder):
    """In what the runs of a case differ from it. Those of a row begin with its name."""
    late = f"does not end within {MOST_SECONDS} seconds"
    if not (folder / "rows").exists():
        try:
            yield from differences_of_folder(root, folder, *run_of_folder(program, root, folder))
        except subprocess.TimeoutExpired:
            yield late
        return
    for row in rows_of((folder / "rows").read_text()):
        try:
            found = list(differences_of_row(row, *run_of_row(program, root, folder, row)))
        except subprocess.TimeoutExpired:
            found = [late]
        for text in found:
            yield f"row {row.name}: {text}"


def run_cases(program, root, names):
    """Runs the cases of these names, and prints of each how it went. Whether there is one and all passed."""
    passed = failed = 0
    for name in names:
        folder = root / "examples/cases" / name
        found = list(flaws(root, folder)) or list(differences(program, root, folder))
        passed, failed = (passed, failed + 1) if found else (passed + 1, failed)
        print(f"check: case {name} ... {'FAILED' if found else 'ok'}", flush=True)
        for text in found:
            print(f"    {text}", flush=True)
    if not names:
        failed = 1
        print("check: there is a case ... FAILED")
    print(f"{passed} passed, {failed} failed", flush=True)
    return failed == 0


def main():
    parser = argparse.ArgumentParser(description="Runs the cases of examples/cases.")
    parser.add_argument("--program", type=Path, default=ROOT / "seamless", help="what is run in place of ./seamless")
    parser.add_argument("names", metavar="NAME", nargs="*", help="a case; all where none is given")
    given = parser.parse_args()
    # A name may be given as the path of its folder.
    names = [Path(name).name for name in given.names] or sorted(path.name for path in ROOT.glob("examples/cases/*"))
    return 0 if run_cases(given.program.resolve(), ROOT, names) else 1


if __name__ == "__main__":
    sys.exit(main())
