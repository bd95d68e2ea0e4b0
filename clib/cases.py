#!/usr/bin/env python3
"""Whether the library answers each case of `seamless replay` as the program does, and the recorded traffic of Linux nodes. Prints a line for each
that differs, and exits with 1 where there is one.

cases.py PROGRAM: the program of test/replay.c."""
import re
import subprocess
import sys
from pathlib import Path

TOP = Path(__file__).resolve().parent.parent
ROLES = {"danp": 0, "danh": 1, "san": 2, "prp": 3, "hsr": 4}
RECORDED = [(["replay", "--role", "danp", "--mac", "020000000002"], "linux-prp-node"), (["replay", "--role", "prp", "--mac", "020000000001"], "prp-box")]


def numbers(args):
    """The words of the program for the options of a case."""
    options = dict(zip(args[1::2], args[2::2]))
    mac = re.sub(r"[:-]", "", options["--mac"])
    mode, width = options.get("--mode", "h") == "x", options.get("--window", "1024") == "2048"
    # The program's own choice where nothing is said: LAN A of network 1.
    lan, net = options.get("--lan", "a") == "b", options.get("--net", "1")
    return [mac, *map(str, map(int, [ROLES[options["--role"]], mode, width, lan, net]))]


def text_of(folder, name):
    """The text of this name of a case; `-is` behind the name tells that it is that of another file."""
    other = folder / f"{name}-is"
    file = TOP / other.read_text().strip() if other.exists() else folder / name
    return file.read_text() if file.exists() else ""


def cases():
    """The options, the script and the answers of each good run."""
    for folder in sorted((TOP / "examples/cases").iterdir()):
        if (folder / "rows").exists():
            continue
        # A case may have words that are not UTF-8, or of its standard input: none of those is a good run of replay.
        args = (folder / "args").read_text(errors="surrogateescape").split("\n")[:-1]
        if args[:1] == ["replay"] and "--help" not in args and not (folder / "status").exists():
            yield folder.name, args, text_of(folder, "stdin"), text_of(folder, "stdout")
    for args, name in RECORDED:
        yield name, args, (TOP / f"examples/{name}.script").read_text(), (TOP / f"examples/{name}.expected").read_text()


def main(program):
    tried = wrong = 0
    for name, args, script, answers in cases():
        done = subprocess.run([program, *numbers(args)], input=script, capture_output=True, text=True)
        wanted = re.sub(r"^(refused \d+) (TooShort|TooLong|Truncated|NotOwn)$", r"\1 Unread", answers, flags=re.MULTILINE)
        tried += 1
        if done.returncode or done.stdout != wanted:
            wrong += 1
            print(f"cases: {name}: {' '.join(args)}: the library answers otherwise")
    return 1 if wrong or tried < 20 else 0


if __name__ == "__main__":
    sys.exit(main(sys.argv[1]))
