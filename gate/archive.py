#!/usr/bin/env python3
"""Builds a crate that is a static library: proves it once, and has each compiler of the kit that is named make its archive.

archive.py CRATE COMPILER=FILE..    the compilers are llvm and rattle

It stands on the libraries that are built below the crate, whether `rt ci` or a build left them; `rt lib` takes none that `rt ci` left,
and proves all of them anew. Where one is older than what it is made of, they are built first (build.py). It ends with 1 where the
crate is not proved, or a compiler refuses it."""
import subprocess
import sys
import tempfile
from pathlib import Path

from workspace import crate_words, kit, old_below

ROOT = Path(__file__).resolve().parent.parent
COMPILERS = ("llvm", "rattle")


class Unbuilt(Exception):
    """A step that failed, which has said why."""


def run(words, folder):
    """Runs a step in a folder."""
    if subprocess.run([str(it) for it in words], cwd=folder, stdin=subprocess.DEVNULL).returncode:
        raise Unbuilt


def build(root, name, archives):
    """Builds what stands below a crate, where that is not built as it stands; proves the crate, and makes an archive by each compiler."""
    if old_below(root, name):
        # Builds go on under the lock on ./seamless alone.
        run(["flock", "seamless", "python3", "-B", "gate/build.py", "--below", name], root)
    rattle, folder = kit() / "bin" / "rattle", root / "crates" / name
    words = [*crate_words(root, name), "--crate-type", "staticlib"]
    with tempfile.TemporaryDirectory(prefix="archive-") as room:
        checked = Path(room) / "checked"
        run([rattle, "check", *words, "--logic-built", kit() / "logic_built", "--jobs", 2, "-o", checked], folder)
        for compiler, file in archives:
            run([rattle, "build", *words, "--crate-checked", checked, "--toolchain", kit() / "toolchain", "--backend", compiler, "-o", file], folder)


def main(words, root=ROOT):
    archives = [(it.split("=", 1)[0], Path(it.split("=", 1)[1]).absolute()) for it in words[1:] if "=" in it]
    if not archives or len(archives) != len(words) - 1 or any(it not in COMPILERS for it, _ in archives):
        print("archive: takes a crate, and llvm=FILE, rattle=FILE or both", file=sys.stderr)
        return 2
    for _, file in archives:
        file.parent.mkdir(parents=True, exist_ok=True)
    try:
        build(root, words[0], archives)
    except Unbuilt:
        return 1
    return 0


if __name__ == "__main__":
    sys.exit(main(sys.argv[1:]))
