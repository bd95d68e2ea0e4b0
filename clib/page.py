#!/usr/bin/env python3
"""Compiles and runs the programs of docs/LIBRARY.md, each in an empty folder, against an installed copy of the library, and compares what
they print with what stands below them. Prints a line for each difference, and exits with 1 where there is one.

page.py INSTALLED WORK: INSTALLED is the prefix of the installed copy, WORK a folder to be made."""
import os
import re
import subprocess
import sys
from pathlib import Path

TOP = Path(__file__).resolve().parent.parent


def run(command, folder, installed):
    path = (installed / "lib").as_posix()
    env = dict(os.environ, PKG_CONFIG_PATH=path + "/pkgconfig", LD_LIBRARY_PATH=path, SEAMLESS_LIB_DIR=path,
               SEAMLESS_LIBRARY=path + "/libseamless.so", PYTHONPATH=str(TOP / "bindings/python"), CARGO_TARGET_DIR=str(folder / "target"))
    done = subprocess.run(command, shell=True, cwd=folder, env=env, capture_output=True, text=True)
    return done.stdout if done.returncode == 0 else f"status {done.returncode}\n{done.stdout}{done.stderr}"


def c(text, folder, installed):
    (folder / "main.c").write_text(text)
    return run("cc -Wall -Wextra -Werror main.c $(pkg-config --cflags --libs seamless) && ./a.out", folder, installed)


def rust(text, folder, installed):
    (folder / "src").mkdir()
    (folder / "src/main.rs").write_text(text)
    (folder / "Cargo.toml").write_text(
        f'[package]\nname = "example"\nversion = "0.1.0"\nedition = "2021"\n\n[dependencies]\nseamless = {{ path = "{TOP}/bindings/rust/seamless" }}\n')
    return run("cargo run --offline --quiet", folder, installed)


def python(text, folder, installed):
    (folder / "main.py").write_text(text)
    return run("python3 -B main.py", folder, installed)


def main(installed, work):
    page = (TOP / "docs/LIBRARY.md").read_text()
    shown = re.findall(r"^```(c|rust program|python)\n(.*?)^```\n.*?^```output\n(.*?)^```\n", page, re.MULTILINE | re.DOTALL)
    wrong = 0 if [kind for kind, _, _ in shown] == ["c", "rust program", "python"] else 1
    for kind, text, expected in shown:
        name = kind.split()[0]
        folder = work / name
        folder.mkdir(parents=True)
        printed = {"c": c, "rust": rust, "python": python}[name](text, folder, installed)
        if printed != expected:
            wrong += 1
            print(f"page: the program in {name} prints\n{printed}in place of\n{expected}")
    return 1 if wrong else 0


if __name__ == "__main__":
    sys.exit(main(Path(sys.argv[1]).resolve(), Path(sys.argv[2]).resolve()))
