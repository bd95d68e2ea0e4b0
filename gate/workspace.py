"""The crates of the repository, as crates.txt has them, and what the machine has for a run."""
import functools
import os
import re
import subprocess
from pathlib import Path

PARTS = ("src", "specs", "proofs")
QUOTA = Path("/sys/fs/cgroup/cpu.max")


def crates_below(root, text=None):
    """What each crate stands on, as crates.txt has it, or this text of it: crates of the repository and libraries of the kit."""
    text = (root / "crates.txt").read_text() if text is None else text
    lines = [line.split("#")[0] for line in text.split("\n")]
    return {line.split(":")[0].split()[0]: line.split(":")[1].split() for line in lines if ":" in line}


def closure(below, names):
    """These crates and the repository's crates below them, the lowest first."""
    found = {}

    def add(name):
        if name not in found:
            for lower in below[name]:
                if lower in below:
                    add(lower)
            found[name] = None

    for name in names:
        add(name)
    return list(found)


def and_above(below, names):
    """These crates and those above them, in the order of crates.txt."""
    return [it for it in below if not set(closure(below, [it])).isdisjoint(names)]


def files_of(root, name, parts=PARTS):
    """The files of a crate in these folders of it, in order."""
    folder = root / "crates" / name
    return sorted((it for part in parts for it in (folder / part).rglob("*") if it.is_file()), key=lambda it: it.relative_to(folder).as_posix())


def is_library_old(root, below, name):
    """Whether the library of a crate is not there, or was put there before something that it is made of: the folder that it is counts,
    since its files may be second names of older ones."""
    library = root / "crates" / name / "out" / "rlib" / f"{name}.rlib"
    if not (library / "format").is_file():
        return True
    made = library.stat().st_mtime_ns
    parts = (root / "crates" / lower / part for lower in closure(below, [name]) for part in PARTS)
    return any(it.stat().st_mtime_ns > made for part in parts if part.is_dir() for it in (part, *part.rglob("*")))


@functools.lru_cache(maxsize=None)
def kit():
    """Where the toolchain stands."""
    said = subprocess.run(["rt", "doc"], capture_output=True, text=True, check=True).stdout
    return Path(said.strip().split("\n")[-1]).parent


def old_below(root, name):
    """The crates below one whose libraries are not built as they stand."""
    below = crates_below(root)
    return [it for it in closure(below, [name])[:-1] if is_library_old(root, below, it)]


def crate_words(root, name):
    """The words by which the prover is told of a crate and of the libraries below it as they stand built, as rt tells it. They are given in
    the crate's folder or a copy of it."""
    at, below = kit(), crates_below(root)
    ours = closure(below, [name])[:-1]
    library = {it: root / "crates" / it / "out" / "rlib" / f"{it}.rlib" for it in ours}
    library |= {it: at / "rlibs" / f"{it}.rlib" for it in ("std", *below[name]) if it not in below}
    root_file = next(it for it in ("src/lib.rt", "src/main.rt") if (root / "crates" / name / it).is_file())
    words = ["--crate-name", name, root_file, "-L", f"dependency={at / 'rlibs'}"]
    words += [word for it in ("std", *below[name]) for word in ("--extern", f"{it}={library[it]}")]
    words += [word for it in ours for word in ("-L", f"dependency={library[it].parent}")]
    return [*map(str, words), "--antt-project", str(at / "rattle" / "logic" / "antt-project.json"), "--links", f"{name}="]


def how_to_build_below(name):
    """The command that builds what stands below a crate."""
    return f"flock seamless python3 -B gate/build.py --below {name}"


def lines_of(root, name):
    """How many lines of source, definitions and proofs a crate has."""
    return sum(path.read_bytes().count(b"\n") for path in files_of(root, name))


def processors():
    """How many processors there are to use: those that this process may run on, or fewer by the quota of its group."""
    quota = re.match(r"(\d+) (\d+)", QUOTA.read_text()) if QUOTA.is_file() else None
    allowed = len(os.sched_getaffinity(0))
    return max(1, min(allowed, int(quota[1]) // int(quota[2]))) if quota else allowed


def free_memory():
    """The memory that is free, in octets."""
    return 1024 * int(re.search(r"MemAvailable: +(\d+)", Path("/proc/meminfo").read_text())[1])
