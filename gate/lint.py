#!/usr/bin/env python3
"""Looks for what no proof refuses: lines that are too wide, what is public without a comment, limits without a name, one
name for two things, want of memory that nobody met, keys that go no further; documents that name what is not there, show
what is not compiled or run, lack a law or a crate, are too long, or have two wordings for one thing.
Prints a line for each finding, and exits with 1 where there is one.

lint.py [ROOT]: of the repository at ROOT, this one where none is given."""
import re
import sys
from pathlib import Path

from cases import place
from workspace import crates_below

WIDEST_DEFINITION = 140
WIDEST_LEMMA = 150
WIDEST_CLAUSE = 100
MOST_README_WORDS = 1000
MOST_TEST_LINES = 3000
DOCUMENTS = ["README.md", "CHANGELOG.md", "CONTRIBUTING.md", "docs/*.md", "bench/*.md", "crates/*/README.md"]
# The documents that show the program by example.
PROGRAM_PAGES = ["README.md", "docs/PROGRAM.md"]
FILE_ENDINGS = ("rt", "antt", "md", "script", "expected", "status", "pcap", "pcapng", "edit", "txt")


def numbered(path):
    """The lines of a file, each with its number."""
    return enumerate(path.read_text().split("\n"), 1)


def documents(root):
    return [path for pattern in DOCUMENTS for path in sorted(root.glob(pattern))]


def crates(root):
    """The names of crates.txt, in its order."""
    return list(crates_below(root))


def wide_definitions(root):
    """A line of a definition is at most 140 characters wide, one of a file of lemmas 150."""
    for path in sorted(root.glob("crates/*/specs/**/*.antt")):
        widest = WIDEST_LEMMA if path.name.endswith("Lemmas.antt") else WIDEST_DEFINITION
        for number, line in numbered(path):
            if len(line) > widest:
                yield path, number, f"a line of {len(line)} characters"


def clause_lines(lines):
    """The numbers, from 0, of the lines of clauses and of other ghost items in braces."""
    begins = re.compile(r"\s*(pub(\(crate\))? )?(ensures|requires|ghost (?!use\b)\w+)\b")
    inside, depth = False, 0
    for number, line in enumerate(lines):
        if not inside and begins.match(line) and "{" in line:
            inside, depth = True, 0
        if inside:
            yield number
            depth += line.count("{") - line.count("}")
            inside = depth > 0


def wide_clauses(root):
    """A line of a clause, or of another ghost item of the source, is at most 100 characters wide."""
    for path in sorted(root.glob("crates/*/src/**/*.rt")):
        lines = path.read_text().split("\n")
        for number in clause_lines(lines):
            if len(lines[number]) > WIDEST_CLAUSE:
                yield path, number + 1, f"a line of a clause of {len(lines[number])} characters"


def silent_items(root):
    """Whatever a crate makes public has a doc comment; a module has its own."""
    item = re.compile(r"\s*pub (const fn|fn|struct|enum|trait|const|type) (\w+)")
    for path in sorted(root.glob("crates/*/src/**/*.rt")):
        lines = path.read_text().split("\n")
        for number, line in enumerate(lines, 1):
            found = item.match(line)
            if not found:
                continue
            above = number - 2
            while above >= 0 and lines[above].lstrip().startswith(("#[", "// speed: ")):
                above -= 1
            if not lines[above].lstrip().startswith("///"):
                yield path, number, f"`{found[2]}` has no doc comment"


def planned(root):
    """The crates that the map says are planned."""
    behind = (root / "docs/ARCHITECTURE.md").read_text().split("## What is planned")[1:]
    return set(re.findall(r"`(\w+)`", behind[0].split("\n## ")[0])) if behind else set()


# Files beside the crates that have names of which documents speak.
NAMING = ["crates.txt", "check", "seamless", "bench/run", "gate/*.py", "gate/*.txt", "gate/c/*.c", "gate/tests/*.py", "clib/check", "clib/*/*.h",
          "bindings/*/*.py", "bindings/rust/*/*.rs", "examples/endpoint/*.[ch]", "examples/endpoint/test/*.py"]


def missing_names(root):
    """A name in the form of code that a document gives, such as `next_of` or `IsFrame`, is a word of a source, a definition or
    a script, or a crate that is planned. Of the rows of the glossary the words of the standard and of Linux are left out."""
    name = re.compile(r"`([A-Za-z]\w*(?:(?:::|\.)\w+)*)(?:\(\))?`")
    coined = re.compile(r"\w_\w|[a-z][A-Z]")
    files = [path for ending in ("rt", "antt") for path in root.glob(f"crates/*/*/**/*.{ending}")]
    files += [path for pattern in NAMING for path in root.glob(pattern)]
    words = {word for path in files if "/out/" not in path.as_posix() for word in re.findall(r"\w+", path.read_text())}
    words |= planned(root)
    for path in documents(root):
        for number, line in numbered(path):
            cells = line.split("|")
            if path.name == "MODEL.md" and len(cells) == 7:
                line = "|".join(cells[:2] + cells[4:])
            for found in name.findall(line):
                part = re.split(r"::|\.", found)[-1]
                if coined.search(part) and part not in words and part not in FILE_ENDINGS:
                    yield path, number, f"names `{found}`, which no source has"


def anchors(text):
    """The names by which a link can lead to a heading of a document."""
    heads = re.findall(r"^#+ (.*)$", text, re.MULTILINE)
    return {re.sub(r"[^\w -]", "", head.lower()).strip().replace(" ", "-") for head in heads}


def missing_files(root):
    """A file that a document names is there: from the root, beside the document, or in some crate. So is the heading that a
    link names."""
    name = re.compile(r"`([\w./-]+\.(?:%s))`|\]\(([^):#]*)(?:#([^):]*))?\)" % "|".join(FILE_ENDINGS))
    known = [path.as_posix() for path in root.glob("**/*") if "/out/" not in path.as_posix()]
    for path in documents(root):
        for number, line in numbered(path):
            for in_code, linked, anchor in name.findall(line):
                wanted = in_code or linked
                beside = path.parent / wanted if wanted else path
                if not beside.exists() and not any(there.endswith("/" + wanted) for there in known):
                    yield path, number, f"names `{wanted}`, which is not there"
                elif anchor and beside.is_file() and anchor not in anchors(beside.read_text()):
                    yield path, number, f"names the heading `{anchor}`, which is not there"


def crates_out_of_order(root):
    """A crate stands in crates.txt below those that it stands on, so that the file can be read as the map that it is; those of the
    layer `Laws` come behind all that they are about, and some crates take words of theirs."""
    below, laws, layer, above = crates_below(root), set(), "", set()
    lines = list(numbered(root / "crates.txt"))
    named = [(number, line.split("#")[0].split(":")[0].split()[:1]) for number, line in lines]
    for (_, line), (_, name) in zip(lines, named):
        layer = line[2:] if line.startswith("# ") else layer
        laws |= set(name) if layer == "Laws" else set()
    for number, name in ((number, it) for number, names in named for it in names):
        for lower in below[name]:
            if lower in below and lower not in above | laws:
                yield root / "crates.txt", number, f"`{name}` stands on `{lower}`, which stands below it"
        above.add(name)


def crate_tables(root):
    """Each crate that is no crate of tests has a README under its name; the map draws and lists all, and each that it lists
    is there."""
    wanted = crates(root)
    folders = sorted(path.name for path in root.glob("crates/*") if (path / "src").is_dir())
    for name in sorted(set(folders) ^ set(wanted)):
        yield root / "crates.txt", 1, f"`{name}` has no line or no folder"
    architecture = root / "docs/ARCHITECTURE.md"
    page = architecture.read_text()
    here = page.split("## What is here")[-1].split("\n## ")[0]
    listed = re.findall(r"^\| `(\w+)` \|", here, re.MULTILINE)
    for name in sorted(set(wanted) ^ set(listed)):
        yield architecture, 1, f"`{name}` stands in crates.txt or in the table of crates, and not in both"
    drawing = (re.findall(r"^```\n(.*?)^```", page, re.MULTILINE | re.DOTALL) or [""])[0]
    for name in wanted:
        if not re.search(rf"\b{name}\b", drawing):
            yield architecture, 1, f"`{name}` is not in the drawing"
    for name in wanted:
        readme = root / "crates" / name / "README.md"
        if name.startswith("sr_tests_"):
            continue
        if not readme.exists() or not readme.read_text().startswith(f"# {name}\n"):
            yield readme, 1, f"is no README of `{name}`"


# What 12, 15 and 16 bits hold: the wire's own numbers, no limits of this project.
WIRE_NUMBERS = {4095, 4096, 32767, 32768, 65535, 65536}

# Where a number stands that is a limit, and stays: it is the definition's own subject, or a case that is worked out.
SPELLED = {
    "crates/sr_frame/specs/Frame.antt": {1524},  # a frame's longest, which all else is counted from
    "crates/sr_dup_window/specs/Bins.antt": {1024, 2048},  # the widths of a record
    "crates/sr_laws_dup/specs/TableRuns.antt": {65534, 65537},  # numbers that come round
    "crates/sr_slots/specs/Calls.antt": {18446744073709551615},  # the greatest of 64 bits
}


def bare_limits(root):
    """A limit of four digits or more stands in a definition by a name. It gets the name where it is a definition's whole
    right side. Powers of ten are units, and lemmas and files of limits may have any number."""
    named = re.compile(r"^\S+( \S+)? = [\d_]+$")
    for path in sorted(root.glob("crates/*/specs/**/*.antt")):
        if path.name == "Limits.antt" or path.name.endswith("Lemmas.antt"):
            continue
        stays = WIRE_NUMBERS | SPELLED.get(path.relative_to(root).as_posix(), set())
        for number, line in numbered(path):
            code = line.split("--")[0].rstrip()
            if named.match(code):
                continue
            for found in re.findall(r"(?<![\w^])(?<!\^ )\d[\d_]{3,}(?![\w])", code):
                value = int(found.replace("_", ""))
                if value not in stays and not re.fullmatch("10+", str(value)):
                    yield path, number, f"{value} has no name"


def public_names(root):
    """The public definitions of each crate's specs/: of each name the crates, with file and line. Fields of records and
    what the compiler declares are none."""
    top = re.compile(r"(?:abbrev |unfoldable |record |data |codata )?pub (?!mod )(?:record |data |codata )?([^\s:({]+)")
    names = {}
    for path in sorted(root.glob("crates/*/specs/**/*.antt")):
        for number, line in numbered(path):
            found = top.match(line)
            if found:
                names.setdefault(found[1], {}).setdefault(path.relative_to(root).parts[1], (path, number))
    return names


def shared_names(root):
    """The names of gate/shared_names.txt, each with its crates. A line is a name, a colon and crates; # begins a comment."""
    path = root / "gate/shared_names.txt"
    lines = path.read_text().split("\n") if path.exists() else []
    pairs = [line.split(":") for line in lines if ":" in line and not line.startswith("#")]
    return {name.strip(): set(crates.split()) for name, crates in pairs}


def names_twice(root):
    """One public name of specs/ is one crate's, but for those that gate/shared_names.txt lists; it lists no other."""
    shared = shared_names(root)
    names = public_names(root)
    for name, places in sorted(names.items()):
        crates = set(places)
        if len(crates) > 1 and not crates <= shared.get(name, set()):
            path, number = places[max(crates - shared.get(name, set()))]
            yield path, number, f"`{name}` is public in {' and '.join(sorted(crates))}"
    for name, crates in sorted(shared.items()):
        for crate in sorted(crates - set(names.get(name, {}))):
            yield root / "gate/shared_names.txt", 1, f"`{name}` is not public in {crate}"


# Where want of memory is made all the same: the fault of a script of which no line was read yet, that of a line whose refusal
# has no name.
MADE = {
    "crates/sr_session/src/fault.rt",
    "crates/sr_script/src/answering.rt",
}


def makes_lack(code):
    """Whether a line of code has want of memory as a value: not as a type, a variant, or a pattern."""
    if re.match(r"\s*(use|pub use|ghost use|impl|pub struct|pub enum)\b|\s*NoMemory,$", code):
        return False
    for found in re.finditer(r"(?:\w+::)*(?:NoMemory|AllocError)\b|(?:\w+::)+Memory\b", code):
        before, behind = code[: found.start()], code[found.end() :]
        is_type = re.search(r"(<|, |-> |&)$", before) and re.match(r"[>,;]|$| \{", behind)
        is_typed = before.endswith(": ") and "::" not in found[0]
        is_pattern = re.match(r"\)*( =>| \||\(_\))", behind)
        if not (is_type or is_typed or is_pattern or behind.startswith("::")):
            return True
    return False


def made_lacks(root):
    """Want of memory is passed on: it is built where a call failed (an arm of `Err`, the else of `let Ok`, a closure over an
    error), where a pattern names it, or in a `From`, and nowhere else."""
    failed = re.compile(r"(?:\bErr\(.*\)|NoMemory\)?|Memory\)?) =>|\|_\w*\|")
    for path in sorted(root.glob("crates/*/src/**/*.rt")):
        name = path.relative_to(root)
        if name.as_posix() in MADE or name.parts[1].startswith("sr_tests_") or name.name == "tests.rt":
            continue
        lines = path.read_text().split("\n")
        ghost = set(clause_lines(lines))
        inside_from = False
        for number, line in enumerate(lines):
            code = line.split("//")[0].rstrip()
            if re.match(r"(impl|fn|pub|const)\b", code):
                inside_from = "From<" in code
            above = lines[number - 1] if number else ""
            passes = inside_from or failed.search(code) or re.search(r"let Ok\(.*\) = .*else \{", above)
            if number not in ghost and not passes and makes_lack(code):
                yield path, number + 1, "makes want of memory, and passes on none"


# The node that the words of a command line name has fixed keys, until a run draws its own. A C program asks for fixed keys by name. A node
# that only keeps a snapshot while another absorbs it hears nobody.
FIXED_KEYS = {
    "crates/sr_cli/src/meanings.rt": r"\s*keys: Keys::FIXED,\s*",
    "crates/sr_c/src/making.rt": r"\s*return Keys::FIXED;\s*",
    "crates/sr_endpoint/src/keeping.rt": r"\s*NodeOf::resumed\(alloc, Danp::new\(NOBODY\), Mode::H, table, Keys::FIXED\)\s*",
}


def dropped_keys(root):
    """Keys that are given go on: a function that takes keys hands them to each table that it makes, and fixed ones stand in a
    `new` or a `with` alone that takes none. What runs a node of the command line draws keys, and keys that are drawn go on too.
    No clause can see them, since no answer depends on them."""
    sources = [path for path in sorted(root.glob("crates/*/src/**/*.rt")) if path.name != "tests.rt"]
    sources = [path for path in sources if not path.relative_to(root).parts[1].startswith("sr_tests_")]
    keyed = {name for path in sources for name in re.findall(r"\b(\w+)::with_keys\(", path.read_text())}
    for path in sources:
        name = path.relative_to(root).as_posix()
        function, begun, takes, hands_on, drawn, runs, depth = "", 0, False, True, None, False, 0
        for number, line in [*numbered(path), (0, "fn")]:
            code = line.split("//")[0]
            found = re.match(r"\s*(?:pub(?:\(crate\))? )?(?:const )?fn\b ?(\w*)", code)
            if found:
                if not hands_on:
                    yield path, begun, "drops the keys that it is given"
                if drawn is False:
                    yield path, begun, "drops the keys that it draws"
                if runs and drawn is None:
                    yield path, begun, "runs a node of the command line under fixed keys"
                function, begun, takes, hands_on, drawn, runs, depth = found[1], number, False, True, None, False, 0
            if found or depth > 0:
                # Its parameters, up to the bracket that closes them.
                if re.search(r"\bkeys: Keys\b", code):
                    takes, hands_on = True, False
                depth += code.count("(") - code.count(")")
            elif takes:
                hands_on = hands_on or re.search(r"\bkeys\b", code.replace("let _ = keys;", "")) is not None
                if any(name in keyed for name in re.findall(r"\b(\w+)::(?:new|with)\(", code)):
                    yield path, number, "makes a table without the keys that it is given"
            if not found and name.startswith(("crates/sr_cli/", "crates/sr_capture_commands/")):
                runs = runs or re.search(r"\brun_leaving\(", code) is not None
                if "Keys::new(" in code:
                    drawn = False
                elif drawn is False:
                    drawn = re.search(r"\bkeys\b", code) is not None
            if "Keys::FIXED" in code and (takes or function not in ("new", "with")):
                if not re.fullmatch(FIXED_KEYS.get(name, "$"), code):
                    yield path, number, "has fixed keys outside a `new` or a `with`"


def stripped(text):
    return "\n".join(line.strip() for line in text.strip().split("\n"))


def untested_examples(root):
    """The Rust that a document shows stands in a crate of tests, so that it is compiled."""
    tests = [stripped(path.read_text()) for path in sorted(root.glob("crates/sr_tests_*/src/**/*.rt"))]
    for path in documents(root):
        text = path.read_text()
        for shown in re.finditer(r"^```rust\n(.*?)^```", text, re.MULTILINE | re.DOTALL):
            if not any(stripped(shown[1]) in test for test in tests):
                yield path, text.count("\n", 0, shown.start()) + 1, "shows Rust that no crate of tests has"


def program_pages(root):
    return [root / name for name in PROGRAM_PAGES if (root / name).exists()]


def untested_lines(root):
    """A line that a page on the program shows indented, spaces apart and shortened by `..`, stands in a file of examples/, in
    a case or in `check`, which compares it with what the program prints; commands and what stands between fences are left
    out."""
    squashed = lambda text: "".join(text.split())
    files = [path for path in sorted(root.glob("examples/*")) if path.suffix in (".script", ".expected", ".status")]
    files += [path for name in ("stdin", "stdout", "stderr") for path in sorted(root.glob(f"examples/cases/*/{name}"))]
    lines = [squashed(line) for path in files for line in path.read_text(errors="replace").split("\n")]
    if (root / "check").exists():
        lines += [squashed(line.replace("echo ", "", 1)) for _, line in numbered(root / "check")]
    for page in program_pages(root):
        fenced = False
        for number, line in numbered(page):
            fenced = fenced != line.startswith("```")
            if fenced or not line.startswith("    ") or line.lstrip().startswith("./"):
                continue
            shown = re.compile(".*".join(re.escape(squashed(part)) for part in line.split("..")) + "$")
            if not any(shown.match(there) for there in lines):
                yield page, number, "shows a line that no example has"


def untested_commands(root):
    """A command of the program that a page on the program shows, but for pipes, is a case: its arguments and the file of its
    input."""
    folders = [path.parent for path in sorted(root.glob("examples/cases/*/args")) if not (path.parent / "rows").exists()]
    cases = [((folder / "args").read_text(errors="surrogateescape").splitlines(), place(root, folder, "stdin")) for folder in folders]
    command = re.compile(r"(?:^    |`)\./seamless ([^`|<]+?)(?: <\s*([^`|]+))?(?:`|$)")
    for page in program_pages(root):
        for number, line in numbered(page):
            for arguments, source in command.findall(line):
                wanted = arguments.split()
                if not any(args == wanted and (not source or stdin == root / source) for args, stdin in cases):
                    yield page, number, f"shows `{arguments}`, which is no case"


def long_readme(root):
    """README has at most 1000 words, so that reading it aloud takes five minutes."""
    words = len((root / "README.md").read_text().split())
    if words > MOST_README_WORDS:
        yield root / "README.md", 1, f"has {words} words, more than {MOST_README_WORDS}"


def laws(root):
    """The laws in the code, by crate and name, each with file and line: public functions that take and answer nothing, and
    have a clause."""
    law = re.compile(r"^pub fn (\w+)(?:<[^>\n]*>)?\(\)\n((?:[ ]+.*\n)*?)\{", re.MULTILINE)
    found = {}
    for path in sorted(root.glob("crates/*/src/**/*.rt")):
        crate = path.relative_to(root).parts[1]
        if crate.startswith("sr_tests_"):
            continue
        text = path.read_text()
        for function in law.finditer(text):
            if re.search(r"^ +ensures\b", function[2], re.MULTILINE):
                found[crate, function[1]] = path, text.count("\n", 0, function.start()) + 1
    return found


def untold_laws(root):
    """docs/LAWS.md has a row for each law in the code, with its name and its crate, and each law of which it has a row is in
    the code."""
    page = root / "docs/LAWS.md"
    row = re.compile(r"^\| `(\w+)` \| `(\w+)` \|")
    rows = [(row.match(line), number) for number, line in numbered(page)] if page.exists() else []
    told = {(found[2], found[1]): number for found, number in rows if found}
    there = laws(root)
    for crate, name in sorted(set(there) - set(told)):
        path, number = there[crate, name]
        yield path, number, f"`{name}` of {crate} has no row in docs/LAWS.md"
    for crate, name in sorted(set(told) - set(there)):
        yield page, told[crate, name], f"`{name}` is no law of {crate}"


# The one wording is "allocation failed", in whatever tense.
OTHER_FAILED_ALLOCATIONS = re.compile(
    r"(want|lack|shortage)\s+of\s+memory"
    r"|memory\s+(\w+\s+)?(ran|runs|run|running)\s+(out|short)|(ran|runs|run|running)\s+out\s+of\s+memory|out\s+of\s+memory"
    r"|(memory|growths?|allocations?)\s+(that\s+)?(is|was|are|were|be|being|may\s+be|might\s+be|has\s+been|gets|got)(\s+\w+)?\s+(refused|denied|missing|lacking)"
    r"|(memory|growth|allocation)\s+refused|refus(ed|es|ing)\s+(a\s+|an\s+|the\s+|one\s+|each\s+)?(growths?|memory|allocations?)",
    re.IGNORECASE,
)


def comments_alone(text):
    """The text of a source with its comments alone, each sign of them in its place, so that a sentence may go on in the next line."""
    lines = (re.match(r"(\s*//[/!]?)(.*)", line) for line in text.split("\n"))
    return "\n".join(" " * len(line[1]) + line[2] if line else "." for line in lines)


def failed_allocations(root):
    """Documents, and comments of the code, have one wording for an allocation that failed. What stands between backticks is quoted:
    the text of a fault, say."""
    texts = [(path, path.read_text()) for path in documents(root)]
    texts += [(path, comments_alone(path.read_text())) for path in sorted(root.glob("crates/*/src/**/*.rt"))]
    for path, text in texts:
        text = re.sub(r"`[^`\n]*`", lambda quoted: " " * len(quoted[0]), text)
        for found in OTHER_FAILED_ALLOCATIONS.finditer(text):
            said = " ".join(found[0].split())
            yield path, text.count("\n", 0, found.start()) + 1, f"says `{said}` for a failed allocation"


LEANING = re.compile(r"^\s*(//[/!]?|--) (The same|and|And)\b")
COMMENT = re.compile(r"^\s*(//|--)")


def leaning_comments(root):
    """A comment says what it is about: tools show it alone, so none begins with `The same` or `and`."""
    for folder in ("src", "specs", "proofs"):
        for path in sorted(root.glob(f"crates/*/{folder}/**/*.*t")):
            is_behind = False
            for number, line in numbered(path):
                if LEANING.match(line) and not is_behind:
                    yield path, number, "a comment leans on the one above: it begins with `The same` or `and`"
                is_behind = bool(COMMENT.match(line))


def bare_names(root):
    """A name of the code stands in a comment between backticks: one without them is most often a word that a renaming struck."""
    for folder in ("src", "specs", "proofs"):
        for path in sorted(root.glob(f"crates/*/{folder}/**/*.*t")):
            for number, line in numbered(path):
                comment = re.match(r"\s*(?://[/!]?|--) (.*)", line)
                found = re.search(r"\b[a-z]\w*_\w+\b", re.sub(r"`[^`]*`|\]\([^)]*\)", "", comment[1])) if comment else None
                if found:
                    yield path, number, f"{found[0]} stands in a comment without backticks"


def decision_keys(root):
    """Each entry of docs/DECISIONS.md has a key of its own, and each key that a document or a source names is there."""
    page = root / "docs/DECISIONS.md"
    keys = {}
    for number, line in numbered(page) if page.exists() else []:
        for key in re.findall(r"^\*\*(D-[a-z0-9-]+)\.\*\*", line):
            if key in keys:
                yield page, number, f"`{key}` is the key of line {keys[key]}"
            keys.setdefault(key, number)
    sources = [path for ending in ("rt", "antt") for path in sorted(root.glob(f"crates/*/*/**/*.{ending}"))]
    for path in documents(root) + sources:
        for number, line in numbered(path):
            for key in re.findall(r"(?<![\w-])D-[a-z0-9]+(?:-[a-z0-9]+)*", line):
                if key not in keys:
                    yield path, number, f"names `{key}`, which is no decision"


def large_test_crates(root):
    """A crate of tests has at most 3000 lines: a large one is the gate's longest proof, and takes its memory."""
    for folder in sorted(root.glob("crates/sr_tests_*")):
        lines = sum(len(path.read_text().splitlines()) for path in folder.glob("src/**/*.rt"))
        if lines > MOST_TEST_LINES:
            yield folder / "src/lib.rt", 1, f"{folder.name} has {lines} lines, more than {MOST_TEST_LINES}"


RULES = [
    large_test_crates,
    wide_definitions,
    wide_clauses,
    silent_items,
    bare_limits,
    names_twice,
    made_lacks,
    dropped_keys,
    missing_files,
    missing_names,
    crates_out_of_order,
    crate_tables,
    untested_examples,
    untested_lines,
    untested_commands,
    long_readme,
    untold_laws,
    failed_allocations,
    leaning_comments,
    bare_names,
    decision_keys,
]


def findings(root):
    return [(path.relative_to(root), number, text) for rule in RULES for path, number, text in rule(root)]


def main():
    root = Path(sys.argv[1]) if len(sys.argv) > 1 else Path(__file__).resolve().parent.parent
    found = findings(root)
    for path, number, text in found:
        print(f"lint: {path}:{number}: {text}")
    return 1 if found else 0


if __name__ == "__main__":
    sys.exit(main())
