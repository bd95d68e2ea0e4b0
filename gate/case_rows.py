"""Reads the `rows` of a case: many runs of the program that stand in one file, each with a name of its own.

A line of the file is one of these; one that begins with # is a comment, and an empty one says nothing:

    let NAME TEXT      in the lines below, {NAME} is this text
    row NAME           a run, of which the lines below tell, up to the next row
    args WORD..        its arguments behind those of the file `args`
    < TEXT             a line of its standard input
    > TEXT             a line of its standard output
    ! TEXT             a line of its standard error, and the run ends with status 1
    ? TEXT             a line of its standard error, and the run ends with status 0; without one of both it says nothing
    file NAME HEX      octets of a file of this name, behind those that it has; a run with files goes on in a folder of its own, where they lie
    each FIRST LAST    the lines from here to `end` come once for each of these numbers, {high} and {low} its octets as two digits each
    form NAME          what the runs of this form have in common, in the place of `row`; {text} is where they differ
    NAME "TEXT"        a run of the form of this name

In a TEXT {WORD*COUNT} is a word so many times, or the text of a name; names are of capitals. \\n, \\r, \\t, \\0, \\\\, \\{ and \\xHH are single octets, and a line
that ends with \\ has no LF."""
import re
from dataclasses import dataclass, field

HOLE = re.compile(r"(?<!\\)\{(?:(\w+)|([^{}*]+)\*(\d+))\}")
NAME = re.compile(r"[A-Z][A-Z_0-9]*")
ESCAPE = re.compile(r"\\(x[0-9a-f]{2}|.)")
OCTETS = {"n": "\n", "r": "\r", "t": "\t", "0": "\0", "\\": "\\", "{": "{"}


class Flaw(Exception):
    """A line that says nothing of a row."""


@dataclass
class Row:
    """A run: its arguments behind those of the case, its standard input, and what is wanted of it."""

    name: str
    args: list = field(default_factory=list)
    stdin: bytes = b""
    stdout: bytes = b""
    stderr: list = field(default_factory=list)
    status: str = "0"
    files: dict = field(default_factory=dict)


def filled(text, names):
    """The text with its holes filled."""

    def of(found):
        word = found[1] or found[2]
        if word not in names and (found[1] or NAME.fullmatch(word)):
            raise Flaw(f"nothing is named {word!r}")
        return names.get(word, word) * int(found[3] or 1)

    if re.search(r"(?<!\\)\{", HOLE.sub("", text)):
        raise Flaw(f"`{text}` has a brace that names nothing: write \\{{")
    return HOLE.sub(of, text)


def octets_of(text):
    """The octets that a text spells, without an LF where it ends with a single backslash."""
    is_open = re.search(r"(?<!\\)(\\\\)*\\$", text)

    def of(found):
        if found[1][0] == "x" and len(found[1]) == 3:
            return chr(int(found[1][1:], 16))
        if found[1] not in OCTETS:
            raise Flaw(f"\\{found[1]} is no octet")
        return OCTETS[found[1]]

    return ESCAPE.sub(of, text[:-1] if is_open else text + "\n").encode("latin-1")


def add(row, lines, names):
    """Adds what these lines say to a row."""
    at = 0
    while at < len(lines):
        kind, _, text = lines[at].partition(" ")
        at += 1
        if kind == "each":
            if not re.fullmatch(r"\d+ \d+", text) or "end" not in lines[at:]:
                raise Flaw("`each` has two numbers, and an `end` below")
            first, last = map(int, text.split())
            end = at + lines[at:].index("end")
            # One pass over lines that say the same for each number: there may be a million.
            is_numbered = any("{high}" in line or "{low}" in line for line in lines[at:end])
            for number in range(first, last + 1) if is_numbered else [first]:
                part = Row(row.name)
                add(part, lines[at:end], {**names, "high": f"{number >> 8 & 255:02x}", "low": f"{number & 255:02x}"})
                if part.args or part.stderr or part.files:
                    raise Flaw("`each` repeats lines of input and output alone")
                count = 1 if is_numbered else last + 1 - first
                row.stdin += part.stdin * count
                row.stdout += part.stdout * count
            at = end + 1
        elif kind == "args":
            row.args += filled(text, names).split()
        elif kind == "<":
            row.stdin += octets_of(filled(text, names))
        elif kind == ">":
            row.stdout += octets_of(filled(text, names))
        elif kind in ("!", "?") and text:
            # A backslash that stands before no brace is told as it is.
            row.stderr.append(filled(text, names).replace("\\{", "{"))
            row.status = "1" if kind == "!" else row.status
        elif kind == "file" and re.fullmatch(r"[a-z.]+ .*", text):
            name, _, digits = text.partition(" ")
            row.files[name] = row.files.get(name, b"") + bytes.fromhex(filled(digits, names))
        else:
            raise Flaw(f"`{lines[at - 1]}` is no line of a row")


def rows_of(text):
    """The rows of a file. `Flaw` where it is none."""
    rows, names, forms = {}, {}, {}
    below = None

    def begin(name, lines, more):
        if not name or name in rows:
            raise Flaw(f"row {name!r} has no name, or that of another one")
        rows[name] = (lines, {**names, **more})

    for line in text.split("\n"):
        kind, _, rest = line.partition(" ")
        if not line or line.startswith("#"):
            continue
        if kind == "let":
            name, _, value = rest.partition(" ")
            if not NAME.fullmatch(name) or name in names:
                raise Flaw(f"`{line}` names nothing, or a name that is given")
            names[name] = filled(value, names)
            below = None
        elif kind == "row":
            below = []
            begin(rest, below, {})
        elif kind == "form":
            below = forms.setdefault(rest, [])
        elif kind in forms and re.fullmatch(r'".*"', rest):
            begin(f"{kind} {rest}", forms[kind], {"text": rest[1:-1]})
            below = None
        elif below is None:
            raise Flaw(f"`{line}` stands in no row")
        else:
            below.append(line)
    found = []
    for name, (lines, given) in rows.items():
        row = Row(name)
        try:
            add(row, lines, given)
        except Flaw as flaw:
            raise Flaw(f"row {name}: {flaw}") from None
        found.append(row)
    if not found:
        raise Flaw("there is no row")
    return found
