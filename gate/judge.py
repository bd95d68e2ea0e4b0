"""What is asked of the prover about wrong bodies, and what its words come to.

A wrong body is a file of three lines, 'file: src/..', 'old: TEXT' and 'new: TEXT', where the old text stands once in that file, or
else once as a whole line. It belongs to the function that it stands in; one in a constant belongs to the functions that name the
constant; one that no function names is tried alone, over the whole crate. It is refused where its own function has an open goal of
its own, masked where its function is not tried for a callee that is open, and has got through where its function is proved.

A refusal that the ledger has rests on this file as it stood (ledger.py): what only says which wrong bodies are tried together,
and when, is in rounds.py."""
import re
from dataclasses import dataclass, field
from pathlib import Path

from workspace import crate_words, how_to_build_below, kit, old_below

# What a wrong body comes to. The first is what is wanted; a masked one says nothing yet.
REFUSED, MASKED, PROVED, BAD, UNKNOWN = "refused", "masked", "NOT REFUSED", "BAD EDIT", "NOT TRIED"


class Unusable(Exception):
    """A wrong body, or a crate, that can't be tried, and why."""


@dataclass(frozen=True)
class Function:
    """A function of a crate: its path as the prover writes it, its file, and its lines there from the first to the last."""

    path: str
    file: str
    first: int
    last: int

    def proofs(self):
        """The folders of its proof, and of those of its closures, which the prover keeps below a folder `fn` of the module."""
        parts = self.path.split("::")
        inside = sum(part[0].islower() for part in parts[:-1])
        return "proofs/" + "/".join(parts) + "/", "proofs/" + "/".join([*parts[:inside], "fn", *parts[inside:]]) + "/"


@dataclass(eq=False)
class Edit:
    """A wrong body, and the functions that it belongs to: none where it has to be tried alone."""

    name: str
    file: str
    old: str
    new: str
    functions: list = field(default_factory=list)


# Reading a crate.

IMPL = re.compile(r"(?:unsafe )?impl(?:<(?P<own>(?:[^<>]|<[^<>]*>)*)>)? (?:(?P<trait>[^{]*?) for )?(?P<type>[^{]*?)(?: where\b.*)? \{$")
TRAIT = re.compile(r"(?:pub(?:\(\w+\))? )?trait (?P<type>\w+)")
TYPE = re.compile(r"(?:pub(?:\(\w+\))? )?(?:struct|enum) (?P<name>\w+)", re.M)
FUNCTION = re.compile(r'(?P<indent> *)(?:pub(?:\(\w+\))? )?(?:const )?(?:unsafe )?(?:extern "C" )?fn (?P<name>\w+)')
CONSTANT = re.compile(r"\s*(?:pub(?:\(\w+\))? )?const (?P<name>\w+)")


def module_of(file):
    """The module's path that the file of that name below the crate holds: ['a', 'b'] for src/a/b.rt."""
    names = Path(file).with_suffix("").parts[1:]
    return list(names[:-1] if names[-1] in ("lib", "main", "mod") else names)


def words_of(text, own=()):
    """The words of a type or a trait as the prover joins them, parameters of the impl's own and paths to names left out:
    `BoxDynRoleSend` of `Box<dyn Role + Send>`."""
    words = re.findall(r"\w+", re.sub(r"\w+::|'\w+", "", text))
    return "".join(word[0].upper() + word[1:] for word in words if word not in own)


def heading(file, line, modules):
    """What stands before the names of the functions in an impl or a trait that begins with this line: methods of a type are
    found at the type, wherever its impl stands, and those of a trait's impl below both names, as `showing::MacDisplay`."""
    trait = TRAIT.match(line)
    if trait:
        return [*module_of(file), trait["type"]]
    impl = IMPL.match(line)
    if not impl:
        return None
    own = re.findall(r"(?:^|, )(?:const )?(\w+)", impl["own"] or "")
    name = words_of(impl["type"], own)
    if impl["trait"]:
        return [*module_of(file), name + words_of(impl["trait"], own)]
    # An impl of the type at arguments of its own, as `PerPort<Outbox>`, is found where it stands.
    base = re.match(r"\w+", impl["type"])[0]
    given = words_of(impl["type"].removeprefix(base), own)
    return [*module_of(file), f"{base}+{given}"] if given else [*modules.get(base, module_of(file)), base]


def functions_of(file, text, modules):
    """The functions of a file, as rt fmt lays it out; modules tells where each type of the crate is declared."""
    lines, found, around = text.split("\n"), [], None
    for number, line in enumerate(lines):
        if line and not line.startswith((" ", "}", ")", "{")):
            around = heading(file, line, modules)
        begins = FUNCTION.match(line)
        if begins and begins["indent"] in ("", "    "):
            first = number
            while first and lines[first - 1].startswith(begins["indent"] + "#["):
                first -= 1
            inside = around if begins["indent"] and around else module_of(file)
            last = last_line(lines, number, begins["indent"])
            found.append(Function("::".join([*inside, begins["name"]]), file, first + 1, last + 1))
    return found


def last_line(lines, first, indent):
    """The number, from 0, of the last line of the function that begins there: its closing brace, or, where it has no body, the
    last before what stands behind it."""
    for number in range(first + 1, len(lines)):
        if lines[number] == indent + "}":
            return number
        behind = FUNCTION.match(lines[number])
        if behind and behind["indent"] == indent or lines[number] == "}":
            return number - 1
    return len(lines) - 1


def crate_functions(folder):
    """The functions of a crate."""
    texts = {str(path.relative_to(folder)): path.read_text() for path in sorted((folder / "src").rglob("*.rt"))}
    modules = {name: module_of(file) for file, text in texts.items() for name in TYPE.findall(text)}
    return [it for file, text in texts.items() for it in functions_of(file, text, modules)]


def old_and_new(text, old, new):
    """The two texts of a wrong body, with the ends of its line where the old one stands more than once, and once as a whole line."""
    whole = re.findall(rf"^( *){re.escape(old.strip())}$", text, re.M)
    if text.count(old) > 1 and len(whole) == 1:
        return f"\n{whole[0]}{old.strip()}\n", f"\n{whole[0]}{new.strip()}\n"
    return old, new


def read_edit(path, folder, functions):
    """The wrong body of that file, with the functions that it belongs to."""
    said = re.fullmatch(r"file: (src/\S+)\nold: (.+)\nnew: ?(.*)\n?", path.read_text())
    if not said:
        raise Unusable("it is not the three lines 'file: src/..', 'old: ..' and 'new: ..'")
    file, old, new = said.groups()
    if not (folder / file).is_file():
        raise Unusable(f"there is no file {file}")
    if old == new:
        raise Unusable("it changes nothing")
    text = (folder / file).read_text()
    old, new = old_and_new(text, old, new)
    if text.count(old) != 1:
        raise Unusable(f"its old text stands in {file} {text.count(old)} times, and not once")
    line = text[: text.index(old) + old.startswith("\n")].count("\n") + 1
    own = [it for it in functions if it.file == file and it.first <= line <= it.last]
    if not own:
        constant = CONSTANT.match(text.split("\n")[line - 1])
        own = [it for it in functions if constant and re.search(rf"\b{constant['name']}\b", text_of(folder, it))]
    return Edit(path.stem, file, old, new, own)


def text_of(folder, function):
    """What stands in the lines of a function."""
    return "\n".join((folder / function.file).read_text().split("\n")[function.first - 1 : function.last])


def edited(text, edits):
    """The text with these wrong bodies in it: each in its own place, whatever the others bring."""
    places = sorted(((text.index(it.old), it) for it in edits), key=lambda it: it[0], reverse=True)
    for at, edit in places:
        text = text[:at] + edit.new + text[at + len(edit.old) :]
    return text


# Asking.


def question(root, name, only):
    """The command that asks the prover for these functions of a crate and for what they call, of all where none is named, as rt
    asks it. It is given in a copy of the crate, over the libraries that stand built in the repository."""
    old = old_below(root, name)
    if old:
        raise Unusable(f"{' '.join(old)} is not built as it stands: {how_to_build_below(name)}")
    asked = ["--incremental", "kept", "--jobs", "1", *(word for it in only for word in ("--only", it))]
    return [str(kit() / "bin" / "rattle"), "check", *crate_words(root, name), "--logic-built", str(kit() / "logic_built"), *asked]


# Reading what the prover says.


def unbroken(said):
    """What the prover says, each message in one line: it breaks off what is long, and goes on further in."""
    return re.sub(r"\n  +", " ", said)


GONE = re.compile(r"has no field|is not in scope|has no `|was not admitted|can be named from here")


def compiles(said):
    """Whether the crate came to the prover."""
    return not re.search(r"\berror\[[\w-]+\]", said)


# Of a function without answers of its own: the goal that the search of the crate's tactic left open.
UNFOUND = re.compile(r"no proof: expected answers in .*; `search` did not prove `([^`]+)`")


def line_of(said, crate, function):
    """What is said of the function as a whole."""
    found = re.search(rf"^fn {crate}::{re.escape(function.path)}: (.*)$", unbroken(said), re.M)
    return found[1] if found else ""


def open_goal(said, function):
    """The first goal of the function that stays open, as the prover names it. A proof that only names what is gone is none."""
    own, closures = function.proofs()
    for line in unbroken(said).split("\n"):
        inside = re.match(r"note: (src/\S+?):(\d+):\d+: (.*)", line)
        if inside and inside[1] == function.file and function.first <= int(inside[2]) <= function.last and "not proved" in inside[3]:
            return named_in(inside[3])
        answer = re.match(r"(?:\./)?(proofs/\S+/)\w+\.antt:\d+:\d+: error: (.*)", line)
        if answer and (answer[1] == own or answer[1].startswith(closures)) and not GONE.search(answer[2]):
            return named_in(answer[2])
    return None


def named_in(text):
    """The goal that a line names: at its beginning, or in brackets."""
    found = re.match(r"`([^`]+)`", text) or re.search(r"\(`([^`]+)`\)", text)
    return f"`{found[1]}`" if found else text[:100]


def verdict_on(said, crate, function):
    """What the prover's words come to for a wrong body in this function, and why."""
    whole, goal = line_of(said, crate, function), open_goal(said, function)
    unfound = UNFOUND.match(whole)
    if unfound and not goal:
        goal = f"`{unfound[1]}`"
    if goal and not whole.startswith("proved"):
        return REFUSED, f"{goal} of {function.path}"
    if whole.startswith("proved"):
        return PROVED, f"{function.path} is proved with it"
    if "which is not proved" in whole or "which are not proved" in whole:
        return MASKED, f"{function.path} is not tried: it calls what is not proved"
    if whole.startswith("not proved"):
        return UNKNOWN, f"{function.path} is refused for a proof that names what is gone alone"
    return UNKNOWN, f"the prover says of {function.path}: {whole or 'nothing'}"


def verdict_on_edit(said, crate, edit):
    """What the prover's words come to for a wrong body: a constant's is refused where any function that names it is."""
    verdicts = [verdict_on(said, crate, it) for it in edit.functions]
    return next((it for kind in (REFUSED, MASKED, UNKNOWN, PROVED) for it in verdicts if it[0] == kind))


def strangers(said, crate, functions, edited):
    """Functions without a wrong body that have an open goal of their own: the crate is not proved as it stands."""
    own = {it.path for it in edited}
    failed = [it for it in functions if it.path not in own and re.search(rf"^fn {crate}::{re.escape(it.path)}: no", said, re.M)]
    return [it.path for it in failed if open_goal(said, it)]


def verdicts_on(said, crate, functions, batch):
    """What the prover's words come to for each wrong body of a batch, or None where the batch does not compile."""
    stopped = re.search(r"^rattle: error: (.*)$", said, re.M)
    if stopped:
        raise Unusable(stopped[1])
    if not compiles(said):
        return None
    others = strangers(said, crate, functions, [it for edit in batch for it in edit.functions])
    if others:
        raise Unusable(f"the crate is not proved as it stands: {', '.join(others)}")
    return {edit: verdict_on_edit(said, crate, edit) for edit in batch}


def verdict_on_whole(said, functions):
    """What the prover's words come to for a wrong body that belongs to no function, and was tried alone over the whole crate."""
    if not compiles(said):
        return BAD, first_error(said)
    goals = [f"{goal} of {it.path}" for it in functions for goal in [open_goal(said, it)] if goal]
    if goals:
        return REFUSED, goals[0]
    is_proved = re.search(r"^logic=proved", said, re.M)
    return (PROVED, "the crate is proved with it") if is_proved else (UNKNOWN, "no function has an open goal")


def reaches(said, crate, caller, callee):
    """Whether a function is not tried for this callee, straight or by others between."""
    said, seen, left = unbroken(said), set(), [caller.path]
    while left:
        found = re.search(rf"^fn {crate}::{re.escape(left.pop())}: .*?it calls (.*)$", said, re.M)
        for path in re.findall(rf"`{crate}::([\w:]+)`", found[1] if found else ""):
            if path not in seen:
                seen.add(path)
                left.append(path)
    return callee.path in seen


def first_error(said):
    return next((line for line in said.split("\n") if re.search(r"\berror\[", line)), said[:200])
