#!/usr/bin/env python3
"""Writes the man page, docs/seamless.1, and the completions, docs/seamless.bash, .zsh and .fish, of what the program's `--help` says. What
the lines of an audit tell is in the page as docs/PROGRAM.md has it.

manual.py [--check] [--program PATH]: of the program at PATH, ./seamless where none is given. With --check nothing is
written: a line names each of them that differs from what it would write, and it exits with 1 where one does."""
import argparse
import re
import subprocess
import sys
from pathlib import Path

ROOT = Path(__file__).resolve().parent.parent
# Where the first sentence of an explanation ends, or its list of words begins.
FIRST_SENTENCE_ENDS = r"\. | Possible values| \["
STATUSES = [
    ("0", "A good run, or the version."),
    ("1", "A fault of the script, of a capture, of a read or of a write, or an allocation that failed."),
    ("2", "A fault of the command line, or the help."),
    ("3", "A fault of the network that audit --check found, or an alarm that watch --check saw."),
    ("4", "Captures of which audit --check can judge nothing."),
]


def said(program, *words):
    """What the program says on either output: its help goes to standard error, its version to standard output."""
    run = subprocess.run([program, *words], stdin=subprocess.DEVNULL, stdout=subprocess.PIPE, stderr=subprocess.STDOUT, text=True)
    return run.stdout


def section(text, name):
    """The lines below a heading of a help, up to the next heading."""
    lines = text.split("\n")
    if f"{name}:" not in lines:
        return []
    found = []
    for line in lines[lines.index(f"{name}:") + 1 :]:
        if line and not line.startswith(" "):
            break
        found.append(line)
    return found


def entries(text, name):
    """The entries of a section, each with the lines that explain it; these stand behind it, or below it and further in."""
    found = []
    for line in section(text, name):
        entry = re.match(r" {2,6}(\S+(?: \S+)*)(?: {2,}(.*))?$", line)
        if entry:
            found.append((entry.group(1), [entry.group(2)] if entry.group(2) else []))
        elif line.strip() and found:
            found[-1][1].append(line.strip())
    return found


def subcommands(program):
    """The subcommands, each with what it is for and its help. `help` itself is the parser's."""
    for name, about in entries(said(program, "--help"), "Commands"):
        if name != "help":
            yield name, " ".join(about), said(program, name, "--help")


def options(text):
    """The options of a help, each by its long name, with how it is shown and the lines that explain it."""
    for shown, about in entries(text, "Options"):
        yield re.search(r"--[a-z-]+", shown).group(0), shown, about


def escaped(text):
    """A text as the page's formatter takes it."""
    text = text.replace("\\", "\\e").replace("-", "\\-")
    return "\\&" + text if text.startswith((".", "'")) else text


def explained(shown, about):
    """The lines of the page for an option or a status: values and defaults stand in lines of their own."""
    lines = [".TP", f".B {escaped(shown)}"]
    for line in about:
        if line.startswith(("- ", "[", "Possible values")):
            lines.append(".br")
        lines.append(escaped(line))
    return lines


def examples(text):
    """The lines of the page for the examples below a help, as they stand there."""
    lines = [escaped(line) for line in section(text, "Examples") if line]
    return [".PP", "Examples:", ".nf", *lines, ".fi"] if lines else []


def plain(cell):
    """The text of a cell of a table, without the marks of Markdown."""
    return re.sub(r"\[([^\]]*)\]\([^)]*\)", r"\1", cell).replace("`", "")


def rows(text, first):
    """The rows of the table whose first column has this name, each as its cells."""
    found = []
    for line in text.split(f"| {first} |", 1)[1].split("\n")[2:]:
        if not line.startswith("|"):
            break
        found.append([plain(cell.strip()) for cell in line.strip("|").split(" | ")])
    return found


def lines_of_audit(text):
    """The lines of the page for what the lines of an audit tell: those of the verdict, and the figures."""
    behind = text.split("## `audit`", 1)[1]
    lines = [".SH LINES OF AUDIT", "Those of the verdict, which stand first: what is seen, what it means, and what to do."]
    for line, seen, meaning, advice in rows(behind, "Line | What is seen | What it means | What to do"):
        lines += explained(line, [f"{seen}. It means: {meaning}. To do: {advice}."])
    lines += [".PP", "Those of the figures:"]
    for line, tells in rows(behind, "Line | What it tells"):
        lines += explained(line, [f"{tells}."])
    return lines


def page(program):
    """The man page."""
    text = said(program, "--help")
    version = said(program, "--version").split()[1]
    lines = [f'.TH SEAMLESS 1 "" "seamless {version}" "User commands"']
    lines += [".SH NAME", "seamless \\- " + escaped(text.split("\n", 1)[0])]
    lines += [".SH SYNOPSIS", ".B seamless", ".I COMMAND", "[OPTIONS]", ".SH COMMANDS"]
    for name, about, own in subcommands(program):
        lines += [f".SS {escaped(name)}", escaped(about)]
        for _, shown, words in options(own):
            lines += explained(shown, words)
        lines += examples(own)
    lines += lines_of_audit((ROOT / "docs" / "PROGRAM.md").read_text())
    lines += [".SH EXAMPLES", *examples(text)[2:]]
    lines.append(".SH EXIT STATUS")
    for status, meaning in STATUSES:
        lines += explained(status, [meaning])
    return "\n".join(lines) + "\n"


def values(about):
    """The words that an option takes, where its explanation lists them."""
    listed = re.search(r"\[possible values: ([^\]]*)\]", " ".join(about))
    if listed:
        return listed.group(1).split(", ")
    joined = re.search(r": ([a-z, ]+), or several", " ".join(about))
    if joined:
        return joined.group(1).split(", ")
    return [word.group(1) for line in about if (word := re.match(r"- (\w+):", line))]


def taken(text):
    """What each option of a help takes behind it: its words, `file`, `value`, or None where it takes nothing."""
    for option, shown, about in options(text):
        yield option, values(about) or ("file" if "FILE" in shown else "value" if "<" in shown else None), " ".join(about)


def by_case(program, subcommand, before, place, first, offers, files):
    """Completions as one `case` in another: by the subcommand and the word before the one that is sought, and else by the place of that
    one, of which the first is a subcommand. Each shell has its own ways to say these, to offer words, and to offer files."""
    commands = list(subcommands(program))
    lines = [f'    case "{subcommand} {before}" in']
    for name, _, text in commands:
        for option, takes, _ in taken(text):
            if takes:
                offered = files if takes == "file" else "" if takes == "value" else offers(takes)
                lines.append(f'    "{name} {option}") {offered}'.rstrip() + " ;;")
    lines += ["    *)", f'        case "{place} {subcommand}" in']
    lines.append(f'        "{first} "*) {offers([*(name for name, _, _ in commands), "--help", "--version"])} ;;')
    lines += [f'        *" {name}") {offers([option for option, _, _ in taken(text)])} ;;' for name, _, text in commands]
    return [*lines, "        esac", "        ;;", "    esac"]


def bash(program):
    """The completions for bash."""
    words, files = lambda them: f'words="{" ".join(them)}"', 'compopt -o filenames; mapfile -t COMPREPLY < <(compgen -f -- "$2"); return'
    lines = ["# Completions of seamless for bash. gate/manual.py writes this file.", "_seamless() {", '    local words=""']
    lines += by_case(program, "${COMP_WORDS[1]}", "${COMP_WORDS[COMP_CWORD - 1]}", "$COMP_CWORD", 1, words, files)
    lines += ['    COMPREPLY=($(compgen -W "$words" -- "$2"))', "}", "complete -F _seamless seamless ./seamless"]
    return "\n".join(lines) + "\n"


def zsh(program):
    """The completions for zsh."""
    lines = ["#compdef seamless", "# Completions of seamless for zsh. gate/manual.py writes this file.", "_seamless() {"]
    lines += by_case(program, "$words[2]", "$words[CURRENT-1]", "$CURRENT", 2, lambda them: f"compadd -- {' '.join(them)}", "_files")
    return "\n".join([*lines, "}", '_seamless "$@"']) + "\n"


def fish(program):
    """The completions for fish."""
    quoted = lambda text: "'" + text.replace("\\", "\\\\").replace("'", "\\'") + "'"
    lines = ["# Completions of seamless for fish. gate/manual.py writes this file.", "complete -c seamless -f"]
    for name, about, text in subcommands(program):
        lines.append(f"complete -c seamless -n __fish_use_subcommand -a {name} -d {quoted(about)}")
        for option, takes, about in taken(text):
            behind = " -r -F" if takes == "file" else " -x" if takes == "value" else f" -x -a {quoted(' '.join(takes))}" if takes else ""
            lines.append(f"complete -c seamless -n '__fish_seen_subcommand_from {name}' -l {option[2:]}{behind} -d {quoted(re.split(FIRST_SENTENCE_ENDS, about)[0])}")
    return "\n".join(lines) + "\n"


def main():
    parser = argparse.ArgumentParser()
    parser.add_argument("--check", action="store_true")
    parser.add_argument("--program", default=str(ROOT / "seamless"))
    wanted = parser.parse_args()
    status = 0
    for name, made in {"1": page, "bash": bash, "zsh": zsh, "fish": fish}.items():
        path, text = Path(f"docs/seamless.{name}"), made(wanted.program)
        if not wanted.check:
            (ROOT / path).write_text(text)
        elif not (ROOT / path).exists() or (ROOT / path).read_text() != text:
            print(f"{path} is not what gate/manual.py writes of the program's help: run it")
            status = 1
    return status


if __name__ == "__main__":
    sys.exit(main())
