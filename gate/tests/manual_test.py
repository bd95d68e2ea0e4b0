#!/usr/bin/env python3
"""The man page and the completions have what the help of a program says."""
import os
import subprocess
import sys
import tempfile
import unittest
from pathlib import Path

sys.path.insert(0, str(Path(__file__).resolve().parent.parent))
import manual  # noqa: E402

# A program with one subcommand, which says what it is asked for on the output that ./seamless uses.
PROGRAM = """#!/bin/sh
case "$*" in
--version) echo 'seamless 1.2 (kit)' ;;
--help) cat >&2 <<'END' ;;
Runs things

Usage: seamless <COMMAND>

Commands:
  play  Plays a thing
  help  Print this message

Options:
  -h, --help  Print help

Examples:
  A thing:
    seamless play --kind one
END
*) cat >&2 <<'END' ;;
Plays a thing

Options:
      --kind <KIND>
          The kind of thing

          Possible values:
          - one: the first
          - two: the second

          [default: one]

      --of <4>
          How many [possible values: 4, 5]

      --a <FILE[:N]>
          A file

      --at <T>
          A time

  -h, --help
          Print help

Examples:
  The first kind:
    seamless play --kind one --of 4
END
esac
"""


class Manual(unittest.TestCase):
    def setUp(self):
        folder = tempfile.TemporaryDirectory()
        self.addCleanup(folder.cleanup)
        self.program = Path(folder.name) / "program"
        self.program.write_text(PROGRAM)
        self.program.chmod(0o755)

    def completed(self, *words):
        """What bash offers for the last of these words."""
        script = manual.bash(str(self.program)) + (
            f"COMP_WORDS=(seamless {' '.join(words)}); COMP_CWORD={len(words)}\n"
            f"_seamless seamless '{words[-1]}' '{words[-2] if len(words) > 1 else 'seamless'}'\necho \"${{COMPREPLY[@]}}\"\n"
        )
        return subprocess.run(["bash", "-c", script], capture_output=True, text=True, cwd=os.path.dirname(self.program)).stdout.split()

    def test_the_page(self):
        page = manual.page(str(self.program))
        for line in (
            '.TH SEAMLESS 1 "" "seamless 1.2" "User commands"',
            "seamless \\- Runs things",
            ".SS play",
            ".B \\-\\-kind <KIND>",
            "\\- two: the second",
            "    seamless play \\-\\-kind one",
            "    seamless play \\-\\-kind one \\-\\-of 4",
        ):
            self.assertIn(line, page.split("\n"))
        self.assertNotIn(".SS help", page)

    def test_completions(self):
        self.assertEqual(self.completed("p"), ["play"])
        self.assertEqual(self.completed("play", "--k"), ["--kind"])
        self.assertEqual(self.completed("play", "--kind", ""), ["one", "two"])
        self.assertEqual(self.completed("play", "--of", ""), ["4", "5"])
        self.assertEqual(self.completed("play", "--a", "pro"), ["program"])
        self.assertEqual(self.completed("play", "--at", ""), [])

    def test_completions_for_zsh(self):
        said = manual.zsh(str(self.program)).split("\n")
        self.assertEqual(said[0], "#compdef seamless")
        for line in ('"play --kind") compadd -- one two ;;', '"play --a") _files ;;', '"play --at") ;;', '"2 "*) compadd -- play --help --version ;;'):
            self.assertIn(line, [it.strip() for it in said])

    def test_completions_for_fish(self):
        said = manual.fish(str(self.program)).split("\n")
        for line in (
            "complete -c seamless -n __fish_use_subcommand -a play -d 'Plays a thing'",
            "complete -c seamless -n '__fish_seen_subcommand_from play' -l of -x -a '4 5' -d 'How many'",
            "complete -c seamless -n '__fish_seen_subcommand_from play' -l a -r -F -d 'A file'",
            "complete -c seamless -n '__fish_seen_subcommand_from play' -l at -x -d 'A time'",
        ):
            self.assertIn(line, said)


if __name__ == "__main__":
    unittest.main()
