#!/usr/bin/env python3
"""A run that is as its case says passes, and each thing that can be wrong is found out."""
import contextlib
import io
import sys
import tempfile
import time
import unittest
from pathlib import Path
from unittest import mock

sys.path.insert(0, str(Path(__file__).resolve().parent.parent))
import case_rows  # noqa: E402
import cases  # noqa: E402

# Prints its input, says its arguments, each in brackets, and ends with 3.
PROGRAM = """#!/bin/sh
cat
printf '[%s]' "$@" >&2
printf '\\nand a line\\n' >&2
exit 3
"""
IN_ORDER = {
    "args": "one\ntwo words\n",
    "stdin": "first\nsecond\n",
    "stdout": "first\nsecond\n",
    "stderr": "[one][two words]\nand a line\n",
    "status": "3\n",
}
OK = ["check: case a_case ... ok"]


class Cases(unittest.TestCase):
    def outcome(self, changes, program=PROGRAM, names=("a_case",)):
        """What is printed of a case where these files are changed, but for the last line; of None, a file is gone."""
        with tempfile.TemporaryDirectory() as folder:
            root = Path(folder)
            (root / "program").write_text(program)
            (root / "program").chmod(0o755)
            case = root / "examples/cases/a_case"
            case.mkdir(parents=True)
            for name, text in {**IN_ORDER, **changes}.items():
                if text is not None:
                    (case / name).write_text(text)
            printed = io.StringIO()
            with contextlib.redirect_stdout(printed):
                passed = cases.run_cases(root / "program", root, names)
        lines = printed.getvalue().splitlines()
        self.assertEqual(lines[-1], "1 passed, 0 failed" if passed else "0 passed, 1 failed")
        return lines[:-1]

    def assert_failed(self, found, *arguments):
        self.assertEqual(self.outcome(*arguments), ["check: case a_case ... FAILED", *["    " + text for text in found]])

    def test_in_order(self):
        self.assertEqual(self.outcome({}), OK)
        self.assertEqual(self.outcome({"lan.pcap": "octets", "lans.pcapng": "octets"}), OK)
        silent = {"args": "", **dict.fromkeys(["stdin", "stdout", "stderr", "status"])}
        self.assertEqual(self.outcome(silent, "#!/bin/sh\ncat\nexit $#\n"), OK)

    def test_from_the_top(self):
        program = "#!/bin/sh\ncat \"$1\"\n"
        case = {"args": "examples/cases/a_case/lan.pcap\n", "lan.pcap": "octets", "stdout": "octets"}
        self.assertEqual(self.outcome({**case, "stderr": None, "status": None}, program), OK)

    def test_elsewhere(self):
        case = {"stdin": None, "stdin-is": "examples/cases/a_case/lan.pcap\n", "lan.pcap": "first\nsecond\n"}
        self.assertEqual(self.outcome(case), OK)
        self.assertEqual(self.outcome({**case, "stdout": None, "stdout-is": "examples/cases/a_case/lan.pcap\n"}), OK)
        wrong = "stdout, line 1, from column 1: wanted '#!/bin/sh\\n', got 'first\\n'"
        self.assertEqual(self.outcome({**case, "stdout": None, "stdout-is": "program\n"})[1][:60], "    " + wrong[:56])

    def test_stdout(self):
        for text, difference in [
            ("first\nthird\n", "line 2, from column 1: wanted 'third\\n', got 'second\\n'"),
            ("first\n", "line 2, from column 1: wanted nothing, got 'second\\n'"),
            ("first\nsecond\nthird\n", "line 3, from column 1: wanted 'third\\n', got nothing"),
            ("first\nsecond", "line 2, from column 1: wanted 'second', got 'second\\n'"),
            (None, "line 1, from column 1: wanted nothing, got 'first\\n'"),
        ]:
            self.assert_failed([f"stdout, {difference}"], {"stdout": text})
        lines = {"stdin": "0" * 3000 + "1" * 3000, "stdout": "0" * 6000}
        shown = "line 1, from column 2951: wanted '{}', got '{}'".format("0" * 100, "0" * 50 + "1" * 50)
        self.assert_failed([f"stdout, {shown}"], lines)

    def test_stderr(self):
        wrong = "stderr, line 1, from column 1: wanted {}, got '[one][two words]\\n'"
        self.assert_failed([wrong.format("'[one]\\n'")], {"stderr": "[one]\n"})
        self.assert_failed([wrong.format("nothing")], {"stderr": None})

    def test_parts_of_stderr(self):
        for parts in [
            {"stderr-begins": "[one][two words]\n"},
            {"stderr-has": "two\nline\n"},
            {"stderr-begins": "[one]", "stderr-has": "two\n"},
        ]:
            self.assertEqual(self.outcome({"stderr": None, **parts}), OK)
        for parts, difference in [
            ({"stderr-begins": "and a line\n"}, "stderr, line 1, from column 1: wanted 'and a line\\n', got '[one][two w'"),
            ({"stderr-has": "two\nthree\n"}, "stderr: has no 'three'"),
        ]:
            self.assert_failed([difference], {"stderr": None, **parts})
        self.assert_failed(["stderr: has no 'three'"], {"stderr-has": "three\n"})
        wrong = "stderr, line 2, from column 1: wanted nothing, got 'and a line\\n'"
        self.assert_failed([wrong], {"stderr": "[one][two words]\n", "stderr-has": "two\n"})

    def test_status(self):
        self.assert_failed(["status: wanted 2, got 3"], {"status": "2\n"})
        self.assert_failed(["status: wanted 0, got 3"], {"status": None})
        killed = {"args": "", **dict.fromkeys(["stdin", "stdout", "stderr", "status"])}
        self.assert_failed(["status: wanted 0, got -9"], killed, "#!/bin/sh\nkill -9 $$\n")

    def test_a_hanging_program(self):
        begun = time.monotonic()
        with mock.patch.object(cases, "MOST_SECONDS", 0.5):
            self.assert_failed(["does not end within 0.5 seconds"], {}, "#!/bin/sh\nsleep 30\n")
        self.assertLess(time.monotonic() - begun, 20)

    def test_the_folder(self):
        for changes, flaw in [
            ({"args": None}, "has no `args`"),
            (dict.fromkeys(IN_ORDER), "has no `args`"),
            ({"stdour": ""}, "`stdour` is no file of a case"),
            ({"stdin": None, "stdin-is": "examples/gone\n"}, "`stdin-is` names no file, or the file is here too"),
            ({"stdin-is": "program\n"}, "`stdin-is` names no file, or the file is here too"),
        ]:
            self.assert_failed([flaw], changes)

    def test_rows(self):
        program = "#!/bin/sh\nprintf '%s ' \"$@\"\ncat\ncase $* in *late) sleep 30 ;; *bad) echo fault 2 line >&2; exit 1 ;; esac\n"
        gone = dict.fromkeys(["stdin", "stdout", "stderr", "status"])
        rows = "row first\n< one\n> one two words one\n\nrow a fault\nargs bad\n> one two words bad \\\n! fault 2 line\n"
        self.assertEqual(self.outcome({**gone, "rows": rows}, program), OK)
        for change, found in [
            ((" one\n\n", " two\n\n"), "row first: stdout, line 1, from column 1: wanted 'one two words two\\n', got 'one two words one\\n'"),
            (("args bad\n> one two words bad", "> one two words"), "row a fault: status: wanted 1, got 0"),
            (("! fault 2 line", "! fault 2"), "row a fault: stderr: has no line 'fault 2'"),
            (("! fault 2 line\n", ""), "row a fault: status: wanted 0, got 1"),
        ]:
            self.assertIn("    " + found, self.outcome({**gone, "rows": rows.replace(*change)}, program))
        files = "row files\nargs bad.pcap\nfile bad.pcap 6f6e\nfile bad.pcap {65*2}\n> onee\\\n? a hint\n"
        program_of_files = "#!/bin/sh\ncat $3\necho a hint >&2\n"
        self.assertEqual(self.outcome({**gone, "rows": files}, program_of_files), OK)
        self.assert_failed(["row files: stderr: has no line 'a hunt'"], {**gone, "rows": files.replace("a hint", "a hunt")}, program_of_files)
        self.assertIn("    row files: status: wanted 1, got 0", self.outcome({**gone, "rows": files.replace("?", "!")}, program_of_files))
        with mock.patch.object(cases, "MOST_SECONDS", 0.5):
            self.assert_failed(["row slow: does not end within 0.5 seconds"], {**gone, "rows": "row slow\nargs late\n"}, program)
        self.assertIn("    `stdin` stands beside `rows`", self.outcome({"rows": rows}, program))
        self.assert_failed(["`rows`: there is no row"], {**gone, "rows": "# nothing\n"})

    def test_text_of_rows(self):
        text = r"""# A comment.
let ZERO 00
let TWO {ZERO}{ZERO*2}-

row one
args a {TWO} b
args c
< {TWO}{5c*3}
<
< \x80\r\0\\ \{ZERO}
< {ZERO}\
> {ZERO*2}\\
each 254 256
< {high}:{low}
end

form refused
< {text}\
! fault {text}

refused ""
refused "a\n"
"""
        one, empty, line = case_rows.rows_of(text)
        self.assertEqual((one.name, one.args, one.status), ("one", ["a", "000000-", "b", "c"], "0"))
        self.assertEqual(one.stdin, b"000000-5c5c5c\n\n\x80\r\0\\ {ZERO}\n0000:fe\n00:ff\n01:00\n")
        self.assertEqual(one.stdout, b"0000\\\n")
        self.assertEqual((empty.name, empty.stdin, empty.stderr, empty.status), ('refused ""', b"", ["fault "], "1"))
        self.assertEqual((line.name, line.stdin), ('refused "a\\n"', b"a\n"))

    def test_flaws_of_rows(self):
        for text, flaw in [
            ("< a\n", "`< a` stands in no row"),
            ("row\n", "row '' has no name, or that of another one"),
            ("row a\nrow a\n", "row 'a' has no name, or that of another one"),
            ("row a\n% b\n", "row a: `% b` is no line of a row"),
            ("row a\nfile A 00\n", "row a: `file A 00` is no line of a row"),
            ("row a\n!\n", "row a: `!` is no line of a row"),
            ("row a\n< {b}\n", "row a: nothing is named 'b'"),
            ("row a\n< {B*2}\n", "row a: nothing is named 'B'"),
            ("row a\n< {B*2x}\n", "row a: `{B*2x}` has a brace that names nothing: write \\{"),
            ("row a\n< \\q\n", "row a: \\q is no octet"),
            ("row a\neach 1 2\n<\n", "row a: `each` has two numbers, and an `end` below"),
            ("row a\neach 1\nend\n", "row a: `each` has two numbers, and an `end` below"),
            ("row a\neach 1 2\n! b\nend\n", "row a: `each` repeats lines of input and output alone"),
            ("let a b\n", "`let a b` names nothing, or a name that is given"),
            ("let A b\nlet A c\n", "`let A c` names nothing, or a name that is given"),
            ("form a\n< {text}\nb \"c\"\n", "there is no row"),
        ]:
            with self.assertRaises(case_rows.Flaw) as found:
                case_rows.rows_of(text)
            self.assertEqual(str(found.exception), flaw)

    def test_no_such_case(self):
        found = ["check: case another ... FAILED", "    is no folder of examples/cases"]
        self.assertEqual(self.outcome({}, PROGRAM, ["another"]), found)

    def test_no_case_at_all(self):
        self.assertEqual(self.outcome({}, PROGRAM, []), ["check: there is a case ... FAILED"])


if __name__ == "__main__":
    unittest.main()
