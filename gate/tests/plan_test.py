#!/usr/bin/env python3
"""What ./check says that it will do, the times that it goes by, and the crates that differ from a commit."""
import contextlib
import hashlib
import io
import json
import os
import shutil
import subprocess
import sys
import tempfile
import time
import unittest
from pathlib import Path
from unittest import mock

sys.path.insert(0, str(Path(__file__).resolve().parent.parent))
import ledger  # noqa: E402
import plan  # noqa: E402
import times  # noqa: E402
import workspace  # noqa: E402

# A crate, what it stands on, and its lines.
CRATES = {"low": ([], 1), "left": (["low"], 1), "right": (["low", "std"], 1), "top": (["left", "right"], 1), "beside": ([], 1)}
GIGABYTE = 1_000_000_000


class Small(unittest.TestCase):
    """A small workspace in a folder of its own."""

    def setUp(self):
        self.top = Path(tempfile.mkdtemp())
        self.addCleanup(shutil.rmtree, self.top)
        lines = [f"\n# {name}: beside\n{name}: {' '.join(below)} # beside: {name}\n" for name, (below, _) in CRATES.items()]
        self.write("crates.txt", "# Each crate.\n" + "".join(lines))
        self.write("HANDLES", "Handles allowed: none.\n")
        for name, (_, lines) in CRATES.items():
            self.write(f"crates/{name}/src/lib.rt", "fn one() {}\n" * lines)

    def write(self, name, text):
        path = self.top / name
        path.parent.mkdir(parents=True, exist_ok=True)
        path.write_text(text)


class Workspace(Small):
    def test_crates(self):
        below = workspace.crates_below(self.top)
        self.assertEqual(below, {name: lower for name, (lower, _) in CRATES.items()})
        self.assertEqual(workspace.closure(below, ["top"]), ["low", "left", "right", "top"])
        self.assertEqual(workspace.closure(below, ["beside", "left"]), ["beside", "low", "left"])
        self.assertEqual(workspace.and_above(below, {"left"}), ["left", "top"])
        self.assertEqual(workspace.crates_below(self.top, "# One.\none staticlib: std # two\n"), {"one": ["std"]})

    def test_files_and_lines(self):
        self.write("crates/low/proofs/one/Answers.antt", "search\nsearch\n")
        self.write("crates/low/out/other.rt", "\n")
        found = [it.relative_to(self.top / "crates" / "low").as_posix() for it in workspace.files_of(self.top, "low")]
        self.assertEqual(found, ["proofs/one/Answers.antt", "src/lib.rt"])
        self.assertEqual(workspace.lines_of(self.top, "low"), 3)

    def test_old_libraries(self):
        below = workspace.crates_below(self.top)
        old = lambda: {it for it in CRATES if workspace.is_library_old(self.top, below, it)}
        self.assertEqual(old(), set(CRATES))
        for name in CRATES:
            self.write(f"crates/{name}/out/rlib/{name}.rlib/format", "")
        self.assertEqual(old(), set())
        for path, wanted in (("right/src/lib.rt", {"right", "top"}), ("low/wrong/one.edit", set()), ("beside/proofs/one/Answers.antt", {"beside"})):
            self.write(f"crates/{path}", "")
            behind = time.time() + 5
            os.utime(self.top / "crates" / path, (behind, behind))
            self.assertEqual(old(), wanted, path)
            (self.top / "crates" / path).unlink()
            later = time.time() + 0.1
            for name in CRATES:
                os.utime(self.top / "crates" / name / "out" / "rlib" / f"{name}.rlib", (later, later))
        # What is gone from a folder is later too.
        (self.top / "crates" / "low" / "src").touch()
        later = time.time() + 5
        os.utime(self.top / "crates" / "low" / "src", (later, later))
        self.assertEqual(old(), {"low", "left", "right", "top"})

    def test_processors(self):
        quota = self.top / "cpu.max"
        for text, wanted in (("max 100000", 4), ("200000 100000", 2), ("50000 100000", 1), ("900000 100000", 4)):
            quota.write_text(text)
            with mock.patch.object(workspace, "QUOTA", quota), mock.patch("os.sched_getaffinity", lambda _: {0, 1, 2, 3}):
                self.assertEqual(workspace.processors(), wanted, text)


class Lanes(unittest.TestCase):
    def test_lanes(self):
        rows = [
            # processors, free memory in GB, and how many checks at a time: none where the toolchain chooses.
            (4, 23, 4),
            (4, 17, 4),
            (4, 16.9, 3),
            (4, 11, 2),
            (4, 10.9, None),
            (2, 12, 2),
            (2, 8, None),
            (2, 4, None),
            (1, 64, None),
            (8, 64, None),
        ]
        for processors, free, wanted in rows:
            self.assertEqual(plan.lanes(processors, free * GIGABYTE), wanted, (processors, free))


class Differing(Small):
    def git(self, *words):
        names = ["-c", "user.name=a", "-c", "user.email=a@b.example"]
        return subprocess.run(["git", *names, "-C", self.top, *words], check=True, capture_output=True, text=True).stdout.strip()

    def setUp(self):
        super().setUp()
        self.write(".gitignore", "out/\n")
        self.git("init")
        self.git("add", "--all")
        self.git("commit", "--message", "First")

    def test_differing(self):
        rows = [
            ("crates/left/src/lib.rt", ["left", "top"]),
            ("crates/low/specs/New.antt", ["low", "left", "right", "top"]),
            # What nothing above rests on.
            ("crates/left/wrong/new.edit", ["left"]),
            ("crates/top/args", ["top"]),
            ("crates/left/README.md", []),
            ("crates/left/out/rlib/stamp", []),
            ("README.md", []),
            ("crates.txt", ["left", "top", "beside"]),
        ]
        for path, wanted in rows:
            with self.subTest(path):
                self.write(path, (self.top / "crates.txt").read_text().replace("left: low", "left:").replace("beside:", "beside: std"))
                self.assertEqual(plan.differing(self.top, "HEAD"), wanted)
                self.git("add", "--all")
                self.assertEqual(plan.differing(self.top, "HEAD"), wanted)
                self.git("reset", "--hard", "HEAD")
        self.assertRaises(subprocess.CalledProcessError, plan.differing, self.top, "nowhere")

    def test_what_was_committed_since(self):
        self.write("crates/right/src/lib.rt", "fn other() {}\n")
        self.git("commit", "--all", "--message", "Second")
        self.assertEqual(plan.differing(self.top, "HEAD"), [])
        self.assertEqual(plan.differing(self.top, "HEAD~1"), ["right", "top"])


class Kept(Small):
    """What the toolchain keeps, by a store of the form of its own."""

    def setUp(self):
        super().setUp()
        self.store = self.top / "store"
        (self.top / ".git").mkdir()

    def keep(self, *names):
        """Keeps proofs of these crates as the toolchain would, the lowest first."""
        rt = plan.toolchain()
        rt.Crate.allowed = ()
        keeper = rt.Kept.__new__(rt.Kept)
        keeper.at, keeper.rlibs = str(self.store), {}
        for crate in rt.crates_of(str(self.top)):
            if crate.name in names:
                place, files = Path(keeper.place(crate, False, keeper.key(crate))), [(f"rlib/{crate.name}.rlib/format", "sum")]
                place.mkdir(parents=True)
                (place / "made.json").write_text(json.dumps({"files": files}))
                keeper.rlibs[crate.name] = hashlib.sha256(repr(files).encode()).hexdigest()

    def test_kept(self):
        if not hasattr(plan.toolchain(), "Kept"):
            # This kit keeps nothing by itself.
            self.assertIsNone(plan.kept(self.top, self.store))
            return
        self.assertEqual(plan.kept(self.top, self.store), set())
        self.keep("low", "left", "beside")
        self.assertEqual(plan.kept(self.top, self.store), {(it, False) for it in ("low", "left", "beside")})
        self.write("crates/left/src/lib.rt", "fn other() {}\n")
        self.assertEqual(plan.kept(self.top, self.store), {(it, False) for it in ("low", "beside")})
        self.write("crates/low/src/lib.rt", "fn other() {}\n")
        self.assertEqual(plan.kept(self.top, self.store), {("beside", False)})

    def test_another_toolchain(self):
        def unlike():
            raise AttributeError("Kept")

        with mock.patch.object(plan, "toolchain", unlike):
            self.assertIsNone(plan.kept(self.top, self.store))


class Plan(Small):
    def told(self, known, tries_all=False):
        said = io.StringIO()
        here = {"kept": lambda root: known, "processors": lambda: 2, "due": lambda bodies, ledger, day: {"left": bodies["left"][:1]}}
        with contextlib.ExitStack() as stack, contextlib.redirect_stdout(said):
            for name, call in here.items():
                stack.enter_context(mock.patch.object(plan, name, call))
            stack.enter_context(mock.patch.object(ledger, "logic_of_kit", lambda: "1"))
            plan.tell(self.top, tries_all)
        return said.getvalue()

    def setUp(self):
        super().setUp()
        self.write("crates/top/src/tests.rt", "#[test]\n")
        self.write("crates/low/must-fail/one.edit", "")
        for name in ("left/wrong/one", "left/wrong/other", "right/wrong/one"):
            self.write(f"crates/{name}.edit", "")
        proofs = "low proof 600\nleft proof 300\nright proof 1200\ntop proof 60\ntop tests 240\nbeside proof 600\n"
        self.write("gate/times.txt", proofs + "low edits 120\nleft rounds 480\nright rounds 360\n")

    def test_from_nothing(self):
        said = self.told(set())
        self.assertIn("6 of 6 proofs of crates and of their tests are to be done", said)
        self.assertIn("1 of 3 wrong bodies are to be tried in rounds, those of 1 of 2 crates", said)
        # The chain of low, right and top, and then the rounds on two processors.
        self.assertIn("about 33 minutes on 2 processors", said)
        self.assertIn("proofs 50 minutes, must-fail edits 2 minutes, rounds 4 minutes", said)

    def test_what_is_kept(self):
        known = {("low", False), ("left", False), ("right", False), ("beside", False)}
        said = self.told(known, tries_all=True)
        self.assertIn("2 of 6 proofs of crates and of their tests are to be done; the others are kept", said)
        self.assertIn("3 of 3 wrong bodies are to be tried in rounds", said)
        self.assertIn("proofs 5 minutes, must-fail edits 0 minutes, rounds 14 minutes", said)

    def test_what_is_not_known(self):
        self.assertIn("6 proofs of 5 crates and of their tests; what the toolchain keeps of them is not known", self.told(None))


class Table(Small):
    def test_what_is_known(self):
        self.write("gate/times.txt", "# A comment.\nlow proof 10\nleft proof 20\n")
        self.write("out/times.txt", "low proof 11\n")
        known = times.Times(self.top)
        self.assertEqual([known.of(it, "proof") for it in ("low", "left")], [11, 20])
        self.assertEqual(known.of("right", "proof"), times.AT_LEAST["proof"] + times.OF_A_LINE["proof"])

    def test_notes_and_the_table(self):
        times.Times(self.top).note({("low", "proof"): 9.2, ("gone", "proof"): 5})
        times.Times(self.top).note({("low", "rounds"): 7})
        times.Times(self.top).note({("low", "rounds"): 2, ("low", "proof"): 3.6})
        self.assertEqual((self.top / "out" / "times.txt").read_text(), "gone proof 5\nlow proof 4\nlow rounds 7\n")
        self.assertFalse((self.top / "gate").exists())
        times.Times(self.top).write()
        self.assertEqual((self.top / "gate" / "times.txt").read_text(), times.HEAD + "low proof 4\nlow rounds 7\n")

    def test_parts(self):
        rows = [
            (["/kit/bin/rattle", "build", "--crate-name", "one", "src/lib.rt"], "/here/crates/one", ("one", "proof")),
            (["/kit/bin/rattle", "build", "--crate-name", "one", "src/lib.rt", "--test"], "/here/crates/one", ("one", "tests")),
            (["/kit/bin/rattle", "check", "--crate-name", "one"], "/tmp/rt-edit-17-x", ("one", "edits")),
            (["/kit/bin/rattle", "check", "--crate-name", "one"], "/tmp/rounds-x", ("one", "rounds")),
            (["/kit/bin/rattle", "--help"], "/here", None),
            (["python3", "rt", "--crate-name", "one"], "/here", None),
        ]
        for words, folder, wanted in rows:
            self.assertEqual(times.part_of(words, folder), wanted, words)

    def test_what_a_command_takes(self):
        prover = self.top / "rattle"
        shutil.copy(sys.executable, prover)
        spin = "import time\nwhile time.process_time() < 0.6: pass\ntime.sleep(0.3)"
        command = [sys.executable, "-c", f"import subprocess; subprocess.run([{str(prover)!r}, '-c', {spin!r}, '--crate-name', 'one']); exit(3)"]
        other = subprocess.Popen([prover, "-c", "import time; time.sleep(2)", "--crate-name", "two"])
        status, taken = times.watched(command, every=0.05)
        other.wait()
        self.assertEqual((status, list(taken)), (3, [("one", "proof")]))
        self.assertTrue(0.5 <= taken["one", "proof"] <= 1.5, taken)


if __name__ == "__main__":
    unittest.main()
