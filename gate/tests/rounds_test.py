#!/usr/bin/env python3
"""The rounds of wrong bodies, tried on a small crate: what is refused, what gets through, and what can't be tried; and the ledger of
crates whose wrong bodies were refused."""
import contextlib
import io
import shutil
import sys
import tempfile
import unittest
from pathlib import Path
from unittest import mock

sys.path.insert(0, str(Path(__file__).resolve().parent.parent))
import judge  # noqa: E402
import ledger  # noqa: E402
import rounds  # noqa: E402

SOURCE = """//! A crate to put wrong bodies into.
#![tactic(auto)]

ghost use Rattle.std.specs.Prelude.{◌≡◌, ◌+◌, ◌≤◌};

// How far a step goes.
const STEP: u64 = 3;

// One step further.
fn step(n: u64) -> u64
    requires { n ≤ 100 }
    ensures { result ≡ n + 3 }
{
    n + STEP
}

// Twice the number.
fn twice(n: u64) -> u64
    requires { n ≤ 100 }
    ensures { result ≡ n + n }
{
    n + n
}

/// Twice the number, and a step further.
pub fn twice_and_step(n: u64) -> u64
    requires { n ≤ 40 }
    ensures { result ≡ n + n + 3 }
{
    let doubled = twice(n);
    step(doubled)
}

/// The number itself.
#[inline(always)]
pub fn same(n: u64) -> u64
    ensures { result ≡ n }
{
    {n}
}

/// The number itself, for programs in C.
#[unsafe(no_mangle)]
pub extern "C" fn small_same(m: u64) -> u64
    ensures { result ≡ m }
{
    same(m)
}
"""
WRONG = {
    # Refused by the goal of its own function, one in the same round as the other that it calls.
    "doubles_and_one": ("    n + n", "    n + n + 1"),
    "steps_twice": ("    step(doubled)", "    step(step(doubled))"),
    # A second one in a function waits for the next round.
    "doubles_nothing": ("    n + n", "    n"),
    # A constant belongs to the functions that name it.
    "steps_by_four": ("const STEP: u64 = 3;", "const STEP: u64 = 4;"),
    "answers_the_next": ("    {n}", "    {n + 1}"),
    # A function for C is one as any.
    "tells_c_nothing": ("    same(m)", "    same(0)"),
}
HARMLESS = {
    "exchanges_the_sum": ("    n + STEP", "    STEP + n"),
    # Masked in the first round by the function that it calls, and found out in the second.
    "names_the_sum": ("    let doubled = twice(n);", "    let sum = twice(n); let doubled = sum;"),
    "adds_nothing": ("    ensures { result ≡ n }", "    ensures { n ≡ result }"),
}
UNUSABLE = {
    "stands_twice": ("    requires { n ≤ 100 }", "    requires { n ≤ 101 }"),
    "stands_nowhere": ("    n - n", "    n"),
}


class Workspace(unittest.TestCase):
    """A small workspace in a folder of its own."""

    def setUp(self):
        self.top = Path(tempfile.mkdtemp())
        self.addCleanup(shutil.rmtree, self.top)
        (self.top / "gate").mkdir()

    def write(self, name, text):
        path = self.top / name
        path.parent.mkdir(parents=True, exist_ok=True)
        path.write_text(text)

    def call(self, *words, day=0):
        """The status of a call of the rounds, and what it prints."""
        said = io.StringIO()
        with contextlib.redirect_stdout(said):
            status = rounds.main(words, self.top, day)
        return status, said.getvalue()


class Rounds(Workspace):
    def setUp(self):
        super().setUp()
        self.write("crates.txt", "# The crate.\nsmall:\n")
        (self.top / "crates" / "small" / "wrong").mkdir(parents=True)

    def tried(self, edits, source=SOURCE):
        """What is said of each of these wrong bodies, the status, and the last line."""
        self.write("crates/small/src/lib.rt", source)
        for name, (old, new) in edits.items():
            self.write(f"crates/small/wrong/{name}.edit", f"file: src/lib.rt\nold: {old}\nnew: {new}\n")
        status, said = self.call()
        lines = said.strip().split("\n")
        verdicts = {line.split(": ")[0].split("/")[1]: line.split(": ")[1] for line in lines if line.startswith("wrong ")}
        return verdicts, status, lines[-1], said

    def test_rounds(self):
        said, status, last, whole = self.tried({**WRONG, **HARMLESS, **UNUSABLE})
        for names, verdict in ((WRONG, "refused"), (HARMLESS, "NOT REFUSED"), (UNUSABLE, "BAD EDIT")):
            for name in names:
                self.assertEqual(said.get(name), verdict, f"{name} in\n{whole}")
        self.assertEqual((status, last), (1, f"{len(WRONG)} passed, {len(HARMLESS) + len(UNUSABLE)} failed"))

    def test_one_that_does_not_compile(self):
        said, status, last, whole = self.tried({"steps_nowhere": ("    step(doubled)", "    step(nothing)"), "doubles_nothing": WRONG["doubles_nothing"]})
        self.assertEqual(said, {"steps_nowhere": "BAD EDIT", "doubles_nothing": "refused"}, whole)
        self.assertEqual((status, last), (1, "1 passed, 1 failed"))

    def test_each_in_its_own_place(self):
        one = judge.Edit("one", "src/lib.rt", "clear()", "sum()")
        other = judge.Edit("other", "src/lib.rt", "len()", "clear(); len()")
        self.assertEqual(judge.edited("a.clear() a.len()", [other, one]), "a.sum() a.clear(); len()")

    def test_goals_of_a_closure(self):
        function = judge.Function("table::Slots::update", "src/table.rt", 3, 9)
        for folder in ("table/Slots/update", "table/fn/Slots/update/update"):
            said = f"./proofs/{folder}/Answers.antt:5:15: error: `returns`: `search`: no proof"
            self.assertEqual(judge.open_goal(said, function), "`returns`")
        for said in ("./proofs/table/Slots/other/Answers.antt:5:15: error: `returns`: no proof", "note: src/table.rt:10:1: it is not proved (`returns`)"):
            self.assertIsNone(judge.open_goal(said, function))

    def test_a_goal_of_a_function_without_answers(self):
        function = judge.Function("state::Core::with_keys", "src/state.rt", 10, 20)
        said = "fn sr_one::state::Core::with_keys: no proof: expected answers in ./proofs/Answers.antt; `search` did not prove `returns-clause-shown`"
        self.assertEqual(judge.verdict_on(said, "sr_one", function), (judge.REFUSED, "`returns-clause-shown` of state::Core::with_keys"))
        said = "fn sr_one::state::Core::with_keys: no proof: expected answers in ./proofs/Answers.antt"
        self.assertEqual(judge.verdict_on(said, "sr_one", function)[0], judge.UNKNOWN)

    def test_a_message_that_the_prover_breaks_off(self):
        function = judge.Function("running::run", "src/running.rt", 3, 9)
        at = "./proofs/running/run/Answers.antt:5:14: error: `returns`: "
        for gone in ("record `Rattle.sr_one.proofs.running.run.Lts.After`\n  has no field `flush`", "`goal.flush-requires`\n  module `Goals`\n    has no `flush-requires`"):
            said = f"{at}{gone}\n  these can be named: `args`\nfn sr_one::running::run: not proved"
            self.assertEqual(judge.verdict_on(said, "sr_one", function)[0], judge.UNKNOWN, gone)
        said = f"{at}`a + b`\n  is no proof of `b + a`\nfn sr_one::running::run: not proved"
        self.assertEqual(judge.verdict_on(said, "sr_one", function), (judge.REFUSED, "`returns` of running::run"))
        said = "fn sr_one::running::run: no proof: expected answers in ./proofs/Answers.antt;\n  `search` did not prove `returns`"
        self.assertEqual(judge.verdict_on(said, "sr_one", function)[0], judge.REFUSED)

    def test_a_proof_that_names_what_is_gone_in_a_long_message(self):
        name = "a_step_that_leads_nowhere_whose_name_is_so_long_that_the_prover_breaks_its_message_before_it_says_what_is_gone"
        behind = f"""
// One step further, behind one that leads nowhere.
fn step_behind(n: u64) -> u64
    requires {{ n ≤ 40 }}
    ensures {{ result ≡ n + 3 }}
{{
    let {name} = step(n);
    step(n)
}}
"""
        proof = f"""use Rattle.std.proofs.Common.{{arith}}
use Rattle.small.proofs.step_behind.Goals as goal

pub step-{name}-requires : goal.step-{name}-requires
step-{name}-requires c = omega arith
"""
        self.write("crates/small/proofs/step_behind/Answers.antt", proof)
        edits = {"names_the_step_otherwise": (f"    let {name} = step(n);", "    let nowhere = step(n);"), "steps_from_one": ("    step(n)", "    step(1)")}
        said, status, last, whole = self.tried(edits, SOURCE + behind)
        self.assertEqual(said, {"names_the_step_otherwise": "NOT TRIED", "steps_from_one": "refused"}, whole)
        self.assertEqual((status, last), (1, "1 passed, 1 failed"))

    def test_a_crate_that_is_not_proved(self):
        broken = SOURCE.replace("    n + n", "    n + 1 + n")
        said, status, _, whole = self.tried({"steps_twice": WRONG["steps_twice"]}, broken)
        self.assertEqual((said, status), ({"steps_twice": "NOT TRIED"}, 1), whole)

    def test_a_library_that_is_not_built(self):
        self.write("crates.txt", "low:\nsmall: low\n")
        self.write("crates/low/src/lib.rt", "//! Nothing.\n")
        said, status, _, whole = self.tried({"steps_twice": WRONG["steps_twice"]})
        self.assertEqual((said, status), ({"steps_twice": "NOT TRIED"}, 1), whole)
        self.assertIn("low is not built as it stands: flock seamless python3 -B gate/build.py --below small", whole)

    def test_once_as_a_whole_line(self):
        text = "    let a = self.n;\n    self.n\n    self.n = 2;\n"
        old, new = judge.old_and_new("\n" + text, "self.n", "self.n + 1")
        self.assertEqual((old, new), ("\n    self.n\n", "\n    self.n + 1\n"))
        for text in ("    self.n\n", "    self.n\n  self.n\n", "  a(self.n)\n  b(self.n)\n"):
            self.assertEqual(judge.old_and_new(text, "self.n", "0"), ("self.n", "0"), text)

    def test_nothing_to_try(self):
        _, status, last, _ = self.tried({})
        self.assertEqual((status, last), (1, "0 passed, 0 failed"))


class Refusals(Workspace):
    """What is tried anew: the prover is left out, and each wrong body refused but those that are named `harmless`."""

    # Two crates that the first stands below, and one beside; each with a wrong body but the lowest.
    CRATES = {"low": [], "middle": ["low"], "high": ["middle", "std"], "beside": []}

    def setUp(self):
        super().setUp()
        self.write("crates.txt", "".join(f"{name}: {' '.join(below)}\n" for name, below in self.CRATES.items()))
        for name in self.CRATES:
            self.write(f"crates/{name}/src/lib.rt", "fn one() {}\n")
            self.write(f"crates/{name}/specs/Words.antt", "one = 1\n")
            self.write(f"crates/{name}/proofs/one/Answers.antt", "search\n")
            if name != "low":
                self.write(f"crates/{name}/wrong/answers_two.edit", "file: src/lib.rt\nold: one\nnew: two\n")
        self.tried = []
        for patch in (mock.patch.object(rounds, "try_crate", self.try_crate), mock.patch.object(ledger, "logic_of_kit", lambda: self.logic)):
            patch.start()
            self.addCleanup(patch.stop)
        self.logic = "1"

    def try_crate(self, root, name, files):
        self.tried.append(name)
        bodies = {path.stem for path in files}
        return [f"rounds: {name} {' '.join(sorted(bodies))}"], bodies - {"harmless"}, bodies & {"harmless"}

    def due(self, *words, day=None):
        """The crates that are tried on a day, by default on one that is nobody's."""
        free = next(it for it in range(ledger.DAYS) if not any(ledger.is_of_the_day(name, it) for name in self.CRATES))
        self.tried.clear()
        status, said = self.call("--due", *words, day=free if day is None else day)
        return sorted(self.tried), status, said

    def written(self):
        return [line.split(": ")[0] for line in (self.top / "gate" / "refused.txt").read_text().split("\n") if line and not line.startswith("#")]

    def test_what_was_refused_is_not_tried_anew(self):
        self.assertEqual(self.due()[:2], (["beside", "high", "middle"], 0))
        self.assertFalse((self.top / "gate" / "refused.txt").exists())
        self.assertEqual(self.due("--write")[0], ["beside", "high", "middle"])
        self.assertEqual(self.written(), ["beside", "high", "middle"])
        tried, status, said = self.due()
        self.assertEqual((tried, status), ([], 0))
        self.assertIn("3 wrong bodies were refused as they stand", said)
        self.assertTrue(said.endswith("0 passed, 0 failed\n"))

    def test_all_and_by_name(self):
        self.due("--write")
        self.tried.clear()
        self.assertEqual(self.call()[0], 0)
        self.assertEqual(sorted(self.tried), ["beside", "high", "middle"])
        self.tried.clear()
        self.assertEqual(self.call("middle")[0], 0)
        self.assertEqual(self.tried, ["middle"])
        self.assertEqual(self.due("middle", "beside")[:2], ([], 0))
        self.write("crates/middle/wrong/answers_two.edit", "changed\n")
        self.write("crates/high/wrong/answers_two.edit", "changed\n")
        self.assertEqual(self.due("middle", "beside")[:2], (["middle"], 0))
        self.assertEqual(self.call("nowhere")[0], 2)

    def test_what_changes_is_tried(self):
        changes = {
            "crates/high/wrong/answers_two.edit": ["high"],
            "crates/high/wrong/answers_three.edit": ["high"],
            "crates/low/specs/Words.antt": ["high", "middle"],
            "crates/low/src/lib.rt": ["high", "middle"],
            "crates/middle/proofs/two/Answers.antt": ["high", "middle"],
            # What is built, and documents, are nothing that a refusal hangs on.
            "crates/middle/out/rlib/stamp": [],
            "crates/middle/README.md": [],
        }
        for path, wanted in changes.items():
            self.due("--write")
            self.write(path, f"changed: {path}\n")
            self.assertEqual(self.due()[0], wanted, path)

    def test_a_line_of_the_workspace(self):
        self.due("--write")
        lines = (self.top / "crates.txt").read_text()
        self.write("crates.txt", "# Another comment.\n" + lines)
        self.assertEqual(self.due()[0], [])
        self.write("crates.txt", lines.replace("beside: ", "beside: low"))
        self.assertEqual(self.due()[0], ["beside"])

    def test_another_logic_or_judge(self):
        self.due("--write")
        self.logic = "2"
        self.assertEqual(self.due()[0], ["beside", "high", "middle"])
        self.logic = "1"
        other = self.top / "judge.py"
        other.write_text("another judge\n")
        with mock.patch.object(ledger, "JUDGE", other):
            self.assertEqual(self.due()[0], ["beside", "high", "middle"])

    def test_another_place(self):
        self.due("--write")
        other = self.top / "elsewhere"
        shutil.copytree(self.top, other, ignore=lambda at, names: [it for it in names if it == "elsewhere"])
        known = ledger.Ledger(other)
        self.assertEqual({name: known.left(name, files) for name, files in rounds.bodies_of(other).items()}, {"beside": [], "high": [], "middle": []})

    def test_one_that_fails_is_never_written(self):
        self.write("crates/middle/wrong/harmless.edit", "file: src/lib.rt\nold: one\nnew: uno\n")
        self.assertEqual(self.due("--write")[1], 1)
        tried, status, said = self.due("--write")
        self.assertEqual((tried, status), (["middle"], 1))
        self.assertIn("rounds: middle harmless\n", said)
        # Nor does one stay that was there, as on its day of five.
        (self.top / "crates/middle/wrong/harmless.edit").unlink()
        self.assertEqual(self.due("--write")[0], [])
        self.assertEqual(self.written(), ["beside", "high", "middle"])
        with mock.patch.object(rounds, "try_crate", lambda root, name, files: ([], set(), {"answers_two"})):
            self.assertEqual(self.call("--write", "middle")[0], 1)
        self.assertEqual(self.written(), ["beside", "high"])

    def test_a_new_one_alone_is_tried(self):
        self.due("--write")
        self.write("crates/high/wrong/answers_three.edit", "file: src/lib.rt\nold: one\nnew: three\n")
        tried, status, said = self.due("--write")
        self.assertEqual((tried, status), (["high"], 0))
        self.assertIn("rounds: high answers_three\n", said)
        self.assertEqual(self.due()[0], [])
        # By another name it is the same.
        (self.top / "crates/high/wrong/answers_three.edit").rename(self.top / "crates/high/wrong/answers_more.edit")
        self.assertEqual(self.due()[0], [])

    def test_one_that_changes_while_it_is_tried(self):
        def try_and_change(root, name, files):
            self.write("crates/beside/src/lib.rt", "fn other() {}\n")
            return self.try_crate(root, name, files)

        with mock.patch.object(rounds, "try_crate", try_and_change):
            self.assertEqual(self.call("--write", "beside")[0], 0)
        self.assertEqual(self.written(), [])

    def test_each_crate_has_a_day_of_five(self):
        self.due("--write")
        by_day = [self.due(day=day)[0] for day in range(20000, 20000 + ledger.DAYS)]
        self.assertEqual(sorted(it for names in by_day for it in names), ["beside", "high", "middle"])
        self.assertEqual(by_day, [self.due(day=day)[0] for day in range(20005, 20005 + ledger.DAYS)])


if __name__ == "__main__":
    unittest.main()
