#!/usr/bin/env python3
"""Each rule of the lint passes a small repository in order, and finds what breaks it."""
import sys
import tempfile
import unittest
from pathlib import Path

sys.path.insert(0, str(Path(__file__).resolve().parent.parent))
import lint  # noqa: E402

IN_ORDER = {
    "crates.txt": "# Each crate: a line.\n\n# Octets: one\nsr_one: # sr_none: none\n\n# Tests\nsr_tests_one: sr_one\n",
    "README.md": "See [the map](docs/ARCHITECTURE.md).\n",
    "docs/ARCHITECTURE.md": "```\nsr_one sr_tests_one\n```\n"
    "| `sr_one` | `lib.rt` |\n| `sr_tests_one` | tests |\n## What is planned\n| `sr_two` |\n",
    "crates/sr_one/README.md": "# sr_one\n",
    "crates/sr_one/src/lib.rt": "/// What it does.\n#[inline]\npub fn one() {}\nfn own() {}\n",
    "crates/sr_one/specs/Ones.antt": "one = 1\n",
    "crates/sr_tests_one/src/lib.rt": "",
}


class Lint(unittest.TestCase):
    def findings(self, changes):
        """What is found where these files are changed; of None, a file is gone."""
        with tempfile.TemporaryDirectory() as folder:
            root = Path(folder)
            for name, text in {**IN_ORDER, **changes}.items():
                if text is not None:
                    path = root / name
                    path.parent.mkdir(parents=True, exist_ok=True)
                    path.write_text(text)
            return [f"{path}:{number}: {text}" for path, number, text in lint.findings(root)]

    def test_in_order(self):
        self.assertEqual(self.findings({}), [])

    def test_wide_definitions(self):
        wide = {"crates/sr_one/specs/Ones.antt": "one = 1\n-- " + "ℕ" * 137 + "\n-- " + "ℕ" * 138 + "\n"}
        self.assertEqual(self.findings(wide), ["crates/sr_one/specs/Ones.antt:3: a line of 141 characters"])

    def test_wide_clauses(self):
        source = "crates/sr_one/src/lib.rt"
        begin, end = "    ensures { ", " }"
        for length, wide in [(100, []), (101, [f"{source}:2: a line of a clause of 101 characters"])]:
            clause = begin + "ℕ" * (length - len(begin) - len(end)) + end
            self.assertEqual(self.findings({source: f"fn one()\n{clause}\n{{\n}}\n"}), wide)
        later = "    requires later { a\n" + " " * 8 + "→ " + "b" * 95 + " }\n"
        self.assertEqual(self.findings({source: later}), [f"{source}:2: a line of a clause of 107 characters"])
        for line in ["ghost use Rattle.one.{" + "a" * 100 + "}", "// ensures { " + "a" * 100 + " }", '    b"' + "0" * 100 + '",']:
            self.assertEqual(self.findings({source: line + "\n"}), [], line)

    def test_silent_items(self):
        for item in ["pub fn one() {}", "    pub const fn one() {}", "pub struct one;", "#[inline]\npub enum one {}"]:
            found = self.findings({"crates/sr_one/src/lib.rt": "// one\n" + item + "\n"})
            number = 1 + len(item.split("\n"))
            self.assertEqual(found, [f"crates/sr_one/src/lib.rt:{number}: `one` has no doc comment"])
        documented = {
            "crates/sr_one/src/lib.rt": "/// One.\n// speed: D-one-name\n#[inline]\npub fn one() {}\n",
            "docs/DECISIONS.md": "**D-one-name.** One.\n",
        }
        self.assertEqual(self.findings(documented), [])

    def test_bare_limits(self):
        for line in ["IsShort n = n < 8000", "most n = min n 60_000", "a = b n 1524 -- 1518", "all = 1524 ∷ []"]:
            found = self.findings({"crates/sr_one/specs/Ones.antt": "one = 1\n" + line + "\n"})
            self.assertEqual(len(found), 1, line)
            self.assertRegex(found[0], r"^crates/sr_one/specs/Ones.antt:2: \d+ has no name$")
        for line in ["longest = 1524", "size_of Wide = 2048", "-- 1524", "n < 2 ^ 1024", "n % 65536", "t / 1000000", "n < 784"]:
            self.assertEqual(self.findings({"crates/sr_one/specs/Ones.antt": line + "\n"}), [], line)
        for name in ["Limits", "OneLemmas"]:
            self.assertEqual(self.findings({f"crates/sr_one/specs/{name}.antt": "IsShort n = n < 8000\n"}), [])

    def test_names_twice(self):
        other = "crates/sr_tests_one/specs/Ones.antt"
        for line in ["abbrev pub two : ℕ", "unfoldable pub two : ℕ", "pub record two : Type 0 where", "pub data two : Type 0 where"]:
            twice = {"crates/sr_one/specs/Ones.antt": line + "\n", other: "-- two\nabbrev pub two : ℕ\n"}
            self.assertEqual(self.findings(twice), [f"{other}:2: `two` is public in sr_one and sr_tests_one"])
            listed = {**twice, "gate/shared_names.txt": "# Both.\ntwo: sr_one sr_tests_one\n"}
            self.assertEqual(self.findings(listed), [])
        for line in ["two : ℕ", "  pub two : ℕ", "pub mod two", "-- abbrev pub two : ℕ"]:
            once = {"crates/sr_one/specs/Ones.antt": "abbrev pub two : ℕ\n", other: line + "\n"}
            self.assertEqual(self.findings(once), [], line)
        self.assertEqual(
            self.findings({"gate/shared_names.txt": "two: sr_one\n"}),
            ["gate/shared_names.txt:1: `two` is not public in sr_one"],
        )

    def test_made_lacks(self):
        source = "crates/sr_one/src/lib.rt"
        for line in [
            "return Err(NoMemory);",
            "None => Err(FaultKind::Memory),",
            "Err(AllocError)",
            "name.ok_or(Fault::NoMemory)",
            "word: FaultKind::Memory,",
            "Fault::NoMemory",
        ]:
            found = self.findings({source: "fn one() {\n    " + line + "\n}\n"})
            self.assertEqual(found, [f"{source}:2: makes want of memory, and passes on none"], line)
        for lines in [
            "Err(_) => Err(FaultKind::Memory),",
            "Err(ReadFault::NoMemory) => Err(NoMemory),",
            "Fault::NoMemory => None,",
            "Fault::Full | Fault::NoMemory => true,",
            "let Ok(one) = two() else {\n    return Err(NoMemory);\n};",
            "two().map_err(|_| FaultKind::Memory)",
            "NoMemory::from(two)",
            "fn one() -> Result<(), NoMemory> {",
            "fn one(lack: NoMemory) {}",
            "use sr_frame::{Mac, NoMemory};",
            "ensures err { IfErr result (λ kind. kind ≡ FaultKind.Memory) }",
            "ensures err { IfErr result (λ word.\n    word ≡ FaultKind::Memory) }",
            "impl From<Lack> for FaultKind {\n    fn from(_lack: Lack) -> FaultKind {\n        FaultKind::Memory\n    }\n}",
        ]:
            self.assertEqual(self.findings({source: lines + "\n"}), [], lines)

    def test_dropped_keys(self):
        source = "crates/sr_one/src/lib.rt"
        made = "fn new() -> One {\n    One::with_keys(Keys::FIXED)\n}\n"
        given = made + "fn with_keys(keys: Keys) -> One {\n    One(CALL)\n}\n"
        self.assertEqual(self.findings({source: given.replace("CALL", "Two::with_keys(keys)")}), [])
        for call, number, text in [
            ("Two::with_keys(two)", 4, "drops the keys that it is given"),
            ("keys, One::new()", 5, "makes a table without the keys that it is given"),
            ("keys, One::with(two)", 5, "makes a table without the keys that it is given"),
            ("keys, Two::with_keys(Keys::FIXED)", 5, "has fixed keys outside a `new` or a `with`"),
            ("keys, Keys::FIXED", 5, "has fixed keys outside a `new` or a `with`"),
        ]:
            found = self.findings({source: given.replace("CALL", call)})
            self.assertEqual(found, [f"{source}:{number}: {text}"], call)

    def test_dropped_keys_of_any_function(self):
        source = "crates/sr_one/src/lib.rt"
        made = "fn new() -> One {\n    One::with_keys(Keys::FIXED)\n}\n"
        given = made + "fn begun(\n    one: u8,\n    keys: Keys,\n) -> One {\n    let _ = keys;\n    CALL\n}\n"
        for call, wanted in [
            ("One::with_keys(keys)", []),
            ("two()", [f"{source}:4: drops the keys that it is given"]),
            ("(keys, One::new())", [f"{source}:9: makes a table without the keys that it is given"]),
            ("(keys, Keys::FIXED)", [f"{source}:9: has fixed keys outside a `new` or a `with`"]),
        ]:
            self.assertEqual(self.findings({source: given.replace("CALL", call)}), wanted, call)
            as_new = given.replace("begun", "new").replace("fn new() -> One", "fn with() -> One")
            self.assertEqual(self.findings({source: as_new.replace("CALL", call)}), wanted, call)

    def test_undrawn_keys(self):
        source = "crates/sr_cli/src/one.rt"
        drawn = "fn one() {\n    let Ok(keys) = Keys::new(rt) else {\n        return;\n    };\n    run_leaving(SETUP);\n}\n"
        for text, wanted in [
            (drawn.replace("SETUP", "Setup { keys, ..*setup }"), []),
            (drawn.replace("SETUP", "setup"), [f"{source}:1: drops the keys that it draws"]),
            ("fn one() {\n    run_leaving(setup);\n}\n", [f"{source}:1: runs a node of the command line under fixed keys"]),
            ("fn run_leaving(setup: Setup) {\n    run(setup);\n}\n", []),
        ]:
            found = [it for it in self.findings({source: text}) if it.startswith(source)]
            self.assertEqual(found, wanted, text)

    def test_missing_files(self):
        text = IN_ORDER["README.md"]
        for name in ["`two.rt`", "`crates/sr_one/src/two.rt`", "[the map](docs/MAP.md)"]:
            wanted = name.strip("`") if "(" not in name else "docs/MAP.md"
            self.assertEqual(
                self.findings({"README.md": text + name}), [f"README.md:2: names `{wanted}`, which is not there"]
            )
        for link in ["docs/ARCHITECTURE.md#what-is-planned", "#one-and-two"]:
            head = "# `One` and two\n"
            self.assertEqual(self.findings({"README.md": head + f"[there]({link})"}), [], link)
            self.assertEqual(
                self.findings({"README.md": head + f"[there]({link}s)"}),
                [f"README.md:2: names the heading `{link.split('#')[1]}s`, which is not there"],
            )

    def test_missing_names(self):
        source = {"crates/sr_one/src/lib.rt": "// `one_two` IsOne\n"}
        for text in ["`one_two`", "`IsOne`", "`One::one_two`", "`one_two()`", "`One`", "`two`", "one_three", "`./seamless one_three`"]:
            self.assertEqual(self.findings({**source, "docs/ONE.md": text + "\n"}), [], text)
        for name in ["one_three", "IsTwo", "One::one_three"]:
            found = self.findings({**source, "docs/ONE.md": f"one\n`{name}`\n"})
            self.assertEqual(found, [f"docs/ONE.md:2: names `{name}`, which no source has"])
        row = "| one | `one_std` | `hsr_one` | what it is | `NAME` |\n"
        self.assertEqual(self.findings({**source, "docs/MODEL.md": row.replace("NAME", "one_two")}), [])
        found = self.findings({**source, "docs/MODEL.md": row.replace("NAME", "one_three")})
        self.assertEqual(found, ["docs/MODEL.md:1: names `one_three`, which no source has"])

    def test_crates_out_of_order(self):
        found = ["crates.txt:2: `sr_tests_one` stands on `sr_one`, which stands below it"]
        for layer, wanted in [("# Octets", found), ("# Laws", []), ("#Laws", found), ("# Laws\n# Others", found)]:
            listed = {"crates.txt": f"# Tests\nsr_tests_one: sr_one std\n\n{layer}\nsr_one: std # Laws\n"}
            self.assertEqual(self.findings(listed), wanted, layer)

    def test_crate_tables(self):
        self.assertEqual(
            self.findings({"crates/sr_two/src/lib.rt": ""}), ["crates.txt:1: `sr_two` has no line or no folder"]
        )
        self.assertEqual(
            self.findings({"crates/sr_tests_one/src/lib.rt": None}),
            ["crates.txt:1: `sr_tests_one` has no line or no folder"],
        )
        self.assertEqual(
            self.findings({"docs/ARCHITECTURE.md": "```\nsr_one sr_tests_one\n```\n| `sr_one` | `lib.rt` |\n| `sr_two` |\n## What is planned\n`sr_two`\n"}),
            [
                f"docs/ARCHITECTURE.md:1: `{name}` stands in crates.txt or in the table of crates, and not in both"
                for name in ["sr_tests_one", "sr_two"]
            ],
        )
        undrawn = IN_ORDER["docs/ARCHITECTURE.md"].replace("sr_one sr_tests_one\n", "sr_tests_one\n")
        self.assertEqual(
            self.findings({"docs/ARCHITECTURE.md": undrawn}), ["docs/ARCHITECTURE.md:1: `sr_one` is not in the drawing"]
        )
        for text in [None, "# sr_two\n"]:
            self.assertEqual(
                self.findings({"crates/sr_one/README.md": text}),
                ["crates/sr_one/README.md:1: is no README of `sr_one`"],
            )

    def test_untested_examples(self):
        shown = {"README.md": IN_ORDER["README.md"] + "```rust\nlet one = 1;\nlet two = one;\n```\n"}
        test = "crates/sr_tests_one/src/lib.rt"
        self.assertEqual(self.findings({**shown, test: "    let one = 1;\n    let two = one;\n"}), [])
        self.assertEqual(
            self.findings({**shown, test: "    let two = 1;\n"}), ["README.md:2: shows Rust that no crate of tests has"]
        )

    def test_untested_lines(self):
        shown = "See the map.\n\n```\n    a drawing\n```\n\n    ./seamless a | ./seamless b\n    H 0200 53..fb\n"
        files = {"examples/one.script": "in A 0 0200\n", "examples/one.expected": "H 02005300fb\nH 02\n"}
        for page in ["README.md", "docs/PROGRAM.md"]:
            self.assertEqual(self.findings({page: shown, **files}), [])
            self.assertEqual(self.findings({page: shown, "check": "    echo H 0200530fb\n"}), [])
            for name in ["stdin", "stdout", "stderr"]:
                self.assertEqual(self.findings({page: shown, f"examples/cases/one/{name}": "H 0200530fb\n"}), [])
            for changes in [{}, {"examples/one.expected": "H 02005300fa\n"}, {"examples/one.md": "H 02005300fb\n"}]:
                self.assertEqual(self.findings({page: shown, **changes}), [f"{page}:8: shows a line that no example has"])

    def test_untested_commands(self):
        folder = "examples/cases/one"
        case = {f"{folder}/args": "ring\n--nodes\n4\n", f"{folder}/stdin": "flow\n"}
        text = "See the map.\n"
        for page in ["README.md", "docs/PROGRAM.md"]:
            for command in [
                f"`./seamless ring --nodes 4 < {folder}/stdin`",
                f"\n    ./seamless ring --nodes 4 <{folder}/stdin",
                "\n    ./seamless ring --nodes 4",
                "`./seamless a | b`",
            ]:
                self.assertEqual(self.findings({**case, page: text + command}), [], command)
            for arguments, source in [("ring --nodes 3", ""), ("ring --nodes 4", f" < {folder}/args"), ("ring --nodes 4", f" <{folder}/args")]:
                found = self.findings({**case, page: f"{text}`./seamless {arguments}{source}`"})
                self.assertEqual(found, [f"{page}:2: shows `{arguments}`, which is no case"])

    def test_long_readme(self):
        self.assertEqual(self.findings({"README.md": "one\n" * 1000}), [])
        self.assertEqual(self.findings({"README.md": "one\n" * 1001}), ["README.md:1: has 1001 words, more than 1000"])

    def test_large_test_crates(self):
        whole = {"crates/sr_tests_one/src/lib.rt": "//\n" * 1000, "crates/sr_tests_one/src/one/two.rt": "//\n" * 2000}
        large = "crates/sr_tests_one/src/lib.rt:1: sr_tests_one has 3001 lines, more than 3000"
        self.assertNotIn(large, self.findings(whole))
        self.assertIn(large, self.findings({**whole, "crates/sr_tests_one/src/three.rt": "//\n"}))
        self.assertNotIn("more than", "".join(self.findings({"crates/sr_one/src/lib.rt": "//\n" * 3001})))

    def test_untold_laws(self):
        source, page = "crates/sr_one/src/laws.rt", "docs/LAWS.md"
        law = "/// One is one.\npub fn one_is_one()\n    ensures { OneIsOne }\n{}\n"
        row = "| Name | Crate |\n|---|---|\n| `one_is_one` | `sr_one` | nothing | One is one. |\n"
        self.assertEqual(self.findings({source: law, page: row}), [])
        untold = [f"{source}:2: `one_is_one` of sr_one has no row in docs/LAWS.md"]
        for text in [None, "`one_is_one` of `sr_one`\n", row.replace("sr_one", "sr_two")]:
            self.assertEqual(self.findings({source: law, page: text})[:1], untold, text)
        for other in [
            law.replace("one_is_one()", "one_is_one<const N: usize>()"),
            law.replace("{}", "{\n    two_is_two();\n}"),
            law.replace("    ensures", "    requires { One }\n    ensures"),
        ]:
            self.assertEqual(self.findings({source: other, page: row}), [], other)
        lost = [f"{page}:3: `one_is_one` is no law of sr_one"]
        for other in [
            law.replace("one_is_one()", "one_is_one(n: u8)"),
            law.replace("one_is_one()", "one_is_one() -> u8"),
            law.replace("    ensures { OneIsOne }\n", ""),
            law.replace("pub fn", "pub(crate) fn"),
        ]:
            self.assertEqual(self.findings({source: other, page: row}), lost, other)
        self.assertEqual(self.findings({"crates/sr_tests_one/src/laws.rt": law}), [])

    def test_failed_allocations(self):
        for text in [
            "want of memory",
            "where memory ran out",
            "Memory runs out",
            "an allocation is refused",
            "a growth was refused",
            "where memory is refused",
            "a refused growth",
            "it refuses one allocation after the other",
            "memory that was refused",
        ]:
            found = self.findings({"docs/ONE.md": f"one\n{text}\n"})
            self.assertEqual(len(found), 1, text)
            self.assertRegex(found[0], r"^docs/ONE.md:2: says `.*` for a failed allocation$")
        for text in ["/// Memory ran out.", "    // None for want\n    // of memory.", "//! Each growth\n//! may be refused."]:
            found = self.findings({"crates/sr_one/src/two.rt": f"{text}\nfn two() {{}}\n"})
            self.assertEqual(len(found), 1, text)
            self.assertRegex(found[0], r"^crates/sr_one/src/two.rt:1: says `[\w ]*` for a failed allocation$")
        for text in ["// memory\nran_out();\n// out", 'let text = "out of memory";', "// `out of memory`"]:
            self.assertEqual(self.findings({"crates/sr_one/src/two.rt": f"fn two() {{\n{text}\n}}\n"}), [], text)
        for text in ["an allocation failed", "where an allocation fails", "a refused event", "growths come first", "takes memory", "`out of memory`"]:
            self.assertEqual(self.findings({"docs/ONE.md": text + "\n"}), [], text)

    def test_bare_names(self):
        self.assertEqual(self.findings({"crates/sr_one/src/lib.rt": "/// Takes `more_if` and [this](a_b.md).\npub fn one() {}\n"}), [])
        self.assertEqual(
            self.findings({"crates/sr_one/src/lib.rt": "/// All are more_if.\npub fn one() {}\n"}),
            ["crates/sr_one/src/lib.rt:1: more_if stands in a comment without backticks"],
        )

    def test_leaning_comments(self):
        source = "crates/sr_one/src/one.rt"
        told = [f"{source}:2: a comment leans on the one above: it begins with `The same` or `and`"]
        for text in ["/// The same, of two.", "    // and so on", "//! And this."]:
            self.assertEqual(self.findings({source: f"\n{text}\n"}), told, text)
        for text in ["/// One of two lines,\n/// and the other.", "/// Android.", "-- the same octets", "let same = 1; // The same."]:
            self.assertEqual(self.findings({source: f"\n{text}\n"}), [], text)
        self.assertEqual(len(self.findings({"crates/sr_one/specs/One.antt": "\n-- and more\n"})), 1)

    def test_decision_keys(self):
        page = "docs/DECISIONS.md"
        entry = "**D-one-name.** One name.\n"
        cited = {"crates/sr_one/src/laws.rt": "// speed: D-one-name\n", "docs/ONE.md": "See D-one-name, and AND-GATE.\n"}
        self.assertEqual(self.findings({page: entry, **cited}), [])
        self.assertEqual(self.findings({page: entry + entry}), [f"{page}:2: `D-one-name` is the key of line 1"])
        self.assertEqual(
            self.findings(cited),
            [f"{path}:1: names `D-one-name`, which is no decision" for path in ["docs/ONE.md", "crates/sr_one/src/laws.rt"]],
        )

    def test_each_rule_has_a_test(self):
        for rule in lint.RULES:
            self.assertTrue(hasattr(self, f"test_{rule.__name__}"), rule.__name__)


if __name__ == "__main__":
    unittest.main()
