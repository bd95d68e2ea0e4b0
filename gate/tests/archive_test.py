#!/usr/bin/env python3
"""A static library is proved once, over the libraries that stand built, and compiled by each compiler that is named."""
import os
import subprocess
import sys
import tempfile
import unittest
from pathlib import Path
from unittest import mock

sys.path.insert(0, str(Path(__file__).resolve().parent.parent))
import archive
import workspace

# In place of the prover: it writes down how it was called, and makes what it was asked for, but where a crate is refused.
RATTLE = """#!/bin/bash
echo "$*" >>"${0%/*}/called"
[ "$1" = check ] && [ -e refused ] && exit 1
while [ $# -gt 1 ]; do
    [ "$1" = --backend ] && compiler=$2
    [ "$1" = -o ] && echo "by ${compiler-nobody}" >"$2"
    shift
done
exit 0
"""
RT = """#!/bin/bash
[ "$1" = doc ] && echo "${0%/*}/kit/START-HERE.md"
exit 0
"""
# In place of the build of what stands below.
BUILD = """import pathlib, sys
pathlib.Path("built").write_text(" ".join(sys.argv[1:]))
"""


class Archive(unittest.TestCase):
    def setUp(self):
        folder = tempfile.TemporaryDirectory()
        self.addCleanup(folder.cleanup)
        self.root = Path(folder.name)
        self.write("crates.txt", "sr_low:\nsr_c staticlib: sr_low std_alloc\n")
        self.write("crates/sr_low/src/lib.rt", "low")
        self.write("crates/sr_c/src/lib.rt", "c")
        self.write("crates/sr_low/out/rlib/sr_low.rlib/format", "built")
        self.write("seamless", "")
        self.write("gate/build.py", BUILD)
        for name, text in (("rt", RT), ("kit/bin/rattle", RATTLE)):
            self.write(f"tools/{name}", text)
            (self.root / "tools" / name).chmod(0o755)
        self.enterContext(mock.patch.dict(os.environ, {"PATH": f"{self.root}/tools:{os.environ['PATH']}"}))
        workspace.kit.cache_clear()
        self.addCleanup(workspace.kit.cache_clear)

    def write(self, name, text):
        (self.root / name).parent.mkdir(parents=True, exist_ok=True)
        (self.root / name).write_text(text)

    def call(self, *words):
        with mock.patch.object(sys, "stderr"):
            return archive.main(list(words), self.root)

    def called(self):
        return [it.split() for it in (self.root / "tools/kit/bin/called").read_text().splitlines()]

    def test_it_is_proved_once_and_compiled_by_each_compiler(self):
        made = {it: self.root / "made" / f"{it}.a" for it in ("rattle", "llvm")}
        self.assertEqual(self.call("sr_c", *(f"{it}={file}" for it, file in made.items())), 0)
        self.assertEqual({it: file.read_text() for it, file in made.items()}, {it: f"by {it}\n" for it in made})
        calls = self.called()
        self.assertEqual([it[0] for it in calls], ["check", "build", "build"])
        for words in calls:
            self.assertEqual(words[words.index("--crate-type") + 1], "staticlib")
            self.assertIn(f"sr_low={self.root}/crates/sr_low/out/rlib/sr_low.rlib", words)
            self.assertIn(f"std_alloc={self.root}/tools/kit/rlibs/std_alloc.rlib", words)
        # What is compiled is what was proved.
        proved = calls[0][calls[0].index("-o") + 1]
        self.assertEqual([it[it.index("--crate-checked") + 1] for it in calls[1:]], [proved, proved])
        self.assertFalse((self.root / "built").exists())

    def test_what_is_not_proved_is_not_compiled(self):
        self.write("crates/sr_c/refused", "")
        self.assertEqual(self.call("sr_c", f"llvm={self.root}/made.a"), 1)
        self.assertFalse((self.root / "made.a").exists())

    def test_a_library_that_is_older_than_its_sources_is_built_first(self):
        library = self.root / "crates/sr_low/out/rlib/sr_low.rlib"
        os.utime(library, (1, 1))
        self.assertEqual(self.call("sr_c", f"llvm={self.root}/made.a"), 0)
        self.assertEqual((self.root / "built").read_text(), "--below sr_c")

    def test_where_that_fails_nothing_is_proved(self):
        self.write("gate/build.py", "raise SystemExit(1)")
        (self.root / "crates/sr_low/out/rlib/sr_low.rlib/format").unlink()
        self.assertEqual(self.call("sr_c", f"llvm={self.root}/made.a"), 1)
        self.assertFalse((self.root / "tools/kit/bin/called").exists())

    def test_other_words_are_refused(self):
        for words in ((), ("sr_c",), ("sr_c", "made.a"), ("sr_c", "gcc=made.a"), ("sr_c", "llvm=made.a", "more")):
            self.assertEqual(self.call(*words), 2, words)


if __name__ == "__main__":
    unittest.main()
