#!/usr/bin/env python3
"""What agree.py finds: a header, a crate and bindings that differ in one word."""
import shutil
import tempfile
import unittest
from pathlib import Path

from agree import findings

TOP = Path(__file__).resolve().parent.parent
READ = ["clib", "crates/sr_c/src", "bindings/rust/seamless-sys", "bindings/rust/seamless", "bindings/python"]
HEADER, FRAMES, CODES, ENTRIES = "clib/include/seamless.h", "crates/sr_c/src/frames.rt", "crates/sr_c/src/codes.rt", "crates/sr_c/src/entries.rt"
SYS, PYTHON = "bindings/rust/seamless-sys/src/lib.rs", "bindings/python/seamless.py"
FAULTS, MAKE = "bindings/rust/seamless/src/fault.rs", "clib/Makefile"


class Agreement(unittest.TestCase):
    def found(self, name, old, new):
        with tempfile.TemporaryDirectory() as folder:
            for path in READ:
                shutil.copytree(TOP / path, Path(folder) / path)
            file = Path(folder) / name
            text = file.read_text()
            self.assertIn(old, text)
            file.write_text(text.replace(old, new))
            return list(findings(Path(folder)))

    def test_what_is_here_agrees(self):
        self.assertEqual(self.found(HEADER, "", ""), [])

    def test_one_word_that_differs(self):
        for name, old, new in [
            (HEADER, "size_t seamless_waiting(", "size_t seamless_awaiting("),
            (HEADER, "SEAMLESS_CLOSED = 263", "SEAMLESS_CLOSED = 262"),
            (HEADER, "SEAMLESS_UNTAGGED = 258", "SEAMLESS_UNTAGGED = 257"),
            (HEADER, "    uint32_t age_a;", "    uint64_t age_a;"),
            (HEADER, "#define SEAMLESS_ABI 2", "#define SEAMLESS_ABI 3"),
            (FRAMES, "fn seamless_tick(", "fn seamless_tock("),
            (CODES, "OPEN: u32 = 264", "OPEN: u32 = 265"),
            (CODES, "StepFault::TableFull => 259", "StepFault::TableFull => 260"),
            (ENTRIES, "pub wrong_lan: u64", "pub wrong_lan: u32"),
            (SYS, "fn seamless_time(", "fn seamless_tame("),
            (PYTHON, '"seamless_alarm_at"', '"seamless_alarms_at"'),
            (PYTHON, "APART = 267", "APART = 266"),
            (FAULTS, "265 => Err(Fault::Snapshot)", "266 => Err(Fault::Snapshot)"),
            (HEADER, "SEAMLESS_SNAPSHOT = 265", "SEAMLESS_SNAPSHOT = 266"),
            (HEADER, "#define SEAMLESS_VERSION ", "#define SEAMLESS_VERSION 1"),
            (MAKE, "VERSION = ", "VERSION = 1"),
        ]:
            with self.subTest(new=new):
                self.assertNotEqual(self.found(name, old, new), [])


if __name__ == "__main__":
    unittest.main()
