#!/usr/bin/env python3
"""What more lines cost too much is found, and what they may cost is passed."""
import subprocess
import sys
import tempfile
import unittest
import unittest.mock
from pathlib import Path

sys.dont_write_bytecode = True
sys.path.insert(0, str(Path(__file__).resolve().parent.parent))
import costs  # noqa: E402

# Reads its lines a block at a time, or an octet at a time, and keeps what it is asked to for each line.
PROGRAM = r"""
#define _GNU_SOURCE
#include <sched.h>
#include <stdlib.h>
#include <string.h>
#include <unistd.h>

int main(int count, char **args) {
    static char block[65536];
    int keeps = count > 1 && !strcmp(args[1], "keeps"), asks = count > 1 && !strcmp(args[1], "asks");
    int slow = count > 1 && !strcmp(args[1], "slow");
    ssize_t size;
    while ((size = read(0, block, slow ? 1 : sizeof block)) > 0)
        for (ssize_t at = 0; at < size; at++)
            if (block[at] == '\n') {
                void *volatile kept = keeps || asks ? malloc(100) : NULL;
                if (!keeps)
                    free(kept);
            }
    cpu_set_t processors;
    sched_getaffinity(0, sizeof processors, &processors);
    _exit(count > 1 && (!strcmp(args[1], "fails") || (!strcmp(args[1], "one") && CPU_COUNT(&processors) != 1)));
}
"""


class CostsTest(unittest.TestCase):
    @classmethod
    def setUpClass(cls):
        cls.room = tempfile.TemporaryDirectory(prefix="costs-test-")
        source = Path(cls.room.name, "program.c")
        source.write_text(PROGRAM)
        program = Path(cls.room.name, "program")
        subprocess.run(["cc", "-O1", "-o", program, source], check=True)
        cls.costs = costs.Costs(str(program), None, cls.room.name)

    @classmethod
    def tearDownClass(cls):
        cls.room.cleanup()

    def found(self, way, allowed=0, octets=0):
        failed = []
        runs = [self.costs.run([way], b"line\n" * count) for count in (10, 30)]
        costs.same("lines", *runs, failed, allowed=allowed, octets=octets)
        return failed

    def test_what_takes_nothing_more_passes(self):
        self.assertEqual(self.found("plain"), [])

    def test_an_allocation_of_each_line_is_found(self):
        self.assertEqual(self.found("asks"), ["lines: 20 allocations and 0 octets more"])
        self.assertEqual(self.found("asks", allowed=20), [])

    def test_memory_that_grows_is_found(self):
        self.assertTrue(self.found("keeps", allowed=20))
        self.assertTrue(self.found("keeps", allowed=20, octets=1999))
        self.assertEqual(self.found("keeps", allowed=20, octets=3000), [])

    def test_a_bound_is_no_less_than_what_is_held_and_less_than_half_as_much_again(self):
        for octets, most, passes in ((100, 99, False), (100, 100, True), (100, 149, True), (100, 150, False)):
            failed = []
            costs.within("lines", octets, most, failed)
            self.assertEqual(not failed, passes, (octets, most))

    def test_threads_have_one_processor_and_the_most_or_the_least_counts(self):
        for pick, wanted in ((max, (9, 300)), (min, (5, 50))):
            runs = iter([costs.Run(text, 0) for text in ("6 100 0 0", "9 50 0 0", "7 300 0 0", "5 200 0 0")])
            with unittest.mock.patch.object(self.costs, "run", lambda *args, **how: next(runs)):
                picked = self.costs.on_threads([], pick=pick)
            self.assertEqual((picked.allocations, picked.octets), wanted)
        self.costs.on_threads(["one"])

    def test_the_least_time_of_three_runs_counts(self):
        runs = iter([costs.Run("0 0 0 0", seconds) for seconds in (3, 1, 2)])
        with unittest.mock.patch.object(self.costs, "run", lambda *args: next(runs)):
            self.assertEqual(self.costs.least_seconds([]), 1)

    def test_reads_are_counted(self):
        self.assertLess(self.costs.run(["plain"], b"line\n" * 100).reads, 5)
        self.assertGreater(self.costs.run(["slow"], b"line\n" * 100).reads, 500)

    def test_a_run_that_fails_is_told(self):
        with self.assertRaises(ValueError):
            self.costs.run(["fails"])


if __name__ == "__main__":
    unittest.main()
