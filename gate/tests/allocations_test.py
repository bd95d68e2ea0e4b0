#!/usr/bin/env python3
"""What goes wrong where an allocation is refused is found, and what goes well is passed."""
import contextlib
import io
import os
import subprocess
import sys
import tempfile
import unittest
from pathlib import Path
from unittest import mock

sys.dont_write_bytecode = True
sys.path.insert(0, str(Path(__file__).resolve().parent.parent))
import allocation_runs  # noqa: E402
import allocations  # noqa: E402

# Tests as the toolchain builds them: `--list` names them, and a name runs one. A counter holds a number and its notes. `add`
# takes memory first and changes the counter then. The planted `add_early` changes it before. Each test makes a call that was
# refused again, and wants the counter as it was in between.
PROGRAM = r"""
#include <pthread.h>
#include <stdio.h>
#include <stdlib.h>
#include <string.h>
#include <unistd.h>

static long number;
static int *notes[8];

static int add(void) {
    int *note = malloc(sizeof *note);
    if (!note)
        return 0;
    notes[number++] = note;
    return 1;
}

static int add_early(void) {
    number++;
    notes[number - 1] = malloc(sizeof(int));
    return notes[number - 1] != NULL;
}

static int twice(int (*call)(void)) {
    long before = number;
    return call() || (number == before && call());
}

static int adds(int (*call)(void), int leaks) {
    for (int i = 0; i < 5; i++)
        if (!twice(call))
            return 1;
    for (int i = leaks; i < 5; i++)
        free(notes[i]);
    return 0;
}

static int hangs(void) {
    void *volatile block = malloc(1);
    while (!block)
        ;
    free(block);
    return 0;
}

static int leaks(void) {
    void *volatile first = malloc(1), *volatile second = malloc(1);
    if (second)
        free(first);
    free(second);
    return 0;
}

static int falls(void) {
    char *volatile block = malloc(1);
    *block = 1;
    free(block);
    return 0;
}

static void *work(void *call) { return adds(call, 0) ? call : NULL; }

static int on_a_thread(int (*call)(void)) {
    pthread_t thread;
    void *result = NULL;
    if (pthread_create(&thread, NULL, work, call) || pthread_join(thread, &result))
        return 0;
    return result != NULL;
}

static int add_leaking(void) {
    void *volatile first = malloc(1), *volatile second = malloc(1);
    if (second)
        free(first);
    free(second);
    return first && second;
}

static void *spared(void *unused) {
    for (int i = 0; i < 2000; i++) {
        void *volatile block = malloc(1);
        if (!block)
            return NULL;
        free(block);
    }
    return &number;
}

static int soaks(int (*call)(void)) {
    pthread_t thread;
    void *result = NULL;
    if (pthread_create(&thread, NULL, spared, NULL))
        return 1;
    int status = 0;
    for (int i = 0; i < 2000; i++) {
        number = 0;
        status |= !twice(call);
        if (number)
            free(notes[0]);
    }
    pthread_join(thread, &result);
    return status || !result;
}

int main(int count, char **words) {
    const char *name = count > 1 ? words[1] : "";
    if (!strcmp(name, "--list"))
        puts("adds: test\nadds_early: test\nhangs: test\nleaks: test\nfalls: test\nthread: test\nthread_early: test\n"
             "soaks: test\nsoaks_early: test\nsoaks_leaking: test");
    fflush(stdout);
    int status = !strcmp(name, "adds") ? adds(add, 0)
        : !strcmp(name, "adds_early") ? adds(add_early, 0)
        : !strcmp(name, "hangs") ? hangs()
        : !strcmp(name, "leaks") ? leaks()
        : !strcmp(name, "falls") ? falls()
        : !strcmp(name, "thread") ? on_a_thread(add)
        : !strcmp(name, "thread_early") ? on_a_thread(add_early)
        : !strcmp(name, "soaks") ? soaks(add)
        : !strcmp(name, "soaks_early") ? soaks(add_early)
        : !strcmp(name, "soaks_leaking") ? soaks(add_leaking) : 0;
    _exit(status);
}
"""


# A program that prints a line for each word on standard input, each behind an allocation, and tells where one fails. The planted
# ones go on, print half a line, print another line, tell nothing, or keep a block.
LINES = r"""
#include <stdio.h>
#include <stdlib.h>
#include <string.h>
#include <unistd.h>

int main(int count, char **words) {
    const char *fault = count > 1 ? words[1] : "";
    static char line[100], buffer[1000];
    setvbuf(stdout, buffer, _IOFBF, sizeof buffer);
    int number = 0, status = 0;
    char octet;
    while (!status && read(0, &octet, 1) == 1) {
        number++;
        void *volatile block = malloc(10), *volatile other = malloc(10);
        if (block && other)
            printf("line %d\n", number);
        else if (strcmp(fault, "goes_on")) {
            if (!strcmp(fault, "half"))
                printf("line");
            if (!strcmp(fault, "other"))
                printf("line 0\n");
            dprintf(2, !strcmp(fault, "untold") ? "fault\n" : "fault %d memory\n", number);
            status = !strcmp(fault, "status") ? 5 : 1;
        }
        if (strcmp(fault, "keeps") || other)
            free(block);
        free(other);
    }
    fflush(stdout);
    _exit(status);
}
"""

# Tests that fail.
OTHERS = ("adds_early", "hangs", "leaks", "falls", "thread_early", "soaks_early", "soaks_leaking")


class Refuse(unittest.TestCase):
    @classmethod
    def setUpClass(cls):
        cls.room = tempfile.TemporaryDirectory(prefix="allocations-test-")
        source = Path(cls.room.name) / "planted.c"
        source.write_text(PROGRAM)
        subprocess.run([os.environ.get("CC", "cc"), "-O0", "-pthread", "-o", f"{cls.room.name}/planted_tests", str(source)],
                       check=True)
        cls.library = allocations.library_in(cls.room.name)
        lines = Path(cls.room.name) / "lines.c"
        lines.write_text(LINES)
        subprocess.run([os.environ.get("CC", "cc"), "-O0", "-o", f"{cls.room.name}/planted", str(lines)], check=True)

    @classmethod
    def tearDownClass(cls):
        cls.room.cleanup()

    def swept(self, test):
        with mock.patch.object(allocations, "SECONDS", 1):
            return allocations.sweep(f"{self.room.name}/planted_tests", test, self.library, self.room.name)

    def test_a_call_that_changes_nothing_passes(self):
        found = self.swept("adds")
        self.assertEqual((found.refused, found.asked, found.faults), (5, 5, []))

    def test_a_call_that_changes_something_before_a_refusal_is_found(self):
        self.assertEqual(self.swept("adds_early").faults, [f"at {number} status 1" for number in range(1, 6)])

    def test_a_hang_is_found(self):
        self.assertEqual(self.swept("hangs").faults, ["at 1 hangs"])

    def test_a_block_that_is_left_is_found(self):
        self.assertEqual(self.swept("leaks").faults, ["at 2 left 1"])

    def test_a_program_that_falls_is_found(self):
        self.assertEqual(self.swept("falls").faults, ["at 1 signal 11"])

    def test_each_allocation_of_a_thread_is_refused(self):
        found = self.swept("thread")
        self.assertEqual(found.faults, [])
        self.assertGreaterEqual(found.refused, 5)

    def test_a_change_before_a_refusal_in_a_thread_is_found(self):
        self.assertEqual(len(self.swept("thread_early").faults), 5)

    def soaked(self, test, step=97):
        return allocations.soak(f"{self.room.name}/planted_tests", test, self.library, self.room.name, step)

    def test_every_97th_allocation_of_the_first_thread_is_refused(self):
        found = self.soaked("soaks")
        self.assertEqual(found.faults, [])
        self.assertEqual(found.refused, found.asked // 97)
        self.assertLess(found.asked, 2100)

    def test_a_soak_finds_a_change_before_a_refusal(self):
        self.assertEqual(self.soaked("soaks_early").faults, ["every 97: 1"])

    def test_a_soak_finds_a_block_that_is_left(self):
        found = self.soaked("soaks_leaking")
        self.assertEqual(len(found.faults), 1)
        self.assertRegex(found.faults[0], "^every 97 left [1-9]")

    def test_a_soak_in_which_nothing_is_refused_fails(self):
        self.assertEqual(self.soaked("soaks", 1000000).faults, ["nothing was refused"])

    def a_case(self, fault):
        case = Path(self.room.name) / "cases" / f"a_case_{fault}"
        case.mkdir(parents=True, exist_ok=True)
        (case / "args").write_text(f"{fault}\n")
        (case / "stdin").write_text("xxx")
        return case

    def ran(self, fault):
        case = self.a_case(fault)
        with mock.patch.object(allocation_runs, "CASES", case.parent):
            return allocation_runs.sweep(allocations.Found(), f"{self.room.name}/planted", "lines", case.name, self.library,
                                             self.room.name, 10, 100)

    def test_a_run_that_writes_a_front_passes(self):
        found = self.ran("none")
        self.assertEqual((found.refused, found.asked, found.faults), (6, 6, []))

    def test_a_run_that_goes_on_is_found(self):
        self.assertEqual(self.ran("goes_on").faults, [f"at {number} another output" for number in range(1, 7)])

    def test_half_a_line_is_found(self):
        self.assertEqual(self.ran("half").faults, [f"at {number} a part of a line" for number in range(1, 7)])

    def test_another_line_is_found(self):
        self.assertEqual(self.ran("other").faults, [f"at {number} no front of the output" for number in range(1, 7)])

    def test_a_run_that_tells_nothing_of_memory_is_found(self):
        self.assertEqual(self.ran("untold").faults, [f"at {number} told as b'fault\\n'" for number in range(1, 7)])

    def test_another_status_is_found(self):
        self.assertEqual(self.ran("status").faults, [f"at {number} status 5" for number in range(1, 7)])

    def test_a_block_that_a_run_keeps_is_found(self):
        self.assertEqual(self.ran("keeps").faults, [f"at {number} left 1" for number in (2, 4, 6)])

    def told(self, listed, words=()):
        listing = Path(self.room.name) / "refused.txt"
        listing.write_text(listed)
        with mock.patch.object(allocations, "CRATES", ("planted",)), contextlib.redirect_stdout(io.StringIO()) as said:
            status = allocations.main(list(words), self.room.name, str(listing))
        return status, said.getvalue().splitlines()

    def test_a_call_is_told_with_its_allocations(self):
        out = "".join(f"not planted::{it}: planted\n" for it in OTHERS)
        with mock.patch.object(allocation_runs, "CASES", self.a_case("none").parent):
            status, said = self.told(f"add: planted::adds\nrun: lines::a_case_none\nevery 97: planted::soaks\n"
                                     f"seamless lines: a_case_none\n{out}")
        self.assertEqual((status, said[-3:]), (False, ["allocations: add: 5 of 5", "allocations: run: 6 of 6", "4 passed, 0 failed"]))

    def test_a_call_without_its_test_is_told(self):
        out = "".join(f"not planted::{it}: planted\n" for it in OTHERS)
        status, said = self.told(f"add: planted::gone\nevery 97: planted::dry\n{out}not planted::lost: it is gone\n")
        self.assertTrue(status)
        self.assertIn("allocations: gate/allocations.txt soaks planted::dry, which is no test", said)
        self.assertIn("allocations: gate/allocations.txt leaves out planted::lost, which is no test", said)
        self.assertIn("allocations: add:  ... FAILED: not swept: planted::gone", said)


if __name__ == "__main__":
    unittest.main()
