#!/usr/bin/env python3
"""./seamless builds each crate once, whoever calls it and however often, side by side, and a build that was broken off is in nobody's
way."""
import fcntl
import os
import shutil
import signal
import subprocess
import sys
import tempfile
import time
import unittest
from pathlib import Path

sys.path.insert(0, str(Path(__file__).resolve().parent.parent))
import build  # noqa: E402
import workspace  # noqa: E402

GATE = Path(__file__).resolve().parent.parent
# A machine that does much else is slow.
PATIENCE = 120
# In place of the toolchain: writes down which crate it builds and when, sees that what stands below is built, takes a moment, and makes a
# library, or a program that prints its arguments. It keeps some work too, and fails in a crate whose source says so. Crates of TOGETHER
# wait for each other's beginning.
TOOLCHAIN = """#!/usr/bin/env bash
if [ "$1" = version ]; then
    echo kit-1
    exit
fi
name=$(basename "$PWD")
echo "$name $*" >>"$TOP/called"
for lower in $(sed -n "s/^$name[^:]*://p" ../../crates.txt); do
    [ -e "../$lower/out/rlib/$lower.rlib/format" ] || { echo "$lower is not built"; exit 1; }
done
mkdir -p out/incremental
echo "$name" >>out/incremental/kept
if ! cmp -s src/lib.rt out/rlib/stamp; then
    echo "$name begins" >>"$TOP/built"
    sleep "${PAUSE:-0.3}"
    for other in $TOGETHER; do
        [[ " $TOGETHER " != *" $name "* ]] || until grep -q "$other begins" "$TOP/built"; do sleep 0.05; done
    done
    if grep -q broken src/lib.rt; then
        echo "$name is broken"
        exit 1
    fi
    if [ "$1" = run ]; then
        printf '#!/bin/sh\\necho "$@"\\n' >"out/$name"
        chmod +x "out/$name"
    else
        rm -rf out/rlib
        mkdir -p "out/rlib/$name.rlib"
        echo "$name" >"out/rlib/$name.rlib/format"
        cp src/lib.rt out/rlib/stamp
    fi
    echo "$name ends" >>"$TOP/built"
fi
"""
# Two libraries stand side by side over one, and the program over them.
CRATES = {"sr_low": [], "sr_left": ["sr_low"], "sr_right": ["sr_low"], "sr_other": [], "sr_cli": ["sr_left", "sr_right"]}


class Seamless(unittest.TestCase):
    def setUp(self):
        self.top = Path(tempfile.mkdtemp())
        self.addCleanup(shutil.rmtree, self.top)
        lines = [f"\n# {name}: nothing\n{name}: {' '.join(below)}\n" for name, below in CRATES.items()]
        (self.top / "crates.txt").write_text("".join(lines))
        for name in CRATES:
            (self.top / "crates" / name / "src").mkdir(parents=True)
            (self.top / "crates" / name / "src" / "lib.rt").write_text(f"{name}\n")
        (self.top / "crates" / "sr_cli" / "src" / "main.rt").write_text("")
        (self.top / "crates" / "sr_cli" / "args").write_text("replay\n--role\n")
        (self.top / "tools").mkdir()
        (self.top / "tools" / "rt").write_text(TOOLCHAIN)
        (self.top / "tools" / "rt").chmod(0o755)
        (self.top / "gate").mkdir()
        for name in ("build.py", "times.py", "workspace.py", "sources.sh"):
            shutil.copy(GATE / name, self.top / "gate" / name)
        shutil.copy(GATE.parent / "seamless", self.top / "seamless")
        (self.top / ".git").mkdir()

    def tools(self):
        """The environment in which the toolchain is the one in place of it."""
        return {**os.environ, "TOP": str(self.top), "PATH": f"{self.top / 'tools'}:{os.environ['PATH']}"}

    def call(self, *arguments, script="seamless", **environment):
        pipes = {"stdin": subprocess.DEVNULL, "stdout": subprocess.PIPE, "stderr": subprocess.PIPE}
        return subprocess.Popen([self.top / script, *arguments], env=self.tools() | environment, text=True, start_new_session=True, **pipes)

    def written(self, name):
        """What the toolchain wrote down, in its order."""
        file = self.top / name
        return file.read_text().splitlines() if file.exists() else []

    def begun(self):
        """The crates whose build was begun, in order."""
        return [line.split()[0] for line in self.written("built") if line.endswith(" begins")]

    def rooms(self):
        return list((self.top / ".git").rglob("sr_*"))

    def await_unlocked(self):
        """Waits until nobody holds the lock: the processes of a build that was broken off take a moment to end."""
        latest = time.monotonic() + PATIENCE
        with open(self.top / "seamless") as script:
            while True:
                try:
                    return fcntl.flock(script, fcntl.LOCK_EX | fcntl.LOCK_NB)
                except BlockingIOError:
                    self.assertLess(time.monotonic(), latest)
                    time.sleep(0.01)

    def test_two_at_once(self):
        calls = [self.call("first"), self.call("second")]
        ended = [call.communicate(timeout=PATIENCE) for call in calls]
        self.assertEqual([out for out, _ in ended], ["first\n", "second\n"])
        self.assertEqual(sorted(self.begun()), ["sr_cli", "sr_left", "sr_low", "sr_right"])
        self.assertEqual(sum("waiting for it" in err for _, err in ended), 1)

    def test_side_by_side(self):
        are_two = build.processors() > 1 and build.free_memory() > 3 * build.MEMORY_OF_A_BUILD
        # Neither would end alone.
        _, err = self.call(TOGETHER="sr_left sr_right" if are_two else "").communicate(timeout=PATIENCE)
        self.assertEqual(self.begun()[0], "sr_low")
        self.assertEqual(self.begun()[3], "sr_cli")
        self.assertRegex(err, r"seamless: proving and building 4 crates, \d+ at a time: about \d+ seconds\n")
        self.assertRegex(err, r"seamless: sr_low is built, 1 of 4 after \d+ seconds, about \d+ seconds left\n")
        self.assertRegex(err, r"seamless: sr_cli is built, 4 of 4 after \d+ seconds\n")
        self.assertEqual(self.rooms(), [])

    def test_what_is_run_and_what_one_gets(self):
        self.call().communicate(timeout=PATIENCE)
        called = self.written("called")
        self.assertIn("sr_cli run -- replay --role", called)
        jobs = max(1, min(build.MOST_JOBS, build.processors(), build.free_memory() // build.MEMORY_OF_A_BUILD))
        # Nothing else was ready beside the lowest.
        self.assertRegex(called[0], rf"^sr_low lib --jobs [1-{jobs}]$")

    def test_nothing_to_build(self):
        self.call().communicate(timeout=PATIENCE)
        self.assertEqual(self.call("again").communicate(timeout=PATIENCE), ("again\n", ""))
        self.assertEqual(len(self.begun()), 4)

    def change(self, name, text):
        """Changes a source, later than whatever was built: the clock of files is coarse."""
        time.sleep(0.05)
        (self.top / "crates" / name / "src" / "lib.rt").write_text(text)

    def test_what_changed_is_built(self):
        self.call().communicate(timeout=PATIENCE)
        self.change("sr_other", "changed\n")
        self.assertEqual(self.call("again").communicate(timeout=PATIENCE), ("again\n", ""))
        self.change("sr_left", "changed\n")
        out, err = self.call("again").communicate(timeout=PATIENCE)
        self.assertEqual(out, "again\n", err)
        self.assertEqual(sorted(self.begun()[4:]), ["sr_cli", "sr_left"])
        self.assertEqual((self.top / "crates/sr_left/out/rlib/stamp").read_text(), "changed\n")

    def test_what_changes_while_it_is_built_is_built_by_the_next_call(self):
        call = self.call()
        while not self.begun():
            time.sleep(0.01)
        self.change("sr_left", "changed\n")
        self.assertEqual(call.communicate(timeout=PATIENCE)[0], "\n")
        self.call().communicate(timeout=PATIENCE)
        self.assertEqual((self.top / "crates/sr_left/out/rlib/stamp").read_text(), "changed\n")
        self.assertEqual(self.call("again").communicate(timeout=PATIENCE), ("again\n", ""))

    def test_one_that_fails(self):
        self.call().communicate(timeout=PATIENCE)
        self.change("sr_left", "broken\n")
        call = self.call("again")
        out, err = call.communicate(timeout=PATIENCE)
        self.assertEqual((call.returncode, out), (2, ""))
        self.assertIn("seamless: sr_left is not built:\nsr_left is broken\n", err)
        # What stood built stands, what was proved is kept, and no room is left.
        self.assertEqual((self.top / "crates/sr_left/out/rlib/stamp").read_text(), "sr_left\n")
        self.assertEqual((self.top / "crates/sr_left/out/incremental/kept").read_text(), "sr_left\nsr_left\n")
        self.assertEqual(self.rooms(), [])
        self.change("sr_left", "mended\n")
        self.assertEqual(self.call("again").communicate(timeout=PATIENCE)[0], "again\n")

    def test_times_that_can_not_be_noted(self):
        (self.top / "out").write_text("It is no folder.")
        call = self.call("built")
        self.assertEqual((call.communicate(timeout=PATIENCE)[0], call.returncode), ("built\n", 0))

    def test_files_that_can_not_be_written(self):
        (self.top / ".git" / "seamless-rooms").write_text("It is no folder.")
        call = self.call("built")
        out, err = call.communicate(timeout=PATIENCE)
        self.assertEqual((call.returncode, out), (2, ""))
        self.assertRegex(err, r"^seamless: the build was broken off: .*seamless-rooms'\n$")

    def test_old_libraries_go(self):
        self.call().communicate(timeout=PATIENCE)
        self.change("sr_left", "changed\n")
        subprocess.run([sys.executable, "-B", self.top / "gate" / "build.py", "--drop-old"], check=True)
        self.assertEqual([it for it in CRATES if (self.top / "crates" / it / "out" / "rlib").exists()], ["sr_low", "sr_right"])

    def test_one_that_was_only_touched(self):
        self.call().communicate(timeout=PATIENCE)
        below = workspace.crates_below(self.top)
        self.change("sr_low", "sr_low\n")
        self.assertTrue(workspace.is_library_old(self.top, below, "sr_low"))
        self.call().communicate(timeout=PATIENCE)
        self.assertFalse(any(workspace.is_library_old(self.top, below, it) for it in ("sr_low", "sr_left", "sr_right")))
        # The toolchain knew that it was built.
        self.assertEqual(self.begun().count("sr_low"), 1)

    def test_what_stands_below(self):
        build_below = [sys.executable, "-B", self.top / "gate" / "build.py", "--below", "sr_left", "sr_other"]
        subprocess.run(build_below, env=self.tools(), check=True, capture_output=True)
        self.assertEqual(self.begun(), ["sr_low"])

    def test_without_a_git_folder(self):
        (self.top / ".git").rmdir()
        self.assertEqual(self.call("first").communicate(timeout=PATIENCE)[0], "first\n")

    def break_off(self, send):
        """Breaks a build off while the lowest crate is built, and sees that the next call builds all."""
        call = self.call(PAUSE="10")
        while not self.begun():
            self.assertIsNone(call.poll())
            time.sleep(0.01)
        send(call.pid)
        call.communicate(timeout=PATIENCE)
        self.await_unlocked()
        self.assertFalse((self.top / "crates/sr_low/out/rlib").exists())
        out, err = self.call("then").communicate(timeout=PATIENCE)
        self.assertEqual(out, "then\n")
        self.assertNotIn("waiting for it", err)
        self.assertEqual(sorted(self.begun()), ["sr_cli", "sr_left", "sr_low", "sr_low", "sr_right"])
        self.assertEqual(self.rooms(), [])
        return call

    def test_broken_off(self):
        self.break_off(lambda group: os.killpg(group, signal.SIGTERM))
        # What was proved is kept.
        self.assertEqual((self.top / "crates/sr_low/out/incremental/kept").read_text(), "sr_low\nsr_low\n")

    def test_broken_off_by_the_terminal(self):
        self.break_off(lambda group: os.killpg(group, signal.SIGINT))

    def test_broken_off_as_the_terminal_goes(self):
        self.break_off(lambda group: os.killpg(group, signal.SIGHUP))

    def test_killed(self):
        self.break_off(lambda group: os.killpg(group, signal.SIGKILL))

    def test_killed_alone(self):
        # Of the script alone: what it has begun ends with it.
        self.break_off(lambda process: os.kill(process, signal.SIGKILL))

    def test_through_a_link(self):
        (self.top / "tools" / "seamless").symlink_to(self.top / "seamless")
        self.assertEqual(self.call("linked", script="tools/seamless").communicate(timeout=PATIENCE)[0], "linked\n")

    def git(self, *arguments):
        names = ["-c", "user.name=a", "-c", "user.email=a@b.example"]
        return subprocess.run(["git", *names, "-C", self.top, *arguments], check=True, capture_output=True, text=True).stdout.strip()

    def test_the_kit_and_the_commit_of_a_version(self):
        (self.top / ".git").rmdir()
        self.call().communicate(timeout=PATIENCE)
        self.assertEqual(self.call("--version").communicate(timeout=PATIENCE), ("--version\nkit kit-1\nbuilt here\n", ""))
        self.git("init")
        self.git("add", "crates.txt")
        self.git("commit", "--message", "First")
        commit = self.git("rev-parse", "--short=12", "HEAD")
        self.assertEqual(self.call("--version").communicate(timeout=PATIENCE), (f"--version\nkit kit-1\ncommit {commit}\nbuilt here\n", ""))
        self.assertEqual(self.call("--version", "x").communicate(timeout=PATIENCE), ("--version x\n", ""))
        with open(self.top / "crates.txt", "a") as listed:
            listed.write("# changed\n")
        self.assertEqual(self.call("-V").communicate(timeout=PATIENCE)[0], f"-V\nkit kit-1\ncommit {commit}, changed since\nbuilt here\n")


class Order(unittest.TestCase):
    """Which crate comes first, and what time is left."""

    def setUp(self):
        self.top = Path(tempfile.mkdtemp())
        self.addCleanup(shutil.rmtree, self.top)
        (self.top / "gate").mkdir()
        (self.top / "crates.txt").write_text("low:\nlong: low\nshort: low\nlast: long short\nalone:\n")
        (self.top / "gate" / "times.txt").write_text("low proof 10\nlong proof 100\nshort proof 20\nlast proof 30\nalone proof 25\n")
        for name in ("low", "long", "short", "last", "alone"):
            (self.top / "crates" / name / "src").mkdir(parents=True)
            (self.top / "crates" / name / "src" / "lib.rt").write_text("\n")

    def test_the_longest_chain_comes_first(self):
        going = build.Build(self.top, ["last", "alone"], self.top)
        self.assertEqual(going.ready(), ["low", "alone"])
        going.built.add("low")
        self.assertEqual(going.ready(), ["long", "short", "alone"])

    def test_the_time_that_is_left(self):
        going = build.Build(self.top, ["last", "alone"], self.top)
        going.lanes = 4
        # The chain of three, beside which the others go on.
        self.assertEqual(going.left(), 140)
        going.lanes = 1
        self.assertEqual(going.left(), 185)
        going.built.update(("low", "long"))
        going.done, going.seconds = ["low", "long"], {"low": 20, "long": 200}
        self.assertEqual(going.left(), 2 * 75)


if __name__ == "__main__":
    unittest.main()
