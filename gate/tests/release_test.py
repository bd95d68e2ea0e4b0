#!/usr/bin/env python3
"""What is released runs at once, without the toolchain, where it was made of these sources, and only then; it is compared with what is built,
and installed where each thing is looked for."""
import gzip
import hashlib
import os
import shutil
import subprocess
import tempfile
import unittest
from pathlib import Path

TOP = Path(__file__).resolve().parent.parent.parent
CRATES = {"sr_beside": "", "sr_low": "", "sr_cli": "sr_low", "sr_c": "sr_low"}
RELEASED = b'#!/bin/sh\n[ "$1" = --version ] && echo "seamless 1.0" || echo "released $*"\n'
LIBRARY = b"an archive"
# In place of the toolchain: its own line, and a program that tells where it comes from.
TOOLCHAIN = """#!/bin/bash
if [ "$1" = version ]; then
    echo kit-1
elif [ "$1" = doc ]; then
    echo "${0%/*}/kit/START-HERE.md"
else
    mkdir -p out/rlib/x.rlib
    printf '#!/bin/sh\\n[ "$1" = --version ] && echo "seamless 1.1" || echo "built $*"\\n' >out/sr_cli
    chmod +x out/sr_cli
fi
"""
INSTALLED = {
    "bin/seamless",
    "share/man/man1/seamless.1",
    "share/bash-completion/completions/seamless",
    "share/zsh/site-functions/_seamless",
    "share/fish/vendor_completions.d/seamless.fish",
    "lib/libseamless.a",
    "include/seamless.h",
    "lib/pkgconfig/seamless.pc",
}


class Release(unittest.TestCase):
    def setUp(self):
        self.top = Path(tempfile.mkdtemp())
        self.addCleanup(shutil.rmtree, self.top)
        for name in ("seamless", "install", "release/compare", "release/make", "gate/sources.sh", "gate/archive.py", "gate/build.py", "gate/times.py", "gate/workspace.py"):
            self.copy(name)
        for name in ("clib/Makefile", "clib/processor.c", "clib/seamless.map", "clib/seamless.pc.in", "clib/include/seamless.h"):
            self.copy(name)
        for name in ("docs/seamless.1", "docs/seamless.bash", "docs/seamless.zsh", "docs/seamless.fish"):
            self.copy(name)
        lines = [f"\n# sr_low: sr_beside\n{name}: {below} # sr_beside stands below none\n" for name, below in CRATES.items()]
        self.write("crates.txt", "# Each crate.\n" + "".join(lines))
        for name in CRATES:
            self.write(f"crates/{name}/src/{'main' if name == 'sr_cli' else 'lib'}.rt", name)
        self.write("tools/rt", TOOLCHAIN)
        (self.top / "tools/rt").chmod(0o755)
        # What proves and compiles the C library.
        self.tool("kit/bin/rattle", "exit 0")
        # What a machine without the toolchain has: bash, coreutils and gzip.
        self.write("bare/gzip", '#!/bin/bash\nexec /bin/gzip "$@"\n')
        for name in ("bash", "gzip", "mktemp", "mkdir", "mv", "rm", "chmod", "sha256sum", "uname", "readlink", "dirname", "cat"):
            (self.top / "bare" / name).unlink(missing_ok=True)
            (self.top / "bare" / name).symlink_to(shutil.which(name))
        self.release()

    def copy(self, name):
        (self.top / name).parent.mkdir(parents=True, exist_ok=True)
        shutil.copy(TOP / name, self.top / name)

    def write(self, name, text):
        (self.top / name).parent.mkdir(parents=True, exist_ok=True)
        (self.top / name).write_text(text)

    def tool(self, name, text):
        """Puts a script in the place of a program."""
        self.write(f"tools/{name}", f"#!/bin/bash\n{text}\n")
        (self.top / "tools" / name).chmod(0o755)

    def release(self):
        """Makes the release of the tree as it stands."""
        told = f"cd {self.top} && top=$PWD && . gate/sources.sh && sum_of_sources"
        sources = subprocess.run(["bash", "-c", told], capture_output=True, text=True, check=True).stdout.strip()
        lines = ["version 1.0", "kit kit-1", "cc none", f"sources {sources}"]
        for name, octets in (("seamless-x86_64-linux", RELEASED), ("libseamless-x86_64-linux.a", LIBRARY)):
            (self.top / "release").mkdir(exist_ok=True)
            (self.top / "release" / f"{name}.gz").write_bytes(gzip.compress(octets, mtime=0))
            lines.append(f"{name} {hashlib.sha256(octets).hexdigest()}")
        self.write("release/MANIFEST", "\n".join(lines) + "\n")

    def call(self, *words, bare=False, **environment):
        """The status and the outputs of a call in the tree."""
        path = str(self.top / "bare") if bare else f"{self.top / 'tools'}:{os.environ['PATH']}"
        given = {key: value for key, value in os.environ.items() if key != "SEAMLESS_BUILD"}
        ran = subprocess.run(words, cwd=self.top, env={**given, "PATH": path, **environment}, capture_output=True, text=True)
        return ran.returncode, ran.stdout, ran.stderr

    def test_a_release_of_these_sources_runs_without_the_toolchain(self):
        self.assertEqual(self.call("./seamless", "audit", bare=True), (0, "released audit\n", ""))
        # The second time it lies unpacked.
        self.assertEqual(self.call("./seamless", "ring", bare=True), (0, "released ring\n", ""))
        self.assertEqual(self.call("./seamless", "--version", bare=True), (0, "seamless 1.0\nkit kit-1\nof the release\n", ""))

    def test_other_sources_are_built(self):
        for change in (lambda: self.write("crates/sr_low/src/lib.rt", "other"), lambda: self.write("crates/sr_low/specs/New.antt", "")):
            with self.subTest():
                self.assertEqual(self.call("./seamless", "audit")[1], "released audit\n")
                change()
                status, out, said = self.call("./seamless", "audit")
                self.assertEqual((status, out), (0, "built audit\n"), said)
                self.release()

    def test_sources_of_a_crate_beside_it_are_none_of_it(self):
        self.assertEqual(self.call("./seamless", "audit")[1], "released audit\n")
        self.write("crates/sr_beside/src/lib.rt", "other")
        self.assertEqual(self.call("./seamless", "audit")[1], "released audit\n")

    def test_other_sources_are_built_where_one_went(self):
        self.write("crates/sr_low/src/more.rt", "more")
        self.release()
        self.assertEqual(self.call("./seamless")[1], "released \n")
        (self.top / "crates/sr_low/src/more.rt").unlink()
        self.assertEqual(self.call("./seamless")[1], "built \n")

    def test_it_is_built_where_that_is_asked_for(self):
        self.assertEqual(self.call("./seamless", "audit", SEAMLESS_BUILD="1")[1], "built audit\n")

    def test_without_toolchain_and_release_it_says_what_is_missing(self):
        self.write("crates/sr_low/src/lib.rt", "other")
        (self.top / "bare" / "find").symlink_to(shutil.which("find"))
        (self.top / "bare" / "flock").symlink_to(shutil.which("flock"))
        status, out, said = self.call("./seamless", "audit", bare=True)
        self.assertEqual((status, out), (2, ""))
        self.assertRegex(said, r"^seamless: to prove and build these sources takes the kit of Rattle .*\n$")

    def test_a_released_file_that_was_changed_does_not_run(self):
        (self.top / "release/seamless-x86_64-linux.gz").write_bytes(gzip.compress(RELEASED + b"#"))
        status, out, said = self.call("./seamless", "audit")
        self.assertEqual((status, out), (0, "built audit\n"))
        self.assertIn("release/seamless-x86_64-linux.gz is not what release/MANIFEST says", said)

    def build(self, program=RELEASED, library=LIBRARY):
        """Has the program and the library stand built, as these octets."""
        for name, octets in (("crates/sr_cli/out/sr_cli", program), ("clib/out/libseamless.a", library)):
            self.write(name, octets.decode())
            (self.top / name).chmod(0o755)
        return self.top / "crates/sr_cli/out/sr_cli", self.top / "clib/out/libseamless.a"

    def repack(self, name, octets):
        """Puts other octets into a file of the release."""
        (self.top / "release" / f"{name}.gz").write_bytes(gzip.compress(octets))

    def test_what_is_released_is_compared_with_what_is_built(self):
        self.assertEqual(self.call("release/compare")[:2], (3, "not compared: the program is not built here\n"))
        program, library = self.build()
        self.tool("cc", "echo none")
        self.assertEqual(self.call("release/compare")[:2], (0, ""))
        self.build(library=LIBRARY + b"s")
        self.assertEqual(self.call("release/compare")[:2], (1, f"release/libseamless-x86_64-linux.a.gz is not {library}\n"))
        self.build(program=RELEASED + b"#")
        self.assertEqual(self.call("release/compare")[:2], (1, f"release/seamless-x86_64-linux.gz is not {program}\n"))
        self.write("crates/sr_low/src/lib.rt", "other")
        self.assertEqual(self.call("release/compare")[:2], (3, "not compared: release/ was made of other sources\n"))
        (self.top / "release/MANIFEST").unlink()
        self.assertEqual(self.call("release/compare")[:2], (3, "not compared: there is no release\n"))

    def test_where_a_part_can_not_be_compared_the_other_is(self):
        program, library = self.build()
        self.tool("cc", "echo another")
        told = "the program is the same; not compared: of the C library a part was made by another compiler: none\n"
        self.assertEqual(self.call("release/compare")[:2], (0, told))
        self.tool("cc", "echo none")
        library.unlink()
        self.assertEqual(self.call("release/compare")[:2], (0, "the program is the same; not compared: the C library, which is not built here\n"))
        program.write_bytes(RELEASED + b"#")
        self.assertEqual(self.call("release/compare")[0], 1)

    def test_a_released_file_of_which_an_octet_was_changed_fails_whatever_can_be_compared(self):
        self.build()
        kit = (self.top / "tools/rt").read_text()
        for other_kit, other_sources in ((False, False), (True, False), (False, True)):
            self.write("tools/rt", kit.replace("kit-1", "kit-2") if other_kit else kit)
            self.write("crates/sr_low/src/lib.rt", "other" if other_sources else "sr_low")
            for name, octets in (("seamless-x86_64-linux", RELEASED), ("libseamless-x86_64-linux.a", LIBRARY)):
                with self.subTest(name, kit=other_kit, sources=other_sources):
                    self.repack(name, octets[:-1] + bytes([octets[-1] ^ 1]))
                    self.assertEqual(self.call("release/compare")[:2], (1, f"release/{name}.gz is not what release/MANIFEST says\n"))
                    self.repack(name, octets)
                    self.assertNotEqual(self.call("release/compare")[0], 1)

    def test_a_release_is_made_of_the_tree(self):
        for name in ("MANIFEST", "seamless-x86_64-linux.gz", "libseamless-x86_64-linux.a.gz"):
            (self.top / "release" / name).unlink()
        self.tool("cc", "echo one compiler")
        self.tool("make", "mkdir -p clib/out && printf library >clib/out/libseamless.a")
        status, out, said = self.call("release/make")
        self.assertEqual((status, out), (0, (self.top / "release/MANIFEST").read_text()), said)
        self.assertEqual(out.split("\n")[:3], ["version 1.1", "kit kit-1", "cc one compiler"])
        self.assertEqual(self.call("release/compare")[:2], (0, ""))
        self.assertEqual(self.call("./seamless", "audit", bare=True), (0, "built audit\n", ""))
        self.assertTrue(self.call("./seamless", "--version", bare=True)[1].endswith("of the release\n"))
        # A release of the same tree is the same octets.
        files = {it.name: it.read_bytes() for it in (self.top / "release").glob("*") if it.is_file()}
        self.assertEqual(self.call("release/make")[0], 0)
        self.assertEqual({it.name: it.read_bytes() for it in (self.top / "release").glob("*") if it.is_file()}, files)

    def test_a_release_that_can_not_be_built_leaves_the_last_one(self):
        files = {it.name: it.read_bytes() for it in (self.top / "release").glob("*")}
        self.tool("make", "exit 1")
        self.assertNotEqual(self.call("release/make")[0], 0)
        self.assertEqual({it.name: it.read_bytes() for it in (self.top / "release").glob("*") if it.is_file()}, files)

    def test_it_is_installed_and_taken_away(self):
        there = self.top / "there"
        status, out, said = self.call("./install", "/usr", DESTDIR=str(there))
        self.assertEqual((status, out, said), (0, "", ""))
        files = {it.relative_to(there / "usr").as_posix() for it in there.rglob("*") if it.is_file()}
        self.assertEqual(files, INSTALLED)
        self.assertEqual(self.call(str(there / "usr/bin/seamless"), "ring")[1], "released ring\n")
        self.assertIn("prefix=/usr\n", (there / "usr/lib/pkgconfig/seamless.pc").read_text())
        self.assertEqual(self.call("./install", "--uninstall", "/usr", DESTDIR=str(there))[0], 0)
        self.assertEqual([it for it in there.rglob("*") if it.is_file()], [])

    def test_what_is_built_here_is_installed_where_there_is_no_release(self):
        (self.top / "release/MANIFEST").unlink()
        status, out, said = self.call("./install", "there")
        self.assertEqual((status, out), (0, ""))
        self.assertTrue(said.endswith("install: without the C library, which is not built here (make -C clib)\n"), said)
        files = {it.relative_to(self.top / "there").as_posix() for it in (self.top / "there").rglob("*") if it.is_file()}
        self.assertEqual(files, {it for it in INSTALLED if not it.startswith(("lib/", "include/"))})
        self.assertEqual(self.call("there/bin/seamless", "--version")[1], "seamless 1.1\n")
        self.assertEqual(self.call("./install", "--uninstall", "there")[0], 0)
        self.assertEqual([it for it in (self.top / "there").rglob("*") if it.is_file()], [])

    def test_a_released_library_that_was_changed_is_not_installed(self):
        self.repack("libseamless-x86_64-linux.a", LIBRARY + b"s")
        status, _, said = self.call("./install", "there")
        self.assertNotEqual(status, 0)
        self.assertIn("release/libseamless-x86_64-linux.a.gz is not what release/MANIFEST says", said)
        self.assertFalse((self.top / "there").exists())

    def test_nothing_is_taken_away_that_is_not_there(self):
        self.write("there/bin/another", "")
        self.assertEqual(self.call("./install", "--uninstall", "there")[0], 0)
        self.assertEqual([it.name for it in (self.top / "there").rglob("*") if it.is_file()], ["another"])

    def test_it_takes_one_folder(self):
        self.assertEqual(self.call("./install", "--other")[0], 2)
        self.assertEqual(self.call("./install", "a", "b")[0], 2)


# A case that shows a page, which has the version.
PAGE = "examples/cases/an_audit_in_html_is_a_page_of_faults"


class Version(unittest.TestCase):
    """Of the files of this repository, those that have its version."""

    def setUp(self):
        self.top = Path(tempfile.mkdtemp())
        self.addCleanup(shutil.rmtree, self.top)
        for name in ("release", "clib", "bindings", "crates/sr_c", "crates/sr_options/src"):
            shutil.copytree(TOP / name, self.top / name, ignore=shutil.ignore_patterns("out", "target", "proofs"))
        for name in ("docs/seamless.1", f"{PAGE}/stdout"):
            (self.top / name).parent.mkdir(parents=True, exist_ok=True)
            shutil.copyfile(TOP / name, self.top / name)
        # The repository's own has changes that are not released only between two releases.
        (self.top / "CHANGELOG.md").write_text("# Changelog\n\n## Unreleased (1.2.3-dev)\n\n- One.\n\n## 0.1\n")

    def call(self, *words):
        return subprocess.run([self.top / "release/version", *words], capture_output=True, text=True)

    def lines(self, name):
        return (self.top / name).read_text().split("\n")

    def test_each_file_gets_it(self):
        for version, number in (("1.2.3", 10203), ("1.2.3", 10203), ("0.10.99", 1099)):
            ran = self.call(version)
            # What agree.py compares are header, crate, Makefile and bindings.
            self.assertEqual((ran.returncode, ran.stdout, ran.stderr), (0, "", ""))
            self.assertIn(f'const VERSION: &str = "{version}";', self.lines("crates/sr_options/src/command_line.rt"))
            self.assertIn(f"#define SEAMLESS_VERSION {number}", self.lines("clib/include/seamless.h"))
            life = "\n".join(self.lines("crates/sr_c/src/life.rt"))
            self.assertIn(f"fn seamless_version() -> u32\n    ensures {{ result ≡ {number} }}\n", life)
            self.assertIn("fn seamless_abi() -> u32\n    ensures { result ≡ 2 }\n", life)
            file, old, new = self.lines("crates/sr_c/wrong/is_another_version.edit")[:3]
            self.assertEqual(life.count(old.removeprefix("old: ")), 1)
            self.assertNotEqual(old.removeprefix("old: "), new.removeprefix("new: "))
            self.assertEqual(self.lines("bindings/rust/Cargo.lock").count(f'version = "{version}"'), 2)
            self.assertIn(f'"seamless {version}"', self.lines("docs/seamless.1")[0])
            self.assertIn(f"<dd>seamless {version}</dd>", "\n".join(self.lines(f"{PAGE}/stdout")))
        self.assertEqual([it for it in self.lines("CHANGELOG.md") if it.startswith("## ")], ["## 1.2.3", "## 0.1"])

    def test_what_is_no_version_changes_nothing(self):
        files = {it: it.read_bytes() for it in self.top.rglob("*") if it.is_file()}
        for words in ((), ("1.2",), ("1.2.3-dev",), ("1.100.0",), ("01.2.3",), ("x1.2.3",)):
            self.assertEqual(self.call(*words).returncode, 2, words)
        self.assertEqual({it: it.read_bytes() for it in self.top.rglob("*") if it.is_file()}, files)

    def test_a_file_without_it_is_told(self):
        (self.top / "clib/Makefile").write_text("all:\n")
        ran = self.call("1.2.3")
        self.assertEqual((ran.returncode, ran.stderr), (1, "release/version: clib/Makefile has no version\n"))


if __name__ == "__main__":
    unittest.main()
