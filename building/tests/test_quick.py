"""Tests of the build without proofs: what it is built of, what a broken-off one leaves, and when it is kept."""
import contextlib
import io
import os
import signal
import subprocess
import sys
import tempfile
import threading
import time
import unittest
from unittest import mock

BUILDING = os.path.dirname(os.path.dirname(os.path.realpath(__file__)))
sys.path.insert(0, BUILDING)

import crates
import quick
import running

VERSION_FILE = 'const VERSION: &str = "1.0.0 (proved)";\n'


class Folder(unittest.TestCase):
    """A test with a folder of its own."""

    def setUp(self):
        self.folder = self.enterContext(tempfile.TemporaryDirectory())

    def write(self, path, text, mode=0o644):
        whole = f"{self.folder}/{path}"
        os.makedirs(os.path.dirname(whole), exist_ok=True)
        with open(whole, "w", encoding="utf-8") as file:
            file.write(text)
        os.chmod(whole, mode)
        return whole

    def crate(self, name, **texts):
        for path, text in texts.items():
            self.write(f"crates/{name}/{path}", text)
        return crates.Crate(name, [], ["std"])


class Sums(Folder):
    """What tells whether a program is built of the present text."""

    def setUp(self):
        super().setUp()
        self.enterContext(mock.patch.object(crates, "ROOT", self.folder))
        self.enterContext(mock.patch.object(quick.toolchain, "version", lambda: "one"))
        self.low = self.crate("low", **{"src/lib.rt": "fn a() {}", "proofs/Lib.antt": "mod A"})

    def test_it_changes_with_the_code_and_the_toolchain(self):
        before = quick.sum_of([self.low])
        self.write("crates/low/src/lib.rt", "fn b() {}")
        changed = quick.sum_of([self.low])
        self.assertNotEqual(before, changed)
        with mock.patch.object(quick.toolchain, "version", lambda: "another"):
            self.assertNotEqual(quick.sum_of([self.low]), changed)

    def test_it_is_the_same_with_another_proof(self):
        before = quick.sum_of([self.low])
        self.write("crates/low/proofs/Lib.antt", "mod B")
        self.assertEqual(quick.sum_of([self.low]), before)

    def test_a_program_is_kept_by_its_sum(self):
        with mock.patch.object(quick, "QUICK", f"{self.folder}/desk"):
            self.assertFalse(quick.is_kept("sum"))
            self.write("desk", "")
            self.write("desk.sum", "sum")
            self.assertTrue(quick.is_kept("sum"))
            self.assertFalse(quick.is_kept("another"))


class Unproved(Folder):
    """The crate that says whether the program is proved, as it is built here."""

    def laid(self, text):
        """The files of the crate's copy."""
        with mock.patch.object(crates, "ROOT", self.folder):
            crate = self.crate(quick.BUILD_CRATE, **{quick.BUILD_FILE: text, "src/lib.rt": "mod version;"})
            with tempfile.TemporaryDirectory(dir=self.folder) as made:
                copy = quick.lay_build_crate(made, crate)
                return {part: crates.read(f"{copy}/{part}").decode() for part in (quick.BUILD_FILE, "src/lib.rt")}

    def test_a_copy_says_that_it_is_not_proved(self):
        texts = self.laid(VERSION_FILE)
        self.assertIn('"1.0.0 (not proved)"', texts[quick.BUILD_FILE])
        self.assertEqual(texts["src/lib.rt"], "mod version;")
        kept = f"{self.folder}/crates/{quick.BUILD_CRATE}/{quick.BUILD_FILE}"
        self.assertEqual(crates.read(kept).decode(), VERSION_FILE)

    def test_a_text_that_does_not_say_so_once_is_not_built(self):
        for text in ("", VERSION_FILE * 2):
            with self.subTest(text), self.assertRaises(quick.NotBuilt):
                self.laid(text)

    def test_the_repository_says_so_once(self):
        folder = f"{os.path.dirname(BUILDING)}/crates/{quick.BUILD_CRATE}"
        self.assertEqual(crates.read(f"{folder}/{quick.BUILD_FILE}").count(quick.PROVED_WORD.encode()), 1)


class Tools(Folder):
    """The compiler and the linker that the toolchain's program is given."""

    def setUp(self):
        super().setUp()
        for name in ("clang", "ld.lld", "llvm-ar"):
            self.write(f"kit/toolchain/bin/{name}", '#!/bin/sh\nprintf "%s\\n" "$@"\n', 0o755)
        os.makedirs(f"{self.folder}/kit/toolchain/lib")
        with mock.patch.object(quick.toolchain, "folder", lambda: f"{self.folder}/kit"):
            quick.lay_tools(f"{self.folder}/work")

    def said(self, name, *words):
        words = [f"{self.folder}/work/toolchain/bin/{name}", *words]
        run = subprocess.run(words, cwd=self.folder, stdout=subprocess.PIPE)
        return run.stdout.decode().splitlines()

    def test_the_compiler_optimizes_without_a_sanitizer(self):
        words = ["-c", "a file", "-O0", "-fsanitize=address", "-march=x86-64"]
        self.assertEqual(self.said("clang", *words), ["-c", "a file", "-O1", "-march=x86-64-v2"])
        self.assertTrue(os.path.exists(f"{self.folder}/work/compiling"))

    def test_the_linker_keeps_what_it_links(self):
        self.write("program", "linked")
        self.assertEqual(self.said("ld.lld", "-pie", "-o", "program", "a.o"), ["-pie", "-o", "program", "a.o"])
        self.assertEqual(crates.read(f"{self.folder}/work/made"), b"linked")

    def test_the_others_are_the_toolchains(self):
        self.assertEqual(self.said("llvm-ar", "word"), ["word"])


class Runs(Folder):
    """A run of the toolchain's program."""

    def setUp(self):
        super().setUp()
        self.progress = quick.Progress(self.folder, screen=False)

    def run_shell(self, text):
        return quick.run(["sh", "-c", text], self.folder, self.folder, self.progress)

    def test_what_it_says_is_given(self):
        self.assertEqual(self.run_shell("echo one; echo two >&2"), "one\ntwo\n")

    def test_it_ends_with_who_waits_for_it(self):
        killer = threading.Timer(0.7, signal.raise_signal, [signal.SIGINT])
        killer.start()
        with self.assertRaises(KeyboardInterrupt):
            self.run_shell(f"sleep 600 & echo $! > {self.folder}/pid; wait")
        child = int(crates.read(f"{self.folder}/pid"))
        for _ in range(50):
            if not os.path.exists(f"/proc/{child}") or b") Z " in crates.read(f"/proc/{child}/stat"):
                return
            time.sleep(0.1)
        self.fail("it goes on")

    def test_the_time_to_go_follows_how_long_reading_took(self):
        said = io.StringIO()
        with contextlib.redirect_stderr(said), mock.patch.object(quick.time, "monotonic") as clock:
            clock.return_value = self.progress.began + 20
            self.progress.look()
            self.write("compiling", "")
            clock.return_value = self.progress.began + 40
            self.progress.look()
        self.assertIn("reading the code, 20 s, about 100 s to go", said.getvalue())
        self.assertIn("compiling, 40 s, about 60 s to go", said.getvalue())


class Builds(Folder):
    """A build as a whole, over a program in place of the toolchain's."""

    def setUp(self):
        super().setUp()
        self.place = f"{self.folder}/quick"
        os.makedirs(self.place)
        self.enterContext(mock.patch.object(quick, "QUICK", f"{self.place}/desk"))
        self.enterContext(mock.patch.object(quick, "lay_tools"))
        self.enterContext(mock.patch.object(quick, "sum_of", lambda needed: "sum"))
        self.program = mock.Mock(folder=self.folder)

    def build(self, shell):
        words = lambda folder, needed: ["sh", "-c", shell.format(folder=folder)]
        with mock.patch.object(quick, "try_words", words):
            quick.build([self.program], "sum")

    def test_a_program_that_runs_is_put_in_its_place(self):
        self.build("echo new > {folder}/made; echo 'checked: ended status=0'")
        self.assertEqual(crates.read(f"{self.place}/desk"), b"new\n")
        self.assertEqual(os.listdir(self.place), ["desk"])

    def test_what_does_not_compile_or_run_leaves_the_old_one(self):
        self.write("quick/desk", "old")
        for shell in ("echo why; exit 1", "echo new > {folder}/made; echo 'checked: ended status=4'"):
            with self.subTest(shell), self.assertRaises(quick.NotBuilt):
                self.build(shell)
            self.assertEqual(os.listdir(self.place), ["desk"])
            self.assertEqual(crates.read(f"{self.place}/desk"), b"old")

    def test_what_a_killed_build_left_is_removed(self):
        self.write("quick/build-left/made", "half")
        self.test_a_program_that_runs_is_put_in_its_place()

    def test_a_disk_without_room_is_told(self):
        with mock.patch.object(quick.shutil, "disk_usage", return_value=mock.Mock(free=1000)):
            with self.assertRaisesRegex(OSError, "needs 200 MB"):
                self.build("exit 1")


class Alone(Folder):
    """Two builds at once."""

    def test_the_second_waits_and_says_so(self):
        order, said = [], io.StringIO()

        def second():
            with contextlib.redirect_stderr(said), running.alone(self.folder, "it is being built"):
                order.append("second")

        with running.alone(self.folder, "it is being built"):
            waiting = threading.Thread(target=second)
            waiting.start()
            time.sleep(0.5)
            order.append("first")
        waiting.join(10)
        self.assertEqual(order, ["first", "second"])
        self.assertIn("it is being built already; waiting", said.getvalue())


if __name__ == "__main__":
    unittest.main()
