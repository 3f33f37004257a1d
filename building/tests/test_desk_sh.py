"""Tests of desk.sh: which program answers, and what is said where none can be built. The programs are scripts here."""
import os
import shutil
import subprocess
import tempfile
import time
import unittest

ROOT = os.path.dirname(os.path.dirname(os.path.dirname(os.path.realpath(__file__))))
PROVED, QUICK = "crates/desk/out/desk", "crates/desk/out/quick/desk"
UNPROVED_LINE = "not proved on this machine"


class DeskTest(unittest.TestCase):
    def setUp(self):
        self.root = self.enterContext(tempfile.TemporaryDirectory())
        shutil.copy(f"{ROOT}/desk.sh", self.root)
        ignored = shutil.ignore_patterns("tests", "__pycache__")
        shutil.copytree(f"{ROOT}/building", f"{self.root}/building", ignore=ignored)
        self.write("crates.txt", "desk: low\nlow:\n")
        self.write("crates/desk/src/main.rt", "mod a;")
        self.write("crates/low/src/lib.rt", "mod b;")
        # A toolchain whose command is there and builds nothing.
        self.write("kit/bin/rt", "#!/bin/sh\nexit 1\n", 0o755)
        self.write("kit/bin/rattle", "#!/bin/sh\nexit 1\n", 0o755)
        self.write("kit/KIT-ID", "kit-1 logic dac8208d650f15bf\n")

    def write(self, path, text, mode=0o644):
        whole = f"{self.root}/{path}"
        os.makedirs(os.path.dirname(whole), exist_ok=True)
        with open(whole, "w", encoding="utf-8") as file:
            file.write(text)
        os.chmod(whole, mode)

    def program(self, path, says, is_listed=True):
        """A program that says its name and its words, newer than all sources."""
        self.write(path, f'#!/bin/sh\necho {says} "$@"\n', 0o755)
        if is_listed:
            self.write(f"{path}.parts", "crates.txt\ncrates/desk/src\ncrates/low/src\n")
        later = time.time() + 5
        os.utime(f"{self.root}/{path}", (later, later))

    def change(self, path):
        later = time.time() + 10
        os.utime(f"{self.root}/{path}", (later, later))

    def desk(self, *words, path=None):
        """The exit status, the output and the lines on standard error."""
        places = {**os.environ, "PATH": path or f"{self.root}/kit/bin:{os.environ['PATH']}"}
        run = subprocess.run(["/bin/sh", f"{self.root}/desk.sh", *words], capture_output=True, text=True, env=places)
        return run.returncode, run.stdout, run.stderr.splitlines()

    def check_refused(self, words, told, **how):
        status, said, lines = self.desk(*words, **how)
        self.assertEqual((status, said, len(lines)), (126, "", 1), lines)
        self.assertIn(told, lines[0])

    def test_the_proved_one_answers_in_silence(self):
        self.program(PROVED, "proved")
        self.program(QUICK, "quick")
        self.assertEqual(self.desk("a", "b c"), (0, "proved a b c\n", []))
        self.assertEqual(self.desk("--proved", "a"), (0, "proved a\n", []))

    def test_one_that_the_gate_built_is_a_proved_one(self):
        self.program(QUICK, "quick")
        self.program(PROVED, "proved", is_listed=False)
        self.assertEqual(self.desk("a"), (0, "proved a\n", []))
        self.assertTrue(os.path.isfile(f"{self.root}/{PROVED}.parts"))

    def test_an_unproved_one_says_so_each_time(self):
        self.program(QUICK, "quick")
        for _ in range(2):
            status, said, lines = self.desk("a")
            self.assertEqual((status, said, len(lines)), (0, "quick a\n", 1))
            self.assertIn(UNPROVED_LINE, lines[0])

    def test_a_changed_text_is_not_proved(self):
        self.program(PROVED, "proved")
        self.change("crates/low/src/lib.rt")
        self.program(QUICK, "quick")
        self.change(QUICK)
        self.assertIn(UNPROVED_LINE, "".join(self.desk("a")[2]))
        self.check_refused(["--proved", "a"], "no proved program of this text")

    def test_a_file_that_is_gone_is_a_changed_text(self):
        self.program(PROVED, "proved")
        os.remove(f"{self.root}/crates/low/src/lib.rt")
        self.change("crates/low/src")
        self.check_refused(["--proved", "a"], "no proved program of this text")

    def test_without_a_proved_one_nothing_else_runs(self):
        self.program(QUICK, "quick")
        self.check_refused(["--proved", "a"], "no proved program of this text")

    def test_without_a_toolchain_one_line_says_so(self):
        tools = f"{self.root}/tools"
        os.mkdir(tools)
        for name in ("python3", "find", "cat", "dirname", "readlink"):
            os.symlink(shutil.which(name), f"{tools}/{name}")
        for words in ([], ["--prove"]):
            self.check_refused(words, "rt, the command of the toolchain, is not on the PATH", path=tools)
        os.remove(f"{tools}/python3")
        self.check_refused([], "python3 is not on the PATH", path=tools)

    def test_another_toolchain_is_refused(self):
        self.write("kit/KIT-ID", "kit-2 logic 0123456789abcdef\n")
        for words in ([], ["--prove"]):
            self.check_refused(words, "this text is written for one of logic")

    def test_a_folder_that_cannot_be_written_is_told(self):
        self.write("crates/desk/out", "no folder\n")
        for words in ([], ["--prove"]):
            self.check_refused(words, "can't be built in this folder")


if __name__ == "__main__":
    unittest.main()
