"""Tests of the package's types and style, where the tools for it are there. They run with the other tests, or alone by

    python3 -m unittest discover -s clients/python/tests -p test_types.py
"""
import os
import re
import shutil
import subprocess
import sys
import tempfile
import unittest
from pathlib import Path

from places import CLIENTS, PROGRAM, WITH_PACKAGE

PLACES = f"{os.environ['PATH']}:/usr/bin"
MYPY = shutil.which("mypy", path=PLACES)
LINTER = shutil.which("ruff", path=PLACES) or shutil.which("flake8", path=PLACES)
EXPERIMENT = CLIENTS / "tests/typed/experiment.py"
# Each line with the word is wrong, and no other one is.
WRONG = """\
from typing import List
from desk import Desk, Window
desk = Desk()
counts, text, window = desk.mark(1, "counts"), desk.mark(1, "mc"), desk.mark(1, Window(0, 0, 1, 1))
desk.show(counts).upper()  # wrong
desk.show(text).values()  # wrong
row: List[int] = desk.show(window)  # wrong
rows: List[List[int]] = desk.show(window)
desk.peek(text).upper()  # wrong
desk.show(desk.mark(1, "rle"), 5.0).values()  # wrong
desk.show(7).values()  # wrong
desk.mark(1, 5)  # wrong
desk.mark("1", "counts")  # wrong
desk.show(window, as_array=True).tolist()
Desk(squares="64")  # wrong
Desk(transport=desk)  # wrong
desk.at(counts, [(0, 0, 1)])
"""


class TypesTest(unittest.TestCase):
    @unittest.skipUnless(MYPY, "there is no mypy (Debian: mypy)")
    def test_the_package_and_a_users_program_under_mypy(self):
        with tempfile.TemporaryDirectory() as folder:
            wrong = Path(folder) / "wrong.py"
            wrong.write_text(WRONG, encoding="utf-8")
            words = ["--strict", "--config-file", "pyproject.toml", "--cache-dir", os.devnull, "--no-error-summary"]
            run = subprocess.run([MYPY, *words, "src/desk", str(EXPERIMENT), str(wrong)], cwd=CLIENTS,
                                 capture_output=True, text=True, timeout=300)
        told = [line for line in run.stdout.splitlines() if ": error: " in line]
        self.assertEqual([line for line in told if "wrong.py" not in line], [], run.stderr)
        found = {int(re.search(r"wrong\.py:(\d+):", line)[1]) for line in told}
        self.assertEqual(found, {at for at, line in enumerate(WRONG.splitlines(), 1) if "# wrong" in line}, run.stdout)

    def test_the_users_program_says_what_is_known_of_life(self):
        run = subprocess.run([sys.executable, str(EXPERIMENT)], env={**WITH_PACKAGE, "DESK": PROGRAM},
                             capture_output=True, text=True, timeout=100)
        self.assertEqual(run.stderr, "")
        self.assertEqual(run.stdout.splitlines(), [
            "3 [1, 1, 1] [0, 1, 0] True",
            "0 #CXRLE Pos=1,1 Gen=4 1 0",
            "[1000, 0, 1, 0, 4, 4]",
            "['#CXRLE Pos=1,1 Gen=4', '#CXRLE Pos=2,2 Gen=8']"])

    @unittest.skipUnless(LINTER, "there is neither ruff nor flake8 (Debian: flake8)")
    def test_the_style(self):
        words = ["check"] if Path(LINTER).name == "ruff" else ["--max-line-length", "120"]
        run = subprocess.run([LINTER, *words, str(CLIENTS)], cwd=CLIENTS, capture_output=True, text=True, timeout=100)
        self.assertEqual((run.returncode, run.stdout), (0, ""), run.stderr)


if __name__ == "__main__":
    unittest.main()
