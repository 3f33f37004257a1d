"""Tests of the runner of tests: what it counts of files that pass, fail, don't load and don't end."""
import subprocess
import sys
import tempfile
import unittest
from pathlib import Path

RUNNER = Path(__file__).resolve().parents[1] / "run_tests.py"
MIXED = """\
import unittest

class T(unittest.TestCase):
    def test_a(self):
        self.fail("Ran 9 tests in 0.1s\\n\\nOK")

    def test_b(self):
        pass

    @unittest.skip("no reason")
    def test_c(self):
        pass
"""
GOOD = "import unittest\n\nclass T(unittest.TestCase):\n    def test_a(self):\n        {}\n"


class RunnerTest(unittest.TestCase):
    def told(self, *texts, seconds=20):
        """The exit status and the lines of a run over files of these texts."""
        with tempfile.TemporaryDirectory() as folder:
            for at, text in enumerate(texts):
                (Path(folder) / f"test_{at}.py").write_text(text, encoding="ascii")
            words = [sys.executable, "-B", str(RUNNER), folder, "--jobs", "2", "--seconds", str(seconds)]
            run = subprocess.run(words, stdout=subprocess.PIPE, text=True)
        return run.returncode, run.stdout.splitlines()

    def test_all_pass(self):
        status, lines = self.told(GOOD.format("pass"), GOOD.format("pass"))
        self.assertEqual((status, lines[-1]), (0, "tests: 2 passed, 0 failed, 0 left out"))
        self.assertEqual(len(lines), 3)

    def test_each_kind_is_counted_and_what_failed_is_shown(self):
        status, lines = self.told(MIXED, GOOD.format("pass"))
        self.assertEqual((status, lines[-1]), (1, "tests: 2 passed, 1 failed, 1 left out"))
        self.assertIn("FAIL: test_a (test_0.T.test_a)", lines)

    def test_what_does_not_load_or_end_has_failed(self):
        self.assertEqual(self.told("import nothing_here")[1][-1], "tests: 0 passed, 1 failed, 0 left out")
        hanging = GOOD.format("import time; time.sleep(99)")
        self.assertEqual(self.told(hanging, seconds=2)[1][-1], "tests: 0 passed, 1 failed, 0 left out")
        ended = GOOD.format("import os; os._exit(0)")
        self.assertEqual(self.told(ended)[1][-1], "tests: 0 passed, 1 failed, 0 left out")

    def test_what_fails_is_tried_once_more(self):
        once = GOOD.format("from pathlib import Path; it = Path(__file__ + '.seen'); new = not it.exists(); "
                           "it.touch(); self.assertFalse(new)")
        status, lines = self.told(once)
        self.assertEqual((status, lines[-1]), (0, "tests: 1 passed, 0 failed, 0 left out"))
        self.assertTrue([it for it in lines if it.endswith("/test_0.py: once more, alone")], lines)

    def test_no_test_is_no_success(self):
        self.assertEqual(self.told(), (1, ["tests: 0 passed, 0 failed, 0 left out"]))


if __name__ == "__main__":
    unittest.main()
