"""Tests that a standard output that fails is told by each command, with its own exit status."""
import subprocess
import sys
import tempfile
import unittest

from places import EXAMPLES, PROGRAM, ROOT, WITH_PACKAGE

# As most users have it: Python keeps what is written until there is enough of it.
BUFFERED = {name: value for name, value in {**WITH_PACKAGE, "DESK": PROGRAM}.items() if name != "PYTHONUNBUFFERED"}
RULE, PATTERN = str(EXAMPLES / "wire.rule"), str(EXAMPLES / "wire.rle")
COMMANDS = [
    ["run", PATTERN, "--rule", RULE, "--to", "5"],
    ["run", PATTERN, "--rule", RULE, "--to", "5", "--script"],
    ["curve", RULE, PATTERN, "--to", "5"],
    ["picture", RULE, PATTERN, "--at", "5"],
    ["lines", RULE, PATTERN, "--to", "5"],
    ["sweep", "--rule", "B3/S23", "--soup", "1", "--size", "4", "--to", "5", "--out"],
]


def run(words, **ends):
    with tempfile.TemporaryDirectory() as folder:
        words = [*words, f"{folder}/rows.csv"] if words[-1] == "--out" else words
        return subprocess.run([sys.executable, "-B", "-m", "desk", *words], cwd=ROOT, env=BUFFERED, text=True,
                              timeout=100, stderr=subprocess.PIPE, **ends)


class StandardOutputTest(unittest.TestCase):
    def test_a_full_device_is_told(self):
        for words in COMMANDS:
            with self.subTest(words[0]), open("/dev/full", "wb") as full:
                done = run(words, stdout=full)
                self.assertEqual(done.returncode, 1, done.stderr)
                self.assertRegex(done.stderr, r"No space left on device\n$")

    def test_one_that_takes_all_is_written_to(self):
        for words in COMMANDS:
            with self.subTest(words[0]):
                done = run(words, stdout=subprocess.PIPE)
                self.assertEqual(done.returncode, 0, done.stderr)
                self.assertTrue(done.stdout.endswith("\n"))
