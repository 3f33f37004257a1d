"""Tests of the soak: each part runs, what was done is kept, and what differs is told with its script."""
import json
import os
import re
import shutil
import signal
import subprocess
import sys
import tempfile
import time
import unittest
from pathlib import Path

ROOT = Path(__file__).resolve().parents[2]
sys.path.insert(0, str(ROOT / "clients/python/src"))

from desk import find_program  # noqa: E402

PLACES = f"{os.environ['PATH']}:/usr/bin"
MYPY, FLAKE8 = (shutil.which(it, path=PLACES) for it in ("mypy", "flake8"))
# A program whose every reply to `settle` is wrong.
WRONG = """\
#!/bin/sh
[ "$1" = --version ] && exec "{program}" --version
"{program}" "$@" | sed -u 's/^settled$/settled 7/'
"""
ROW = re.compile(r"^\| (.+) \| (\d+) (.+) \| (.+) \| (\d+) \| (.*) \| (.*) \|$", re.M)


class SoakTest(unittest.TestCase):
    def setUp(self):
        folder = tempfile.TemporaryDirectory()
        self.addCleanup(folder.cleanup)
        self.folder = Path(folder.name)
        self.program = find_program()

    def started(self, *words):
        """A soak in the test's folder, at the usual priority, since other tests would starve it."""
        command = [str(ROOT / "soak.sh"), *words, "--usual", "--folder", str(self.folder / "soak")]
        return subprocess.Popen(command, env={**os.environ, "DESK": self.program}, stdout=subprocess.PIPE,
                                stderr=subprocess.PIPE, text=True)

    def ended(self, *words, seconds=800):
        """The status, what was said, and of each part of the report how many, which seeds and how many differ."""
        with self.started(*words) as run:
            out, err = run.communicate(timeout=seconds)
        rows = {it[1]: (int(it[2]), it[4], int(it[5])) for it in ROW.finditer(out)}
        return run.returncode, out + err, rows

    def state(self):
        return json.loads((self.folder / "soak/state.json").read_text())

    def test_each_part_runs(self):
        status, said, rows = self.ended("0.02", "--jobs", "2")
        self.assertEqual(status, 0, said)
        self.assertEqual(len(rows), 7, said)
        for name, (count, _, differences) in rows.items():
            is_left_out = f"Left out: {name}, since " in said
            self.assertEqual((count > 0, differences), (not is_left_out, 0), said)
        self.assertEqual((self.folder / "soak/report.md").read_text(), said)

    def test_it_goes_on_where_it_was_cut_off(self):
        with self.started("1", "--part", "scripts", "--jobs", "1") as run:
            while not (self.folder / "soak/state.json").exists() and run.poll() is None:
                time.sleep(0.1)
            time.sleep(1)
            run.send_signal(signal.SIGTERM)
            out, _ = run.communicate(timeout=60)
        self.assertEqual(run.returncode, 0)
        self.assertIn("| random scripts, compared with the model |", out)
        for first in (0, self.next()):
            status, said, rows = self.ended("0.0005", "--part", "scripts", "--jobs", "1")
            self.assertEqual(status, 0, said)
            self.assertGreater(self.next(), first)
        self.assertEqual(rows["random scripts, compared with the model"][1], f"0 to {self.next() - 1}")

    def next(self):
        """The seed that is next."""
        return self.state()["parts"]["scripts"]["next"]

    def test_what_differs_is_kept_with_its_script(self):
        wrong, right = self.folder / "wrong", self.program
        wrong.write_text(WRONG.format(program=right), encoding="utf-8")
        wrong.chmod(0o755)
        self.program = str(wrong)
        status, said, rows = self.ended("0.003", "--part", "scripts", "--jobs", "1")
        self.assertEqual(status, 1, said)
        self.assertGreater(rows["random scripts, compared with the model"][2], 0)
        words = sorted((self.folder / "soak/differences").glob("scripts-*.txt"))[0]
        self.assertIn("settled 7", words.read_text())
        self.assertTrue(words.with_suffix(".script").read_bytes().startswith(b"# desk"))
        again = re.search(r"--again (scripts) (\d+)", words.read_text())
        self.assertEqual(self.ended("--again", *again.groups())[0], 1)
        self.program, seed = right, self.next()
        self.assertEqual(self.ended("--again", *again.groups())[0], 0)
        _, said, rows = self.ended("0.0005", "--part", "scripts", "--jobs", "1")  # another program: counted anew
        self.assertEqual(rows["random scripts, compared with the model"][1:], (f"{seed} to {self.next() - 1}", 0), said)

    def test_modules_of_the_repository_go_before_installed_ones_of_their_name(self):
        (self.folder / "tables.py").write_text("")
        words = [sys.executable, "-B", "-c", "import soak, tables; print(tables.__file__)"]
        path = os.pathsep.join([str(ROOT / "testing"), str(self.folder)])
        run = subprocess.run(words, env={**os.environ, "PYTHONPATH": path}, capture_output=True, text=True, timeout=60)
        self.assertEqual(run.stdout, f"{ROOT / 'model/tables.py'}\n", run.stderr)

    @unittest.skipUnless(MYPY and FLAKE8, "there is no mypy or no flake8 (Debian: mypy flake8)")
    def test_its_types_and_style(self):
        for words in ([MYPY, "--config-file", "testing/mypy.ini", "--cache-dir", os.devnull, "testing/soak"],
                      [FLAKE8, "--max-line-length", "120", "testing", "hostile"]):
            run = subprocess.run(words, cwd=ROOT, capture_output=True, text=True, timeout=600)
            self.assertEqual(run.returncode, 0, run.stdout + run.stderr)


if __name__ == "__main__":
    unittest.main()
