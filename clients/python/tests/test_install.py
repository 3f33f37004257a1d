"""Tests of the package: what it names, and its installation by pip, without network. They run with the other tests, or
alone by

    python3 -m unittest discover -s clients/python/tests -p test_install.py

What needs pip takes this Python or /usr/bin/python3, whichever has it with setuptools and wheel.
"""
import os
import shutil
import subprocess
import tempfile
import unittest
from pathlib import Path

import desk
from places import CLIENTS, PACKAGE, PROGRAM, python_with

BUILDER = python_with("pip", "setuptools", "wheel")
ALONE = """\
import desk
with desk.Desk() as it:
    it.lifelike("B3/S23")
    print(it.show(it.mark(5, "counts")), desk.__version__, desk.__file__)
"""


def files_below(folder):
    """The files of a package, but what Python compiled."""
    return {str(it.relative_to(folder)) for it in folder.rglob("*") if it.is_file() and it.suffix != ".pyc"}


class InstallTest(unittest.TestCase):
    def test_it_has_what_it_names(self):
        self.assertEqual([it for it in desk.__all__ if not hasattr(desk, it)], [])
        self.assertEqual(sorted(set(desk.__all__), key=str.lower), sorted(desk.__all__, key=str.lower))

    @unittest.skipUnless(BUILDER, "there is no pip, no setuptools or no wheel")
    def test_it_works_where_it_is_installed(self):
        with tempfile.TemporaryDirectory() as folder:
            source, target = Path(folder) / "source", Path(folder) / "target"
            shutil.copytree(CLIENTS, source, ignore=shutil.ignore_patterns("tests", "__pycache__", "*.egg-info"))
            pip = [BUILDER, "-m", "pip", "install", "--quiet", "--disable-pip-version-check", "--no-index"]
            words = ["--no-build-isolation", "--target", str(target), str(source)]
            run = subprocess.run([*pip, *words], capture_output=True, text=True, timeout=100)
            self.assertEqual(run.returncode, 0, run.stderr)
            there = {it.name for it in target.iterdir()}
            self.assertEqual(there, {"bin", "desk", f"desk-{desk.__version__}.dist-info"})
            self.assertEqual(files_below(target / "desk"), files_below(PACKAGE / "desk"))
            places = {**os.environ, "PYTHONPATH": str(target), "DESK": PROGRAM}
            said = subprocess.run([BUILDER, "-c", ALONE], env=places, cwd=folder, capture_output=True, text=True)
            self.assertEqual(said.stdout, f"{{}} {desk.__version__} {target}/desk/__init__.py\n", said.stderr)
            for name in ("run", "page", "sweep", "curve", "picture", "lines"):
                words = [target / f"bin/desk-{name}", "--help"]
                said = subprocess.run(words, env=places, capture_output=True, text=True)
                self.assertIn(f"usage: desk-{name} ", said.stdout, said.stderr)


if __name__ == "__main__":
    unittest.main()
