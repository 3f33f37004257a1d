"""Tests of where the program is looked for, and of `python3 -m desk`. They run with the other tests, or alone by

    python3 -m unittest discover -s clients/python/tests -p test_program.py
"""
import contextlib
import io
import os
import subprocess
import sys
import tempfile
import unittest
from pathlib import Path
from unittest import mock

from desk import Trouble, find_program
from desk.__main__ import COMMANDS
from places import CLIENTS, EXAMPLES, PROGRAM, ROOT, WITH_PACKAGE


class PlacesTest(unittest.TestCase):
    def setUp(self):
        folder = tempfile.TemporaryDirectory()
        self.addCleanup(folder.cleanup)
        self.folder = Path(folder.name).resolve()
        for patch in (mock.patch.dict(os.environ, {"PATH": str(self.folder / "path")}),
                      mock.patch("sysconfig.get_path", lambda name: str(self.folder / name))):
            patch.start()
            self.addCleanup(patch.stop)
        os.environ.pop("DESK", None)

    def put(self, path, text="#!/bin/sh\n", mode=0o755):
        path = self.folder / path
        path.parent.mkdir(parents=True, exist_ok=True)
        path.write_text(text)
        path.chmod(mode)
        return str(path)

    def package(self, path):
        """Lets the package lie at a place."""
        patch = mock.patch("desk.program.PACKAGE", self.folder / path)
        patch.start()
        self.addCleanup(patch.stop)

    def test_what_is_named_goes_first(self):
        os.environ["DESK"] = "/of/the/environment"
        self.assertEqual(find_program(), "/of/the/environment")
        self.assertEqual(find_program("/named"), "/named")

    def test_in_a_clone_it_is_the_one_that_was_built_there_last(self):
        self.package("clone/clients/python/src/desk")
        self.put("clone/building/__main__.py", "raise SystemExit(1)")
        self.put("path/desk")
        self.put("scripts/desk")
        quick = self.put("clone/crates/desk/out/quick/desk")
        os.utime(quick, (1000, 1000))
        with contextlib.redirect_stderr(io.StringIO()) as told:
            self.assertEqual([find_program(), find_program()], [quick, quick])
        self.assertEqual(told.getvalue().count("not proved on this machine"), 1)
        built = self.put("clone/crates/desk/out/desk", mode=0o644)  # as while it is written
        self.assertEqual(find_program(), quick)
        os.chmod(built, 0o755)
        self.assertEqual(find_program(), built)
        os.utime(built, (500, 500))
        self.assertEqual(find_program(), quick)

    def test_in_a_clone_without_one_it_is_built(self):
        self.package("clone/clients/python/src/desk")
        self.put("clone/building/__main__.py", "import sys\nprint('/made/by', sys.argv[1])")
        self.assertEqual(find_program(), "/made/by answer")
        self.put("clone/building/__main__.py", "raise SystemExit(1)")
        with self.assertRaisesRegex(Trouble, "no program .*/clone/crates/desk/out/desk, .*/clone/desk.sh --version"):
            find_program()

    def test_where_it_is_installed_it_is_among_the_scripts_or_on_the_path(self):
        self.package("clients/python/src/desk")  # without a folder that builds
        with self.assertRaisesRegex(Trouble, "no program `desk` among the scripts .* or on the PATH; DESK or --desk"):
            find_program()
        self.put("path/desk", "#!/usr/bin/env python3\n")
        with self.assertRaisesRegex(Trouble, "no program `desk`"):
            find_program()
        on_path = self.put("path/desk", "\x7fELF")
        self.assertEqual(find_program(), on_path)
        self.put("scripts/desk", "#!/usr/bin/python3\nimport desk\n")
        self.assertEqual(find_program(), on_path)
        self.assertEqual(find_program(), on_path)
        self.assertEqual(self.put("scripts/desk", "\x7fELF"), find_program())


class CommandsTest(unittest.TestCase):
    def called(self, *words):
        run = subprocess.run([sys.executable, *map(str, words)], cwd=ROOT, env={**WITH_PACKAGE, "DESK": PROGRAM},
                             capture_output=True, text=True, timeout=50)
        return run.returncode, run.stdout, run.stderr

    def test_the_help_lists_the_commands(self):
        status, output, _ = self.called("-m", "desk", "--help")
        self.assertEqual(status, 0)
        for name in COMMANDS:
            self.assertRegex(output, rf"(?m)^  {name} +\w")
            self.assertIn(f"usage: desk {name} ", self.called("-m", "desk", name, "--help")[1])

    def test_an_unknown_one_is_told_with_what_there_is(self):
        there = f"there are {', '.join(COMMANDS)}\n"
        self.assertEqual(self.called("-m", "desk", "sweeep"), (2, "", f"desk: there is no command 'sweeep'; {there}"))
        self.assertEqual(self.called("-m", "desk"), (2, "", f"desk: a command is missing; {there}"))

    def test_a_pattern_alone_brings_its_rule(self):
        words = EXAMPLES / "wire.rle", *"--at 1 --window 0 0 3 2".split()
        status, output, told = self.called("-m", "desk", "picture", *words)
        self.assertEqual((status, output), (0, ".23\n1..\n"))
        self.assertIn("desk picture: rule Wire, which the pattern names", told)
        words = EXAMPLES / "wire.rle", *"--to 1000 --points 2".split()
        status, output, told = self.called("-m", "desk", "curve", *words)
        self.assertEqual((status, output.split()[-4:]), (0, ["1000", "2", "2", "31"]))
        self.assertIn("desk curve: rule Wire, which the pattern names", told)

    def test_a_sweep_takes_isotropic_rules(self):
        words = "--rule B2ce3-i/S23 --soup 1 --size 4 --to 0 --show counts --out -".split()
        status, output, told = self.called("-m", "desk", "sweep", *words)
        self.assertEqual(status, 0, told)
        self.assertIn("B2ce3-i/S23", output)

    def test_starters_of_a_clone_do_the_same(self):
        words = (EXAMPLES / "wire.rule", EXAMPLES / "wire.rle", "--at", 1, "--window", 0, 0, 3, 2)
        told = "3 by 2 from (0, 0)\n"
        self.assertEqual(self.called("-m", "desk", "picture", *words), (0, ".23\n1..\n", f"desk picture: {told}"))
        run = subprocess.run([CLIENTS / "picture.py", *map(str, words), "--desk", PROGRAM], cwd="/", text=True,
                             env={"PATH": os.environ["PATH"]}, capture_output=True, timeout=50)
        self.assertEqual((run.returncode, run.stdout, run.stderr), (0, ".23\n1..\n", f"picture.py: {told}"))
        starters = {path.stem for path in CLIENTS.glob("*.py")}
        self.assertEqual(starters - set(COMMANDS), set())


if __name__ == "__main__":
    unittest.main()
