"""Tests of package.sh: which programs it refuses. The programs are scripts here."""
from __future__ import annotations

import os
import shutil
import subprocess
import time
import unittest
from typing import List, Tuple

from trials import FolderTest, ROOT

import release

PROVED, QUICK = "crates/desk/out/desk", "crates/desk/out/quick/desk"
PLACES = ("package.sh", release.CHANGELOG, *release.ELSEWHERE)


@unittest.skipUnless(os.path.isfile("/usr/bin/python3"), "there is no /usr/bin/python3, by which package.sh works")
class PackageTest(FolderTest):
    def setUp(self) -> None:
        super().setUp()
        self.root = self.folder
        for folder in ("building", "packaging", "debian"):
            shutil.copytree(ROOT / folder, self.root / folder, ignore=shutil.ignore_patterns("tests", "__pycache__"))
        for place in PLACES:
            (self.root / place).parent.mkdir(parents=True, exist_ok=True)
            shutil.copy(ROOT / place, self.root / place)
        (self.root / "crates.txt").write_text("desk: low\nlow:\n", encoding="utf-8")
        for source in ("crates/desk/src/main.rt", "crates/low/src/lib.rt"):
            (self.root / source).parent.mkdir(parents=True, exist_ok=True)
            (self.root / source).write_text("mod a;", encoding="utf-8")

    def program(self, place: str, says: str, seconds: int = 5) -> None:
        """A program that says this, and is so much newer than all sources."""
        path = self.root / place
        path.parent.mkdir(parents=True, exist_ok=True)
        path.write_text(f"#!/bin/sh\necho 'desk {release.newest().version} {says}'\n", encoding="utf-8")
        path.chmod(0o755)
        then = time.time() + seconds
        os.utime(path, (then, then))

    def package(self, *words: str) -> Tuple[int, str, List[str]]:
        """The exit status, the output and the lines on standard error."""
        done = subprocess.run(["/bin/sh", self.root / "package.sh", *words], capture_output=True, text=True,
                              timeout=60, check=False)
        return done.returncode, done.stdout, done.stderr.splitlines()

    def check_refused(self, told: str) -> None:
        status, said, lines = self.package()
        self.assertEqual((status, said, len(lines)), (1, "", 1), lines)
        self.assertIn(told, lines[0])
        self.assertFalse((self.root / "dist").exists())

    def test_the_quick_one_is_not_packed(self) -> None:
        self.program(QUICK, "(not proved)")
        self.check_refused("no proved program of this text is here, and ./desk.sh --prove makes it")

    def test_a_quick_one_in_the_place_of_the_proved_one_is_not_packed(self) -> None:
        self.program(PROVED, "(not proved)")
        self.check_refused("(not proved)`, and the one to be packed says `desk")

    def test_one_of_an_older_text_is_not_packed(self) -> None:
        self.program(PROVED, "(proved)", seconds=-100)
        self.check_refused("no proved program of this text is here")

    def test_places_that_disagree_are_told(self) -> None:
        self.program(PROVED, "(proved)")
        (self.root / "clients/python/src/desk/_version.py").write_text('VERSION = "0.1.0"\n', encoding="utf-8")
        self.check_refused("_version.py has the version 0.1.0")

    def test_a_proved_one_is_taken(self) -> None:
        self.program(PROVED, "(proved)")
        status, said, lines = self.package()
        # It is looked at further, and is a script here.
        self.assertEqual((status, said), (1, ""))
        self.assertRegex(lines[-1], "objdump: .* file format not recognized|dpkg-checkbuilddeps")

    def test_it_takes_no_other_words(self) -> None:
        self.program(PROVED, "(not proved)")
        for words in (["--unproved"], ["make"]):
            status, said, [line] = self.package(*words)
            self.assertEqual((status, said), (2, ""))
            self.assertIn("takes no words but --test", line)


if __name__ == "__main__":
    unittest.main()
