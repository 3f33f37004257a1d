"""Tests that the same text and the same program make the same packages, byte for byte."""
from __future__ import annotations

import os
import shutil
import unittest
from pathlib import Path

from trials import FolderTest, PROGRAM, ROOT, make, packages, why_none_are_made

WHY_NOT = why_none_are_made()
# What is read of the repository.
PARTS = ("packaging", "debian", "clients/python", "examples", "docs", "crates/desk_words/src")
FILES = ("README.md", "CHANGELOG.md", "LICENSE-MIT", "LICENSE-APACHE", "NOTICE")


@unittest.skipIf(WHY_NOT, WHY_NOT)
class SameBytesTest(FolderTest):
    def other_clone(self) -> Path:
        """A copy of the repository elsewhere, of other times and modes, in which something was left by earlier work."""
        root = self.folder / "another clone"
        for part in PARTS:
            shutil.copytree(ROOT / part, root / part, ignore=shutil.ignore_patterns("__pycache__"))
        for file in FILES:
            shutil.copy(ROOT / file, root)
        for path in [it for it in root.rglob("*") if it.is_file()]:
            path.chmod(path.stat().st_mode | 0o020)
            os.utime(path, (10 ** 9, 10 ** 9))
        for left in ("clients/python/build/lib/desk/old.py", "clients/python/src/desk/__pycache__/old.pyc",
                     "clients/python/src/desk.egg-info/SOURCES.txt", "packaging/tests/old.py"):
            (root / left).parent.mkdir(parents=True, exist_ok=True)
            (root / left).write_text("old", encoding="utf-8")
        return root

    def test_another_clone_and_another_user(self) -> None:
        program = Path(shutil.copy(PROGRAM, self.folder / "program"))
        os.utime(program, (10 ** 9, 10 ** 9))
        made = self.folder / "made"
        made.mkdir()
        environment = {**os.environ, "TZ": "Pacific/Chatham", "LC_ALL": "C", "HOME": str(self.folder), "COLUMNS": "40",
                       "SOURCE_DATE_EPOCH": "1", "DEB_BUILD_OPTIONS": "nodoc"}
        clone = self.other_clone()
        before = sorted(clone.rglob("*"))
        other = make(made, clone, program, umask=0o077, env=environment, cwd="/")
        self.assertEqual(sorted(clone.rglob("*")), before, "something was left in the repository")
        self.assertEqual(other.wheel.name, packages().wheel.name)
        self.assertEqual(other.wheel.read_bytes(), packages().wheel.read_bytes())
        self.assertEqual(other.debian.name, packages().debian.name)
        self.assertEqual(other.debian.read_bytes(), packages().debian.read_bytes())


if __name__ == "__main__":
    unittest.main()
