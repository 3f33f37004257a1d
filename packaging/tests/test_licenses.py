"""Tests of the texts of licenses: that they are whole, and that NOTICE names what the program is made of."""
from __future__ import annotations

import re
import shutil
import subprocess
import sys
import unittest
from pathlib import Path
from typing import List

from trials import ROOT

COMMON = Path("/usr/share/common-licenses/Apache-2.0")
# Writes the folder of the toolchain, and the names of its libraries that the program is made of.
LIBRARIES = """\
import crates, quick, toolchain
print(toolchain.folder(), *quick.kit_libraries(it for crate in crates.crates() for it in crate.kit))
"""
NOTICE = (ROOT / "NOTICE").read_text(encoding="utf-8")


def libraries() -> List[Path]:
    """The folders of the toolchain's libraries that the program is made of."""
    words = [sys.executable, "-B", "-c", LIBRARIES]
    said = subprocess.run(words, cwd=ROOT / "building", capture_output=True, text=True, check=True)
    folder, *names = said.stdout.split()
    return [Path(folder, "rattle", name) for name in names]


def joined(text: str) -> str:
    return " ".join(text.split())


class LicensesTest(unittest.TestCase):
    @unittest.skipUnless(COMMON.is_file(), f"there is no {COMMON}, which Debian has")
    def test_the_apache_license_is_whole(self) -> None:
        self.assertEqual((ROOT / "LICENSE-APACHE").read_bytes(), COMMON.read_bytes())

    def test_debians_file_has_the_text_of_the_other(self) -> None:
        text = (ROOT / "LICENSE-MIT").read_text(encoding="utf-8")
        self.assertIn("Copyright (c) 2026 the Sabrothu maintainers", text)
        permission = joined(text[text.index("Permission is"):])
        debian = (ROOT / "debian/copyright").read_text(encoding="utf-8").replace("\n .\n", "\n\n")
        self.assertIn(permission, joined(debian))
        self.assertIn(permission, joined(NOTICE))

    @unittest.skipUnless(shutil.which("rt"), "there is no rt, the command of the toolchain")
    def test_notice_names_each_library_that_has_a_license(self) -> None:
        licensed = {it.name: [*it.glob("LICENSE*")] for it in libraries() if [*it.glob("LICENSE*")]}
        table = NOTICE[NOTICE.index("    library "):NOTICE.index("The toolchain's library")]
        self.assertEqual(set(re.findall(r"^    (\w+)", table, re.M)) - {"library"}, {*licensed})
        for name, paths in licensed.items():
            for path in paths:
                for line in re.findall(r"^Copyright \(c\).*$", path.read_text(encoding="utf-8"), re.M):
                    self.assertIn(line, table, name)


if __name__ == "__main__":
    unittest.main()
