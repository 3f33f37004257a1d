"""Tests of what is asked of the program before it is packed."""
from __future__ import annotations

import datetime
import platform
import shutil
import unittest

from trials import FolderTest, NO_PROGRAM, PROGRAM

import program
from places import Lacking
from release import Release

RELEASE = Release("1.2.3", datetime.date(2031, 2, 3))
# What objdump writes of a program, in part.
HEADERS = """
Dynamic Section:
  NEEDED               libc.so.6
  FLAGS                0x0000000000000008

Version References:
  required from libc.so.6:
    0x09691a75 0x00 04 GLIBC_2.2.5
    0x06969194 0x00 03 GLIBC_2.14
    0x069691b4 0x00 02 GLIBC_2.34
    0x0d696919 0x00 05 GLIBC_2.9
"""


class CheckTest(FolderTest):
    def setUp(self) -> None:
        super().setUp()
        self.program = self.folder / "desk"

    def says(self, text: str, status: int = 0) -> None:
        """Makes the program one that says this whatever it is asked."""
        self.program.write_text(f"#!/bin/sh\necho '{text}'\nexit {status}\n", encoding="utf-8")
        self.program.chmod(0o755)

    def test_the_proved_one_of_the_release_is_taken(self) -> None:
        self.says("desk 1.2.3 (proved)")
        program.check(self.program, RELEASE)

    def test_others_are_refused(self) -> None:
        for text in ("desk 1.2.3 (not proved)", "desk 1.2.4 (proved)", "desk 1.2.3", "bench 1.2.3 (proved)", ""):
            with self.subTest(text=text):
                self.says(text)
                with self.assertRaises(Lacking) as refused:
                    program.check(self.program, RELEASE)
                line = f"{self.program} is `{text}`, and the one to be packed says `desk 1.2.3 (proved)`"
                self.assertEqual(str(refused.exception), line)

    def test_one_for_tests_is_not_the_proved_one(self) -> None:
        self.says("desk 1.2.3 (not proved)")
        program.check(self.program, RELEASE, is_proved=False)
        self.says("desk 1.2.3 (proved)")
        with self.assertRaisesRegex(Lacking, "says `desk 1.2.3 .not proved.`"):
            program.check(self.program, RELEASE, is_proved=False)

    def test_one_that_fails_or_lacks_is_refused(self) -> None:
        with self.assertRaisesRegex(Lacking, "can't be run: No such file"):
            program.check(self.program, RELEASE)
        self.says("desk 1.2.3 (proved)", status=3)
        with self.assertRaisesRegex(Lacking, "failed with status 3"):
            program.check(self.program, RELEASE)


class GlibcTest(unittest.TestCase):
    def test_it_is_the_greatest_by_number(self) -> None:
        self.assertEqual(program.least_glibc_of(HEADERS), (2, 34))
        self.assertEqual(program.least_glibc_of(HEADERS.replace("2.34", "2.4")), (2, 14))

    def test_another_library_is_refused(self) -> None:
        with self.assertRaisesRegex(Lacking, "needs libgcc_s.so.1, libm.so.6, which"):
            program.least_glibc_of(HEADERS + "  NEEDED   libm.so.6\n  NEEDED   libgcc_s.so.1\n")

    def test_no_version_is_refused(self) -> None:
        with self.assertRaisesRegex(Lacking, "tells of no version"):
            program.least_glibc_of("  NEEDED   libc.so.6\n")

    @unittest.skipIf(NO_PROGRAM, NO_PROGRAM)
    @unittest.skipUnless(shutil.which("objdump"), "there is no objdump; apt-get install binutils")
    def test_the_program_needs_one_that_this_machine_has(self) -> None:
        here = tuple(map(int, platform.libc_ver()[1].split(".")))
        self.assertTrue((2, 2) <= program.least_glibc(PROGRAM) <= here)


if __name__ == "__main__":
    unittest.main()
