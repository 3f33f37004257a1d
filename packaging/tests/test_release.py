"""Tests that all places which say the version and the date of the release say the same."""
from __future__ import annotations

import datetime
import shutil
import subprocess
import unittest

from trials import FolderTest, NO_PROGRAM, PROGRAM, ROOT

import release
from places import Lacking

# The places that say the version, beside CHANGELOG.md.
ELSEWHERE = ("crates/desk_words/src/version.rt", "clients/python/src/desk/_version.py", "debian/changelog")


class ReleaseTest(FolderTest):
    def setUp(self) -> None:
        super().setUp()
        self.root = self.folder
        for place in (release.CHANGELOG, *ELSEWHERE):
            (self.root / place).parent.mkdir(parents=True, exist_ok=True)
            shutil.copy(ROOT / place, self.root / place)

    def replace(self, place: str, old: str, new: str) -> None:
        text = (self.root / place).read_text(encoding="utf-8")
        self.assertIn(old, text)
        (self.root / place).write_text(text.replace(old, new, 1), encoding="utf-8")

    def test_all_places_agree(self) -> None:
        self.assertEqual(release.disagreements(), [])

    @unittest.skipIf(NO_PROGRAM, NO_PROGRAM)
    def test_the_program_says_it(self) -> None:
        said = subprocess.run([PROGRAM, "--version"], capture_output=True, text=True, check=True).stdout
        self.assertRegex(said, rf"^desk {release.newest().version} \((not )?proved\)\n$")

    def test_each_place_that_disagrees_is_named(self) -> None:
        version = release.newest(self.root).version
        for place in ELSEWHERE:
            with self.subTest(place=place):
                self.replace(place, version, "1.0.99")
                [line] = release.disagreements(self.root)
                self.assertEqual(line, f"{place} has the version 1.0.99, and CHANGELOG.md {version}")
                self.replace(place, "1.0.99", version)

    def test_a_place_without_a_version_is_named(self) -> None:
        self.replace("clients/python/src/desk/_version.py", "VERSION", "NUMBER")
        [line] = release.disagreements(self.root)
        self.assertIn("_version.py has the version of no form that is known", line)

    def test_another_date_is_named(self) -> None:
        day = release.newest(self.root).day
        self.replace(release.CHANGELOG, str(day), str(day + datetime.timedelta(days=1)))
        [line] = release.disagreements(self.root)
        self.assertIn("debian/changelog has another date", line)

    def test_the_newest_is_the_first(self) -> None:
        self.replace(release.CHANGELOG, "## [", "## [7.8.9] - 2031-02-03\n\n## [")
        self.assertEqual(release.newest(self.root), release.Release("7.8.9", datetime.date(2031, 2, 3)))
        self.assertEqual(release.newest(self.root).epoch, 1927843200)  # date --utc --date=2031-02-03 +%s

    def test_no_release_is_refused(self) -> None:
        self.replace(release.CHANGELOG, "## [", "## ")
        with self.assertRaisesRegex(Lacking, "CHANGELOG.md has no heading"):
            release.newest(self.root)


if __name__ == "__main__":
    unittest.main()
