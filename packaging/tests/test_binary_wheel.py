"""Tests of the wheel: what it has, that pip takes it without network, and that it is a right wheel."""
from __future__ import annotations

import base64
import csv
import hashlib
import re
import unittest
import zipfile
from typing import Dict

from trials import COMMANDS, Environment, FolderTest, NO_VENV, PROGRAM, ROOT, check_wheel, packages, why_none_are_made

import program
import release

WHY_NOT = why_none_are_made()


@unittest.skipIf(WHY_NOT, WHY_NOT)
class BinaryWheelTest(FolderTest):
    def setUp(self) -> None:
        super().setUp()
        self.wheel = zipfile.ZipFile(packages().wheel)
        self.addCleanup(self.wheel.close)
        self.info = f"desk-{release.newest().version}.dist-info"
        self.data = f"desk-{release.newest().version}.data"

    def read(self, place: str) -> str:
        return self.wheel.read(place).decode()

    def below(self, folder: str) -> Dict[str, bytes]:
        """The files below a folder by their places there."""
        names = [it for it in self.wheel.namelist() if it.startswith(f"{folder}/")]
        return {it[len(folder) + 1:]: self.wheel.read(it) for it in names}

    @unittest.skipIf(NO_VENV, NO_VENV)
    def test_it_works_where_pip_installs_it_and_leaves_nothing(self) -> None:
        check_wheel(self, Environment(self.folder), packages().wheel)

    def test_its_tag_is_of_the_glibc_that_the_program_needs(self) -> None:
        tag = "py3-none-manylinux_{}_{}_x86_64".format(*program.least_glibc(PROGRAM))
        self.assertTrue(packages().wheel.name.endswith(f"-{tag}.whl"))
        said = dict(line.split(": ", 1) for line in self.read(f"{self.info}/WHEEL").splitlines() if line)
        self.assertEqual((said["Tag"], said["Root-Is-Purelib"]), (tag, "false"))

    def test_the_record_has_each_file_with_its_sum_and_size(self) -> None:
        lines = self.read(f"{self.info}/RECORD").splitlines()
        rows = {place: (total, size) for place, total, size in csv.reader(lines)}
        self.assertEqual(rows.pop(f"{self.info}/RECORD"), ("", ""))
        self.assertEqual({*rows}, {*self.wheel.namelist()} - {f"{self.info}/RECORD"})
        for place, (total, size) in rows.items():
            content = self.wheel.read(place)
            kind, _, value = total.partition("=")
            self.assertEqual(kind, "sha256")
            self.assertRegex(value, r"^[\w-]{43}$")
            self.assertEqual(base64.urlsafe_b64decode(f"{value}="), hashlib.sha256(content).digest(), place)
            self.assertEqual(int(size), len(content), place)

    def test_the_program_is_the_one_that_was_given(self) -> None:
        self.assertEqual(self.wheel.read(f"{self.data}/scripts/desk"), PROGRAM.read_bytes())
        programs = [it.filename for it in self.wheel.infolist() if it.external_attr >> 16 == 0o100755]
        self.assertEqual(programs, [f"{self.data}/scripts/desk"])

    def test_the_package_in_python_is_all_there(self) -> None:
        source = ROOT / "clients/python/src/desk"
        wanted = {str(it.relative_to(source)): it.read_bytes() for it in source.rglob("*")
                  if it.is_file() and it.suffix != ".pyc"}
        self.assertEqual(self.below("desk"), wanted)

    def test_each_command_has_a_page_and_completions(self) -> None:
        scripts = re.findall(r"^(\S+) = ", self.read(f"{self.info}/entry_points.txt"), re.M)
        names = {"desk", *scripts}
        self.assertGreaterEqual(names, COMMANDS)
        self.assertEqual({*self.below(f"{self.data}/data/share/man/man1")}, {f"{it}.1" for it in names})
        self.assertEqual({*self.below(f"{self.data}/data/share/bash-completion/completions")}, names)
        self.assertEqual({*self.below(f"{self.data}/data/share/zsh/site-functions")}, {f"_{it}" for it in names})
        completions = {*self.below(f"{self.data}/data/share/fish/vendor_completions.d")}
        self.assertEqual(completions, {f"{it}.fish" for it in names})

    def test_licenses_and_documents(self) -> None:
        metadata = self.read(f"{self.info}/METADATA")
        self.assertIn("\nLicense: MIT OR Apache-2.0\n", metadata)
        for name in ("LICENSE-MIT", "LICENSE-APACHE", "NOTICE"):
            self.assertIn(f"\nLicense-File: {name}\n", metadata)
            self.assertEqual(self.wheel.read(f"{self.info}/{name}"), (ROOT / name).read_bytes())
        documents = self.below(f"{self.data}/data/share/doc/desk")
        self.assertEqual(documents["examples/first_path.script"], (ROOT / "examples/first_path.script").read_bytes())
        self.assertEqual(documents["REFUSALS.md"], (ROOT / "docs/REFUSALS.md").read_bytes())
        self.assertEqual(documents["PYTHON.md"], (ROOT / "clients/python/README.md").read_bytes())
        named = re.findall(r"\b([A-Z]{3,}\.md)\b", "".join(documents[it].decode() for it in ("USING.md", "WALK.md")))
        self.assertEqual({*named} - {*documents}, set(), "a text that the documents name")

    def test_no_file_is_dated_otherwise_than_the_release(self) -> None:
        day = release.newest().day
        dates = {it.date_time for it in self.wheel.infolist()}
        self.assertEqual(dates, {(day.year, day.month, day.day, 0, 0, 0)})


if __name__ == "__main__":
    unittest.main()
