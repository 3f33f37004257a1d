"""Tests of the Debian package: what it has, what it needs, and that Debian's checker finds nothing in it."""
from __future__ import annotations

import gzip
import io
import re
import shutil
import subprocess
import tarfile
import unittest
import zipfile
from typing import Dict, Set

from trials import COMMANDS, PROGRAM, ROOT, packages, why_none_are_made

import program
import release

WHY_NOT = why_none_are_made()
DOCUMENTS = "usr/share/doc/desk/"


@unittest.skipIf(WHY_NOT, WHY_NOT)
class DebianPackageTest(unittest.TestCase):
    members: Dict[str, tarfile.TarInfo]
    files: Dict[str, bytes]

    @classmethod
    def setUpClass(cls) -> None:
        words = ["dpkg-deb", "--fsys-tarfile", str(packages().debian)]
        content = subprocess.run(words, capture_output=True, check=True).stdout
        with tarfile.open(fileobj=io.BytesIO(content)) as found:
            cls.members = {it.name[2:]: it for it in found}
            read = {name: found.extractfile(it) for name, it in cls.members.items()}
        cls.files = {name: file.read() for name, file in read.items() if file}

    def field(self, name: str) -> str:
        words = ["dpkg-deb", "--field", str(packages().debian), name]
        return subprocess.run(words, capture_output=True, text=True, check=True).stdout.strip()

    def below(self, folder: str) -> Set[str]:
        return {it[len(folder):] for it in self.files if it.startswith(folder)}

    def test_it_is_of_the_release(self) -> None:
        self.assertEqual((self.field("Package"), self.field("Architecture")), ("desk", "amd64"))
        self.assertEqual(self.field("Version"), release.newest().version)
        self.assertEqual({it.mtime for it in self.members.values()}, {release.newest().epoch})

    def test_the_program_is_the_one_that_was_given(self) -> None:
        self.assertEqual(self.files["usr/bin/desk"], PROGRAM.read_bytes())
        self.assertEqual(self.members["usr/bin/desk"].mode, 0o755)

    def test_what_it_needs(self) -> None:
        needs = re.split(", *", self.field("Depends"))
        self.assertIn("libc6 (>= {}.{})".format(*program.least_glibc(PROGRAM)), needs)
        self.assertIn("python3 (>= 3.9)", needs)
        self.assertEqual([it for it in needs if not it.startswith(("libc6 ", "python3"))], [])
        self.assertEqual(self.field("Recommends"), "libjs-codemirror, python3-aiohttp")

    def test_each_command_has_a_page_and_completions(self) -> None:
        names = self.below("usr/bin/")
        self.assertGreaterEqual(names, COMMANDS)
        self.assertEqual(self.below("usr/share/man/man1/"), {f"{it}.1.gz" for it in names})
        self.assertEqual(self.below("usr/share/bash-completion/completions/"), names)
        self.assertEqual(self.below("usr/share/zsh/vendor-completions/"), {f"_{it}" for it in names})
        self.assertEqual(self.below("usr/share/fish/vendor_completions.d/"), {f"{it}.fish" for it in names})
        others = {it for it in self.members if self.members[it].mode & 0o111 and it in self.files}
        self.assertEqual(others, {f"usr/bin/{it}" for it in names})

    def test_the_package_in_python_and_the_documents_are_those_of_the_wheel(self) -> None:
        with zipfile.ZipFile(packages().wheel) as wheel:
            there = {it: wheel.read(it) for it in wheel.namelist()}
        package = {it: text for it, text in there.items() if it.startswith("desk/")}
        self.assertEqual({it: self.files[f"usr/lib/python3/dist-packages/{it}"] for it in package}, package)
        data = f"desk-{release.newest().version}.data/data/share/doc/desk/"
        documents = {it[len(data):]: text for it, text in there.items() if it.startswith(data)}
        unpacked = {re.sub(r"\.gz$", "", it): self.files[DOCUMENTS + it] for it in self.below(DOCUMENTS)}
        unpacked = {it: gzip.decompress(text) if text[:2] == b"\x1f\x8b" else text for it, text in unpacked.items()}
        self.assertEqual({it: unpacked[it] for it in documents}, documents)
        self.assertEqual({*unpacked} - {*documents}, {"NOTICE", "changelog", "copyright"})
        self.assertEqual(unpacked["NOTICE"], (ROOT / "NOTICE").read_bytes())

    @unittest.skipUnless(shutil.which("lintian"), "there is no lintian; apt-get install lintian")
    def test_debians_checker_finds_nothing(self) -> None:
        words = ["lintian", "--allow-root", "--fail-on=error,warning", str(packages().debian)]
        done = subprocess.run(words, capture_output=True, text=True, timeout=200, check=False)
        self.assertEqual((done.returncode, done.stdout), (0, ""))


if __name__ == "__main__":
    unittest.main()
