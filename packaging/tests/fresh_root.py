"""Tries the packages where nothing else is: `fresh_root.py FOLDER`, which `./package.sh --test` calls.

It makes a Debian with debootstrap, installs the Debian package there, uses it as a new user would, removes it and looks
at what is left; and it does the same with the wheel in an environment of Python. That takes some minutes, the rights
of root and a network, so it is no part of the other tests.
"""
from __future__ import annotations

import contextlib
import gzip
import hashlib
import os
import shutil
import signal
import stat
import subprocess
import sys
import tempfile
import unittest
import urllib.request
from pathlib import Path
from typing import Dict, List

from trials import BRAIN, COMMANDS, Environment, FolderTest, NO_VENV, Packages, WIRE, check_wheel

SUITE, MIRROR = "bookworm", "http://deb.debian.org/debian"
APT = ["env", "DEBIAN_FRONTEND=noninteractive", "apt-get", "--yes", "--quiet=2", "--no-install-recommends"]
EXAMPLES = "/usr/share/doc/desk/examples"
# What apt, dpkg and the manual's index keep for themselves.
OF_TOOLS = ("dev", "proc", "sys", "tmp", "var/cache", "var/lib/apt", "var/lib/dpkg", "var/log", "etc/ld.so.cache")


class Root:
    """A Debian in a folder, with processes and mounts of its own."""

    def __init__(self, folder: Path) -> None:
        self.folder = folder
        words = ["debootstrap", "--variant=minbase", SUITE, str(folder), MIRROR]
        subprocess.run(words, check=True, stdout=subprocess.DEVNULL)
        shutil.copy("/etc/resolv.conf", folder / "etc/resolv.conf")
        self.run(["apt-get", "--quiet=2", "update"], user="root")

    def words(self, words: List[str], user: str = "nobody:nogroup") -> List[str]:
        """The words that run a command there."""
        apart = ["unshare", "--mount", "--pid", "--fork", "--kill-child", f"--mount-proc={self.folder}/proc"]
        variables = ["HOME=/tmp", "LC_ALL=C.UTF-8", "PATH=/usr/sbin:/usr/bin:/sbin:/bin"]
        there = ["chroot", f"--userspec={user}", str(self.folder), "/usr/bin/env", "-i", *variables]
        return [*apart, *there, *words]

    def run(self, words: List[str], given: str = "", user: str = "nobody:nogroup",
            status: int = 0) -> "subprocess.CompletedProcess[str]":
        """Runs a command there that has to end with this status."""
        there = self.words(words, user)
        done = subprocess.run(there, input=given, capture_output=True, text=True, timeout=600, cwd="/", check=False)
        if done.returncode != status:
            raise AssertionError(f"{words} ended with {done.returncode}:\n{done.stdout}{done.stderr}")
        return done

    def install(self, *names: str) -> None:
        self.run([*APT, "install", *names], user="root")

    def purge(self, *names: str) -> None:
        """Removes packages, and those that came with them."""
        self.run([*APT, "purge", "--auto-remove", *names], user="root")

    def text(self, path: str) -> str:
        return (self.folder / path.lstrip("/")).read_text(encoding="utf-8")

    def files(self) -> Dict[str, str]:
        """All files and folders but those of the tools, each with its mode and what it holds."""
        found = {}
        for folder, folders, names in os.walk(self.folder):
            folders[:] = [it for it in folders if not self._is_of_tools(os.path.join(folder, it))]
            for name in [*folders, *names]:
                path = Path(folder, name)
                if not self._is_of_tools(str(path)):
                    found[str(path.relative_to(self.folder))] = f"{path.lstat().st_mode:o} {_held(path)}"
        return found

    def _is_of_tools(self, path: str) -> bool:
        return os.path.relpath(path, self.folder) in OF_TOOLS


def take_interrupts() -> None:
    """Lets a process be interrupted also where this one was started to ignore that, as in the background."""
    signal.signal(signal.SIGINT, signal.SIG_DFL)


def _held(path: Path) -> str:
    mode = path.lstat().st_mode
    if stat.S_ISLNK(mode):
        return os.readlink(path)
    return hashlib.sha256(path.read_bytes()).hexdigest() if stat.S_ISREG(mode) else ""


class FreshRootTest(unittest.TestCase):
    packages: Packages
    root: Root

    @classmethod
    def setUpClass(cls) -> None:
        # Others than root may not pass a temporary folder, so the root is one within it.
        folder = tempfile.TemporaryDirectory()
        cls.addClassCleanup(folder.cleanup)
        cls.root = Root(Path(folder.name, "root"))
        shutil.copy(cls.packages.debian, cls.root.folder / "tmp/desk.deb")

    def assert_nothing_is_left(self, before: Dict[str, str]) -> None:
        after = self.root.files()
        changed = {it for it in {*before, *after} if before.get(it) != after.get(it)}
        self.assertEqual(sorted(changed), [], "these were left, lost or changed")

    def test_nothing_but_python_and_the_c_library(self) -> None:
        before = self.root.files()
        self.root.install("/tmp/desk.deb")
        self.assertFalse((self.root.folder / "usr/lib/python3/dist-packages/aiohttp").exists())
        self.check_program()
        self.check_examples()
        self.check_commands()
        self.check_files()
        self.root.purge("desk")
        self.assert_nothing_is_left(before)

    def check_program(self) -> None:
        installed = self.root.folder / "usr/bin/desk"
        self.assertEqual(installed.read_bytes(), self.packages.program())
        said = subprocess.run([installed, "--version"], capture_output=True, text=True, check=True).stdout
        self.assertEqual(self.root.run(["desk", "--version"]).stdout, said)

    def check_examples(self) -> None:
        """The first path of the README, and all other scripts, by the replies beside them."""
        scripts = sorted(self.root.folder.glob(f"{EXAMPLES.lstrip('/')}/*.script"))
        self.assertIn("first_path.script", [it.name for it in scripts])
        for script in scripts:
            with self.subTest(script=script.name):
                replies = script.with_suffix(".replies").read_text(encoding="utf-8")
                self.assertEqual(self.root.run(["desk"], script.read_text(encoding="utf-8")).stdout, replies)

    def check_commands(self) -> None:
        wire = [f"{EXAMPLES}/wire.rule", f"{EXAMPLES}/wire.rle"]
        counted = self.root.run(["desk-curve", *wire, "--to", "1000", "--points", "2"]).stdout
        self.assertEqual(counted.splitlines()[-1].split(), ["1000", *WIRE])
        drawn = self.root.run(["desk-picture", f"{EXAMPLES}/brain.rule", f"{EXAMPLES}/brain.rle", "--at", "0"]).stdout
        self.assertEqual(drawn, BRAIN)
        sweep = ["--rule", "B3/S23", "--soup", "3", "--size", "8", "--to", "100", "--out", "/tmp/found.csv"]
        self.root.run(["desk-sweep", *sweep])
        self.assertEqual(len(self.root.text("/tmp/found.csv").splitlines()), 1 + 3)
        if (self.root.folder / "usr/bin/desk-run").exists():
            ran = self.root.run(["desk-run", wire[1], "--rule", wire[0], "--to", "1000"]).stdout
            self.assertIn(WIRE[-1], ran.split())
        lacking = self.root.run(["desk-page", "--no-browser", *wire], status=1).stderr
        self.assertIn("apt-get install python3-aiohttp", lacking)

    def check_files(self) -> None:
        """A page of the manual for each command, and completions that bash takes."""
        installed = sorted(it.name for it in self.root.folder.glob("usr/bin/desk*"))
        self.assertGreaterEqual(set(installed), COMMANDS)
        for name in installed:
            page = self.root.folder / f"usr/share/man/man1/{name}.1.gz"
            self.assertIn(f".SH NAME\n{name}".replace("-", r"\-"), gzip.decompress(page.read_bytes()).decode())
            source = f"set -eu; . /usr/share/bash-completion/completions/{name}; complete -p {name}"
            said = self.root.run(["bash", "-c", source])
            self.assertEqual((said.stdout.split()[-1], said.stderr), (name, ""))

    def test_with_the_page_and_the_manual(self) -> None:
        self.root.install("python3-aiohttp", "man-db")
        before = self.root.files()
        self.root.install("/tmp/desk.deb")
        self.check_page()
        for name in COMMANDS:
            self.assertEqual(self.root.run(["man", "-w", name]).stdout, f"/usr/share/man/man1/{name}.1.gz\n")
            self.assertIn(name, self.root.run(["man", name]).stdout)
        self.root.purge("desk")
        self.assert_nothing_is_left(before)

    def check_page(self) -> None:
        """The page answers at the address that it prints, and Ctrl-C ends it."""
        words = self.root.words(["desk-page", "--no-browser", f"{EXAMPLES}/wire.rule", f"{EXAMPLES}/wire.rle"])
        with subprocess.Popen(words, stdout=subprocess.PIPE, text=True, start_new_session=True,
                              preexec_fn=take_interrupts) as page:
            try:
                assert page.stdout
                address = page.stdout.readline().strip()
                with urllib.request.urlopen(address, timeout=20) as answer:
                    self.assertIn("<title>", answer.read().decode())
                os.killpg(page.pid, signal.SIGINT)
                self.assertEqual(page.wait(20), 0)
            finally:
                # A page that is still there would else be waited for without end.
                with contextlib.suppress(ProcessLookupError):
                    os.killpg(page.pid, signal.SIGKILL)


class WheelTest(FolderTest):
    packages: Packages

    @unittest.skipIf(NO_VENV, NO_VENV)
    def test_an_environment_of_python(self) -> None:
        check_wheel(self, Environment(self.folder), self.packages.wheel)


def why_it_cannot_run() -> str:
    """What is wanting for these tests; empty where nothing is."""
    if os.geteuid() != 0:
        return "a fresh Debian is made by root alone"
    return "" if shutil.which("debootstrap") else "there is no debootstrap; apt-get install debootstrap"


if __name__ == "__main__":
    if why_it_cannot_run():
        sys.exit(f"package: {why_it_cannot_run()}")
    FreshRootTest.packages = WheelTest.packages = Packages(Path(sys.argv.pop(1)))
    unittest.main(verbosity=2)
