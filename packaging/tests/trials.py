"""Where packages are installed to be tried, and what they are tried by. It has no tests of its own."""
from __future__ import annotations

import atexit
import functools
import os
import shutil
import subprocess
import sys
import tempfile
import unittest
import zipfile
from importlib import util
from pathlib import Path
from typing import Dict, List

PACKAGING = Path(__file__).resolve().parent.parent
ROOT = PACKAGING.parent
sys.path.insert(0, str(PACKAGING))

import release  # noqa: E402
from debian_package import check_tools  # noqa: E402
from places import Lacking, PYTHON  # noqa: E402

# The program that packages are made of here; it needn't be the proved one.
PROGRAM = Path(os.environ.get("DESK", ROOT / "crates/desk/out/desk")).absolute()
NO_PROGRAM = "" if PROGRAM.is_file() else f"there is no program {PROGRAM}; DESK names another one"
# Why commands can't be asked for their help; empty where they can.
NO_HELP = NO_PROGRAM or ("" if Path(PYTHON).is_file() else f"there is no {PYTHON}, by which commands say their help")
NO_VENV = "" if util.find_spec("ensurepip") else "this Python makes no environments; apt-get install python3-venv"
COMMANDS = {"desk", "desk-curve", "desk-lines", "desk-page", "desk-picture", "desk-run", "desk-sweep"}
# The wire of the examples at generation 1000, as the README has it: two heads, two tails, 31 cells of wire.
WIRE = ["2", "2", "31"]
# The rows of brain.rle, with a dot for state 0: A..BAA$3A2.A$B3AB$2.A2.A$A2.AB!
BRAIN = "1..211\n111..1\n21112.\n..1..1\n1..12.\n"


class FolderTest(unittest.TestCase):
    """A test with a folder of its own."""

    def setUp(self) -> None:
        folder = tempfile.TemporaryDirectory()
        self.addCleanup(folder.cleanup)
        self.folder = Path(folder.name)


class Packages:
    """The packages of the newest release in a folder."""

    def __init__(self, folder: Path) -> None:
        version = release.newest().version
        [self.debian] = folder.resolve().glob(f"desk_{version}_*.deb")
        [self.wheel] = folder.resolve().glob(f"desk-{version}-*.whl")

    def program(self) -> bytes:
        """The program in the wheel."""
        with zipfile.ZipFile(self.wheel) as wheel:
            [place] = [it for it in wheel.namelist() if it.endswith(".data/scripts/desk")]
            return wheel.read(place)


def why_none_are_made() -> str:
    """Why no packages can be made here; empty where they can."""
    if NO_HELP:
        return NO_HELP
    try:
        check_tools()
        return ""
    except Lacking as lacking:
        return str(lacking)


def make(folder: Path, root: Path = ROOT, program: Path = PROGRAM, **how: object) -> Packages:
    """Makes packages of a program that needn't be proved, by the text of a repository."""
    said = subprocess.run([program, "--version"], capture_output=True, text=True, check=True).stdout
    words = [PYTHON, "-B", str(root / "packaging"), "make", str(program), str(folder)]
    words += ["--unproved"] if "(not proved)" in said else []
    done = subprocess.run(words, capture_output=True, text=True, timeout=200, **how)  # type: ignore[call-overload]
    assert done.returncode == 0, done.stderr
    assert sorted(done.stdout.split()) == sorted(str(it) for it in folder.iterdir()), done.stdout
    return Packages(folder)


@functools.lru_cache(maxsize=None)
def packages() -> Packages:
    """The packages of this text, which are made once."""
    folder = Path(tempfile.mkdtemp())
    atexit.register(shutil.rmtree, folder)
    return make(folder)


class Environment:
    """A virtual environment of this Python, which knows of nothing else."""

    def __init__(self, folder: Path) -> None:
        self.folder = folder
        subprocess.run([sys.executable, "-m", "venv", folder], check=True, timeout=100)

    def run(self, words: List[str], given: str = "") -> str:
        """What a command of the environment writes to standard output."""
        apart = {"PATH": f"{self.folder}/bin:/usr/bin:/bin", "HOME": str(self.folder), "LC_ALL": "C.UTF-8"}
        done = subprocess.run(words, input=given, capture_output=True, text=True, timeout=100, cwd=self.folder,
                              env=apart)
        if done.returncode:
            raise AssertionError(f"{words} ended with {done.returncode}:\n{done.stdout}{done.stderr}")
        return done.stdout

    def pip(self, *words: str) -> None:
        self.run([f"{self.folder}/bin/python", "-m", "pip", "--quiet", "--disable-pip-version-check", *words])

    def files(self) -> Dict[str, int]:
        """The files, but what Python compiled, each with its mode."""
        paths = [Path(folder, name) for folder, _, names in os.walk(self.folder) for name in names]
        return {str(it.relative_to(self.folder)): it.lstat().st_mode for it in paths if it.suffix != ".pyc"}


def check_wheel(test: unittest.TestCase, environment: Environment, wheel: Path) -> None:
    """Installs a wheel, asks each of its commands for what is known, and removes it."""
    before = environment.files()
    environment.pip("install", "--no-index", str(wheel))
    examples = environment.folder / "share/doc/desk/examples"
    script, replies = examples / "first_path.script", examples / "first_path.replies"
    test.assertEqual(environment.run(["desk"], script.read_text(encoding="utf-8")), replies.read_text(encoding="utf-8"))
    counted = environment.run(["desk-curve", f"{examples}/wire.rule", f"{examples}/wire.rle", "--to", "1000"])
    test.assertEqual(counted.splitlines()[-1].split(), ["1000", *WIRE])
    drawn = environment.run(["desk-picture", f"{examples}/brain.rule", f"{examples}/brain.rle", "--at", "0"])
    test.assertEqual(drawn, BRAIN)
    words = ["--rule", "B3/S23", "--soup", "3", "--size", "8", "--to", "100", "--out", "found.csv"]
    environment.run(["desk-sweep", *words])
    found = environment.folder / "found.csv"
    test.assertEqual(len(found.read_text(encoding="utf-8").splitlines()), 1 + 3)
    found.unlink()
    for name in COMMANDS:
        test.assertIn(f"{name} ", environment.run([name, "--help"]))
        test.assertTrue((environment.folder / f"share/man/man1/{name}.1").is_file(), name)
        source = f"set -eu; . share/bash-completion/completions/{name}; complete -p {name}"
        test.assertTrue(environment.run(["bash", "-c", source]).endswith(f" {name}\n"))
    environment.pip("uninstall", "--yes", "desk")
    test.assertEqual(environment.files(), before)
