"""Where the program `desk` is."""
from __future__ import annotations

import functools
import multiprocessing
import os
import shutil
import subprocess
import sys
import sysconfig
from pathlib import Path
from typing import Iterator, List, Optional

from .errors import Ended, Malformed, Trouble

NAME = "desk"
PROVED, QUICK = "crates/desk/out/desk", "crates/desk/out/quick/desk"  # in a clone; the second is built without proofs
REFUSED_OPTIONS = 2  # the exit status of a program that refuses the words of its command line
PACKAGE = Path(__file__).resolve().parent


def find_program(named: Optional[str] = None) -> str:
    """The program's path.

    It is the one that is named, else the environment's DESK. Else, where this package lies in a clone of the
    repository, it is the one that was built there last; where none was, it is built without proofs, which takes about
    two minutes and is told on standard error. Where the package is installed, it is the one among this Python's
    scripts, or the first on the PATH.

    Trouble: there is none at these places, and none can be built. One that is named isn't looked for.
    """
    given = named or os.environ.get("DESK")
    if given:
        return given
    root = repository()
    if root:
        return _built_in(root)
    for path in _places():
        if _is_program(path):
            return path
    raise Trouble(f"there is no program `{NAME}` among the scripts of this Python or on the PATH; {_remedy()}")


def command_line(named: Optional[str], **options: Optional[int]) -> List[str]:
    """The program's path as `find_program` gives it, and the options that aren't None, as words."""
    return [find_program(named), *(f"--{name}={value}" for name, value in options.items() if value is not None)]


def not_started(path: str, fault: OSError) -> Trouble:
    """Why a program can't be started, and what helps."""
    return Trouble(f"no program {path} ({fault.strerror}): {_remedy()}")


def began_badly(ended: Ended) -> Trouble:
    """What it is that a program ended before its first reply: Malformed where it refused its options."""
    if ended.status != REFUSED_OPTIONS:
        return ended
    why = ended.said.partition("\n\n")[0].replace("error: ", "", 1)
    return Malformed(f"the program refused its options: {why}")


def repository() -> Optional[Path]:
    """The folder of the repository whose clone this package lies in, or None where it is installed."""
    root = PACKAGE.parents[3]
    return root if PACKAGE == root / "clients/python/src/desk" and (root / "building").is_dir() else None


def _remedy() -> str:
    root = repository()
    builds = f"{root / 'desk.sh'} --version builds one; " if root else ""
    return f"{builds}DESK or --desk names another"


def _built_in(root: Path) -> str:
    """The program that was built last in a clone, or is built now."""
    built = [root / it for it in (PROVED, QUICK) if _is_program(str(root / it))]
    path = max(built, key=os.path.getmtime) if built else Path(_build(root))
    if path == root / QUICK and multiprocessing.parent_process() is None:
        _tell_unproved(root)
    return str(path)


def _build(root: Path) -> str:
    words = [sys.executable, "-B", str(root / "building"), "answer"]
    run = subprocess.run(words, stdin=subprocess.DEVNULL, stdout=subprocess.PIPE, text=True)
    if run.returncode:
        raise Trouble(f"there is no program {root / PROVED}, and none could be built; {_remedy()}")
    return run.stdout.strip()


@functools.lru_cache(maxsize=None)
def _tell_unproved(root: Path) -> None:
    what = "desk: what answers is not proved on this machine"
    print(f"{what}; {root / 'desk.sh'} --prove proves it, in 20 to 40 minutes", file=sys.stderr, flush=True)


def _places() -> Iterator[str]:
    yield os.path.join(sysconfig.get_path("scripts"), NAME)
    found = shutil.which(NAME)
    if found:
        yield found


def _is_program(path: str) -> bool:
    """Whether a path is a file to be run, and no script in Python, as the commands of Python packages are."""
    try:
        with open(path, "rb") as file:
            first = file.read(128).partition(b"\n")[0]
    except OSError:
        return False
    return os.access(path, os.X_OK) and not (first.startswith(b"#!") and b"python" in first)
