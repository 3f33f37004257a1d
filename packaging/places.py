"""Where things stand in the repository, and what packaging fails by."""
from __future__ import annotations

import shutil
import subprocess
from pathlib import Path
from typing import Mapping, Optional, Sequence

ROOT = Path(__file__).resolve().parent.parent
NAME = "desk"
PYTHON_PROJECT = ROOT / "clients/python"
LICENSES = ("LICENSE-MIT", "LICENSE-APACHE", "NOTICE")
# Texts that packages have in share/doc beside the examples, by their names there. Debian's tools pack large ones, and
# among the examples none.
DOCUMENTS = {
    "CHANGELOG.md": "CHANGELOG.md",
    "README.md": "README.md",
    "USING.md": "docs/USING.md",
    "REFUSALS.md": "docs/REFUSALS.md",
    "WALK.md": "docs/WALK.md",
    "PATTERNS.md": "docs/PATTERNS.md",
    "PYTHON.md": "clients/python/README.md",
    "run.md": "clients/python/docs/run.md",
    "examples/tour.ipynb": "docs/tour.ipynb",
}
EXAMPLES = tuple(f"examples/*.{ending}" for ending in ("mc", "replies", "rle", "rule", "script"))
# What lies among the files that are packed and is no part of them.
NOT_PACKED = shutil.ignore_patterns("tests", "build", "*.egg-info", "__pycache__")
# Debian's Python, whose setuptools makes the wheel: other versions would write other bytes.
PYTHON = "/usr/bin/python3"


class Lacking(Exception):
    """Why nothing can be packed, in one line."""


def run(words: Sequence[str], folder: Path = ROOT, environment: Optional[Mapping[str, str]] = None) -> str:
    """What a command writes to standard output.

    Lacking: it isn't there, or it failed; then all that it said is in the message.
    """
    try:
        done = subprocess.run(words, cwd=folder, env=environment, capture_output=True, text=True, check=False)
    except OSError as fault:
        raise Lacking(f"{words[0]} can't be run: {fault.strerror}") from fault
    if done.returncode:
        raise Lacking(f"`{' '.join(words)}` failed with status {done.returncode}:\n{done.stdout}{done.stderr}".rstrip())
    return done.stdout
