"""What packages need to know of the program: whether it is the proved one, and what it needs of the machine."""
from __future__ import annotations

import os
import re
from pathlib import Path
from typing import Tuple

from places import NAME, Lacking, run
from release import Release

# The one library that each Linux has for it.
C_LIBRARY = "libc.so.6"


def check(program: Path, release: Release, is_proved: bool = True) -> None:
    """Refuses a program that isn't of this release, or isn't proved where it is to be.

    Lacking: it is not what `--version` of the right one says.
    """
    said = run([str(program), "--version"]).strip()
    wanted = f"{NAME} {release.version} ({'proved' if is_proved else 'not proved'})"
    if said != wanted:
        raise Lacking(f"{program} is `{said}`, and the one to be packed says `{wanted}`")


def least_glibc(program: Path) -> Tuple[int, int]:
    """The least version of glibc that has all which the program needs, as (2, 34).

    Lacking: it needs another library too.
    """
    environment = {**os.environ, "LC_ALL": "C"}
    return least_glibc_of(run(["objdump", "--private-headers", str(program)], environment=environment))


def least_glibc_of(headers: str) -> Tuple[int, int]:
    """The same of what objdump writes about a program."""
    others = set(re.findall(r"^\s*NEEDED\s+(\S+)$", headers, re.M)) - {C_LIBRARY}
    if others:
        raise Lacking(f"the program needs {', '.join(sorted(others))}, which not every Linux has")
    found = [(int(major), int(minor)) for major, minor in re.findall(r"\bGLIBC_(\d+)\.(\d+)", headers)]
    if not found:
        raise Lacking("the program tells of no version of glibc that it needs")
    return max(found)
