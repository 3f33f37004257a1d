"""Makes the Debian package, by Debian's tools and the files of `debian/`."""
from __future__ import annotations

import shutil
import tempfile
from pathlib import Path

from places import DOCUMENTS, LICENSES, NAME, NOT_PACKED, ROOT, Lacking, run
from release import Release

# What the package is made of, beside the program.
PARTS = ("debian", "packaging", "clients/python", "examples", *DOCUMENTS.values(), *LICENSES)
# Where debian/rules takes the program.
PROGRAM = f"crates/{NAME}/out/{NAME}"


def check_tools() -> None:
    """Refuses a machine on which the package can't be made.

    Lacking: Debian's tools, or what they need for this package, aren't there.
    """
    if not shutil.which("dpkg-checkbuilddeps"):
        raise Lacking("there is no dpkg-checkbuilddeps; Debian has it, by `apt-get install dpkg-dev`")
    try:
        run(["dpkg-checkbuilddeps"])
    except Lacking as lacking:
        raise Lacking(f"{str(lacking).splitlines()[-1]}; `apt-get build-dep {ROOT}` installs them") from lacking


def make_debian_package(program: Path, release: Release, folder: Path) -> Path:
    """Writes the package into a folder, and gives its place.

    Lacking: Debian's tools refuse.
    """
    with tempfile.TemporaryDirectory() as work:
        source = Path(work) / f"{NAME}-{release.version}"
        _lay_source(source, program)
        # Nothing else of the user's settings. Files are dated by debian/changelog, whose date is the release's.
        environment = {"PATH": "/usr/sbin:/usr/bin:/sbin:/bin", "HOME": work, "LC_ALL": "C.UTF-8"}
        run(["dpkg-buildpackage", "--build=binary", "--no-sign"], folder=source, environment=environment)
        [made] = Path(work).glob("*.deb")
        return Path(shutil.copy(made, folder))


def _lay_source(source: Path, program: Path) -> None:
    """Lays out a folder in which Debian's tools work, so that they leave nothing in the repository."""
    for part in PARTS:
        place = source / part
        place.parent.mkdir(parents=True, exist_ok=True)
        if (ROOT / part).is_dir():
            shutil.copytree(ROOT / part, place, ignore=NOT_PACKED, copy_function=_copy)
        else:
            _copy(str(ROOT / part), str(place))
    (source / PROGRAM).parent.mkdir(parents=True)
    _copy(str(program), str(source / PROGRAM))


def _copy(source: str, target: str) -> str:
    """Copies a file with its mode and not with its time: in the package no file is dated after the release."""
    return str(shutil.copy(source, target))
