"""Makes the wheel: what setuptools makes of the package in Python, and the program, pages, completions and examples."""
from __future__ import annotations

import base64
import dataclasses
import hashlib
import re
import shutil
import tempfile
import time
import zipfile
from pathlib import Path
from typing import Dict

from documents import documents
from places import LICENSES, NAME, NOT_PACKED, PYTHON, PYTHON_PROJECT, ROOT, run
from program import least_glibc
from release import Release
from shared_files import shared_files

BUILD = "import sys; from setuptools.build_meta import build_wheel; build_wheel(sys.argv[1])"
UNIX = 3  # the system whose modes a zip file says


@dataclasses.dataclass(frozen=True)
class Entry:
    """A file of a wheel."""

    content: bytes
    is_program: bool = False


def make_wheel(program: Path, release: Release, folder: Path) -> Path:
    """Writes the wheel into a folder, and gives its place.

    Lacking: setuptools or objdump isn't there or refuses, or the program needs more than the C library.
    """
    major, minor = least_glibc(program)
    stem, tag = f"{NAME}-{release.version}", f"py3-none-manylinux_{major}_{minor}_x86_64"
    entries = _of_setuptools()
    info, data = f"{stem}.dist-info", f"{stem}.data"
    entries[f"{info}/WHEEL"] = Entry(_retagged(entries[f"{info}/WHEEL"].content, tag))
    entries[f"{info}/METADATA"] = Entry(_with_licenses(entries[f"{info}/METADATA"].content))
    for name in LICENSES:
        entries[f"{info}/{name}"] = Entry((ROOT / name).read_bytes())
    entries[f"{data}/scripts/{NAME}"] = Entry(program.read_bytes(), is_program=True)
    for place, text in shared_files(program, release).items():
        entries[f"{data}/data/share/{place}"] = Entry(text.encode())
    for place, content in documents().items():
        entries[f"{data}/data/share/doc/{NAME}/{place}"] = Entry(content)
    entries[f"{info}/RECORD"] = Entry(_record(entries, f"{info}/RECORD"))
    path = folder / f"{stem}-{tag}.whl"
    _write(path, entries, release)
    return path


def _of_setuptools() -> Dict[str, Entry]:
    """The files of the wheel that setuptools makes, but its list of them."""
    with tempfile.TemporaryDirectory() as work:
        source, made = Path(work) / "source", Path(work) / "made"
        shutil.copytree(PYTHON_PROJECT, source, ignore=NOT_PACKED)
        made.mkdir()
        environment = {"PATH": "/usr/bin:/bin", "HOME": work, "LC_ALL": "C.UTF-8"}
        run([PYTHON, "-c", BUILD, str(made)], folder=source, environment=environment)
        [path] = made.glob("*.whl")
        with zipfile.ZipFile(path) as wheel:
            return {it: Entry(wheel.read(it)) for it in wheel.namelist() if not it.endswith("/RECORD")}


def _retagged(text: bytes, tag: str) -> bytes:
    """What says for which machines a wheel is: those of a tag, since it has a program."""
    return re.sub(rb"^Root-Is-Purelib: .*\nTag: .*$", f"Root-Is-Purelib: false\nTag: {tag}".encode(), text, flags=re.M)


def _with_licenses(metadata: bytes) -> bytes:
    """The metadata with the names of the files of licenses behind its other fields."""
    fields, _, description = metadata.partition(b"\n\n")
    named = "".join(f"License-File: {it}\n" for it in LICENSES)
    return fields.rstrip(b"\n") + b"\n" + named.encode() + b"\n" + description


def _record(entries: Dict[str, Entry], own_place: str) -> bytes:
    """The list of a wheel's files, with the sum and the size of each but itself."""
    lines = []
    for place, entry in sorted(entries.items()):
        total = base64.urlsafe_b64encode(hashlib.sha256(entry.content).digest()).rstrip(b"=").decode()
        lines.append(f"{place},sha256={total},{len(entry.content)}\n")
    return "".join([*lines, f"{own_place},,\n"]).encode()


def _write(path: Path, entries: Dict[str, Entry], release: Release) -> None:
    """Writes the entries in the order of their names, with the release's date and modes that depend on nothing."""
    date = time.gmtime(release.epoch)
    with zipfile.ZipFile(path, "w", zipfile.ZIP_DEFLATED) as wheel:
        for place, entry in sorted(entries.items()):
            info = zipfile.ZipInfo(place, (date.tm_year, date.tm_mon, date.tm_mday, 0, 0, 0))
            info.create_system, info.compress_type = UNIX, zipfile.ZIP_DEFLATED
            info.external_attr = (0o100755 if entry.is_program else 0o100644) << 16
            wheel.writestr(info, entry.content)
