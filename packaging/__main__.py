"""Packs the program: `python3 packaging make PROGRAM FOLDER`, which package.sh calls.

    make PROGRAM FOLDER     writes a Debian package and a wheel of a proved program into a folder
    share PROGRAM FOLDER    writes the pages of the manual, the completions and the documents, as debian/rules has it

Prints the packages' places. Where there are none, one line on standard error says why.
"""
from __future__ import annotations

import argparse
import sys
import tempfile
from pathlib import Path

import program
import release
from binary_wheel import make_wheel
from debian_package import check_tools, make_debian_package
from documents import lay_documents
from places import Lacking
from shared_files import lay_shared_files


def words() -> argparse.Namespace:
    found = argparse.ArgumentParser("packaging", description="Packs the program.")
    found.add_argument("task", choices=("make", "share"))
    found.add_argument("program", metavar="PROGRAM", type=Path)
    found.add_argument("folder", metavar="FOLDER", type=Path)
    found.add_argument("--unproved", action="store_true", help="packs a program that isn't proved, for tests alone")
    return found.parse_args()


def make(given: argparse.Namespace) -> None:
    """Makes both packages of a program of this release."""
    differing = release.disagreements()
    if differing:
        raise Lacking("\n".join(differing))
    newest = release.newest()
    program.check(given.program, newest, is_proved=not given.unproved)
    check_tools()
    given.folder.mkdir(parents=True, exist_ok=True)
    with tempfile.TemporaryDirectory(prefix="making-", dir=given.folder) as work:
        for made in [form(given.program, newest, Path(work)) for form in (make_wheel, make_debian_package)]:
            print(made.replace(given.folder / made.name))


def main() -> int:
    given = words()
    given.program = given.program.resolve()
    try:
        if given.task == "make":
            make(given)
        else:
            lay_shared_files(given.program, release.newest(), given.folder)
            lay_documents(given.folder)
        return 0
    except Lacking as lacking:
        print(f"package: {lacking}", file=sys.stderr)
    except OSError as fault:
        print(f"package: {fault.strerror}: {fault.filename}", file=sys.stderr)
    except KeyboardInterrupt:
        return 130
    return 1


if __name__ == "__main__":
    sys.exit(main())
