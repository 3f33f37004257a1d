"""Files, to which all of a text is written or an error is raised, and how wide standard output is."""
from __future__ import annotations

import gzip
import os
import shutil
import sys
from contextlib import contextmanager
from typing import Iterator

from .asked import PACKED
from .texts import MOST_SIDE


def columns() -> int:
    """How many characters a line of a drawing may have on standard output."""
    return shutil.get_terminal_size().columns if sys.stdout and sys.stdout.isatty() else MOST_SIDE


def write_text(path: str, text: str) -> None:
    """Writes a file, packed by gzip where its name says so."""
    data = text.encode("latin-1")
    with replaced(path) as new, open(new, "wb") as file:
        file.write(gzip.compress(data, mtime=0) if path.endswith(PACKED) else data)


@contextmanager
def replaced(path: str) -> Iterator[str]:
    """A path for a new file that takes the place of another one in the end. Where it fails none is left there."""
    there = os.path.realpath(path)
    new = f"{there}.new"
    try:
        yield new
        os.replace(new, there)
    except BaseException:
        if os.path.exists(new):
            os.remove(new)
        raise
