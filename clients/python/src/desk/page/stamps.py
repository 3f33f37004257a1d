"""The shelf of stamps: patterns as RLE files in the user's folder for what programs keep between runs."""
from __future__ import annotations

import re
from pathlib import Path
from typing import Dict, List

from ..errors import Malformed, Trouble

# The most stamps, and the most bytes of one.
MOST_STAMPS, MOST_BYTES = 200, 1 << 18
NAME = re.compile(r"[\w(][\w .,()+-]{0,60}")


class Shelf:
    """The stamps of a user, which all pages share."""

    def __init__(self, folder: Path) -> None:
        self._folder = folder / "stamps"

    def all(self) -> List[Dict[str, str]]:
        """All stamps by their names, each with its text."""
        paths = sorted(self._folder.glob("*.rle"))[:MOST_STAMPS]
        return [{"name": it.stem, "text": it.read_text(encoding="latin-1")} for it in paths]

    def add(self, name: str, text: str) -> None:
        """Puts a stamp on the shelf, in place of one of the same name. Trouble: it is too large, or isn't written."""
        if len(text) > MOST_BYTES or len(list(self._folder.glob("*.rle"))) >= MOST_STAMPS:
            raise Trouble(f"a stamp has at most {MOST_BYTES} bytes, and the shelf has room for {MOST_STAMPS} of them")
        path = self._path(name)
        try:
            self._folder.mkdir(mode=0o700, parents=True, exist_ok=True)
            path.write_text(text, encoding="latin-1", errors="replace")
        except OSError as fault:
            raise Trouble(f"the stamp can't be kept: {path}: {fault.strerror}") from fault

    def remove(self, name: str) -> None:
        """Takes a stamp from the shelf."""
        self._path(name).unlink(missing_ok=True)

    def _path(self, name: str) -> Path:
        if not NAME.fullmatch(name):
            raise Malformed("a stamp's name has letters, digits, blanks and .,()+- and at most 61 signs")
        return self._folder / f"{name}.rle"
