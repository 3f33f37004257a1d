"""The file of a sweep: a line of names and a row for each case, with commas, each row written at once when it is known.

A sweep that is broken off is gone on with by the same file: the cases whose rows are there aren't run again. A last
line that was cut off is taken away. Rows may also go to standard output, where none were before.
"""
from __future__ import annotations

import csv
import io
import os
import stat
import sys
from typing import Dict, List, Sequence, Tuple

from ..errors import Trouble
from ..standard_output import STANDARD_OUTPUT

try:
    import fcntl
except ImportError:  # not on this system; then nothing keeps two sweeps from one file
    fcntl = None  # type: ignore[assignment]

Key = Tuple[str, ...]


class Results:
    """The rows of a file, by their first columns, which say the case."""

    def __init__(self, path: str, names: Sequence[str], keys: int, again: str = "") -> None:
        """Opens a file with these columns, of which the first few name the case.

        again: a column; rows in which something stands there are taken away, so that their cases are run again
        """
        self.path, self.names, self.keys = path, list(names), keys
        self.rows: Dict[Key, List[str]] = {}
        self.cut = 0  # how many bytes of a last line were taken away
        if path == STANDARD_OUTPUT:
            self._file = os.dup(sys.stdout.fileno())
            self._write(_line(self.names))
            return
        try:
            self._file = os.open(path, os.O_RDWR | os.O_CREAT | os.O_APPEND, 0o666)
        except OSError as fault:
            raise Trouble(f"{path}: {fault.strerror}") from fault
        try:
            if not stat.S_ISREG(os.fstat(self._file).st_mode):
                raise Trouble(f"{path}: it is no plain file, which a sweep can be gone on with")
            self._lock()
            self._read(again)
        except BaseException:
            self.close()
            raise

    def __enter__(self) -> Results:
        return self

    def __exit__(self, kind: object, fault: object, trace: object) -> None:
        self.close()

    def close(self) -> None:
        if self._file >= 0:
            os.close(self._file)
            self._file = -1

    def add(self, row: Sequence[str]) -> None:
        """Adds a row, by one call of the system, so that no half of it is there if this program is ended."""
        words = [" ".join(str(it).split()) for it in row]
        self._write(_line(words))
        self.rows[tuple(words[:self.keys])] = words

    def _write(self, text: str) -> None:
        left = text.encode()
        try:
            while left:
                left = left[os.write(self._file, left):]
        except OSError as fault:
            raise Trouble(f"{self.path}: {fault.strerror}") from fault

    def _lock(self) -> None:
        if fcntl:
            try:
                fcntl.flock(self._file, fcntl.LOCK_EX | fcntl.LOCK_NB)
            except OSError as fault:
                raise Trouble(f"{self.path}: another sweep writes to this file") from fault

    def _read(self, again: str) -> None:
        with open(os.dup(self._file), "rb") as file:
            file.seek(0)
            text = file.read()
        whole = text[:text.rfind(b"\n") + 1]
        self.cut = len(text) - len(whole)
        if self.cut:
            os.ftruncate(self._file, len(whole))
        lines = list(csv.reader(io.StringIO(whole.decode(errors="replace"), newline="")))
        if not lines:
            self._write(_line(self.names))
            return
        if lines[0] != self.names:
            raise Trouble(f"{self.path}: its columns are {', '.join(lines[0])}, and this sweep's are "
                          f"{', '.join(self.names)}; take another file")
        for number, words in enumerate(lines[1:], 2):
            if len(words) != len(self.names):
                raise Trouble(f"{self.path}, line {number}: it has {len(words)} columns and not {len(self.names)}; "
                              "take the line away, and its case is run again")
            self.rows[tuple(words[:self.keys])] = words
        if again:
            self._take_away(again)

    def _take_away(self, again: str) -> None:
        """Writes the file anew without the rows in which something stands in a column."""
        column = self.names.index(again)
        kept = {key: row for key, row in self.rows.items() if not row[column]}
        if len(kept) == len(self.rows):
            return
        beside = f"{self.path}.new"
        with open(beside, "w", encoding="utf-8", newline="") as file:
            file.write("".join(map(_line, [self.names, *kept.values()])))
        os.replace(beside, self.path)
        self.close()
        self._file = os.open(self.path, os.O_RDWR | os.O_APPEND)
        self._lock()
        self.rows = kept


def _line(words: Sequence[str]) -> str:
    text = io.StringIO(newline="")
    csv.writer(text, lineterminator="\n").writerow(words)
    return text.getvalue()
