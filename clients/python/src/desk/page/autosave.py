"""Experiments that pages save by themselves, in the user's folder for what programs keep between runs."""
from __future__ import annotations

import asyncio
import fcntl
import os
import time
from pathlib import Path
from typing import IO, List, NamedTuple, Optional, Tuple

from ..errors import Trouble
from ..formats.header import rule_named_by

from .document import Document
from .second_script import whole_script_of

# Seconds between two looks whether there is something to save, and how many old experiments are kept.
EACH, MOST_KEPT = 2.0, 20


def state_folder() -> Path:
    """The user's folder of the desk's state, as XDG_STATE_HOME says, else in ~/.local/state."""
    given = os.environ.get("XDG_STATE_HOME", "")
    return (Path(given) if os.path.isabs(given) else Path.home() / ".local/state") / "desk"


class Left(NamedTuple):
    """An experiment that an earlier page left: its file's name, when it was written, and its rule's name."""

    name: str
    when: float
    rule: str


class Autosave:
    """The file of one page's experiment, which it holds by a lock, and those that earlier pages left.

    It stays when the page ends, unless the user saved the experiment. A fault of the folder is told once, by `fault`,
    and the page goes on without it.
    """

    def __init__(self, folder: Path) -> None:
        self._folder = folder / "experiments"
        self._name = time.strftime("%Y-%m-%d-%H%M%S-") + f"{os.getpid()}.script"
        self._lock: Optional[IO[bytes]] = None
        self._written: Tuple[Document, bool] = Document(), True
        self.fault = ""

    def begin(self) -> None:
        """Makes the folder, and holds a file in it."""
        try:
            self._folder.mkdir(mode=0o700, parents=True, exist_ok=True)
            self._lock = open(_lock_of(self._path(self._name)), "wb")
            fcntl.flock(self._lock, fcntl.LOCK_EX)
            for name in self._left()[MOST_KEPT:]:
                self.discard(name)
        except OSError as fault:
            self._failed(fault)

    def end(self) -> None:
        """Lets others have the file."""
        if self._lock:
            self._lock.close()
            _lock_of(self._path(self._name)).unlink(missing_ok=True)
            self._lock = None

    async def sync(self, document: Document, is_saved: bool) -> None:
        """Writes the document, or removes what was written where the user has saved it or hasn't changed it."""
        if (document, is_saved) == self._written or self._lock is None:
            return
        try:
            if is_saved:
                self._path(self._name).unlink(missing_ok=True)
            else:
                await asyncio.to_thread(self._write, document)
            self._written = document, is_saved
        except OSError as fault:
            self._failed(fault)

    def newest(self) -> Optional[Left]:
        """The last experiment that a page left which isn't there any more, or None."""
        names = self._left() if self._lock else []
        if not names:
            return None
        path = self._path(names[0])
        with open(path, "rb") as file:
            return Left(names[0], path.stat().st_mtime, rule_named_by(file.read(1 << 16)))

    def read(self, name: str) -> bytes:
        """The script of an experiment that was left. Trouble: it is there no more."""
        if name not in self._left():
            raise Trouble(f"there is no experiment {name} any more")
        return self._path(name).read_bytes()

    def discard(self, name: str) -> None:
        """Removes an experiment that was left."""
        if name in self._left():
            for path in (self._path(name), _lock_of(self._path(name))):
                path.unlink(missing_ok=True)

    def _left(self) -> List[str]:
        """The names of all that no page holds, the last one first."""
        paths = [it for it in self._folder.glob("*.script") if it.name != self._name and not _is_held(it)]
        return [it.name for it in sorted(paths, key=lambda it: it.stat().st_mtime, reverse=True)]

    def _path(self, name: str) -> Path:
        return self._folder / name

    def _write(self, document: Document) -> None:
        """Writes a file beside and puts it in place, so that there is a whole one at any time."""
        beside = self._path(self._name + ".new")
        beside.write_bytes(whole_script_of(document))
        os.replace(beside, self._path(self._name))

    def _failed(self, fault: OSError) -> None:
        self.end()
        self.fault = f"The experiment isn't saved by itself: {self._folder}: {fault.strerror}."


def _lock_of(path: Path) -> Path:
    return path.with_suffix(".lock")


def _is_held(path: Path) -> bool:
    """Whether a page that runs holds a file."""
    try:
        with open(_lock_of(path), "rb") as lock:
            fcntl.flock(lock, fcntl.LOCK_EX | fcntl.LOCK_NB)
    except FileNotFoundError:
        return False
    except OSError:
        return True
    return False
