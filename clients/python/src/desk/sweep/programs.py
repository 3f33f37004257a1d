"""The programs of a process that cases are given to, one at a time, and that wait for the next case in between.

A program that waits for long is ended, since nobody tells a process of a cluster that a sweep is over.
"""
from __future__ import annotations

import os
import threading
from typing import Dict, List, NamedTuple, Optional, Set

from ..exchange import Exchange
from ..program import command_line
from .retelling import Retelling, memory_of

IDLE = 20.0  # seconds after which a program that waits for a case is ended
# The patterns of old cases stay in a program's memory: beyond so many bytes, or so many cases, it is replaced.
MOST_MEMORY, MOST_CASES = 1 << 30, 10_000


class Settings(NamedTuple):
    """How programs are started, and of which sweep they are; no sweep's where any sweep may use them."""

    program: Optional[str] = None
    squares: Optional[int] = None
    workers: Optional[int] = 1
    facts: Optional[int] = None
    limit: Optional[float] = None  # seconds a case
    sweep: int = 0


class Used:
    """A program and how many cases it was given."""

    def __init__(self, settings: Settings) -> None:
        self.retelling = Retelling(Exchange.begun(command_line(
            settings.program, squares=settings.squares, workers=settings.workers, facts=settings.facts)))
        self.cases = 0
        self.timer: Optional[threading.Timer] = None

    def is_spent(self) -> bool:
        """Whether it has to be replaced."""
        return self.cases >= MOST_CASES or memory_of(self.retelling.process) > MOST_MEMORY


class Programs:
    """The programs of one process."""

    def __init__(self) -> None:
        self._lock = threading.Lock()
        self._waiting: Dict[Settings, List[Used]] = {}
        self._open: Dict[int, Set[Used]] = {}
        self._ended: Set[int] = set()
        self.owner = os.getpid()

    def taken(self, settings: Settings) -> Used:
        """A program that waits, or a new one."""
        with self._lock:
            waiting = self._waiting.get(settings)
            used = waiting.pop() if waiting else None
        if used and used.timer:
            used.timer.cancel()
        return used or self.opened(settings)

    def opened(self, settings: Settings) -> Used:
        """A new program."""
        used = Used(settings)
        with self._lock:
            self._open.setdefault(settings.sweep, set()).add(used)
            is_late = settings.sweep in self._ended
        if is_late:
            self.dropped(settings, used)
        return used

    def given_back(self, settings: Settings, used: Used) -> None:
        """Lets a program wait for the next case."""
        if used.is_spent():
            self.dropped(settings, used)
            return
        used.timer = threading.Timer(IDLE, self._leave, (settings, used))
        used.timer.daemon = True
        with self._lock:
            self._waiting.setdefault(settings, []).append(used)
        used.timer.start()

    def dropped(self, settings: Settings, used: Used) -> None:
        """Ends a program."""
        with self._lock:
            self._open.get(settings.sweep, set()).discard(used)
        used.retelling.close()

    def end(self, sweep: int) -> None:
        """Ends all programs of a sweep, whatever they are at, and those that it still opens."""
        with self._lock:
            self._ended.add(sweep)
            found = self._open.pop(sweep, set())
            for settings in [it for it in self._waiting if it.sweep == sweep]:
                del self._waiting[settings]
        for used in found:
            if used.timer:
                used.timer.cancel()
            used.retelling.close()

    def is_ended(self, sweep: int) -> bool:
        """Whether a sweep is over."""
        return sweep in self._ended

    def _leave(self, settings: Settings, used: Used) -> None:
        with self._lock:
            waiting = self._waiting.get(settings, [])
            if used not in waiting:
                return
            waiting.remove(used)
        self.dropped(settings, used)


_programs = Programs()


def programs() -> Programs:
    """Those of this process; a fork has none of its parent's."""
    global _programs
    if _programs.owner != os.getpid():
        _programs = Programs()
    return _programs
