"""A limit of time for all that is done with a desk, whatever waits there.

A sweep polls for what a case wants to be shown, and leaves that in time by itself. A function that makes the document
may wait for replies of its own; where it does so for too long its program is ended a little later, and whoever goes on
takes another desk.
"""
from __future__ import annotations

import threading
from typing import Callable, Optional

# So many seconds more has whoever polls, and so leaves in time, before the program is ended.
MARGIN = 1.0


class TimeLimit:
    """Ends a program if what is done within the `with` block takes longer than so many seconds and a margin."""

    def __init__(self, close: Callable[[], None], seconds: Optional[float]) -> None:
        """Without a number of seconds there is no limit.

        close: ends the program, whatever it is at
        """
        self.is_over = False
        self._close = close
        self._timer = threading.Timer(seconds + MARGIN, self._end) if seconds is not None else None

    def __enter__(self) -> TimeLimit:
        if self._timer:
            self._timer.daemon = True
            self._timer.start()
        return self

    def __exit__(self, kind: object, fault: object, trace: object) -> None:
        if self._timer:
            self._timer.cancel()

    def _end(self) -> None:
        self.is_over = True
        self._close()
