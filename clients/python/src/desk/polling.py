"""Polling until what is waited for is known, with pauses in between."""
from __future__ import annotations

import time
from typing import Callable, Optional

from .results import Polling

SHORTEST, LONGEST = 0.0001, 0.005  # seconds of a pause
SHARE = 1 / 8  # of the time that has passed


def polled_until(
    is_over: Callable[[Polling], bool], poll: Callable[[], Polling], timeout: Optional[float], steps: int
) -> Polling:
    """Polls until it is over by what a poll told, nothing more will be known, or the time, in seconds, has passed.

    Gives what the last poll told. It has a cause, which is the first that was met, only where nothing more will be
    known.

    The workers begin with the next step only when somebody polls. So after a poll that found fewer bookmarks pending
    the next one comes at once, and the more steps there are the shorter are the pauses: all of them together stay
    about an eighth of the time.

    steps: how many results are waited for one after the other at most, 1 or more
    """
    began, causes, before = time.monotonic(), Causes(), -1
    while True:
        told = poll()
        if is_over(told):
            return Polling(told.pending)
        if causes.is_last(told):
            return Polling(told.pending, causes.first)
        passed = time.monotonic() - began
        if timeout is not None and passed >= timeout:
            return Polling(told.pending)
        if told.pending >= before:
            pause = min(LONGEST, max(SHORTEST, SHARE * passed / steps))
            time.sleep(pause if timeout is None else min(pause, timeout - passed))
        before = told.pending


class Causes:
    """The causes that polls tell, and when nothing more will be known.

    A cause is of one step or text alone, while the workers may be at others still. The next poll lets them try again
    what failed. So it is over where nothing became known from one cause to the next.
    """

    def __init__(self) -> None:
        self.first: Optional[int] = None
        self._pending: Optional[int] = None  # at the last cause

    def is_last(self, told: Polling) -> bool:
        """Whether nothing more will be known after what a poll told."""
        if told.cause is None:
            return False
        if self.first is None:
            self.first = told.cause
        is_last = told.pending == 1 or self._pending is not None and told.pending >= self._pending
        self._pending = told.pending
        return is_last
