"""The line on standard error that says how far a settling is."""
from __future__ import annotations

import sys
import time

from ..console import say

ON_SCREEN, IN_FILE = 1.0, 5.0  # seconds from one line to the next


class Progress:
    """It is called after each poll, and says now and then how many bookmarks are current, and since when it waits.

    In a terminal the line stays in one place, and `end` takes it away.
    """

    def __init__(self, is_wanted: bool) -> None:
        """is_wanted: whether it is shown also where standard error is no terminal"""
        self._is_screen = sys.stderr.isatty()
        self._is_shown = is_wanted or self._is_screen
        self._began = self._told = time.monotonic()

    def __call__(self, pending: int, bookmarks: int) -> None:
        now = time.monotonic()
        is_due = now - self._told >= (ON_SCREEN if self._is_screen else IN_FILE)
        is_last = not pending and not self._is_screen
        if self._is_shown and (is_due or is_last):
            self._told = now
            text = f"{bookmarks - pending} of {bookmarks} bookmarks are current, {now - self._began:.0f} s"
            say(text, "" if self._is_screen else "\n")

    def end(self) -> None:
        """Takes the line away."""
        if self._is_screen:
            print("\r\033[K", end="", file=sys.stderr, flush=True)
