"""How far a settling is, as a bar of tqdm, where a notebook or another session of IPython waits for it."""
from __future__ import annotations

import sys
import threading
import time
import warnings
from contextlib import contextmanager
from typing import Any, Callable, Iterator, Optional, Union

Progress = Callable[[int, int], object]  # it is told how many bookmarks are pending, and how many there are
# Such a function, or True for a bar, or False for nothing, or None for a bar in IPython alone.
Watch = Union[Progress, bool, None]
QUIET, PAUSE = 1.0, 0.2  # seconds after which there is a bar, and between two times that it is drawn
FORMAT = "{bar} {n_fmt} of {total_fmt} bookmarks are current, {elapsed}"


@contextmanager
def watched(progress: Watch) -> Iterator[Progress]:
    """What is to be called after each poll.

    It is the function that is given, or with True a bar of tqdm, where that is installed. With None there is such a
    bar in the main thread of IPython, and nothing elsewhere, as with False. The bar comes after a second, and goes.
    """
    if callable(progress):
        yield progress
    elif progress or progress is None and is_interactive():
        bar = _Bar()
        try:
            yield bar
        finally:
            bar.close()
    else:
        yield _nothing


def is_interactive() -> bool:
    """Whether this is the main thread of a session of IPython, as that of a notebook."""
    ipython = sys.modules.get("IPython")
    shell = ipython and ipython.get_ipython()
    return bool(shell) and threading.current_thread() is threading.main_thread()


def _nothing(pending: int, of: int) -> None:
    pass


class _Bar:
    """A bar of tqdm, which isn't drawn at all where the waiting is short or there is no tqdm."""

    def __init__(self) -> None:
        self._drawn_at = time.monotonic() + QUIET - PAUSE
        self._bar: Any = None

    def __call__(self, pending: int, of: int) -> None:
        if time.monotonic() < self._drawn_at + PAUSE:
            return
        self._drawn_at = time.monotonic()
        if self._bar is None:
            self._bar = _tqdm(of - pending, of)
        if self._bar is not None:
            self._bar.total, self._bar.n = of, of - pending
            self._bar.refresh()

    def close(self) -> None:
        if self._bar is not None:
            self._bar.close()


def _tqdm(current: int, of: int) -> Optional[Any]:
    try:
        with warnings.catch_warnings():
            warnings.simplefilter("ignore")  # without ipywidgets it warns, and draws the bar as text
            from tqdm.auto import tqdm
    except ImportError:
        return None
    bar = tqdm(total=of, initial=current, leave=False, bar_format=FORMAT)
    bar.start_t -= QUIET  # what was waited before there was a bar
    return bar
