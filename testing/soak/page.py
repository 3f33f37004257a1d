"""Sessions of the page in a browser."""
from __future__ import annotations

import contextlib
from typing import Iterator

from .found import Found, Lacking
from .part import Run


@contextlib.contextmanager
def the_page(program: str) -> Iterator[Run]:
    from .visitor import Visitor  # needs what isn't installed everywhere

    if getattr(Visitor, "__unittest_skip__", False):
        raise Lacking("there is no browser, no selenium or no aiohttp (Debian: chromium chromium-driver "
                      "python3-selenium python3-aiohttp)")
    try:
        Visitor.setUpClass()

        def run(seed: int, seconds: float) -> Found:
            return Visitor.visited(seed, seconds)
        yield run
    finally:
        Visitor.doClassCleanups()
