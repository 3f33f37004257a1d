"""Random scripts, of which each allocation is refused in turn."""
from __future__ import annotations

import contextlib
import shutil
import tempfile
import time
from typing import Iterator

from allocations import ALL, NotRight, Share, made_in, random_case

from .found import Difference, Found, Lacking
from .part import Run

SECONDS = 200
SEED = "soak"
# Where there is less time than this, a script isn't tried to its end.
ENOUGH = 30


@contextlib.contextmanager
def refused_allocations(program: str) -> Iterator[Run]:
    if not shutil.which("cc"):
        raise Lacking("there is no C compiler (Debian: gcc libc6-dev)")
    with tempfile.TemporaryDirectory() as folder:
        allocator = made_in(folder, SECONDS)

        def run(seed: int, seconds: float) -> Found:
            case, begun = random_case(SEED, seed), time.monotonic()
            try:
                tried = case.check(allocator, program, ALL if seconds >= ENOUGH else Share(seconds), SEED)
            except NotRight as wrong:
                return Found(1, [Difference(seed, f"{case}: {wrong}", case.script)])
            return Found(tried.count, [], (time.monotonic() - begun) / (tried.count + 1))
        yield run
