"""Random runs whose threads stall."""
from __future__ import annotations

import contextlib
import time
from typing import Iterator

from stalls import fault_of, planned, stalling_library

from .found import Difference, Found, Lacking
from .part import Run

SEED = "soak"


@contextlib.contextmanager
def stalling_threads(program: str) -> Iterator[Run]:
    with stalling_library() as library:
        if library is None:
            raise Lacking("there is no C compiler (Debian: gcc libc6-dev)")

        def run(seed: int, seconds: float) -> Found:
            begun = time.monotonic()
            fault = fault_of(program, f"{SEED}/{seed}", library)
            took = time.monotonic() - begun
            return Found(1, [Difference(seed, fault, planned(f"{SEED}/{seed}").script)] if fault else [], took)
        yield run
