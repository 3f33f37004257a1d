"""Random scripts, right ones and damaged ones, whose replies are compared with the model's."""
from __future__ import annotations

import contextlib
from typing import Iterator

from differ import Comparison

from .found import Difference, Found
from .part import Run

# How long a script may take, also where the machine has other things to do.
SECONDS = 600
SEED = "soak"


@contextlib.contextmanager
def random_scripts(program: str) -> Iterator[Run]:
    yield _compared(Comparison(program, False, SECONDS))


@contextlib.contextmanager
def damaged_scripts(program: str) -> Iterator[Run]:
    yield _compared(Comparison(program, True, SECONDS))


def _compared(comparison: Comparison) -> Run:
    def run(seed: int, seconds: float) -> Found:
        script = comparison.script(f"{SEED}/{seed}")
        verdict = comparison.verdict(script)
        why = verdict.difference
        return Found(1, [Difference(seed, why, script)] if why else [], verdict.took)
    return run
