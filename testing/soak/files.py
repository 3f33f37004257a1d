"""Damaged files, which begin with those of examples/ and go on from what gets a new reply."""
from __future__ import annotations

import concurrent.futures
import contextlib
from typing import Iterator

from fuzz import BATCH, Cost, Fuzzing, corpus_of_examples

from .found import Difference, Found
from .part import Run


@contextlib.contextmanager
def damaged_files(program: str) -> Iterator[Run]:
    with concurrent.futures.ProcessPoolExecutor(1) as runner:
        fuzzing = Fuzzing(program, runner, corpus_of_examples())

        def run(seed: int, seconds: float) -> Found:
            fuzzing.bad, fuzzing.most = [], Cost(0, 0)
            fuzzing.batch(seed)
            differences = [Difference(seed, it.fault, it.script) for it in fuzzing.bad]
            return Found(BATCH, differences, fuzzing.most.seconds, fuzzing.most.memory)
        yield run
