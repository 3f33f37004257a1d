#!/usr/bin/env python3
"""Whether two programs reply alike: the proved one, and the one that is built without proofs of the same text.

    testing/same_replies.py [--count 300] [--seed WORD] [PROGRAM OTHER]

Both run the scripts of examples/ with 1, 2 and 8 workers, and so many random scripts of the model's. Those whose
replies may depend on how far the workers are, since they poll or squares are few, are passed over. The last line
counts.
"""
from __future__ import annotations

import argparse
import itertools
import os
import pathlib
import subprocess
import sys
from concurrent.futures import ThreadPoolExecutor
from typing import Iterator, List, NamedTuple

ROOT = pathlib.Path(__file__).resolve().parents[1]
sys.path.insert(0, str(ROOT / "model"))

from differ import has_few_squares  # noqa: E402
from scripts import random_script, words_of  # noqa: E402

BUILT = ROOT / "crates/desk/out"
SECONDS = 180
ASKS_HOW_FAR = ([b"work"], [b"poll"])


class Run(NamedTuple):
    """A script, and the words that the programs get with it."""

    name: str
    script: bytes
    words: List[str]


def runs(count: int, seed: str) -> Iterator[Run]:
    """All examples, and so many random scripts of a seed."""
    for path in sorted((ROOT / "examples").glob("*.script")):
        for workers in (1, 2, 8):
            yield Run(f"{path.name} --workers {workers}", path.read_bytes(), [f"--workers={workers}"])
    yield from itertools.islice(filter(is_settled, random_runs(seed)), count)


def random_runs(seed: str) -> Iterator[Run]:
    """The random scripts of a seed."""
    for number in itertools.count():
        script = random_script(f"{seed}/{number}")
        yield Run(f"{seed}/{number}", script, words_of(script))


def is_settled(run: Run) -> bool:
    """Whether no reply to a script depends on how far the workers are."""
    return not has_few_squares(run.words) and not any(it.split()[:1] in ASKS_HOW_FAR for it in run.script.splitlines())


def replies(program: str, run: Run) -> bytes:
    """What a program replies, and how it ends."""
    done = subprocess.run([program, *run.words], input=run.script, capture_output=True, timeout=SECONDS, check=False)
    return done.stdout + b"%d" % done.returncode + done.stderr


def main() -> int:
    words = argparse.ArgumentParser(description=__doc__, formatter_class=argparse.RawDescriptionHelpFormatter)
    words.add_argument("programs", nargs="*", default=[str(BUILT / "desk"), str(BUILT / "quick/desk")])
    words.add_argument("--count", type=int, default=300)
    words.add_argument("--seed", default="1", help="any word, such as the name of a commit")
    given = words.parse_args()
    program, other = given.programs
    asked = list(runs(given.count, given.seed))
    with ThreadPoolExecutor(os.cpu_count()) as pool:
        alike = list(pool.map(lambda run: replies(program, run) == replies(other, run), asked))
    for run, is_alike in zip(asked, alike):
        if not is_alike:
            print(f"{run.name}: FAILED, the replies differ")
    print(f"same replies: {sum(alike)} passed, {len(alike) - sum(alike)} failed")
    return 0 if all(alike) else 1


if __name__ == "__main__":
    sys.exit(main())
