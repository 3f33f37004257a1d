#!/usr/bin/env python3
"""Gives the program random scripts, and compares its replies with those that the model says.

    model/differ.py [--count 300] [--seed WORD] [--jobs 1] [--seconds 60] [--damaged]
                    [--desk PROGRAM]

The script n of a seed is that of `model/scripts.py SEED/n`, or with --damaged what changes of some bytes make of it.
Where a run has few squares, its replies may tell of that in place of the plain ones. A script whose replies differ is
printed with as few lines as still differ, and the last line counts.
"""
from __future__ import annotations

import argparse
import concurrent.futures
import os
import subprocess
import sys
import time
from dataclasses import dataclass
from typing import Callable, Iterator, List, Optional

from judge import NOTHING, SQUARES, Difference, judge
from replies import Text, asked_by, replies_to
from scripts import damaged_script, is_small, random_script, words_of
from worlds import BeyondTheModel

ROOT = os.path.dirname(os.path.dirname(os.path.realpath(__file__)))
# So many scripts that differ are shrunk, which takes some seconds each.
MOST_SHRUNK = 5
# Of squares that are said to be so few a script may run out.
FEW_SQUARES = 100000


@dataclass(frozen=True)
class Verdict:
    """What came of a script: why it differs, if it does, how many replies told of too few squares, whether it is beyond
    the model, and how many seconds the program took.
    """

    difference: Optional[str] = None
    short_replies: int = 0
    is_beyond: bool = False
    took: float = 0.0


def verdict_on(script: bytes, program: str, seconds: int) -> Verdict:
    """Runs a script with the words that it names for some seconds at most, and judges the replies."""
    words, begun = words_of(script), time.monotonic()
    try:
        done = subprocess.run([program, *words], input=script, capture_output=True, timeout=seconds, check=False)
    except subprocess.TimeoutExpired:
        return Verdict(f"it had not ended after {seconds} seconds", took=seconds)
    took = time.monotonic() - begun
    if done.returncode or done.stderr:
        return Verdict(f"status {done.returncode}, {done.stderr[:200]!r}", took=took)
    try:
        short_replies = judge(script, done.stdout, SQUARES if has_few_squares(words) else NOTHING)
    except Difference as difference:
        return Verdict(str(difference), took=took)
    except BeyondTheModel:
        return Verdict(is_beyond=True, took=took)
    return Verdict(short_replies=short_replies, took=took)


def has_few_squares(words: List[str]) -> bool:
    """Whether a script may run out of squares with the words of the program."""
    return "--squares" in words and int(words[words.index("--squares") + 1]) < FEW_SQUARES


def shrunk(script: bytes, differs: Callable[[bytes], bool]) -> bytes:
    """A script that differs too, from which no line can go, but for the first one with the program's words."""
    first, *lines = script.splitlines(keepends=True)
    size = len(lines) // 2
    while size:
        at = 0
        while at < len(lines):
            fewer = lines[:at] + lines[at + size :]
            if differs(first + b"".join(fewer)):
                lines = fewer
            else:
                at += size
        size //= 2
    return first + b"".join(lines)


def verdict_on_damaged(script: bytes, program: str, seconds: int) -> Verdict:
    """The same of a script that may ask for more than the model, and so perhaps the program, can compute."""
    try:
        if not all(is_small(ask) for ask in asked_by(script) if isinstance(ask, Text)):
            return Verdict(is_beyond=True)
        for _ in replies_to(script):
            pass
    except BeyondTheModel:
        return Verdict(is_beyond=True)
    return verdict_on(script, program, seconds)


@dataclass(frozen=True)
class Comparison:
    """Which scripts are compared, on which program, and how long one may take."""

    program: str
    is_damaged: bool
    seconds: int

    def script(self, seed: str) -> bytes:
        return damaged_script(seed) if self.is_damaged else random_script(seed)

    def verdict(self, script: bytes) -> Verdict:
        return (verdict_on_damaged if self.is_damaged else verdict_on)(script, self.program, self.seconds)

    def verdict_on_seed(self, seed: str) -> Verdict:
        return self.verdict(self.script(seed))

    def verdicts(self, seeds: List[str], jobs: int) -> Iterator[Verdict]:
        """The verdicts on the scripts of some seeds, in order."""
        if jobs == 1:
            yield from map(self.verdict_on_seed, seeds)
            return
        with concurrent.futures.ProcessPoolExecutor(jobs) as pool:
            yield from pool.map(self.verdict_on_seed, seeds, chunksize=8)

    def tell_shrunk(self, seed: str) -> None:
        """Prints a script that differs, with as few lines as may be."""
        script = shrunk(self.script(seed), lambda it: self.verdict(it).difference is not None)
        print(f"{script.decode(errors='backslashreplace')}\n{self.verdict(script).difference}", flush=True)


def main() -> int:
    words = argparse.ArgumentParser(description=__doc__, formatter_class=argparse.RawDescriptionHelpFormatter)
    words.add_argument("--count", type=int, default=300)
    words.add_argument("--first", type=int, default=0, help="the number of the first script")
    words.add_argument("--seed", default="1", help="any word, such as the name of a commit")
    words.add_argument("--jobs", type=int, default=1)
    words.add_argument("--seconds", type=int, default=60, help="how long one script may take")
    words.add_argument("--damaged", action="store_true")
    words.add_argument("--desk", default=f"{ROOT}/crates/desk/out/desk")
    given = words.parse_args()
    seeds = [f"{given.seed}/{number}" for number in range(given.first, given.first + given.count)]
    comparison = Comparison(given.desk, given.damaged, given.seconds)
    failed = short = beyond = 0
    for seed, verdict in zip(seeds, comparison.verdicts(seeds, given.jobs)):
        if verdict.difference:
            failed += 1
            print(f"{seed}: FAILED, {verdict.difference}", flush=True)
            if failed <= MOST_SHRUNK:
                comparison.tell_shrunk(seed)
        short += verdict.short_replies > 0
        beyond += verdict.is_beyond
    print(f"seed {given.seed}: {short} scripts ran out of squares, {beyond} were beyond the model")
    print(f"random scripts: {len(seeds) - failed} passed, {failed} failed")
    return 1 if failed else 0


if __name__ == "__main__":
    sys.exit(main())
