#!/usr/bin/env python3
"""Refuses each allocation of the program in turn, while it runs scripts of examples/, and judges what it replies.

    hostile/allocations.py [PROGRAM] [--seconds 30] [--seed WORD] [--jobs 4]
    hostile/allocations.py [PROGRAM] --random 1000 [--seed WORD]

A library takes the place of the C library's allocator (`refuse_alloc.c`, made by `cc`). Each case is a script with a
number of workers, in which the first, the second and each further allocation is refused, alone or with all that come
after it. A command that finds no memory says so and changes nothing, a settling leaves bookmarks pending, and an
opening that finds none writes nothing: every other reply has to be the one that the definitions say of the document as
it then is, which the model of model/ tells. Where one allocation alone is refused, one reply at most may tell of it. A
run that doesn't end within seconds is a failure.

Of the short scripts, those of hostile/short/ and examples/first_path.script with a second `settle`, each allocation is
refused. With --seconds the longer ones share so much time, and each tries as many of its allocations as it can, in an
order of chance that --seed gives; without it they try all. With --random the cases are so many of the model's random
scripts, each with some of its allocations. The last line counts the cases.
"""
from __future__ import annotations

import argparse
import itertools
import os
import random
import shutil
import struct
import subprocess
import sys
import tempfile
import time
from concurrent.futures import Future, ThreadPoolExecutor
from dataclasses import dataclass, field
from pathlib import Path
from typing import Dict, Iterable, Iterator, List, NamedTuple, Optional, Sequence, Tuple

ROOT = Path(__file__).resolve().parents[1]
sys.path.insert(0, str(ROOT / "model"))

from differ import has_few_squares  # noqa: E402
from judge import BOTH, MEMORY, NOTHING, SQUARES, Allowed, Difference, judge  # noqa: E402
from scripts import random_script, words_of  # noqa: E402
from worlds import BeyondTheModel  # noqa: E402

SCRIPTS = ("branches", "work", "source", "macrocell", "refusals")
WORKERS, WORKERS_OF_SHORT = (1, 2, 8), (1, 2)
SECONDS = 20
# How many allocations of a random script are refused.
SOME = 6
COUNT = struct.Struct("l")
NOT_BEGUN = (b"desk: no memory\n", b"desk: no worker\n")


class NotRight(Exception):
    """What a run did that it may not do."""


@dataclass(frozen=True)
class Ended:
    """How a run of the program ended."""

    status: int
    replies: bytes
    errors: bytes


@dataclass(frozen=True)
class Allocator:
    """The library, and the folder of the files in which it counts."""

    library: str
    folder: str
    seconds: float = SECONDS

    def run(self, command: Sequence[str], script: bytes, refused: int, later: bool) -> Tuple[int, Ended]:
        """How many allocations a run has, where one is refused, and how it ends."""
        with tempfile.NamedTemporaryFile(dir=self.folder) as counted:
            counted.write(COUNT.pack(0))
            counted.flush()
            settings = {"LD_PRELOAD": self.library, "COUNTED": counted.name}
            settings.update(REFUSED=str(refused), LATER=str(int(later)))
            try:
                done = subprocess.run(
                    command, input=script, env=settings, capture_output=True, timeout=self.seconds, check=False
                )
            except subprocess.TimeoutExpired:
                raise NotRight(f"it had not ended after {self.seconds:.0f} seconds") from None
            (count,) = COUNT.unpack(Path(counted.name).read_bytes())
        return count, Ended(done.returncode, done.stdout, done.stderr)


@dataclass(frozen=True)
class Share:
    """How much of a case is tried: for so many seconds, or so many allocations, or all of them."""

    seconds: Optional[float] = None
    most: Optional[int] = None


ALL = Share()


class Tried(NamedTuple):
    """How many allocations of a case were refused, of how many."""

    count: int
    of: int

    def __str__(self) -> str:
        return f"{self.count} of {self.of} allocations"


@dataclass
class Case:
    """A script with words of the program, in which one allocation is refused, or all later ones too."""

    name: str
    script: bytes
    words: Sequence[str]
    later: bool
    judged: Dict[Ended, Optional[str]] = field(default_factory=dict)

    def __str__(self) -> str:
        return f"{self.name}, {' '.join(self.words)}, {'all from one on' if self.later else 'one'} refused"

    def check(self, allocator: Allocator, program: str, share: Share, seed: str) -> Tried:
        """Refuses a share of the allocations in turn."""
        command, has_few = [program, *self.words], has_few_squares(list(self.words))
        count, ended = allocator.run(command, self.script, 0, False)
        wrong = self.wrong_with(ended, SQUARES if has_few else NOTHING, 0)
        if wrong or ended.status:
            raise NotRight(f"with no allocation refused: {wrong or ended}")
        end = None if share.seconds is None else time.monotonic() + share.seconds
        tried = 0
        for number in itertools.islice(self.numbers(count, seed), share.most):
            if end is not None and time.monotonic() > end:
                break
            found, ended = allocator.run(command, self.script, number, self.later)
            if ended not in self.judged:
                self.judged[ended] = self.wrong_with(ended, BOTH if has_few else MEMORY, 1)
            if self.judged[ended]:
                raise NotRight(f"with allocation {number} refused: {self.judged[ended]}")
            if found < number and number > count:
                break
            tried += 1
        return Tried(tried, max(count, tried))

    def numbers(self, count: int, seed: str) -> Iterable[int]:
        """The numbers of a run's allocations in an order of chance, and further ones, which other runs may have."""
        numbers = list(range(1, count + 1))
        random.Random(f"{seed} {self}").shuffle(numbers)
        return itertools.chain(numbers, itertools.count(count + 1))

    def wrong_with(self, ended: Ended, allowed: Allowed, refusals: int) -> Optional[str]:
        """What is wrong with the end of a run, if anything, in which so many allocations or later ones were refused."""
        if ended.status == 3:
            return None if ended.replies == b"" and ended.errors in NOT_BEGUN else str(ended)
        if ended.status or ended.errors:
            return str(ended)
        try:
            told = judge(self.script, ended.replies, allowed)
        except Difference as difference:
            return str(difference)
        except BeyondTheModel:
            return None
        if allowed.causes <= MEMORY.causes and not self.later and told > refusals:
            return f"{told} replies tell that memory ran out, for {refusals} refused allocations"
        return None


def cases_of(name: str, script: bytes, workers: Iterable[int]) -> Iterator[Case]:
    for count, later in itertools.product(workers, (False, True)):
        yield Case(name, script, ("--workers", str(count)), later)


def short_cases() -> Iterator[Case]:
    """The cases in which each allocation is refused."""
    first_path = (ROOT / "examples/first_path.script").read_bytes()
    settled_twice = first_path.replace(b"settle\n", b"settle\nsettle\n")
    yield from cases_of("first_path.script with a second settle", settled_twice, WORKERS_OF_SHORT)
    for path in sorted((ROOT / "hostile/short").glob("*.script")):
        yield from cases_of(f"short/{path.name}", path.read_bytes(), WORKERS_OF_SHORT)


def long_cases() -> Iterator[Case]:
    for name in SCRIPTS:
        yield from cases_of(f"{name}.script", (ROOT / f"examples/{name}.script").read_bytes(), WORKERS)


def random_cases(seed: str, count: int) -> Iterator[Case]:
    for number in range(count):
        yield random_case(seed, number)


def random_case(seed: str, number: int) -> Case:
    script = random_script(f"{seed}/{number}")
    return Case(f"{seed}/{number}", script, words_of(script), number % 2 == 1)


def made_in(folder: str, seconds: float = SECONDS) -> Allocator:
    """The allocator, made by the C compiler, whose runs may take so many seconds."""
    library = f"{folder}/refuse_alloc.so"
    source = str(ROOT / "hostile" / "refuse_alloc.c")
    subprocess.run(["cc", "-O2", "-shared", "-fPIC", "-o", library, source], check=True)
    return Allocator(library, folder, seconds)


def passes(case: Case, checked: Future[Tried], quietly: bool) -> bool:
    """Whether a case passed, which is said."""
    try:
        said = checked.result()
    except NotRight as wrong:
        print(f"{case}: FAILED, {wrong}", flush=True)
        return False
    if not quietly:
        print(f"{case}: passed, {said}", flush=True)
    return True


def main() -> int:
    words = argparse.ArgumentParser(description=__doc__, formatter_class=argparse.RawDescriptionHelpFormatter)
    words.add_argument("program", nargs="?", default=str(ROOT / "crates/desk/out/desk"))
    words.add_argument("--seconds", type=float, help="how long the longer scripts take together")
    words.add_argument("--random", type=int, default=0, help="so many random scripts in place of these")
    words.add_argument("--seed", default="1", help="which order of chance, and which random scripts (1)")
    words.add_argument("--jobs", type=int, default=os.cpu_count() or 1, help="how many cases run at a time")
    given = words.parse_args()
    tries: List[Tuple[Case, Share]]
    if given.random:
        tries = [(case, Share(most=SOME)) for case in random_cases(given.seed, given.random)]
    else:
        long = list(long_cases())
        share = ALL if given.seconds is None else Share(seconds=given.seconds * given.jobs / len(long))
        tries = [(case, ALL) for case in short_cases()] + [(case, share) for case in long]
    if not shutil.which("cc"):
        print("there is no C compiler, so that no allocation can be refused")
        print(f"refused allocations: 0 passed, 0 failed, {len(tries)} left out")
        return 0
    with tempfile.TemporaryDirectory() as folder, ThreadPoolExecutor(given.jobs) as pool:
        allocator = made_in(folder)
        checks = [pool.submit(case.check, allocator, given.program, share, given.seed) for case, share in tries]
        passed = sum(passes(case, checked, given.random > 0) for (case, _), checked in zip(tries, checks))
    print(f"refused allocations: {passed} passed, {len(tries) - passed} failed")
    return 0 if passed == len(tries) else 1


if __name__ == "__main__":
    sys.exit(main())
