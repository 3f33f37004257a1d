#!/usr/bin/env python3
"""Gives the program files that were changed at random, and compares how it replies with what the model says.

    hostile/fuzz.py [--desk PROGRAM] [--seconds 60] [--seed 1]

It begins with the files of examples/. One that gets a reply that none got before, by its number and the place that it
names, is changed further, so that the files come to stand for ever more replies. Printed is each batch of files that is
replied to otherwise than the definitions say, or after which the program ended otherwise than well. A file may take
64 MB and 100 bytes for each of its own, and a tenth of a second and one for each 100 KB; those that take more are
printed too, the dearest of each reply. It is run by hand and is no part of the gate.
"""
from __future__ import annotations

import argparse
import collections
import concurrent.futures
import os
import random
import subprocess
import sys
import tempfile
import threading
import time
from dataclasses import dataclass, field
from pathlib import Path
from typing import Counter, Dict, List, NamedTuple, Optional, Sequence, Set, Tuple

ROOT = Path(__file__).resolve().parents[1]
sys.path.insert(0, str(ROOT / "model"))

from commands import Format  # noqa: E402
from judge import Difference, judge  # noqa: E402
from mutation import MOST, mutated  # noqa: E402
from replies import Text, asked_by  # noqa: E402
from scripts import is_small  # noqa: E402

BATCH = 50
SECONDS = 60
# Places beyond this one aren't told apart.
FARTHEST_PLACE = 200


class Cost(NamedTuple):
    """What a run took: seconds of the processor, and bytes of memory at its peak."""

    seconds: float
    memory: int

    def or_more(self, other: Cost) -> Cost:
        """The most of each."""
        return Cost(max(self.seconds, other.seconds), max(self.memory, other.memory))

    def is_too_dear(self, size: int) -> bool:
        """Whether a file of so many bytes took more than it may."""
        return self.memory > (64 << 20) + 100 * size or self.seconds > 0.1 + size / 100000


@dataclass(frozen=True)
class File:
    """A file, and the command that gives it to the program."""

    text: bytes
    format: Format

    def command(self) -> bytes:
        return b" ".join(self.format.value) + b"\n" + self.text + b"\nend\n"


# What tells replies apart: the kind of file, the number of a refusal or 0, and the place that it names.
Feature = Tuple[Format, int, Optional[int]]


@dataclass
class Corpus:
    """The files that are changed further, and the replies that were seen."""

    files: Dict[Format, List[bytes]]
    counted: Counter[Tuple[str, int]] = field(default_factory=collections.Counter)
    seen: Set[Feature] = field(default_factory=set)

    def changed(self, chance: random.Random) -> File:
        form = chance.choice(list(Format))
        others = self.files[chance.choice(list(Format))]
        return File(mutated(chance, chance.choice(self.files[form]), others), form)

    def take(self, file: File, reply: bytes) -> None:
        """Takes a file whose reply is a new one."""
        words = reply.split()
        is_refused = words[0] == b"refused"
        number = int(words[1]) if is_refused else 0
        place = min(int(words[3]), FARTHEST_PLACE) if is_refused and len(words) > 3 else None
        self.counted[" ".join(it.decode() for it in file.format.value), number] += 1
        feature = (file.format, number, place)
        if feature not in self.seen:
            self.seen.add(feature)
            self.files[file.format].append(file.text)


def corpus_of_examples() -> Corpus:
    """The texts in the scripts of examples/, but for those that are near a limit and take long."""
    files: Dict[Format, List[bytes]] = {form: [] for form in Format}
    for path in sorted((ROOT / "examples").glob("*.script")):
        if path.name.startswith("most_"):
            continue
        for ask in asked_by(path.read_bytes()[:200000]):
            if isinstance(ask, Text):
                files[ask.format].append(ask.text[:MOST])
    return Corpus(files)


def run(program: str, script: bytes) -> Tuple[Optional[int], bytes, bytes, Cost]:
    """The program's status, or None where it doesn't end, what it writes and what it costs.

    The peak of a process counts from the one that began it, so this is called in a process that stays small.
    """
    with tempfile.TemporaryFile() as given, tempfile.TemporaryFile() as out, tempfile.TemporaryFile() as err:
        given.write(script)
        given.seek(0)
        process = subprocess.Popen([program], stdin=given, stdout=out, stderr=err)
        killer = threading.Timer(SECONDS, process.kill)
        killer.start()
        _, status, used = os.wait4(process.pid, 0)
        is_late = not killer.is_alive()
        killer.cancel()
        process.returncode = os.waitstatus_to_exitcode(status)
        out.seek(0)
        err.seek(0)
        cost = Cost(used.ru_utime + used.ru_stime, used.ru_maxrss << 10)
        return None if is_late else process.returncode, out.read(), err.read(), cost


class Bad(NamedTuple):
    """A script of files that is replied to otherwise than it may be, and what is wrong."""

    script: bytes
    fault: str


@dataclass
class Fuzzing:
    """What was found in the files so far: bad ones, the most that a run took, and the dearest of each reply."""

    program: str
    runner: concurrent.futures.Executor
    corpus: Corpus
    bad: List[Bad] = field(default_factory=list)
    most: Cost = Cost(0, 0)
    dear: Dict[Tuple[Format, bytes], Tuple[Cost, bytes]] = field(default_factory=dict)

    def batch(self, seed: int) -> None:
        """Gives the program the files of a seed: those that the model can read together, each other one alone."""
        chance = random.Random(seed)
        files = [self.corpus.changed(chance) for _ in range(BATCH)]
        files = [it for it in files if len(list(asked_by(it.command()))) == 1]
        small = [it for it in files if is_small(Text(it.format, it.text))]
        self.give(seed, small, is_judged=True)
        for file in files:
            if file not in small:
                self.give(seed, [file], is_judged=False)

    def run(self, script: bytes) -> Tuple[Optional[int], bytes, bytes, Cost]:
        return self.runner.submit(run, self.program, script).result()

    def give(self, seed: int, files: Sequence[File], is_judged: bool) -> None:
        script = b"".join(it.command() for it in files)
        status, out, err, cost = self.run(script)
        self.most = self.most.or_more(cost)
        replies = out.splitlines()
        wrong = None
        if status != 0 or err or len(replies) != len(files):
            wrong = f"status {status}, {err[:200]!r}, {len(replies)} replies to {len(files)} files"
        elif is_judged:
            try:
                judge(script, out)
            except Difference as difference:
                wrong = str(difference)
        if wrong:
            self.bad.append(Bad(script, f"seed {seed}: {wrong}"))
            print(self.bad[-1].fault, flush=True)
            return
        for file, reply in zip(files, replies):
            self.corpus.take(file, reply)
        self.look_at_cost(files, replies, cost)

    def look_at_cost(self, files: Sequence[File], replies: Sequence[bytes], cost: Cost) -> None:
        """Keeps the dearest file of each reply, of those that are too dear."""
        if not any(cost.is_too_dear(len(it.text)) for it in files):
            return
        for file, reply in zip(files, replies):
            alone = cost if len(files) == 1 else self.run(file.command())[3]
            key = file.format, b" ".join(reply.split()[:3]) if reply.startswith(b"refused") else b"accepted"
            if alone.is_too_dear(len(file.text)) and alone > self.dear.get(key, (Cost(0, 0), b""))[0]:
                self.dear[key] = alone, file.text

    def tell(self, batches: int) -> None:
        for (form, number), count in sorted(self.corpus.counted.items()):
            print(f"{form}: {count} times {number or 'accepted'}")
        for (form, reply), (cost, text) in sorted(self.dear.items(), key=lambda it: it[1], reverse=True):
            print(f"dear: {form.name}, {reply.decode()}, {len(text)} bytes, {cost.seconds:.2f} s, "
                  f"{cost.memory >> 20} MB: {text[:160]!r}")
        print(f"{sum(self.corpus.counted.values())} files in {batches} batches, {len(self.bad)} of them bad; "
              f"{len(self.corpus.seen)} different replies; {len(self.dear)} of them dear")


def main() -> int:
    words = argparse.ArgumentParser(description=__doc__, formatter_class=argparse.RawDescriptionHelpFormatter)
    words.add_argument("--desk", default=str(ROOT / "crates/desk/out/desk"))
    words.add_argument("--seconds", type=float, default=60)
    words.add_argument("--seed", type=int, default=1)
    given = words.parse_args()
    end, seed = time.monotonic() + given.seconds, given.seed
    with concurrent.futures.ProcessPoolExecutor(1) as runner:
        fuzzing = Fuzzing(given.desk, runner, corpus_of_examples())
        while time.monotonic() < end:
            fuzzing.batch(seed)
            seed += 1
    fuzzing.tell(seed - given.seed)
    return 1 if fuzzing.bad else 0


if __name__ == "__main__":
    sys.exit(main())
