"""Random runs of the program while its threads stall."""
from __future__ import annotations

import contextlib
import os
import random
import shutil
import subprocess
import sys
import tempfile
import threading
import time
from pathlib import Path
from typing import Iterator, List, NamedTuple, Optional

from session import Session, Wrong, need, started

ROOT = Path(__file__).resolve().parents[1]
sys.path.insert(0, str(ROOT / "model"))

from judge import Difference, judge  # noqa: E402

# A cell is live next where one of its two neighbours is and the other isn't.
RULE = (b"rule\n@RULE X\n@TABLE\nn_states:2\nneighborhood:oneDimensional\nsymmetries:none\n"
        b"0,1,0,1\n0,0,1,1\n1,0,0,0\n1,1,1,0\nend")
# Of so many cells and more a worker looks for the next step of their line.
CELLS = 72
FARTHEST = 16


class _Writing:
    """A script of many branches and bookmarks, of patterns of many cells, in which little is waited for."""

    def __init__(self, chance: random.Random) -> None:
        self.chance = chance
        self.branches = self.bookmarks = self.interventions = 0

    def script(self) -> bytes:
        start = b"set" + b"".join(b" %d 0 1" % (2 * k + self.chance.randrange(2)) for k in range(CELLS))
        lines = [RULE, start] + [self.line() for _ in range(self.chance.randint(25, 60))]
        lines.append(self.chance.choice((b"settle", b"work")))
        lines += [b"show %d" % self.bookmark() for _ in range(2)]
        lines.append(self.chance.choice((b"quit", b"work\nquit", b"work", b"poll")))
        return b"\n".join(lines) + b"\n"

    def line(self) -> bytes:
        ways = ((25, self.mark), (8, self.branch), (7, self.intervene), (4, self.cells), (6, self.change),
                (4, lambda: b"move %d %d" % (self.bookmark(), self.generation())),
                (2, lambda: b"unmark %d" % self.bookmark()),
                (12, lambda: b"work"), (14, lambda: b"poll"), (4, lambda: b"list"), (2, lambda: b"script"),
                (1, lambda: b"help"), (7, lambda: b"settle"), (4, lambda: b"peek %d" % self.bookmark()),
                (3, lambda: b"show %d" % self.bookmark()))
        weights, writers = zip(*ways)
        return self.chance.choices(writers, weights)[0]()

    def mark(self) -> bytes:
        self.bookmarks += 1
        view = self.chance.choice((b"counts", b"counts", b"rle", b"window %d 0 9 1" % self.column()))
        return self.on() + b"mark %d " % self.generation() + view

    def branch(self) -> bytes:
        self.branches += 1
        return b"branch %d %d" % (self.chance.randrange(self.branches), self.generation())

    def intervene(self) -> bytes:
        self.interventions += 1
        return self.on() + b"at %d " % self.generation() + self.cells()

    def change(self) -> bytes:
        which = self.chance.randint(1, self.interventions + 1)
        return b"change %d %d " % (which, self.generation()) + self.cells()

    def cells(self) -> bytes:
        return b"set" + b"".join(b" %d 0 %d" % (self.column(), self.chance.randrange(2)) for _ in range(3))

    def on(self) -> bytes:
        return b"on %d " % self.chance.randint(0, self.branches)

    def bookmark(self) -> int:
        return self.chance.randint(1, self.bookmarks + 1)

    def generation(self) -> int:
        return self.chance.randint(0, FARTHEST)

    def column(self) -> int:
        return self.chance.randint(-20, 2 * CELLS + 20)


def _send_in_pieces(session: Session, script: bytes, chance: random.Random) -> None:
    """Sends the lines of a script, some of them at once, with pauses of up to two milliseconds between them."""
    lines = script.splitlines(keepends=True)
    with contextlib.suppress(OSError):  # a program that ends early shows it by its replies
        while lines:
            size = chance.randint(1, 6)
            session.tell(b"".join(lines[:size]))
            del lines[:size]
            time.sleep(chance.random() ** 3 / 500)
        session.process.stdin.close()


def _run(session: Session, script: bytes, chance: random.Random) -> None:
    """Sends a script and judges its replies."""
    sender = threading.Thread(target=_send_in_pieces, args=(session, script, chance), daemon=True)
    sender.start()
    session.is_sending = sender.is_alive
    try:
        while session.read():
            pass
        session.expect_end(0)
        errors = session.process.stderr.read()
        need(not errors, errors)
        judge(script, bytes(session.rest))
    finally:
        session.process.kill()
        sender.join()


class Planned(NamedTuple):
    """A random run: its script, the program's words, and the chance by which the threads stall and the pieces come."""

    script: bytes
    words: List[str]
    chance: random.Random


def planned(seed: str) -> Planned:
    """The run of a seed."""
    chance = random.Random(seed)
    script = _Writing(chance).script()
    return Planned(script, ["--workers", str(chance.randint(1, 8)), "--facts", chance.choice(("1", "64"))], chance)


def fault_of(program: str, seed: str, library: Optional[str]) -> Optional[str]:
    """What is wrong with the run of a seed, if anything is."""
    script, words, chance = planned(seed)
    stalling = {"LD_PRELOAD": library, "CHANCE": str(chance.getrandbits(32))} if library else {}
    with started(program, *words, env={**os.environ, **stalling}) as session:
        try:
            _run(session, script, chance)
        except (Wrong, Difference) as fault:
            return f"{' '.join(words)}: {fault}"
    return None


@contextlib.contextmanager
def stalling_library() -> Iterator[Optional[str]]:
    """The library that lets threads stall, where there is a C compiler to make it."""
    if not shutil.which("cc"):
        yield None
        return
    with tempfile.TemporaryDirectory() as folder:
        library, source = f"{folder}/stall.so", str(ROOT / "hostile" / "stall.c")
        subprocess.run(["cc", "-O2", "-shared", "-fPIC", "-o", library, source], check=True)
        yield library
