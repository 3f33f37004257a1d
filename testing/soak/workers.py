"""Sessions over 1, 2 and 8 workers at once, whose replies have to be alike, and like a fresh program's at the end."""
from __future__ import annotations

import contextlib
import random
import time
from typing import Dict, Iterator, List

from desk.sweep.retelling import memory_of
from session import Session, Wrong, need, started

from .author import Author
from .found import Difference, Found
from .part import Run

WORKERS = (1, 2, 8)
FEWEST, MOST = 12, 150
SEED = "soak"
# Seconds that a reply may take, also at the idle priority of a busy machine. A program that sleeps is found sooner.
PATIENCE = 3600.0
WAITING = (b"settle", b"show")
ENDINGS = {b"list": b"listed ", b"script": b"scripted "}


class Together:
    """Programs that are asked the same one after another: what they replied, and how long it took them."""

    def __init__(self, programs: List[Session]) -> None:
        self.programs = programs
        for program in programs:
            program.patience = PATIENCE
        self.said: List[bytes] = []
        self.shown: Dict[bytes, bytes] = {}  # of the present document, by the bookmark's id
        self.slowest = 0.0

    def ask(self, command: bytes) -> bytes:
        """The reply of the first program, with which the others have to agree."""
        self.said.append(command)
        kind = command.split()[0]
        replies = [self._reply(program, command, kind) for program in self.programs]
        if kind == b"poll":
            return replies[0]
        if kind == b"list":
            replies = [reply.replace(b" current\n", b" pending\n") for reply in replies]
        if replies[0].startswith(b"ok"):
            self.shown = {}
        known = [reply for reply in replies if not (kind == b"peek" and reply.endswith(b" pending\n"))]
        before = self.shown.get(command.split()[-1]) if kind in (b"peek", b"show") else None
        need(len({*known, *filter(None, [before])}) <= 1, f"{command!r}: {[before, *replies]!r}"[:2000])
        if known and b" current " in known[0] and kind in (b"peek", b"show"):
            self.shown[command.split()[-1]] = known[0]
        return replies[0]

    def _reply(self, program: Session, command: bytes, kind: bytes) -> bytes:
        begun = time.monotonic()
        reply = lines_until(program, command, ENDINGS[kind]) if kind in ENDINGS else program.ask(command)
        if kind not in WAITING:
            self.slowest = max(self.slowest, time.monotonic() - begun)
        return reply


def lines_until(program: Session, command: bytes, ending: bytes) -> bytes:
    """The lines of a reply before the one that ends it."""
    program.tell(command)
    lines: List[bytes] = []
    while not (line := program.line()).startswith(ending):
        lines.append(line + b"\n")
    return b"".join(lines)


def session(together: Together, chance: random.Random, end: float) -> None:
    """Makes an experiment up to a time, and shows all of it."""
    author = Author(chance)
    for command in author.opening():
        author.learn(command, together.ask(command))
    for count in range(MOST):
        if count >= FEWEST and time.monotonic() > end:
            break
        command = author.command()
        author.learn(command, together.ask(command))
    for bookmark in author.ids[b"bookmark"]:
        together.ask(b"show %d\n" % bookmark)


def compare_with_fresh(program: str, together: Together) -> None:
    """Wants a fresh program that gets the document's script to show the same."""
    script = together.ask(b"script\n")
    with started(program) as fresh:
        fresh.tell(script)
        for line in range(edits_in(script)):
            reply = fresh.line()
            need(reply.startswith(b"ok "), f"the script's edit {line} gets {reply!r}")
        for bookmark, shown in together.shown.items():
            found = fresh.ask(b"show " + bookmark + b"\n")
            need(found == shown, f"bookmark {bookmark!r}: fresh {found!r}, not {shown!r}"[:2000])


def edits_in(script: bytes) -> int:
    """How many commands a script of the program's own has: a line each, and two texts that end by `end`."""
    count, in_text = 0, False
    for line in script.splitlines():
        if in_text:
            in_text = line != b"end"
        else:
            count += 1
            in_text = line in (b"rule", b"start mc")
    return count


@contextlib.contextmanager
def alike(program: str) -> Iterator[Run]:
    def run(seed: int, seconds: float) -> Found:
        why = ""
        with contextlib.ExitStack() as open_ones:
            programs = [open_ones.enter_context(started(program, "--workers", str(it))) for it in WORKERS]
            together = Together(programs)
            try:
                session(together, random.Random(f"{SEED}/{seed}"), time.monotonic() + seconds)
                compare_with_fresh(program, together)
            except (Wrong, OSError) as wrong:
                why = str(wrong)
            memory = max(memory_of(it.process.pid) for it in programs)
        differences = [Difference(seed, why, b"".join(together.said))] if why else []
        return Found(1, differences, together.slowest, memory)
    yield run
