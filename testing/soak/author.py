"""Somebody who makes an experiment at random, command by command, of larger patterns than the model can follow."""
from __future__ import annotations

import random
from typing import Callable, Dict, List, NamedTuple, Sequence, Tuple

from desk.rules.lifelike import rule_text


class Kind(NamedTuple):
    """A rule by its name, how many states it has, and how far its patterns are followed."""

    name: str
    states: int
    farthest: int


KINDS = (Kind("B3/S23", 2, 400), Kind("B36/S125", 2, 400), Kind("B1357/S1357", 2, 2000), Kind("B2/S/C3", 3, 100),
         Kind("B2/S345/C4", 4, 100))
SIDES = (8, 24, 48, 96)
VIEWS = (b"counts", b"counts", b"rle", b"mc", b"window -20 -20 60 40", b"window 0 0 256 256")
# Ids of each kind that are there at most, and the commands that add one and remove one.
MOST = {b"bookmark": 8, b"intervention": 10, b"branch": 5}
REMOVALS = {b"unmark": b"bookmark", b"drop": b"intervention", b"unbranch": b"branch"}


class Author:
    """It begins by `opening`; then each command of `command` is followed by what was replied to it."""

    def __init__(self, chance: random.Random) -> None:
        self.chance, self.kind = chance, chance.choice(KINDS)
        self.side = chance.choice(SIDES)
        self.ids: Dict[bytes, List[int]] = {it: [] for it in MOST}

    def opening(self) -> Sequence[bytes]:
        """The rule, the start, a bookmark and a branch."""
        letters = (".ABC" if self.kind.states > 2 else "bo")[:self.kind.states]
        rows = ("".join(self.chance.choices(letters, k=self.side)) for _ in range(self.side))
        start = f"x = {self.side}, y = {self.side}\n" + "$\n".join(rows) + "!\n"
        return (b"rule\n" + rule_text(self.kind.name).encode() + b"end\n", b"start rle\n" + start.encode() + b"end\n",
                b"mark %d counts\n" % self.kind.farthest, b"branch 0 %d\n" % self.generation())

    def command(self) -> bytes:
        """The next command."""
        full = [it for it, most in MOST.items() if len(self.ids[it]) >= most]
        if full and self.chance.random() < 0.5:
            return self.removal(self.chance.choice(full)) + b"\n"
        ways: Sequence[Tuple[int, Callable[[], bytes]]] = (
            (6, self.cells), (10, self.intervention), (6, self.change), (10, self.bookmark), (4, self.move),
            (3, self.branch), (3, lambda: self.removal(self.chance.choice(list(MOST)))),
            (10, lambda: b"work"), (14, lambda: b"poll"), (4, lambda: b"list"), (3, lambda: b"settle"),
            (10, lambda: b"peek %d" % self.one(b"bookmark")), (6, lambda: b"show %d" % self.one(b"bookmark")))
        [(_, write)] = self.chance.choices(ways, [weight for weight, _ in ways])
        return write() + b"\n"

    def learn(self, command: bytes, reply: bytes) -> None:
        """Takes the reply to a command, with the id that it gave or took."""
        words, asked = reply.split(), command.split()
        if words[0] != b"ok":
            return
        if len(words) > 3 and words[2] in MOST:
            self.ids[words[2]].append(int(words[3]))
        elif asked[0] in REMOVALS:
            self.ids[REMOVALS[asked[0]]].remove(int(asked[1]))

    def cells(self) -> bytes:
        spots = ((self.chance.randint(-9, self.side + 9), self.chance.randint(-9, self.side + 9)) for _ in range(3))
        return b"set" + b"".join(b" %d %d %d" % (*spot, self.chance.randrange(self.kind.states)) for spot in spots)

    def intervention(self) -> bytes:
        first = self.generation()
        if self.chance.random() < 0.8:
            return self.on() + b"at %d " % first + self.cells()
        distance = self.chance.randint(20, 90)
        return self.on() + b"every %d %d %d " % (distance, first, first + 5 * distance) + self.cells()

    def change(self) -> bytes:
        return b"change %d %d " % (self.one(b"intervention"), self.generation()) + self.cells()

    def bookmark(self) -> bytes:
        return self.on() + b"mark %d " % self.generation() + self.chance.choice(VIEWS)

    def move(self) -> bytes:
        return b"move %d %d" % (self.one(b"bookmark"), self.generation())

    def branch(self) -> bytes:
        return b"branch %d %d" % (self.chance.choice([0, *self.ids[b"branch"]]), self.generation())

    def removal(self, kind: bytes) -> bytes:
        [command] = [it for it, removed in REMOVALS.items() if removed == kind]
        return command + b" %d" % self.one(kind)

    def on(self) -> bytes:
        branch = self.chance.choice([0, *self.ids[b"branch"]])
        return b"on %d " % branch if branch else b""

    def one(self, kind: bytes) -> int:
        """One of the ids that are there, or one that isn't."""
        return self.chance.choice(self.ids[kind] or [1])

    def generation(self) -> int:
        return self.chance.randint(0, self.kind.farthest)
