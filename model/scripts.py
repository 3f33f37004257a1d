#!/usr/bin/env python3
"""Prints a random script, with the program's words for it in a comment on its first line.

    model/scripts.py SEED

All commands are in it, right ones and odd ones, with files of rules and patterns, some of them damaged. What it asks
for can be computed cell by cell: under rules that may grow generations are near, and under tame rules they go up to
the farthest.
"""
from __future__ import annotations

import os
import random
import sys
from dataclasses import dataclass, field
from typing import Callable, List, Sequence, Tuple

import macrocells
import rle
from commands import Format, Peek, Plain, Show
from documents import Document, Elements
from edits import FARTHEST, MOST_CELLS, MOST_INTERVENTIONS
from random_patterns import EDGES, random_macrocell, random_rle
from random_rules import tame_rule, wild_rule
from refusals import Fault, Refused
from replies import Text, answer, asked_by
from rule_files import Rule
from symmetries import Neighborhood
from tables import Table

sys.path.insert(0, f"{os.path.dirname(os.path.dirname(os.path.realpath(__file__)))}/hostile")

from mutation import mutated  # noqa: E402

# What the first line of a script says before the program's words.
WORDS = b"# desk"

# How far a pattern may be followed that grows, in a plane and in rows, and how many cells it may begin with.
NEAR = 10
NEAR_IN_ROWS = 40
MOST_GROWING = 150
# How many cells there may be that don't grow, and how many of them may be set again and again.
MOST_STANDING = 20000
MOST_SET_AGAIN = 40000

# How many cells a run or a macrocell of a file may have, if it is no more than may be read.
MOST_LISTED = 1000

# Ways in which a script ends: some don't end their last line, their text or all of their commands.
ENDS = (b"", b"quit\n", b"quit", b"  quit \r\nset 0 0 1\n", b"rule\n@RULE X\n", b"start mc\n[M2]\nend")

FAR = (FARTHEST, FARTHEST + 1, FARTHEST - 1, 2**63, 2**64 - 1, 2**64, 10**25)


def random_script(seed: str) -> bytes:
    """The script of a seed."""
    return _Writing(random.Random(seed)).script()


def damaged_script(seed: str) -> bytes:
    """The same with some bytes changed anywhere behind its first line. What it asks for may be beyond the model."""
    script = random_script(seed)
    first, rest = script[: script.index(b"\n") + 1], script[script.index(b"\n") + 1 :]
    return first + mutated(random.Random(seed), rest, [rest])


def words_of(script: bytes) -> List[str]:
    """The program's words that a script's first line names."""
    line = script.partition(b"\n")[0]
    return line[len(WORDS):].decode().split() if line.startswith(WORDS) else []


def _random_words(chance: random.Random) -> str:
    words = [f"--workers {chance.randint(1, 8)}"]
    if chance.random() < 0.5:
        words.append(f"--facts {chance.choice((1, 1, 2, 3, 64, 4096))}")
    if chance.random() < 0.2:
        words.append(f"--squares {chance.choice((64, 64, 100, 200, 400, 1000, 16777216))}")
    return " ".join(words)


@dataclass
class _Writing:
    """A script while it is written, with the document behind it."""

    chance: random.Random
    document: Document = field(default_factory=Document)
    lines: List[bytes] = field(default_factory=list)

    def __post_init__(self) -> None:
        self.is_tame = self.chance.random() < 0.3
        self.new_rule = tame_rule if self.is_tame else wild_rule
        self.is_branching = self.chance.random() < 0.5
        # Somebody who asks after nearly every edit, and seldom for another rule or start.
        self.is_curious = self.chance.random() < 0.4
        # Somebody who follows patterns farther, which takes the model seconds.
        self.is_patient = not self.is_curious and self.chance.random() < 0.02

    def script(self) -> bytes:
        chance = self.chance
        head = WORDS + b" " + _random_words(chance).encode() + b"\n"
        if chance.random() < 0.9:
            self.offer(self.rule_text())
        if chance.random() < 0.8:
            self.offer(self.start_text() if chance.random() < 0.3 else b"set " + self.cells() + b"\n")
            self.offer(b"mark %d " % self.generation() + self.view() + b"\n")
        for _ in range(3 if self.is_branching else 0):
            self.offer(b"branch %d %d\n" % (self.branch(), self.generation()))
        for _ in range(40 if self.is_curious else chance.choice((3, 8, 15, 25))):
            self.offer(self.piece())
        if chance.random() < 0.03:
            self.crowd()
        for bookmark in chance.sample(list(self.document.bookmarks), min(4, len(self.document.bookmarks))):
            self.lines.append(b"show %d\n" % bookmark)
        return head + b"".join(self.lines) + chance.choice(ENDS)

    def offer(self, piece: bytes) -> None:
        """Takes a piece of a script, if the model can say what the script replies behind it."""
        try:
            document = _document_behind(self.document, piece)
        except _TooDear:
            return
        if self.is_affordable(document):
            self.document = document
            self.lines.append(piece)

    def is_affordable(self, document: Document) -> bool:
        """Whether the model and the program come to an end with the document."""
        cells = len(document.start) + sum(len(it.cells) for it in document.interventions.values())
        bookmarks, branches = document.bookmarks.values(), document.branches.values()
        farthest = max([0, *(it.generation for it in bookmarks), *(it.fork for it in branches)])
        if self.is_tame:
            set_again = (cells + 1) * (document.marks_of_what_repeats() + 1)
            return _is_tame(document.rule) and cells <= MOST_STANDING and set_again <= MOST_SET_AGAIN
        return farthest <= self.near(document.rule) and cells <= (MOST_GROWING if farthest else MOST_STANDING)

    def piece(self) -> bytes:
        """One or two commands, or a text."""
        chance = self.chance
        often, seldom = (4, 1) if self.is_curious else (1, 4)
        pieces: Sequence[Tuple[int, Callable[[], bytes]]] = (
            (seldom, self.rule_text),
            (seldom, self.start_text),
            (12, lambda: b"set " + self.cells()),
            (16, lambda: self.on() + self.act()),
            (4, lambda: b"change %d " % self.id_of(self.document.interventions) + self.act_of_change()),
            (3, lambda: b"drop %d" % self.id_of(self.document.interventions)),
            (20, lambda: self.on() + b"mark %d " % self.generation() + self.view()),
            (5, lambda: b"move %d %d" % (self.id_of(self.document.bookmarks), self.generation())),
            (2, lambda: b"unmark %d" % self.id_of(self.document.bookmarks)),
            (6, lambda: b"branch %d %d" % (self.branch(), self.generation())),
            (2, lambda: b"unbranch %d" % self.branch()),
            (8 * often, lambda: b"show %d" % self.id_of(self.document.bookmarks)),
            (6 * often, lambda: b"settle"),
            (5 * often, lambda: b"work"),
            (6 * often, lambda: b"peek %d" % self.id_of(self.document.bookmarks)),
            (6 * often, lambda: b"poll"),
            (3 * often, lambda: b"list"),
            (often, lambda: b"script"),
            (1, lambda: b"help"),
            (2, lambda: chance.choice((b"", b"# a comment", b" \t ", b"#"))),
        )
        weights, writers = zip(*pieces)
        piece = chance.choices(writers, weights)[0]() + b"\n"
        if chance.random() < 0.04:
            return self.odd(piece)
        return piece

    def odd(self, piece: bytes) -> bytes:
        """A piece as somebody writes it who errs, or who loves blanks."""
        chance = self.chance
        words = piece.split(b" ")
        at = chance.randrange(len(words))
        way = chance.randrange(6)
        if way == 0:
            del words[at]
        elif way == 1:
            words.insert(at, chance.choice((b"", b"0", b"end", b"-0", b"+1", b"1.0", b"\t", b"x", b"on 0", b"quit")))
        elif way == 2:
            words[at] = b"000" + words[at]
        elif way == 3:
            words[at] = chance.choice((b"99999999999999999999", b"-99999999999999999999", b"70000", b"4294967297"))
        elif way == 4:
            return b"  " + piece.replace(b" ", b"   ").rstrip() + b" \t\r\n"
        else:
            return mutated(chance, piece, [piece, b"rule", b"set", b" 0 0 1"]) + b"\n"
        odd = b" ".join(words)
        return odd if odd.endswith(b"\n") else odd + b"\n"

    def rule_text(self) -> bytes:
        text = self.new_rule(self.chance)
        return b"rule\n" + self.damaged(text) + b"end\n"

    def start_text(self) -> bytes:
        states = self.document.rule.states
        if self.chance.random() < 0.6:
            return b"start rle\n" + self.damaged(random_rle(self.chance, states)) + b"end\n"
        return b"start mc\n" + self.damaged(random_macrocell(self.chance, states)) + b"end\n"

    def damaged(self, text: bytes) -> bytes:
        """The text, or what an accident makes of it."""
        if self.chance.random() < 0.75:
            return text
        others = [text, b"@RULE y\n@TABLE\n", b"x = 3, y = 3\n3o$o!\n", b"[M2]\n1 0 1 1 0\n"]
        damaged = mutated(self.chance, text, others)
        return damaged if damaged.endswith(b"\n") else damaged + b"\n"

    def cells(self) -> bytes:
        chance = self.chance
        count = chance.choice((1, 1, 2, 3, 5))
        if chance.random() < 0.0005:
            count = chance.choice((MOST_CELLS, MOST_CELLS + 1))
        return b" ".join(b"%d %d %d" % (self.coordinate(), self.coordinate(), self.state()) for _ in range(count))

    def coordinate(self) -> int:
        chance = self.chance
        return chance.choice((*EDGES, 10**25)) if chance.random() < 0.01 else chance.randint(-4, 4)

    def state(self) -> int:
        states = self.document.rule.states
        if self.chance.random() < 0.02:
            return self.chance.choice((states, 255, 256, 65536))
        return self.chance.randrange(states)

    def act(self) -> bytes:
        """When an intervention acts, once or again and again, and its cells."""
        if self.chance.random() < 0.7:
            return b"at %d set " % self.generation() + self.cells()
        return self.repeat()

    def act_of_change(self) -> bytes:
        if self.chance.random() < 0.6:
            return b"%d set " % self.generation() + self.cells()
        return self.repeat()

    def repeat(self) -> bytes:
        distance = self.chance.choice((1, 2, 3, 5, 0, 1000, 2**60, 2**64))
        ends = sorted([self.generation(), self.generation()], reverse=self.chance.random() < 0.1)
        if self.chance.random() < 0.2:
            ends[1] = FARTHEST
        return b"every %d %d %d set " % (distance, *ends) + self.cells()

    def generation(self) -> int:
        chance = self.chance
        if self.is_tame and chance.random() < 0.4:
            return chance.choice((*FAR, 1000, 8191, 8192, 12345678901234))
        if chance.random() < 0.02:
            return chance.choice(FAR)
        return chance.randint(0, 6) if chance.random() < 0.7 else chance.randint(0, self.near(self.document.rule))

    def near(self, rule: Rule) -> int:
        """How far a pattern may be followed that grows under the rule: farther where it grows in rows alone."""
        is_in_rows = isinstance(rule.kind, Table) and rule.kind.neighborhood is Neighborhood.ONE_DIMENSIONAL
        return (NEAR_IN_ROWS if is_in_rows else NEAR) * (3 if self.is_patient else 1)

    def view(self) -> bytes:
        chance = self.chance
        name = chance.choice((b"counts", b"rle", b"mc", b"window", b"window"))
        if name != b"window":
            return name
        if chance.random() < 0.05:
            left, top = chance.choice(EDGES), chance.choice((0, *EDGES))
            size = chance.choice(((1, 1), (2, 1), (0, 3), (65537, 1), (65536, 1), (256, 256), (2**32, 2**32)))
            return b"window %d %d %d %d" % (left, top, *size)
        left, top = chance.randint(-9, 2), chance.randint(-9, 2)
        return b"window %d %d %d %d" % (left, top, chance.randint(1, 12), chance.randint(1, 9))

    def on(self) -> bytes:
        return b"on %d " % self.branch() if self.document.branches and self.chance.random() < 0.8 else b""

    def branch(self) -> int:
        return 0 if self.chance.random() < 0.3 else self.id_of(self.document.branches)

    def id_of(self, elements: Elements) -> int:
        """An id, mostly one that is there."""
        if elements and self.chance.random() < 0.93:
            return self.chance.choice(list(elements))
        return self.chance.choice((0, 1, elements.last_id + 1, 2**64 - 1))

    def crowd(self) -> None:
        """As many branches, interventions or bookmarks as there may be, and a few more."""
        way = self.chance.random()
        # Of a crowd of thousands each edit copies all, which takes the model seconds.
        if way < 0.98:
            many = [b"branch %d %d\n" % (self.branch(), 0) for _ in range(67)]
        elif way < 0.99:
            many = [b"at 0 set 0 0 0\n"] * (MOST_INTERVENTIONS + 2)
        else:
            many = [b"mark 0 counts\n"] * (MOST_INTERVENTIONS + 2)
        self.offer(b"".join(many))


class _TooDear(Exception):
    """A piece whose pattern or text the model can't compute, or that leaves a text without its end."""


def _document_behind(document: Document, piece: bytes) -> Document:
    """The document behind the commands of a piece, of which none is answered that shows something."""
    if not piece.endswith(b"\n"):
        raise _TooDear
    for ask in asked_by(piece):
        if isinstance(ask, Refused) and ask.fault is Fault.NoEnd:
            raise _TooDear
        if isinstance(ask, Text) and not is_small(ask):
            raise _TooDear
        if ask is Plain.QUIT:
            raise _TooDear
        if not isinstance(ask, (Plain, Show, Peek, Refused)):
            document = answer(document, ask).document
    return document


def is_small(ask: Text) -> bool:
    """Whether a text of a pattern has so few cells that they can be listed."""
    if ask.format is Format.RLE:
        # Many cells need a large count, whose digits may stand apart.
        digits = b"".join(ask.text.split())
        counts = [int(it) for it in "".join(chr(it) if 48 <= it <= 57 else " " for it in digits).split()]
        few = [it for it in counts if it <= MOST_LISTED]
        return sum(few) <= 10 * MOST_LISTED and all(it > rle.MOST_LIVE for it in counts if it > MOST_LISTED)
    if ask.format is Format.MACROCELL:
        try:
            return macrocells.said_by(ask.text).population() <= MOST_LISTED
        except Refused:
            return True
    return True


def _is_tame(rule: Rule) -> bool:
    """Whether the next state of each cell is a function of its own alone, so that no pattern grows."""
    return isinstance(rule.kind, Table) and all(
        not it.bound() and all(len(states) == rule.states for states in it.sets({})[1:]) for it in rule.kind.transitions
    )


def main() -> None:
    if len(sys.argv) != 2:
        raise SystemExit(__doc__)
    sys.stdout.buffer.write(random_script(sys.argv[1]))


if __name__ == "__main__":
    main()
