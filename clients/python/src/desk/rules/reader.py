"""Reads `.rule` files as the program understands them, and says what a rule does and why.

    rule = rule_of(text_of("wire.rule"), "wire.rule")
    print(rule.next_state(bytes([3, 1, 0, 0, 0, 0, 0, 0, 0])))  # the cell, then n, ne, e and so on round
    print(rule.why(bytes([3, 1, 0, 0, 0, 0, 0, 0, 0])))

This is a second reading of the same files, and no part of what is proved. It is for telling which line decides; what a
pattern becomes is computed by the program, and whoever shows what is said here compares both.
"""
from __future__ import annotations

import re
from typing import Iterator, NamedTuple, Sequence, Tuple, Union

from ..errors import Malformed
from ..meanings import REFUSALS
from ..refusals import refusal
from .decision_trees import Tree, tree_of
from .neighborhoods import PLACES
from .reasons import Reason
from .source import SourceLine, Unreadable, lines_of, without_comments
from .table_lines import table_of
from .tables import Table

NO_RULE_LINE, NO_TABLE, NOT_QUIESCENT = 1, 2, 13
TABLE, TREE = b"@TABLE", b"@TREE"
# A space, and visible characters of ASCII without a colon.
RULE_LINE = re.compile(rb"@RULE ([!-9;-~]+)")
EMPTY = bytes(len(PLACES))


class Decision(NamedTuple):
    """The next state of a cell, and the numbers of the lines that decide it: one of a table, or none where no line
    matches; of a tree all nodes from the root on."""

    state: int
    lines: Tuple[int, ...]


class Rule:
    """A rule that was read: its name, how many states it has, and the table or the tree that it is."""

    def __init__(self, name: str, kind: Union[Table, Tree]) -> None:
        self.name, self.kind, self.states = name, kind, kind.states

    @property
    def lines(self) -> Tuple[SourceLine, ...]:
        """The lines that may decide: transitions, or nodes of a tree."""
        return self.kind.lines

    @property
    def places(self) -> Tuple[int, ...]:
        """Which of the nine states at and around a cell it looks at."""
        return self.kind.places

    def next_state(self, around: Sequence[int]) -> int:
        """The next state of a cell by the nine states at and around it: its own, n, ne, e, se, s, sw, w and nw.

        Malformed: these aren't nine states of the rule.
        """
        return self.kind.decision(self._checked(around))[0]

    def decision(self, around: bytes) -> Decision:
        """The same with the numbers of the lines that decide, for many cells: nothing is checked."""
        return Decision(*self.kind.decision(around))

    def why(self, around: Sequence[int]) -> Reason:
        """The next state of a cell by the nine states at and around it, as for `next_state`, and what decides it.

        Malformed: these aren't nine states of the rule.
        """
        return self.kind.why(self._checked(around))

    def _checked(self, around: Sequence[int]) -> bytes:
        if len(around) != len(PLACES) or not all(0 <= it < self.states for it in around):
            raise Malformed(f"{list(around)} aren't the nine states of a cell and its neighbours below {self.states}")
        return bytes(around)


def rule_of(text: bytes, name: str) -> Rule:
    """The rule of the text of a `.rule` file.

    name: what an error calls the file
    Refused: the program refuses it too, with the same number. The line is told in more cases.
    """
    try:
        return _rule_of(text)
    except Unreadable as fault:
        place = [] if fault.line is None else [str(fault.line)]
        words = ["refused", str(fault.number), REFUSALS[fault.number].name, *place]
        raise refusal(words, text, name) from None


def _rule_of(text: bytes) -> Rule:
    lines = lines_of(text)
    first = next((line for line in lines if line.says), None)
    named = RULE_LINE.fullmatch(first.says) if first else None
    if named is None:
        raise Unreadable(NO_RULE_LINE, first.number if first else None)
    opening = _opening_in(lines)
    said = list(without_comments(_until_next_section(lines)))
    is_table = _word(opening) == TABLE
    kind: Union[Table, Tree] = table_of(said) if is_table else tree_of(opening.number, said)
    state, deciding = kind.decision(EMPTY)
    if state != 0:
        raise Unreadable(NOT_QUIESCENT, deciding[-1] if deciding else None)
    return Rule(named[1].decode(), kind)


def _opening_in(lines: Iterator[SourceLine]) -> SourceLine:
    """The line that opens the first table or tree."""
    for line in lines:
        if _word(line) in (TABLE, TREE):
            return line
    raise Unreadable(NO_TABLE)


def _word(line: SourceLine) -> bytes:
    """The first word of a line."""
    return re.split(rb"[ \t]", line.says, maxsplit=1)[0]


def _until_next_section(lines: Iterator[SourceLine]) -> Iterator[SourceLine]:
    for line in lines:
        if line.says.startswith(b"@"):
            return
        yield line
