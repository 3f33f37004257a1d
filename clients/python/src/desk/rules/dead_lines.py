"""Which lines of a rule can never fire, whatever the pattern.

A line of a table can't fire where earlier lines take all that it matches. What a line matches is a union of *boxes*,
products of sets of states: one for each assignment of its bound variables and each map of the symmetry. Since that
union is the same under each map, it is enough to look at the boxes as they are written. So a line can't fire exactly
if each of these is covered by the boxes of earlier lines.

Whether a box is covered is found for each state of the cell, by fixing one neighbour after the other. At each neighbour
the states that leave the same earlier boxes possible are one case. A case is over where some box has all that is left
of it, or where no box is left: then the states that were fixed are what the line fires for. Cases with the same boxes
left at the same neighbour are decided once. This is exact, but there may be more cases than can be gone through. A line
is said to be unknown if more than MOST_TRIED states would have to be tried for it, or more than MOST_TRIED_IN_ALL for
the table, or if the earlier lines have more than MOST_BOXES boxes.

A node of a tree can't fire exactly if no way from the root leads to it, since each input is asked for once.
"""
from __future__ import annotations

import itertools
from bisect import bisect_left
from collections import Counter
from dataclasses import dataclass
from typing import Dict, Iterator, NamedTuple, Optional, Sequence, Set, Tuple, Union

from .decision_trees import Tree
from .matching import Sets, States, Transition, admitted
from .neighborhoods import PERMUTE, PLACES, orders
from .reader import Rule
from .table_lines import neighbour_sets
from .tables import Table

MOST_BOXES = 200000
MOST_TRIED = 50000
MOST_TRIED_IN_ALL = 4000000  # some seconds


@dataclass(frozen=True)
class Dead:
    """A line that can never fire.

    by: the numbers of earlier lines that together take all that it matches; none for a node of a tree
    """

    by: Tuple[int, ...]


@dataclass(frozen=True)
class Alive:
    """A line that can fire.

    around: nine states for which it does, or None for a node of a tree
    """

    around: Optional[bytes]


@dataclass(frozen=True)
class Unknown:
    """A line of which it isn't known whether it can fire, since to find out takes too long."""


Verdict = Union[Dead, Alive, Unknown]


def verdicts_of(rule: Rule) -> Dict[int, Verdict]:
    """Of each line, by its number, whether it can ever fire."""
    return _of_tree(rule.kind) if isinstance(rule.kind, Tree) else _of_table(rule.kind)


def _of_tree(tree: Tree) -> Dict[int, Verdict]:
    reached = {len(tree.nodes) - 1}
    for number in range(len(tree.nodes) - 1, -1, -1):  # a node leads to earlier ones
        if number in reached and tree.nodes[number].depth > 1:
            reached.update(tree.nodes[number].leads_to)
    return {node.line.number: Alive(None) if number in reached else Dead(()) for number, node in enumerate(tree.nodes)}


class _Box(NamedTuple):
    """What a line matches of cells in one state under one assignment and one map: a set for each neighbour."""

    line: int
    sets: Sets


def _of_table(table: Table) -> Dict[int, Verdict]:
    count = _lines_that_fit(table)
    covering, asked = table.transitions[:count], table.transitions[:count + 1]
    inquiries = [_Inquiry(it) for it in asked]
    room = MOST_TRIED_IN_ALL
    for center in range(table.states):
        boxes = [box for it in covering for box in _boxes_of(it, center, table)]
        cover = _Cover(boxes, len(table.places) - 1)
        for inquiry in inquiries:
            room -= inquiry.ask(center, cover, room)
    found: Dict[int, Verdict] = {it.line.number: Unknown() for it in table.transitions}
    found.update({it.line.number: inquiry.verdict(table) for it, inquiry in zip(asked, inquiries)})
    return found


def _lines_that_fit(table: Table) -> int:
    """How many of the first lines have no more boxes together than are kept."""
    room = MOST_BOXES
    for count, transition in enumerate(table.transitions):
        for center in admitted(transition.inputs[0]):
            room -= sum(1 for _ in itertools.islice(_boxes_of(transition, center, table), room + 1))
            if room < 0:
                return count
    return len(table.transitions)


def _boxes_of(transition: Transition, center: int, table: Table) -> Iterator[_Box]:
    """The boxes of a line for cells of one state."""
    for sets in _written_sets(transition, center):
        for arranged in _arranged(sets, table):
            yield _Box(transition.line.number, arranged)


def _written_sets(transition: Transition, center: int) -> Iterator[Sets]:
    """The sets for the neighbours, as they are written, under each assignment that admits this state of the cell."""
    own, bound = transition.inputs[0], transition.bound()
    if center in admitted(own):
        for values in itertools.product(*([center] if it is own else sorted(it.states) for it in bound)):
            yield neighbour_sets(transition, dict(zip(bound, values)))


def _arranged(sets: Sets, table: Table) -> Iterator[Sets]:
    """The different lists that the symmetry makes of one."""
    if table.symmetry == PERMUTE:
        return _different_orders(Counter(sets), len(sets))
    every = orders(table.neighborhood, table.symmetry)
    return iter(dict.fromkeys(tuple([sets[it] for it in order]) for order in every))


def _different_orders(left: Counter[States], count: int) -> Iterator[Sets]:
    """The different orders of so many sets, by how often each of them is there."""
    if count == 0:
        yield ()
        return
    for first in list(left):
        if left[first]:
            left[first] -= 1
            for rest in _different_orders(left, count - 1):
                yield (first, *rest)
            left[first] += 1


class _TooLong(Exception):
    """More states would have to be tried than may be."""


class _Cover:
    """The boxes for cells of one state, numbered in the order of their lines, and for each neighbour and each of its
    states which boxes admit it: bit `i` of a number is that of the box `i`."""

    def __init__(self, boxes: Sequence[_Box], neighbours: int) -> None:
        self.lines = [box.line for box in boxes]
        self._admits = [_bits_of([box.sets[place] for box in boxes]) for place in range(neighbours)]

    def first_of(self, line: int) -> int:
        """The number of the first box that isn't of an earlier line."""
        return bisect_left(self.lines, line)

    def admitting(self, place: int, state: int) -> int:
        """The boxes that admit a state of a neighbour."""
        return self._admits[place].get(state, 0)


def _bits_of(sets: Sequence[States]) -> Dict[int, int]:
    """For each state the numbers of the sets that have it, as bits."""
    found: Dict[int, bytearray] = {}
    for number, states in enumerate(sets):
        for state in states:
            found.setdefault(state, bytearray(len(sets) // 8 + 1))[number // 8] |= 1 << number % 8
    return {state: int.from_bytes(bits, "little") for state, bits in found.items()}


class _Inquiry:
    """Whether a line can fire, as far as it is known by the states of the cell that were asked for."""

    def __init__(self, transition: Transition) -> None:
        self._transition = transition
        self._fires_for: Optional[Tuple[int, ...]] = None  # the states of the cell and its neighbours
        self._by: Set[int] = set()
        self._tried = 0
        self._gave_up = False

    def ask(self, center: int, cover: _Cover, most: int) -> int:
        """Finds out for cells of one more state, as long as it isn't decided, and gives how many states of neighbours
        were tried, which are about `most` at most."""
        before = self._tried
        most_now = min(MOST_TRIED, before + most)
        try:
            for sets in _written_sets(self._transition, center):
                if self._fires_for is None:
                    self._look(center, sets, cover, most_now)
        except _TooLong:
            self._gave_up = True
        return self._tried - before

    def verdict(self, table: Table) -> Verdict:
        """What is known once all states of the cell were asked for."""
        if self._fires_for is not None:
            around = bytearray(len(PLACES))
            for place, state in zip(table.places, self._fires_for):
                around[place] = state
            return Alive(bytes(around))
        return Unknown() if self._gave_up else Dead(tuple(sorted(self._by)))

    def _look(self, center: int, sets: Sets, cover: _Cover, most: int) -> None:
        """Looks for neighbours in these sets that no earlier line takes, until so many states were tried."""
        earlier = (1 << cover.first_of(self._transition.line.number)) - 1
        whole = [earlier]  # at each neighbour the boxes that have all states of it and of those behind it
        for place in range(len(sets) - 1, -1, -1):
            has_all = whole[0]
            for state in sets[place]:
                has_all &= cover.admitting(place, state)
            whole.insert(0, has_all)
        covered: Set[Tuple[int, int]] = set()

        def uncovered(place: int, left: int) -> Optional[Tuple[int, ...]]:
            """States of the neighbours from one on that none of the boxes left admits, or None."""
            if not left:
                return tuple([min(it) for it in sets[place:]])
            having_all = left & whole[place]
            if having_all:
                self._by.add(cover.lines[_lowest(having_all)])
                return None
            if (place, left) in covered:
                return None
            self._tried += len(sets[place])
            if self._tried > most:
                raise _TooLong
            cases = {left & cover.admitting(place, state): state for state in sorted(sets[place])}
            for still_left, state in sorted(cases.items()):
                rest = uncovered(place + 1, still_left)
                if rest is not None:
                    return (state, *rest)
            covered.add((place, left))
            return None

        found = uncovered(0, earlier)
        if found is not None:
            self._fires_for = (center, *found)


def _lowest(bits: int) -> int:
    """The number of the lowest bit that is set."""
    return (bits & -bits).bit_length() - 1
