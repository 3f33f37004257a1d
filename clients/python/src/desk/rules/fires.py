"""Which lines of a rule fire in the generations of a pattern.

A line of a table fires for a cell if it decides the cell's next state; a node of a tree if the way to the next state
leads through it. Cells that see nothing live aren't counted, since there are infinitely many of them.
"""
from __future__ import annotations

from collections import Counter
from typing import List, NamedTuple, Tuple

from .neighborhoods import greatest_arrangement
from .reader import Decision, Rule
from .source import SourceLine
from .surroundings import World, around_of, codes_in
from .tables import Table


class Unmatched(NamedTuple):
    """States of a cell and of the neighbours that a line lists which no line matches, and how many cells saw them.

    Of those that the symmetry takes for the same the greatest stands for all.
    """

    inputs: Tuple[int, ...]
    cells: int


class Fires:
    """The counts over the generations that were added.

    cells: for the number of each line that fired, for how many cells it did
    generations: how many were added
    """

    def __init__(self, rule: Rule) -> None:
        self.rule = rule
        self.cells: Counter[int] = Counter()
        self.generations = 0
        self._unmatched: Counter[Tuple[int, ...]] = Counter()

    def add(self, world: World) -> World:
        """Counts the lines that fire in one generation, and gives the next one. Dead cells may be in it, as 0."""
        seen = {place: code for place, code in codes_in(world, self.rule.places).items() if code}
        cells = Counter(seen.values())
        decisions = {code: self.rule.decision(around_of(code)) for code in cells}
        for code, decision in decisions.items():
            self._count(around_of(code), decision, cells[code])
        self.generations += 1
        return {place: decisions[code].state for place, code in seen.items() if decisions[code].state}

    def never_fired(self) -> List[SourceLine]:
        """The lines that didn't fire in any of the generations."""
        return [line for line in self.rule.lines if not self.cells[line.number]]

    def unmatched(self) -> List[Unmatched]:
        """What was seen that no line matches, the most frequent first."""
        found = [Unmatched(inputs, count) for inputs, count in self._unmatched.items()]
        return sorted(found, key=lambda it: (-it.cells, it.inputs))

    def _count(self, around: bytes, decision: Decision, cells: int) -> None:
        """Counts the lines that fire for so many cells that see the same."""
        for line in decision.lines:
            self.cells[line] += cells
        table = self.rule.kind
        if not decision.lines and isinstance(table, Table):
            inputs = table.inputs_of(around)
            self._unmatched[greatest_arrangement(table.neighborhood, table.symmetry, inputs)] += cells
