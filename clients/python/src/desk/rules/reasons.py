"""Why a cell gets its next state."""
from __future__ import annotations

from dataclasses import dataclass
from typing import Dict, NamedTuple, Tuple, Union

from .neighborhoods import Map
from .source import SourceLine


@dataclass(frozen=True)
class ByLine:
    """A line of a table decides.

    state: the next state
    line: the line, whose number counts from 1 in the file
    neighbours: the neighbours that a line lists, as n and e
    map: the map of the symmetry: for each of these neighbours the number, from 0, of the line's neighbour whose entry
        it puts there
    entries: the words of the line: for the cell, for each neighbour as written, and the result
    values: what each variable of the line stands for
    """

    state: int
    line: SourceLine
    neighbours: Tuple[str, ...]
    map: Map
    entries: Tuple[str, ...]
    values: Dict[str, int]

    def __str__(self) -> str:
        """The same in words."""
        stand = ", ".join(f"{name} = {state}" for name, state in self.values.items())
        placed = ""
        if self.map.name != "as written":
            pairs = zip(self.neighbours, self.map.entries)
            placed = f", {self.map.name} ({', '.join(f'{at}: {self.entries[1 + entry]}' for at, entry in pairs)})"
        return f"line {self.line.number}: {self.line.text}{placed}{', where ' if stand else ''}{stand}"


@dataclass(frozen=True)
class Stays:
    """No line of a table matches, so the cell keeps its state."""

    state: int

    def __str__(self) -> str:
        """The same in words."""
        return "no line matches: it stays"


class Node(NamedTuple):
    """A node of a tree on the way to the next state.

    line: where it stands in the file
    asks: which of the nine places it asks for, as nw or c
    state: the state there
    leads_to: the number, from 0, of the next node, or from the last node the next state
    """

    line: SourceLine
    asks: str
    state: int
    leads_to: int


@dataclass(frozen=True)
class ByTree:
    """A tree decides: the next state, and the nodes from the root to the one that says it."""

    state: int
    way: Tuple[Node, ...]

    def __str__(self) -> str:
        """The same in words."""
        steps = [f"line {node.line.number}: {node.asks} = {node.state}" for node in self.way]
        return f"{', '.join(steps)}, which gives {self.state}"


Reason = Union[ByLine, Stays, ByTree]
