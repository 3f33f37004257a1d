"""Rule tables: transitions in order, of which the first that matches gives the next state."""
from __future__ import annotations

from typing import Dict, List, Optional, Sequence, Tuple

from .matching import Entry, Matcher, Transition, Variable
from .neighborhoods import PERMUTE, Entries, Map, Neighborhood, maps_of, order_named
from .reasons import ByLine, Reason, Stays
from .source import SourceLine

MOST_KNOWN = 1 << 18  # neighbourhoods that are kept, of about 300 bytes each
Inputs = Tuple[int, ...]  # the states of a cell and of the neighbours that a line lists


class Table:
    """A table that was read. Which line decides is kept for the neighbourhoods that were asked for."""

    def __init__(
        self, states: int, neighborhood: Neighborhood, symmetry: str, transitions: Sequence[Transition]
    ) -> None:
        self.states, self.neighborhood, self.symmetry = states, neighborhood, symmetry
        self.transitions = tuple(transitions)
        self.places = neighborhood.places
        self._matchers = [Matcher(it, neighborhood, symmetry) for it in transitions]
        self._of_center: Dict[int, List[Matcher]] = {}
        self._known: Dict[Inputs, Tuple[int, Tuple[int, ...]]] = {}

    @property
    def lines(self) -> Tuple[SourceLine, ...]:
        """The lines of the transitions."""
        return tuple(it.line for it in self.transitions)

    def decision(self, around: bytes) -> Tuple[int, Tuple[int, ...]]:
        """The next state of a cell by the nine states at and around it, and the number of the line that decides, if
        one does."""
        inputs = self.inputs_of(around)
        # Under `permute` the order of the neighbours means nothing.
        alike = (inputs[0], *sorted(inputs[1:])) if self.symmetry == PERMUTE else inputs
        known = self._known.get(alike)
        if known is None:
            if len(self._known) >= MOST_KNOWN:
                self._known.clear()
            known = self._known[alike] = self._decided(alike)
        return known

    def why(self, around: bytes) -> Reason:
        """The next state of a cell by the nine states at and around it, and why."""
        inputs = self.inputs_of(around)
        found = self._first_match(inputs)
        if found is None:
            return Stays(inputs[0])
        matcher, entries = found
        entries = matcher.simplest(inputs, entries)
        line = matcher.transition
        values = {variable.name: state for variable, state in line.values(inputs, entries).items()}
        words = tuple(_word(it) for it in (*line.inputs, line.result))
        return ByLine(line.given(inputs, entries), line.line, self.neighborhood.neighbours, self._map_of(entries),
                      words, values)

    def inputs_of(self, around: bytes) -> Inputs:
        """The states that a line of this table sees, among nine."""
        return tuple([around[place] for place in self.places])

    def _map_of(self, entries: Entries) -> Map:
        if self.symmetry == PERMUTE:
            return order_named(self.neighborhood, entries)
        return next(it for it in maps_of(self.neighborhood, self.symmetry) if it.entries == entries)

    def _decided(self, inputs: Inputs) -> Tuple[int, Tuple[int, ...]]:
        found = self._first_match(inputs)
        if found is None:
            return inputs[0], ()
        line = found[0].transition
        return line.given(inputs, found[1]), (line.line.number,)

    def _first_match(self, inputs: Inputs) -> Optional[Tuple[Matcher, Entries]]:
        """The first line that matches, and the map under which it does."""
        center = inputs[0]
        if center not in self._of_center:
            self._of_center[center] = [it for it in self._matchers if it.admits_center(center)]
        for matcher in self._of_center[center]:
            entries = matcher.match(inputs)
            if entries is not None:
                return matcher, entries
        return None


def _word(entry: Entry) -> str:
    return entry.name if isinstance(entry, Variable) else str(entry)
