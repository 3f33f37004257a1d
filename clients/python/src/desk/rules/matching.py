"""Whether a transition matches a cell and its neighbours, and under which map of the symmetry.

A variable that stands more than once in a transition, its result included, is bound: it has one value throughout. Of
the assignments of the bound variables under which a transition matches the least counts: they are taken in order of
first appearance, and the value of the first rises slowest.

Under all symmetries but `permute` a map leaves one assignment at most, since each bound variable stands among the
inputs. So the maps are gone through, and the least assignment is kept. Under `permute` the assignment is found variable
by variable, and the entries are handed out to the neighbours by augmenting paths (Kuhn).
"""
from __future__ import annotations

from collections import Counter
from dataclasses import dataclass
from typing import Dict, FrozenSet, List, NamedTuple, Optional, Sequence, Tuple, Union

from .neighborhoods import PERMUTE, Entries, Neighborhood, orders, simple_maps
from .source import SourceLine

States = FrozenSet[int]
Sets = Tuple[States, ...]


@dataclass(frozen=True, eq=False)
class Variable:
    """A set of states as one line defines it. A later definition of the name is another variable."""

    name: str
    states: States


Entry = Union[int, Variable]


def admitted(entry: Entry) -> States:
    """The states that an entry admits as long as nothing is assigned."""
    return entry.states if isinstance(entry, Variable) else frozenset((entry,))


@dataclass(frozen=True)
class Transition:
    """A line of a table: the entries for the cell and its neighbours, and the result.

    A result that is a variable stands among the inputs too.
    """

    line: SourceLine
    inputs: Tuple[Entry, ...]
    result: Entry

    def bound(self) -> List[Variable]:
        """The bound variables, in order of first appearance."""
        count = Counter(it for it in (*self.inputs, self.result) if isinstance(it, Variable))
        return [variable for variable, times in count.items() if times > 1]

    def values(self, inputs: Sequence[int], entries: Entries) -> Dict[Variable, int]:
        """What each variable stands for where the transition matches these states under a map, in order of
        appearance."""
        state_at = {0: inputs[0], **{entry + 1: inputs[place + 1] for place, entry in enumerate(entries)}}
        return {entry: state_at[at] for at, entry in enumerate(self.inputs) if isinstance(entry, Variable)}

    def given(self, inputs: Sequence[int], entries: Entries) -> int:
        """The result where it matches these states under a map."""
        return self.result if isinstance(self.result, int) else self.values(inputs, entries)[self.result]


class _Arranged(NamedTuple):
    """A transition under one map: the sets of states in the order of the neighbourhood, and for each bound variable
    the places at which it stands."""

    entries: Entries
    sets: Sets
    bound: Tuple[Tuple[int, ...], ...]


class Matcher:
    """A transition in the form in which it is asked for often."""

    def __init__(self, transition: Transition, neighborhood: Neighborhood, symmetry: str) -> None:
        self.transition = transition
        self.neighborhood = neighborhood
        self._permutes = symmetry == PERMUTE
        self._sets = tuple(map(admitted, transition.inputs))
        bound = transition.bound()
        self._bound = [(it, [at for at, entry in enumerate(transition.inputs) if entry is it]) for it in bound]
        self._arranged = [] if self._permutes else self._arrangements(orders(neighborhood, symmetry))

    def admits_center(self, state: int) -> bool:
        """Whether a cell of this state may match."""
        return state in self._sets[0]

    def match(self, inputs: Sequence[int]) -> Optional[Entries]:
        """The map under which it matches a cell and its neighbours with the least assignment, or None."""
        if self._permutes:
            return self._order(inputs, 0, self._sets)
        best: Optional[Tuple[List[int], Entries]] = None
        for arranged in self._arranged:
            if all(state in admits for state, admits in zip(inputs, arranged.sets)):
                values = [inputs[places[0]] for places in arranged.bound]
                if all(inputs[place] == value for value, places in zip(values, arranged.bound) for place in places):
                    if not values:
                        return arranged.entries
                    if best is None or values < best[0]:
                        best = values, arranged.entries
        return best[1] if best else None

    def simplest(self, inputs: Sequence[int], entries: Entries) -> Entries:
        """A map under which it matches with the same assignment: under `permute` a turn or a reflection where one
        does."""
        if not self._permutes:
            return entries
        values = self.transition.values(inputs, entries)
        fixed = {variable: values[variable] for variable, _ in self._bound}
        sets = [frozenset((fixed[it],)) if isinstance(it, Variable) and it in fixed else admitted(it)
                for it in self.transition.inputs[1:]]
        for simple in simple_maps(self.neighborhood):
            if all(state in sets[entry] for state, entry in zip(inputs[1:], simple.entries)):
                return simple.entries
        return entries

    def _arrangements(self, every: Sequence[Entries]) -> List[_Arranged]:
        """The transition under each map, those left out that arrange the entries as an earlier one does."""
        is_bound = {it for it, _ in self._bound}
        found: Dict[Tuple[object, ...], _Arranged] = {}
        for entries in every:
            placed = (self.transition.inputs[0], *(self.transition.inputs[1 + it] for it in entries))
            alike = tuple([it if it in is_bound else admitted(it) for it in placed])
            bound = tuple(tuple(at for at, entry in enumerate(placed) if entry is it) for it, _ in self._bound)
            found.setdefault(alike, _Arranged(entries, tuple(map(admitted, placed)), bound))
        return list(found.values())

    def _order(self, inputs: Sequence[int], assigned: int, sets: Sets) -> Optional[Entries]:
        """An order of the entries that matches under the least assignment, where the first few bound variables have
        values, which are in the sets."""
        found = handed_out(sets[1:], inputs[1:]) if inputs[0] in sets[0] else None
        if found is None or assigned == len(self._bound):
            return found
        variable, places = self._bound[assigned]
        for value in sorted(variable.states.intersection(inputs)):
            one = frozenset((value,))
            narrowed = tuple([one if at in places else admits for at, admits in enumerate(sets)])
            found = self._order(inputs, assigned + 1, narrowed)
            if found is not None:
                return found
        return None


def handed_out(sets: Sequence[States], states: Sequence[int]) -> Optional[Entries]:
    """For each state the number of a set that has it, each set once, or None where that can't be."""
    taken: List[Optional[int]] = [None] * len(sets)  # by which of the states each set is taken

    def finds(at: int, seen: List[bool]) -> bool:
        for number, admits in enumerate(sets):
            if states[at] in admits and not seen[number]:
                seen[number] = True
                other = taken[number]
                if other is None or finds(other, seen):
                    taken[number] = at
                    return True
        return False

    if not all(finds(at, [False] * len(sets)) for at in range(len(states))):
        return None
    of = {at: number for number, at in enumerate(taken)}
    return tuple([of[at] for at in range(len(states))])
