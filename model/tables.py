"""Rule tables: how the lines of `@TABLE` are read, and the next state that a table gives."""
from __future__ import annotations

import itertools
import math
from collections import Counter
from dataclasses import dataclass, field
from functools import cached_property
from typing import Dict, Iterator, List, Optional, Sequence, Tuple, Union

from refusals import Fault, Refused
from symmetries import Neighborhood, States, Symmetry
from texts import BLANKS, NumberedLine, comma_parts_of, named_value, number_of
from worlds import NINE_ZEROS, Around

MOST_EXPANDED = 1000000

# With more states than digits a line without commas isn't read one character an entry.
MOST_COMPACT_STATES = 10

DESCRIPTORS = (b"n_states", b"neighborhood", b"symmetries")


@dataclass(frozen=True, eq=False)
class Variable:
    """A set of states as one definition names it. A later definition of the name is another variable."""

    states: States


# An entry of a transition.
Entry = Union[int, Variable]
Assignment = Dict[Variable, int]


def _admitted(entry: Entry, assignment: Assignment) -> States:
    """The states that an entry admits, where the assigned variables have one value each."""
    if isinstance(entry, Variable):
        return frozenset([assignment[entry]]) if entry in assignment else entry.states
    return frozenset([entry])


@dataclass(frozen=True)
class Transition:
    """A line of a table: an entry for the cell and each of its neighbours, and the result."""

    inputs: Tuple[Entry, ...]
    result: Entry

    def bound(self) -> List[Variable]:
        """The variables that stand more than once, the result included, in order of first appearance."""
        count = Counter(entry for entry in (*self.inputs, self.result) if isinstance(entry, Variable))
        return [variable for variable in count if count[variable] > 1]

    def assignments(self, among: Optional[States] = None) -> Iterator[Assignment]:
        """Each way to give the bound variables values, or values among some: those of the last one rise first."""
        bound = self.bound()
        values = [it.states if among is None else it.states & among for it in bound]
        for chosen in itertools.product(*map(sorted, values)):
            yield dict(zip(bound, chosen))

    def sets(self, assignment: Assignment) -> Tuple[States, ...]:
        return tuple([_admitted(entry, assignment) for entry in self.inputs])

    @cached_property
    def whole_sets(self) -> Tuple[States, ...]:
        """The sets where nothing is assigned."""
        return self.sets({})

    def given(self, assignment: Assignment) -> int:
        """The result; one that is a variable stands among the inputs too, and so is assigned."""
        return assignment[self.result] if isinstance(self.result, Variable) else self.result


@dataclass(frozen=True)
class Table:
    """Transitions in order, of which the first that matches gives the next state."""

    states: int
    neighborhood: Neighborhood
    symmetry: Symmetry
    transitions: Tuple[Transition, ...]

    def next_state(self, around: Around) -> int:
        inputs = [around[place] for place in (0, *self.neighborhood.places)]
        for transition in self.transitions:
            # An assignment leaves fewer states to admit, so none is tried where the whole sets don't match. A bound
            # variable stands among the inputs, so that it can only have the value of one of them.
            if self._matches(transition.whole_sets, inputs):
                for assignment in transition.assignments(frozenset(inputs)):
                    if self._matches(transition.sets(assignment), inputs):
                        return transition.given(assignment)
        return around[0]

    def _matches(self, sets: Tuple[States, ...], inputs: Sequence[int]) -> bool:
        return inputs[0] in sets[0] and self.symmetry.admits(sets[1:], inputs[1:])

    def has_too_many_transitions(self) -> bool:
        """Whether it expands to more than a million: under each assignment, one for each list of sets that the
        symmetry makes of the entries."""
        total = 0
        for transition in self.transitions:
            least = math.prod(len(variable.states) for variable in transition.bound())
            if total + least > MOST_EXPANDED:
                return True
            if self.symmetry is Symmetry.NONE:
                total += least
                continue
            for assignment in transition.assignments():
                total += self.symmetry.count(transition.sets(assignment)[1:])
                if total > MOST_EXPANDED:
                    return True
        return False


def still_table() -> Table:
    """The table of the opening document's rule."""
    return Table(2, Neighborhood.ONE_DIMENSIONAL, Symmetry.NONE, ())


@dataclass
class _Head:
    """What the descriptors said so far. A symmetry is a name until the neighbourhood is known."""

    states: Optional[int] = None
    neighborhood: Optional[Neighborhood] = None
    symmetry_name: Optional[bytes] = None

    def describe(self, number: int, name: bytes, value: bytes) -> None:
        """Takes one more descriptor, which stands in the line of this number."""
        states, neighborhood, _ = DESCRIPTORS
        if name == states:
            self._check_is_first(number, self.states)
            self.states = number_of(value)
            if self.states is None or not 2 <= self.states <= 256:
                raise Refused(Fault.BadStates)
        elif name == neighborhood:
            self._check_is_first(number, self.neighborhood)
            self.neighborhood = next((it for it in Neighborhood if it.title == value), None)
            if self.neighborhood is None:
                raise Refused(Fault.BadNeighborhood)
        else:
            self._check_is_first(number, self.symmetry_name)
            self.symmetry_name = value
        if self.neighborhood and self.symmetry_name is not None and not self.symmetry():
            raise Refused(Fault.BadSymmetry)

    @staticmethod
    def _check_is_first(number: int, old: object) -> None:
        if old is not None:
            raise Refused(Fault.BadTransition, number)

    def symmetry(self) -> Optional[Symmetry]:
        """The symmetry of that name among those of the neighbourhood."""
        assert self.neighborhood is not None
        return next((it for it in self.neighborhood.symmetries if it.value == self.symmetry_name), None)

    def table(self, transitions: Sequence[Transition]) -> Table:
        assert self.states is not None and self.neighborhood is not None
        symmetry = self.symmetry()
        assert symmetry is not None
        return Table(self.states, self.neighborhood, symmetry, tuple(transitions))

    def is_complete(self) -> bool:
        return None not in (self.states, self.neighborhood, self.symmetry_name)


def table_of(lines: Sequence[NumberedLine]) -> Table:
    """The table that the lines of a section mean."""
    head = _Head()
    reader: Optional[_Reader] = None
    for line in lines:
        descriptor = named_value(line.text, b":")
        if descriptor and descriptor[0] in DESCRIPTORS:
            if reader:
                raise Refused(Fault.BadTransition, line.number)
            head.describe(line.number, *descriptor)
        else:
            reader = reader or _reader_behind(head)
            reader.take(line)
    transitions = (reader or _reader_behind(head)).transitions
    table = head.table(transitions)
    if table.has_too_many_transitions():
        raise Refused(Fault.TooManyTransitions)
    if table.next_state(NINE_ZEROS) != 0:
        raise Refused(Fault.NotQuiescent)
    return table


def _reader_behind(head: _Head) -> _Reader:
    if not head.is_complete():
        raise Refused(Fault.MissingDescriptor)
    assert head.states is not None and head.neighborhood is not None
    return _Reader(head.states, head.neighborhood)


@dataclass
class _Reader:
    """What the lines behind the descriptors said so far."""

    states: int
    neighborhood: Neighborhood
    variables: Dict[bytes, Variable] = field(default_factory=dict)
    transitions: List[Transition] = field(default_factory=list)

    def take(self, line: NumberedLine) -> None:
        """Takes one more line, which defines a variable or says a transition."""
        if line.text.startswith((b"var ", b"var\t")):
            name, members = _definition_in(line)
            self.variables[name] = Variable(self._set_of(line.number, members))
        else:
            self.transitions.append(self._transition_of(line))

    def _set_of(self, number: int, members: Sequence[bytes]) -> States:
        """The set of these members. That a name is unknown comes before that a state is too high."""
        states = frozenset().union(*[self._states_of(number, member) for member in members])
        if any(state >= self.states for state in states):
            raise Refused(Fault.StateTooHigh, number)
        return states

    def _states_of(self, number: int, member: bytes) -> States:
        state = number_of(member)
        if state is not None:
            return frozenset([state])
        if member not in self.variables:
            raise Refused(Fault.BadVariable, number)
        return self.variables[member].states

    def _transition_of(self, line: NumberedLine) -> Transition:
        fields = self._fields_of(line.text)
        if len(fields) != len(self.neighborhood.places) + 2:
            raise Refused(Fault.BadTransition, line.number)
        *inputs, result = [self._entry_of(line.number, it) for it in fields]
        if isinstance(result, Variable) and result not in inputs:
            raise Refused(Fault.FreeResult, line.number)
        return Transition(tuple(inputs), result)

    def _fields_of(self, text: bytes) -> List[bytes]:
        if self.states <= MOST_COMPACT_STATES and b"," not in text:
            return [bytes([byte]) for byte in text]
        return comma_parts_of(text)

    def _entry_of(self, number: int, word: bytes) -> Entry:
        state = number_of(word)
        if state is not None:
            if state >= self.states:
                raise Refused(Fault.StateTooHigh, number)
            return state
        if word not in self.variables:
            raise Refused(Fault.BadTransition, number)
        return self.variables[word]


def _definition_in(line: NumberedLine) -> Tuple[bytes, List[bytes]]:
    """The name that a `var` line defines, and the members of its set."""
    name, sign, value = line.text[len(b"var") :].partition(b"=")
    name, value = name.strip(BLANKS), value.strip(BLANKS)
    is_open, is_closed = value.startswith(b"{"), value.endswith(b"}")
    if not sign or not _is_variable_name(name) or is_open != is_closed:
        raise Refused(Fault.BadVariable, line.number)
    return name, comma_parts_of(value[1:-1] if is_open else value)


def _is_variable_name(name: bytes) -> bool:
    """Visible characters but for some signs, not all of them digits."""
    return name != b"" and not name.isdigit() and all(33 <= byte <= 126 and byte not in b",{}=#:" for byte in name)
