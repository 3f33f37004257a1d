"""How the lines of `@TABLE` are read: descriptors, variables as each line finds them, and transitions.

The lines are read in order, and the first that can't be read is told.
"""
from __future__ import annotations

import itertools
import math
from collections import Counter
from typing import Dict, FrozenSet, List, Optional, Sequence, Tuple

from .matching import Entry, Sets, Transition, Variable, admitted
from .neighborhoods import NEIGHBORHOODS, PERMUTE, Neighborhood, orders
from .source import BLANKS, SourceLine, Unreadable, named_value, number_of, parts_of
from .tables import Table

MISSING_DESCRIPTOR, BAD_STATES, BAD_NEIGHBORHOOD, BAD_SYMMETRY, BAD_VARIABLE = 3, 4, 5, 6, 7
BAD_TRANSITION, STATE_TOO_HIGH, FREE_RESULT, TOO_MANY_TRANSITIONS = 8, 9, 10, 11
MOST_EXPANDED = 1000000
MOST_SHORT_STATES = 10  # with more states no line is read without commas
STATES, NEIGHBORHOOD, SYMMETRIES = b"n_states", b"neighborhood", b"symmetries"
DESCRIPTORS = STATES, NEIGHBORHOOD, SYMMETRIES


def table_of(lines: Sequence[SourceLine]) -> Table:
    """The table that the lines of a section say.

    Unreadable: the refusal of the program, with the line in which it shows; none where lines are missing.
    """
    head = _Head()
    body: Optional[_Body] = None
    for line in lines:
        name, value = named_value(line.says, b":")
        if name in DESCRIPTORS:
            if name in head.said:  # as all are behind the first line of another sort
                raise Unreadable(BAD_TRANSITION, line.number)
            head.take(name, value, line.number)
        else:
            body = body or head.body(line.number)
            body.take(line)
    body = body or head.body(None)
    symmetry = head.symmetry
    _check_size(body, symmetry)
    return Table(body.states, body.neighborhood, symmetry, body.transitions)


class _Head:
    """What the descriptors said so far. A symmetry is a mere name until the neighbourhood is known."""

    def __init__(self) -> None:
        self.said: Dict[bytes, str] = {}

    @property
    def symmetry(self) -> str:
        """The name of the symmetry."""
        return self.said[SYMMETRIES]

    def take(self, name: bytes, value: bytes, line: int) -> None:
        """Takes one more descriptor."""
        number = number_of(value)
        self.said[name] = str(number) if name == STATES else value.decode("latin-1")
        if name == STATES and (number is None or not 2 <= number <= 256):
            raise Unreadable(BAD_STATES, line)
        if name == NEIGHBORHOOD and self.said[name] not in NEIGHBORHOODS:
            raise Unreadable(BAD_NEIGHBORHOOD, line)
        if NEIGHBORHOOD in self.said and SYMMETRIES in self.said:
            if self.symmetry not in NEIGHBORHOODS[self.said[NEIGHBORHOOD]].symmetries:
                raise Unreadable(BAD_SYMMETRY, line)

    def body(self, line: Optional[int]) -> _Body:
        """The reader of what follows, from this line on. All descriptors have to be there by then."""
        if len(self.said) < len(DESCRIPTORS):
            raise Unreadable(MISSING_DESCRIPTOR, line)
        return _Body(int(self.said[STATES]), NEIGHBORHOODS[self.said[NEIGHBORHOOD]])


class _Body:
    """What the lines behind the descriptors said so far."""

    def __init__(self, states: int, neighborhood: Neighborhood) -> None:
        self.states, self.neighborhood = states, neighborhood
        self.transitions: List[Transition] = []
        self._variables: Dict[bytes, Variable] = {}

    def take(self, line: SourceLine) -> None:
        """Takes one more line, which defines a variable or says a transition."""
        if line.says.startswith((b"var ", b"var\t")):
            name, members = _definition_in(line)
            self._variables[name] = Variable(name.decode(), self._set_of(members, line.number))
        else:
            self.transitions.append(self._transition_of(line))

    def _set_of(self, members: Sequence[bytes], line: int) -> FrozenSet[int]:
        """The set of these states and earlier variables. Unknown names come before states that are too high."""
        found = [self._states_of(it, line) for it in members]
        if any(state >= self.states for states in found for state in states):
            raise Unreadable(STATE_TOO_HIGH, line)
        return frozenset().union(*found)

    def _states_of(self, member: bytes, line: int) -> FrozenSet[int]:
        state = number_of(member)
        if state is not None:
            return frozenset((state,))
        if member not in self._variables:
            raise Unreadable(BAD_VARIABLE, line)
        return self._variables[member].states

    def _transition_of(self, line: SourceLine) -> Transition:
        words = self._words_of(line.says)
        if len(words) != len(self.neighborhood.places) + 1:
            raise Unreadable(BAD_TRANSITION, line.number)
        *inputs, result = [self._entry_of(word, line.number) for word in words]
        if isinstance(result, Variable) and result not in inputs:
            raise Unreadable(FREE_RESULT, line.number)
        return Transition(line, tuple(inputs), result)

    def _words_of(self, text: bytes) -> List[bytes]:
        """The words of a transition: in the short form, which has no commas, each is one character."""
        if self.states <= MOST_SHORT_STATES and b"," not in text:
            return [text[at:at + 1] for at in range(len(text))]
        return parts_of(text)

    def _entry_of(self, word: bytes, line: int) -> Entry:
        state = number_of(word)
        if state is None:
            if word not in self._variables:
                raise Unreadable(BAD_TRANSITION, line)
            return self._variables[word]
        if state >= self.states:
            raise Unreadable(STATE_TOO_HIGH, line)
        return state


def _definition_in(line: SourceLine) -> Tuple[bytes, List[bytes]]:
    """The name that a `var` line defines, and the members of its set."""
    name, value = named_value(line.says[len(b"var"):], b"=")
    is_open, is_closed = value.startswith(b"{"), value.endswith(b"}")
    if not _is_name(name) or is_open != is_closed:
        raise Unreadable(BAD_VARIABLE, line.number)
    inner = value[1:-1] if is_open else value
    return name, parts_of(inner.strip(BLANKS))


def _is_name(name: bytes) -> bool:
    """Visible characters of ASCII but for some signs, not all of them digits."""
    return name != b"" and not name.isdigit() and all(33 <= byte <= 126 and byte not in b",{}=#:" for byte in name)


def _check_size(body: _Body, symmetry: str) -> None:
    """Checks that the table has no more than a million transitions once it is expanded: under each assignment of the
    bound variables one for each list of sets that the symmetry makes of the entries."""
    total = 0
    for transition in body.transitions:
        bound = transition.bound()
        assignments = math.prod(len(it.states) for it in bound)
        if total + assignments > MOST_EXPANDED:
            raise Unreadable(TOO_MANY_TRANSITIONS, transition.line.number)
        if symmetry == "none":
            total += assignments
            continue
        for values in itertools.product(*(sorted(it.states) for it in bound)):
            total += _arrangements(neighbour_sets(transition, dict(zip(bound, values))), body.neighborhood, symmetry)
            if total > MOST_EXPANDED:
                raise Unreadable(TOO_MANY_TRANSITIONS, transition.line.number)


def neighbour_sets(transition: Transition, assigned: Dict[Variable, int]) -> Sets:
    """The states that the entries for the neighbours admit, where some variables have values."""
    entries = transition.inputs[1:]
    return tuple([frozenset((assigned[it],)) if isinstance(it, Variable) and it in assigned else admitted(it)
                  for it in entries])


def _arrangements(sets: Sets, neighborhood: Neighborhood, symmetry: str) -> int:
    """How many lists of sets a symmetry makes of one."""
    if symmetry == PERMUTE:
        return math.factorial(len(sets)) // math.prod(math.factorial(it) for it in Counter(sets).values())
    return len({tuple([sets[it] for it in order]) for order in orders(neighborhood, symmetry)})
