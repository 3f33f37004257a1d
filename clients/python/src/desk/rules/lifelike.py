"""Life-like rules by their names: what a name means, and the text of a .rule file that says the same.

A cell has eight neighbours, and the number of those in state 1 decides. With it in B an empty cell is born as state 1,
with it in S a cell of state 1 stays. All else grows old: state 1 becomes 2, and so on up to the last state and to 0.
With two states it becomes 0 at once, as in Life.
"""
from __future__ import annotations

import re
from typing import FrozenSet, List, NamedTuple, Optional

from ..errors import Malformed

NEIGHBOURS = 8
# The spellings and the names are those of Golly's help, on QuickLife and on Generations.
STATES = r"(?:/?[CG](?P<c>[0-9]{1,9})|/(?P<c_>[0-9]{1,9}))?"
B_FIRST = re.compile(rf"B(?P<b>[0-8]*)/?S(?P<s>[0-8]*){STATES}")
S_FIRST = re.compile(rf"S(?P<s>[0-8]*)/?B(?P<b>[0-8]*){STATES}")
DIGITS = re.compile(r"(?P<s>[0-8]*)/(?P<b>[0-8]*)(?:/(?P<c>[0-9]{1,9}))?")
LETTER = re.compile("[0-8]c")  # says how neighbours lie, as in the isotropic rule B2/S3c4
NAMED = {"life": "B3/S23", "conway's life": "B3/S23", "brian's brain": "/2/3", "star wars": "345/2/4"}


class LifeLike(NamedTuple):
    """For which numbers of neighbours cells are born and stay, and how many states there are."""

    born: FrozenSet[int]
    stays: FrozenSet[int]
    states: int

    def name(self) -> str:
        """The name as B3/S23, with the number of states where it isn't 2, as B2/S/C3."""
        born, stays = ("".join(map(str, sorted(it))) for it in (self.born, self.stays))
        return f"B{born}/S{stays}" + (f"/C{self.states}" if self.states > 2 else "")

    def next(self, state: int, live: int) -> int:
        """The next state of a cell that has so many neighbours in state 1."""
        if state == 0:
            return int(live in self.born)
        if state == 1 and live in self.stays:
            return 1
        return (state + 1) % self.states


def meaning(name: str) -> Optional[LifeLike]:
    """What a name says, as B3/S23, b3s23, S23/B3, 23/3, B2/S/C3 or /2/3; None where it is no such name."""
    found = next(filter(None, (it.fullmatch(name.strip().upper()) for it in (B_FIRST, S_FIRST, DIGITS))), None)
    if not found or LETTER.search(name):
        return None
    parts = found.groupdict()
    born, stays = (frozenset(map(int, parts[it])) for it in "bs")
    return LifeLike(born, stays, int(parts["c"] or parts.get("c_") or 2))


def is_same_rule(one: str, other: str) -> bool:
    """Whether two names of rules are spellings of one, as far as is known; capitals don't count."""
    one, other = (NAMED.get(it.strip().lower(), it.strip()) for it in (one, other))
    said = meaning(one)
    return one.lower() == other.lower() or said is not None and said == meaning(other)


def rule_text(name: str) -> str:
    """The text of a .rule file for a Life-like rule, with a tree that counts the neighbours in state 1."""
    rule = meaning(name)
    if rule is None:
        raise Malformed(f"{name!r} names no Life-like rule; such names are B3/S23, 23/3, B2/S345/C4 and 345/2/4")
    if not 2 <= rule.states <= 256:
        raise Malformed(f"{name!r} has {rule.states} states, and a rule has 2 to 256")
    if 0 in rule.born:
        raise Malformed(f"{name!r} has B0, by which the whole empty plane would become live; it has to stay empty")
    nodes = _nodes(rule)
    head = [f"@RULE {rule.name()}", "@TREE", f"num_states={rule.states}", f"num_neighbors={NEIGHBOURS}"]
    return "\n".join([*head, f"num_nodes={len(nodes)}", *nodes]) + "\n"


def _nodes(rule: LifeLike) -> List[str]:
    """The lines of the tree, one for each number of neighbours seen and of those in state 1.

    The last that a tree asks for is the cell itself, so those lines come first: they have the next states.
    """
    every = range(rule.states)
    nodes = [[1, *(rule.next(state, live) for state in every)] for live in range(NEIGHBOURS + 1)]
    below = 0  # the line of the depth below in which no neighbour was in state 1
    for depth in range(2, NEIGHBOURS + 2):
        first = len(nodes)
        for live in range(NEIGHBOURS + 2 - depth):
            nodes.append([depth, *(below + live + (state == 1) for state in every)])
        below = first
    return [" ".join(map(str, it)) for it in nodes]
