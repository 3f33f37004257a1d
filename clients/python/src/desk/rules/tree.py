"""The text of a .rule file with a @TREE, made from a function that says the next state of a cell.

A tree asks for the states of the neighbours one after the other and at last for the cell's own; equal nodes are
written once. It is made in two steps. First each state of the cell gets a tree of its own, which tells apart only what
a cell in this state wants to know of its neighbours. Then these trees are gone through side by side, and each set of
their nodes that is met is a node of the whole.
"""
from __future__ import annotations

from typing import Any, Callable, Dict, Hashable, List, Sequence, Tuple

# The neighbours in the order in which a tree asks for them.
MOORE = ("NW", "NE", "SW", "SE", "N", "W", "E", "S")
VON_NEUMANN = ("N", "W", "E", "S")

Told = Callable[[int, str, int], Hashable]  # what a cell in this state wants to know of a neighbour here, in that state
Next = Callable[[int, Tuple[Any, ...]], int]  # the next state of a cell, by its own and by what it is told


def tree_text(name: str, states: int, neighbours: Sequence[str], told: Told, following: Next) -> str:
    """The text of the rule's file.

    neighbours: MOORE or VON_NEUMANN
    told: the fewer values it has for a state, the sooner the text is made
    following: it gets what is told of the neighbours in the order of `neighbours`
    """
    every = range(states)
    # What a neighbour's states tell the cell's states; those of a neighbour that tell the same are one kind.
    tells = [[tuple(told(own, place, state) for own in every) for state in every] for place in neighbours]
    kinds = [list(dict.fromkeys(here)) for here in tells]
    kind_of = [[here.index(it) for it in tell] for here, tell in zip(kinds, tells)]
    shared: Dict[Tuple[int, ...], int] = {}  # the numbers of the nodes of the trees of single states

    def of_one(own: int, known: Tuple[Hashable, ...]) -> int:
        """What a cell in this state becomes, or the number of a node with a branch for each kind of neighbour."""
        if len(known) == len(neighbours):
            return following(own, known)
        told_here = [kind[own] for kind in kinds[len(known)]]
        branches = {it: of_one(own, (*known, it)) for it in dict.fromkeys(told_here)}
        return shared.setdefault(tuple(branches[it] for it in told_here), len(shared))

    roots = tuple(of_one(own, ()) for own in every)
    nodes = list(shared)
    numbers: Dict[Tuple[int, ...], int] = {}  # of the lines, by the depth and the nodes that stand side by side
    lines: List[str] = []

    def of_all(depth: int, these: Tuple[int, ...]) -> int:
        """The number of the line that stands for these nodes, one of each state's tree; at depth 1 they are states."""
        found = numbers.get((depth, *these))
        if found is not None:
            return found
        line = these
        if depth > 1:
            below = [of_all(depth - 1, branch) for branch in zip(*(nodes[it] for it in these))]
            line = tuple(below[kind] for kind in kind_of[len(neighbours) + 1 - depth])
        lines.append(" ".join(map(str, (depth, *line))))
        return numbers.setdefault((depth, *these), len(lines) - 1)

    of_all(len(neighbours) + 1, roots)
    head = [f"@RULE {name}", "@TREE", f"num_states={states}", f"num_neighbors={len(neighbours)}"]
    return "\n".join([*head, f"num_nodes={len(lines)}", *lines]) + "\n"
