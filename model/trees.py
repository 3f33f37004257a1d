"""Decision trees: how the lines of `@TREE` are read, and the next state that a tree gives."""
from __future__ import annotations

from dataclasses import dataclass
from typing import Dict, List, Optional, Sequence, Tuple

from refusals import Fault, Refused
from texts import NumberedLine, blank_words_of, named_value, number_of
from worlds import NINE_ZEROS, Around

MOST_NODES = 4194304

# The inputs from the root down, as places among the nine states: nw, ne, sw, se, n, w, e, s and c, or without
# the corners.
PLACES = {4: (1, 7, 3, 5, 0), 8: (8, 2, 6, 4, 1, 7, 3, 5, 0)}

# The values that each descriptor may have.
ALLOWED = {
    b"num_states": range(2, 257),
    b"num_neighbors": tuple(PLACES),
    b"num_nodes": range(1, MOST_NODES + 1),
}


@dataclass(frozen=True)
class Tree:
    """Nodes by their numbers, of which the last is the root. A node has an entry for each state of its input:
    the number of the next node, or the next state where no input is left."""

    states: int
    neighbors: int
    nodes: List[Tuple[int, ...]]

    def next_state(self, around: Around) -> int:
        number = len(self.nodes) - 1
        for place in PLACES[self.neighbors]:
            number = self.nodes[number][around[place]]
        return number


def tree_of(opened: int, lines: Sequence[NumberedLine]) -> Tree:
    """The tree that the lines of a section mean, which the line `opened` opens."""
    last = lines[-1].number if lines else opened
    head, count = _head_in(last, lines)
    states, neighbors, node_count = (head[name] for name in ALLOWED)
    depths: List[int] = []
    nodes: List[Tuple[int, ...]] = []
    for line in lines[count:]:
        numbers = _numbers_in(line.text)
        if not numbers or not _fits(numbers, depths, states, node_count, len(PLACES[neighbors])):
            raise Refused(Fault.BadTree, line.number)
        depths.append(numbers[0])
        nodes.append(tuple(numbers[1:]))
    if len(nodes) < node_count:
        raise Refused(Fault.BadTree, last)
    tree = Tree(states, neighbors, nodes)
    if tree.next_state(NINE_ZEROS) != 0:
        raise Refused(Fault.NotQuiescent)
    return tree


def _head_in(last: int, lines: Sequence[NumberedLine]) -> Tuple[Dict[bytes, int], int]:
    """The values of the descriptors, which are the first lines, and how many lines these are."""
    head: Dict[bytes, int] = {}
    for count, line in enumerate(lines):
        name, value = named_value(line.text, b"=") or (b"", b"")
        if name in ALLOWED:
            number = number_of(value)
            if name in head or number is None or number not in ALLOWED[name]:
                raise Refused(Fault.BadTree, line.number)
            head[name] = number
        elif len(head) == len(ALLOWED):
            return head, count
        else:
            raise Refused(Fault.BadTree, line.number)
    # Where the section ends with its descriptors, nodes are missing, or descriptors too.
    raise Refused(Fault.BadTree, last)


def _numbers_in(line: bytes) -> Optional[List[int]]:
    """The numbers of a line that has nothing else."""
    numbers = [number_of(word) for word in blank_words_of(line)]
    return None if None in numbers else numbers


def _fits(numbers: List[int], depths: List[int], states: int, node_count: int, root_depth: int) -> bool:
    """Whether a node may stand behind nodes of these depths."""
    depth, *entries = numbers
    if len(depths) >= node_count or len(entries) != states:
        return False
    if len(depths) + 1 == node_count and depth != root_depth:
        return False
    if depth == 1:
        return all(entry < states for entry in entries)
    return all(entry < len(depths) and depths[entry] + 1 == depth for entry in entries)
