"""Decision trees: how the lines of `@TREE` are read, and the way through the nodes to the next state."""
from __future__ import annotations

from typing import Dict, List, NamedTuple, Optional, Sequence, Tuple

from .neighborhoods import PLACES
from .reasons import ByTree, Node
from .source import SourceLine, Unreadable, named_value, number_of, words_of

BAD_TREE = 12
MOST_NODES = 4194304
# What the nodes ask for, from the root down, by the number of neighbours.
ASKED = {4: ("n", "w", "e", "s", "c"), 8: ("nw", "ne", "sw", "se", "n", "w", "e", "s", "c")}
STATES, NEIGHBOURS, NODES = b"num_states", b"num_neighbors", b"num_nodes"
ALLOWED: Dict[bytes, Sequence[int]] = {
    STATES: range(2, 257), NEIGHBOURS: tuple(ASKED), NODES: range(1, MOST_NODES + 1)}


class TreeNode(NamedTuple):
    """A node: its line, its depth, and for each state what it leads to: a node's number, or at depth 1 a state."""

    line: SourceLine
    depth: int
    leads_to: Tuple[int, ...]


class Tree:
    """A tree that was read. Its last node is the root."""

    def __init__(self, states: int, neighbours: int, nodes: Sequence[TreeNode]) -> None:
        self.states = states
        self.nodes = tuple(nodes)
        self.asked = ASKED[neighbours]
        self.places = tuple(map(PLACES.index, self.asked))

    @property
    def lines(self) -> Tuple[SourceLine, ...]:
        """The lines of the nodes."""
        return tuple(it.line for it in self.nodes)

    def decision(self, around: bytes) -> Tuple[int, Tuple[int, ...]]:
        """The next state of a cell by the nine states at and around it, and the numbers of the lines of the nodes from
        the root to the one that says it."""
        number, way = len(self.nodes) - 1, []
        for place in self.places:
            node = self.nodes[number]
            way.append(node.line.number)
            number = node.leads_to[around[place]]
        return number, tuple(way)

    def why(self, around: bytes) -> ByTree:
        """The next state of a cell by the nine states at and around it, and the way to it."""
        number, way = len(self.nodes) - 1, []
        for place, asks in zip(self.places, self.asked):
            node = self.nodes[number]
            number = node.leads_to[around[place]]
            way.append(Node(node.line, asks, around[place], number))
        return ByTree(number, tuple(way))


def tree_of(opened: int, lines: Sequence[SourceLine]) -> Tree:
    """The tree that the lines of a section say, which the line of the number `opened` opens.

    Unreadable: a line isn't what has to stand there, or lines are missing.
    """
    last = lines[-1].number if lines else opened
    head = _head_of(last, lines)
    states, neighbours, count = (head[name] for name in (STATES, NEIGHBOURS, NODES))
    nodes: List[TreeNode] = []
    for line in lines[len(ALLOWED):]:
        node = _node_of(line, states)
        is_last = len(nodes) + 1 == count
        if len(nodes) == count or not _fits(node, nodes, states) or is_last and node.depth != len(ASKED[neighbours]):
            raise Unreadable(BAD_TREE, line.number)
        nodes.append(node)
    if len(nodes) < count:
        raise Unreadable(BAD_TREE, last)
    return Tree(states, neighbours, nodes)


def _head_of(last: int, lines: Sequence[SourceLine]) -> Dict[bytes, int]:
    """What the three descriptors say, which are the first lines. Behind them stands a node."""
    head: Dict[bytes, int] = {}
    for line in lines[:len(ALLOWED)]:
        name, value = named_value(line.says, b"=")
        number = number_of(value)
        if name not in ALLOWED or name in head or number is None or number not in ALLOWED[name]:
            raise Unreadable(BAD_TREE, line.number)
        head[name] = number
    if len(lines) <= len(ALLOWED):
        raise Unreadable(BAD_TREE, last)
    return head


def _node_of(line: SourceLine, states: int) -> TreeNode:
    numbers: List[Optional[int]] = [number_of(word) for word in words_of(line.says)]
    found = [it for it in numbers if it is not None]
    if len(numbers) != states + 1 or len(found) != len(numbers):
        raise Unreadable(BAD_TREE, line.number)
    return TreeNode(line, found[0], tuple(found[1:]))


def _fits(node: TreeNode, nodes: Sequence[TreeNode], states: int) -> bool:
    """Whether a node leads to states, or to earlier nodes of one depth less."""
    if node.depth == 1:
        return all(state < states for state in node.leads_to)
    return all(it < len(nodes) and nodes[it].depth + 1 == node.depth for it in node.leads_to)
