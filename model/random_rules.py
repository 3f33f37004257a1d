"""Random rule files: tables and trees, tame ones and wild ones, written in the ways that the format allows."""
from __future__ import annotations

import random
from typing import Dict, List, Sequence

from symmetries import Neighborhood
from trees import PLACES

RULE_X = """@RULE X
@TABLE
n_states:2
neighborhood:oneDimensional
symmetries:none
0,1,0,1
0,0,1,1
1,0,0,0
1,1,1,0
"""

LIFE = """@RULE Life
@TABLE
n_states:2
neighborhood:Moore
symmetries:permute
var a={0,1}
var b={0,1}
var c={0,1}
var d={0,1}
var e={0,1}
var f={0,1}
var g={0,1}
var h={0,1}
0,1,1,1,0,0,0,0,0,1
1,1,1,0,0,0,0,0,0,1
1,1,1,1,0,0,0,0,0,1
1,a,b,c,d,e,f,g,h,0
"""

WIRE = """@RULE Wire
@TABLE
n_states:4
neighborhood:Moore
symmetries:permute
var a={0,1,2,3}
var b=a
var c=a
var d=a
var e=a
var f=a
var g=a
var h=a
var i={0,2,3}
var j=i
var k=i
var l=i
var m=i
var n=i
var o=i
1,a,b,c,d,e,f,g,h,2
2,a,b,c,d,e,f,g,h,3
3,1,i,j,k,l,m,n,o,1
3,1,1,i,j,k,l,m,n,1
"""

KNOWN = (RULE_X, LIFE, WIRE)

NAMES = "abcdefgxyz"


def tame_rule(chance: random.Random) -> bytes:
    """A table under which a pattern dies, stays or comes back soon, however far it is followed."""
    neighborhood = chance.choice(list(Neighborhood))
    states = chance.randint(2, 5)
    count = len(neighborhood.places)
    lines = ["var a={%s}" % ",".join(map(str, range(states)))]
    # Each neighbour may have any state, so that a cell's next state is a function of its own.
    others = [f"v{at}" for at in range(count)]
    lines += [f"var {name}=a" for name in others]
    target = {state: chance.randrange(states) for state in range(1, states) if chance.random() < 0.6}
    if chance.random() < 0.5:
        target = {state: state - 1 for state in range(1, states)}
    lines += [",".join([str(state), *others, str(result)]) for state, result in target.items()]
    return _table_text(chance, neighborhood, "none", states, lines)


def wild_rule(chance: random.Random) -> bytes:
    """Any rule: a known one, a random table or a random tree."""
    way = chance.random()
    if way < 0.2:
        return _written(chance, chance.choice(KNOWN).splitlines())
    return random_tree(chance) if way < 0.35 else random_table(chance)


def random_table(chance: random.Random) -> bytes:
    neighborhood = chance.choice(list(Neighborhood))
    symmetry = chance.choice(neighborhood.symmetries).value.decode()
    states = chance.choice((2, 2, 2, 2, 3, 3, 3, 4, 5, 9, 10, 11, 12, 256))
    sets = _variables(chance, states)
    lines = _variable_lines(chance, sets)
    for _ in range(chance.randint(1, 8)):
        entries = _entries(chance, len(neighborhood.places), states, sets)
        is_compact = states <= 10 and all(len(it) == 1 for it in entries) and chance.random() < 0.3
        lines.append(("" if is_compact else ",").join(entries))
        if chance.random() < 0.05:
            lines += _variable_lines(chance, _variables(chance, states))
    return _table_text(chance, neighborhood, symmetry, states, lines)


def _variables(chance: random.Random, states: int) -> Dict[str, List[int]]:
    names = chance.sample(NAMES, chance.randint(0, 4))
    return {name: chance.choices(range(states), k=chance.randint(1, 3)) for name in names}


def _variable_lines(chance: random.Random, sets: Dict[str, List[int]]) -> List[str]:
    lines = []
    for at, (name, states) in enumerate(sets.items()):
        earlier = list(sets)[:at]
        members = [str(it) for it in states] + ([chance.choice(earlier)] if earlier and chance.random() < 0.2 else [])
        inner = ",".join(members)
        lines.append(f"var {name}={inner}" if chance.random() < 0.2 else f"var {name}={{{inner}}}")
    return lines


def _entries(chance: random.Random, neighbors: int, states: int, sets: Dict[str, List[int]]) -> List[str]:
    """The entries of a line, which mostly leaves an empty plane empty."""
    live = chance.choice((0.2, 0.4, 0.7))

    def entry() -> str:
        if sets and chance.random() < 0.4:
            return chance.choice(list(sets))
        return str(chance.randrange(1, states) if chance.random() < live else 0)

    inputs = [entry() for _ in range(neighbors + 1)]
    if chance.random() < 0.97 and all(it == "0" or 0 in sets.get(it, ()) for it in inputs):
        inputs[chance.randrange(len(inputs))] = str(chance.randrange(1, states))
    variables = [it for it in inputs if it in sets]
    is_copied = variables and chance.random() < 0.5
    return [*inputs, chance.choice(variables) if is_copied else str(chance.randrange(states))]


def _table_text(
    chance: random.Random, neighborhood: Neighborhood, symmetry: str, states: int, lines: Sequence[str]
) -> bytes:
    descriptors = [
        f"n_states:{states}",
        f"neighborhood:{neighborhood.title.decode()}",
        f"symmetries:{symmetry}",
    ]
    chance.shuffle(descriptors)
    return _written(chance, [f"@RULE {_rule_name(chance)}", "@TABLE", *descriptors, *lines])


def random_tree(chance: random.Random) -> bytes:
    """A tree whose inputs of 0 alone lead to 0, which its first node of each depth is for."""
    states, neighbors = chance.randint(2, 4), chance.choice(list(PLACES))
    nodes = [f"1 {' '.join(['0', *_numbers(chance, states - 1, range(states))])}"]
    nodes += [f"1 {' '.join(_numbers(chance, states, range(states)))}" for _ in range(chance.randint(0, 3))]
    below = range(len(nodes))
    for depth in range(2, len(PLACES[neighbors]) + 1):
        count = 1 if depth == len(PLACES[neighbors]) else chance.randint(1, 3)
        zeros = str(below[0])
        first = len(nodes)
        nodes.append(f"{depth} {' '.join([zeros, *_numbers(chance, states - 1, below)])}")
        nodes += [f"{depth} {' '.join(_numbers(chance, states, below))}" for _ in range(count - 1)]
        below = range(first, len(nodes))
    head = [f"num_states={states}", f"num_neighbors={neighbors}", f"num_nodes={len(nodes)}"]
    chance.shuffle(head)
    return _written(chance, [f"@RULE {_rule_name(chance)}", "@TREE", *head, *nodes])


def _numbers(chance: random.Random, count: int, among: Sequence[int]) -> List[str]:
    return [str(chance.choice(among)) for _ in range(count)]


def _rule_name(chance: random.Random) -> str:
    return "".join(chance.choices("abcXYZ-_09!~", k=chance.randint(1, 6)))


def _loose(chance: random.Random, sign: str) -> str:
    """A sign of a line with blanks around it, where they mean nothing."""
    return chance.choice(("", " ")) + sign + chance.choice(("", "\t")) if sign in ",:={}" else sign


def _written(chance: random.Random, lines: Sequence[str]) -> bytes:
    """The lines with what means nothing between them: blanks, comments, other sections, other line ends."""
    found: List[str] = ["", " \t"] if chance.random() < 0.1 else []
    is_loose = chance.random() < 0.2
    for line in lines:
        if is_loose and not line.startswith("@"):
            line = "".join(_loose(chance, sign) for sign in line)
            line = f" {line}{chance.choice(['', '  ', ' # said'])}" if chance.random() < 0.5 else line
        if line in ("@TABLE", "@TREE") and chance.random() < 0.2:
            found += ["passed over", "@NAMES", "0 nothing", "@COLORS"]
        found.append(line)
        if is_loose and chance.random() < 0.1:
            found += ["", "#comment"] if len(found) > 2 else []
    if chance.random() < 0.2:
        found += ["@COLORS", "1 255 0 0", "@TREE"]
    end = "\r\n" if chance.random() < 0.1 else "\n"
    return (end.join(found) + end).encode()
