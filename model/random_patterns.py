"""Random pattern files, in run-length encoding and as macrocells."""
from __future__ import annotations

import random
from typing import List

from edits import FARTHEST
from rle import LETTERS

# Where the left and the top of patterns lie that lie far out.
EDGES = (-FARTHEST, FARTHEST - 1, FARTHEST, -FARTHEST - 1, 2 * FARTHEST - 1, -2 * FARTHEST, 2**63 - 1, -(2**63), 2**63)


def random_rle(chance: random.Random, states: int) -> bytes:
    """Some rows of runs behind a header, mostly of states that the rule has."""
    head = [_rle_comment(chance) for _ in range(chance.choice((0, 0, 1, 1, 2)))]
    rule = chance.choice(("", "", ", rule = x y,z=1", ", rule =", ",rule=T:T3,2" if chance.random() < 0.1 else ""))
    head.append(f"x = {chance.randint(0, 9)}, y={chance.randint(0, 9)}{rule}")
    tokens: List[str] = []
    for _ in range(chance.randint(0, 25)):
        count = chance.choice(("", "", "", "2", "3", "03", "0", "7"))
        tokens.append(count + chance.choice(("$", "b", ".", *[_sign(chance, states)] * 3)))
        if chance.random() < 0.05:
            tokens.append(chance.choice(("\n", " ", "\t", "\r\n")))
    end = chance.choice(("!", "!", "!", "", "!ignored", "5!"))
    line_end = "\r\n" if chance.random() < 0.1 else "\n"
    return (line_end.join(head) + line_end + "".join(tokens) + end + line_end).encode()


def _sign(chance: random.Random, states: int) -> str:
    """A live state, now and then one that the rule doesn't have."""
    most = min(states, 255) if chance.random() < 0.02 else states - 1
    state = chance.randint(1, most)
    if state == 1 and chance.random() < 0.5:
        return "o"
    times, letter = divmod(state - 1, LETTERS)
    return (chr(ord("p") + times - 1) if times else "") + chr(ord("A") + letter)


def _rle_comment(chance: random.Random) -> str:
    x, y = [chance.choice(EDGES) if chance.random() < 0.05 else chance.randint(-5, 5) for _ in range(2)]
    return chance.choice((
        "#C a comment",
        f"#CXRLE Pos={x},{y}",
        f"#CXRLE Pos = {x} , {y} Gen={chance.randint(0, 99)}",
        f"#CXRLE Gen=7 Pos={x},{y}",
        "#CXRLE Gen=99999999999999999999",
        f"#CXRLE Pos={x}",
        f"#CXRLE Pos={x},{y},1 Gen=+3",
        f"#CXRLEPos={x},{y}",
    ))


def random_macrocell(chance: random.Random, states: int) -> bytes:
    """Some nodes, each of quadrants that are there, mostly."""
    lines = [chance.choice(("[M2]", "[M2] (golly 3.3)", " [M2]x"))]
    lines += chance.sample(("#R some rule", "#G 12", "#G x", "#R", "# said", "", "#C", "#Rx"), chance.randint(0, 4))
    levels: List[int] = []
    for _ in range(chance.choice((0, 1, 2, 4, 6, 9))):
        level = chance.choice((1, 1, 2, 2, 3, 4, 5))
        if states == 2 and chance.random() < 0.2:
            rows = ["".join(chance.choices(".*", k=chance.randint(0, 8))) for _ in range(chance.randint(1, 8))]
            lines.append("$".join(rows) or "$")
            levels.append(3)
            continue
        among = [0, *(at for at, it in enumerate(levels, 1) if it == level - 1)]
        if level == 1:
            among = [0, *range(1, states)]
        if len(among) == 1 and chance.random() < 0.95:
            continue
        lines.append(f"{level} " + " ".join(str(chance.choice(among)) for _ in range(4)))
        levels.append(level)
    return ("\n".join(lines) + "\n").encode()
