"""Soups of Conway's Life: the rule as a table, the text of a soup, and what becomes of it, which is worked out here."""
from __future__ import annotations

import random
from typing import List

TABLE = """rule
@RULE Life
@TABLE
n_states:2
neighborhood:Moore
symmetries:permute
var a={0,1}
var b=a
var c=a
var d=a
var e=a
var f=a
var g=a
var h=a
0,1,1,1,0,0,0,0,0,1
1,1,1,0,0,0,0,0,0,1
1,1,1,1,0,0,0,0,0,1
1,a,b,c,d,e,f,g,h,0
end
"""
SIGNS = str.maketrans("01", "bo")


def soup(side: int) -> List[int]:
    """The rows of a soup of so many rows, each as the bits of a number, the leftmost cell highest."""
    cells = random.Random(f"soup {side}")
    return [cells.getrandbits(side) for _ in range(side)]


def start(rows: List[int]) -> str:
    """The rule, and the rows as a start, whose side is their number."""
    side = len(rows)
    text = "$\n".join(format(row, f"0{side}b").translate(SIGNS) for row in rows)
    return f"{TABLE}start rle\nx = {side}, y = {side}\n{text}!\nend\n"


def later(rows: List[int]) -> List[int]:
    """The rows a generation later, with a row more above and below, and a cell more on either side."""
    wide = [0, 0, *(row << 1 for row in rows), 0, 0]
    return [_row(*wide[at:at + 3]) for at in range(len(rows) + 2)]


def _row(above: int, here: int, below: int) -> int:
    """A row a generation later, where all three have room at their ends: the neighbours are added up bit by bit."""
    around = [it for row in (above, below) for it in (row << 1, row, row >> 1)] + [here << 1, here >> 1]
    ones = twos = fours = 0
    for it in around:
        carry = ones & it
        ones ^= it
        fours |= twos & carry
        twos ^= carry
    return twos & ~fours & (ones | here)


def population(rows: List[int]) -> int:
    return sum(bin(row).count("1") for row in rows)
