"""What became of a pattern, from the texts of bookmarks alone.

A pattern that is the same at two generations goes on in the same way from both, so that the distance is a multiple of
its period. The macrocell text says the pattern and where it lies; its line of the generation isn't looked at.

For periods up to 121, 22 generations are looked at: the last eleven, and those that are 11, 22 and so on up to 121
before the last. Each distance from 1 to 121 lies between one of the former and one of the latter, as baby and giant
steps do. So the least distance of two equal texts is the period, exactly.
"""
from __future__ import annotations

import re
from typing import Dict, List, NamedTuple, Optional, Tuple

from ..client import Desk
from ..words import Window

STRIDE = 11
MOST_PERIOD = STRIDE * STRIDE


class Fate(NamedTuple):
    """What became of a pattern.

    kind: "died" where no cell is live, "still" where nothing changes, "periodic" where the pattern comes again,
        "moving" where the numbers of cells come again at all generations that are looked at and the pattern doesn't,
        as where ships fly away, and "open" otherwise
    period: 1 for "still", the pattern's for "periodic", that of the numbers of cells for "moving", else 0
    """

    kind: str
    period: int = 0


def fate(desk: Desk, to: int) -> Fate:
    """What became of the document's pattern by a generation. No later one is looked at.

    Before generation 121 only the periods are found that are short enough, and nothing is called moving.
    """
    last = desk.show(desk.mark(to, "counts"))
    if not last:
        return Fate("died")
    at = sorted({to - it for it in (*range(STRIDE), *range(STRIDE, MOST_PERIOD + 1, STRIDE)) if it <= to})
    marks = {it: desk.mark(it, "counts") for it in at}
    counts = {it: desk.show(mark) for it, mark in marks.items()}
    texts: Dict[int, str] = {}

    def is_same(one: int, other: int) -> bool:
        for it in (one, other):
            if it not in texts:
                texts[it] = placed(desk.show(desk.mark(it, "mc")))
        return texts[one] == texts[other]

    likely = repeated(counts) if to >= MOST_PERIOD else 0
    for distance in range(1, MOST_PERIOD + 1):
        late, early = pair(to, distance)
        if early >= 0 and counts[late] == counts[early] and is_same(late, early):
            return Fate("still" if distance == 1 else "periodic", distance)
    return Fate("moving", likely) if likely else Fate("open")


def pair(to: int, distance: int) -> Tuple[int, int]:
    """The two generations that are looked at, with this distance between them."""
    early = -(-distance // STRIDE) * STRIDE
    return to - early + distance, to - early


def repeated(counts: Dict[int, Dict[int, int]]) -> int:
    """The least distance at which numbers of cells come again wherever they are known, five times or more, else 0."""
    at = sorted(counts)
    for distance in range(1, MOST_PERIOD + 1):
        pairs = [(one, other) for one in at for other in at if one < other and (other - one) % distance == 0]
        if len(pairs) >= 5 and all(counts[one] == counts[other] for one, other in pairs):
            return distance
    return 0


def placed(text: str) -> str:
    """A macrocell text without the line of its generation: the pattern and its place."""
    return re.sub(r"(?m)^#G .*\n", "", text)


def growth(early: Optional[Window], late: Optional[Window], generations: int) -> float:
    """By how many cells a generation the longer side of the box grew; below 0 where it shrank."""
    sides = [max(it.w, it.h) if it else 0 for it in (early, late)]
    return (sides[1] - sides[0]) / generations if generations else 0.0


def populations(desk: Desk, generations: List[int]) -> List[Tuple[int, int]]:
    """How many live cells there are at some generations, which rise."""
    marks = [(it, desk.mark(it, "counts")) for it in generations]
    return [(it, sum(desk.show(mark).values())) for it, mark in marks]
