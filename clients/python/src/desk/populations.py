"""How many cells each state has at some generations, as rows of a table."""
from __future__ import annotations

from typing import Dict, List, Sequence, Tuple

# A generation, and how many cells each state has that is there.
Row = Tuple[int, Dict[int, int]]


def generations(to: int, points: int, first: int = 0) -> List[int]:
    """So many generations from the first up to the last, as evenly as whole numbers allow, each once."""
    return sorted({first + (to - first) * it // (points - 1) for it in range(points)})


def states_of(rows: Sequence[Row]) -> List[int]:
    """The states that are ever there."""
    return sorted({state for _, counts in rows for state in counts})


def table(rows: Sequence[Row]) -> List[List[str]]:
    """A line of names and a line for each row; there is a column for each state that is ever there."""
    states = states_of(rows)
    head = ["generation", *(f"state {it}" for it in states)]
    return [head, *([str(at), *(str(counts.get(it, 0)) for it in states)] for at, counts in rows)]


def aligned(lines: Sequence[Sequence[str]]) -> str:
    """The lines as columns, each to the right."""
    widths = [max(map(len, column)) for column in zip(*lines)]
    return "\n".join("  ".join(word.rjust(width) for word, width in zip(line, widths)) for line in lines)
