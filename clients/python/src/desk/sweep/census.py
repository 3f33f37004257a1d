"""A sweep of soups under rules: what a case is, what a row shows of it, and what came out of all of them.

A row says its case in the first columns, so that it can be made again, and why it failed in the last two.
"""
from __future__ import annotations

from collections import Counter
from typing import Dict, List, NamedTuple, Sequence, Tuple

from ..bounding_box import bounding_box
from ..client import Desk
from .fates import fate, growth, populations
from .soups import Soup, rle, states_of
from .outcome import Show

Rows = Dict[Tuple[str, ...], List[str]]  # by the columns that say the case
CASE = ["rule", "seed", "width", "height", "density", "states", "to"]
COLUMNS = {
    "counts": ["population", "counts"],
    "period": ["fate", "period"],
    "box": ["box width", "box height", "growth"],
    "curve": ["curve"],
}
FAILED = ["cause", "why"]
POINTS = 33


class Rule(NamedTuple):
    """A rule as the file of results calls it, and its text."""

    name: str
    text: bytes


class Case(NamedTuple):
    """A soup under a rule, and what is to be shown of it."""

    rule: Rule
    soup: Soup
    states: str  # "all", or their numbers with commas
    to: int
    shown: Tuple[str, ...]

    def key(self) -> Tuple[str, ...]:
        """The columns that say the case."""
        soup = self.soup
        sizes = str(soup.seed), str(soup.width), str(soup.height)
        return (" ".join(self.rule.name.split()), *sizes, f"{soup.density:g}", self.states, str(self.to))

    def pattern(self) -> str:
        """The soup as RLE text."""
        live = range(1, states_of(self.rule.text)) if self.states == "all" else map(int, self.states.split(","))
        return rle(self.soup, tuple(live))


def told(desk: Desk, case: Case) -> None:
    """Makes the document of a case."""
    desk.rule_text(case.rule.text, case.rule.name)
    desk.start_text(case.pattern(), f"the soup {case.soup.seed}")


def words_of(desk: Desk, case: Case) -> List[str]:
    """The columns that a case shows. This is what a task of the sweep does."""
    told(desk, case)
    found: List[str] = []
    for word in case.shown:
        if word == "counts":
            counts = desk.show(desk.mark(case.to, "counts"))
            found += [str(sum(counts.values())), " ".join(f"{it}:{counts[it]}" for it in sorted(counts))]
        elif word == "period":
            became = fate(desk, case.to)
            found += [became.kind, str(became.period or "")]
        elif word == "box":
            middle = case.to // 2
            early, late = bounding_box(desk, middle), bounding_box(desk, case.to)
            size = (late.w, late.h) if late else (0, 0)
            found += [*map(str, size), f"{growth(early, late, case.to - middle):.3f}"]
        else:
            at = sorted({case.to * it // (POINTS - 1) for it in range(POINTS)})
            found.append(" ".join(f"{it}:{cells}" for it, cells in populations(desk, at)))
    return found


def last_pattern(desk: Desk, case: Case) -> Show:
    """What a case is kept as: the pattern that it ends with."""
    told(desk, case)
    return Show(case.to, "rle")


def summary(names: Sequence[str], rows: Sequence[Sequence[str]]) -> List[str]:
    """What came out, rule by rule: how often each fate, or population in powers of two, and each cause."""
    if not rows:
        return []
    named = [dict(zip(names, row)) for row in rows]
    found: Dict[str, Counter[str]] = {}
    for row in named:
        found.setdefault(row["rule"], Counter())[_came_out(row)] += 1
    wide = max(len(it) for counter in found.values() for it in counter)
    lines = []
    for rule, counter in found.items():
        total = sum(counter.values())
        lines.append(f"{rule}: {total} cases")
        for word, times in sorted(counter.items(), key=lambda it: (-it[1], it[0])):
            part = times / total
            lines.append(f"  {word.ljust(wide)} {times:6} {100 * part:5.1f} % {'#' * round(40 * part)}".rstrip())
    return lines


def _came_out(row: Dict[str, str]) -> str:
    """What a row is counted as."""
    if row["cause"]:
        return row["cause"]
    if "fate" in row:
        return f"{row['fate']} {row['period']}".strip() if row["fate"] != "still" else "still"
    if "population" not in row:
        return "done"
    cells = int(row["population"])
    return f"{1 << (cells.bit_length() - 1)} to {(1 << cells.bit_length()) - 1} cells" if cells else "no cells"


def rare(names: Sequence[str], rows: Rows, cases: Sequence[Case], most: int) -> List[Case]:
    """The cases whose fate came out at most so many times under their rule."""
    came = {case: _came_out(dict(zip(names, rows[case.key()]))) for case in cases if case.key() in rows}
    times = Counter((case.rule.name, it) for case, it in came.items())
    causes = {case for case in came if rows[case.key()][names.index("cause")]}
    return [case for case, it in came.items() if times[case.rule.name, it] <= most and case not in causes]
