"""The counts of lines that fired, as a table to be read."""
from __future__ import annotations

from typing import Dict, Iterator, List, NamedTuple, Sequence

from .dead_lines import Alive, Dead, Unknown, Verdict, verdicts_of
from .fires import Fires
from .neighborhoods import PLACES
from .source import SourceLine
from .tables import Table

UNREACHED = "no way from the root leads to them"
TAKEN = "earlier lines take all that they match"
TOO_LONG = "never fired, and it takes too long to find out whether they ever can:"


class Row(NamedTuple):
    """A line of the table: the number of a line of the rule, how many cells, and what is said of both."""

    line: str
    cells: str
    text: str


class Section(NamedTuple):
    """Rows under a title."""

    title: str
    rows: List[Row]


def table_text(fires: Fires, most_unmatched: int) -> str:
    """The table: lines that fired, lines that didn't, lines that never can, and what no line matches.

    most_unmatched: how many neighbourhoods without a line are listed at most
    """
    sections = [it for it in _sections(fires, most_unmatched) if it.rows]
    rows = [Row("line", "cells", "text")] + [row for section in sections for row in section.rows]
    wide, cells_wide = max(len(row.line) for row in rows), max(len(row.cells) for row in rows)
    found: List[str] = []
    for section in sections:
        shown = [f"{row.line:>{wide}}  {row.cells:>{cells_wide}}  {row.text}".rstrip() for row in section.rows]
        found += ["", section.title, *shown] if section.title else shown
    return "\n".join(found)


def _sections(fires: Fires, most_unmatched: int) -> Iterator[Section]:
    fired = [Row(str(it.number), str(fires.cells[it.number]), it.text)
             for it in fires.rule.lines if fires.cells[it.number]]
    yield Section("", [Row("line", "cells", "text"), *fired])
    idle, verdicts = fires.never_fired(), verdicts_of(fires.rule)
    yield Section("never fired:", _rows(it for it in idle if isinstance(verdicts[it.number], Alive)))
    yield Section(TOO_LONG, _rows(it for it in idle if isinstance(verdicts[it.number], Unknown)))
    cause = TAKEN if isinstance(fires.rule.kind, Table) else UNREACHED
    yield Section(f"can never fire, since {cause}:", list(_dead_rows(idle, verdicts)))
    yield _unmatched(fires, most_unmatched)


def _rows(lines: Iterator[SourceLine]) -> List[Row]:
    return [Row(str(line.number), "", line.text) for line in lines]


def _dead_rows(lines: Sequence[SourceLine], verdicts: Dict[int, Verdict]) -> Iterator[Row]:
    for line in lines:
        verdict = verdicts[line.number]
        if isinstance(verdict, Dead):
            takers = [str(it) for it in verdict.by]
            by = f"  (line{'s' if takers[1:] else ''} {', '.join(takers)})" if takers else ""
            yield Row(str(line.number), "", f"{line.text}{by}")


def _unmatched(fires: Fires, most: int) -> Section:
    """What no line matches, the most frequent first."""
    table = fires.rule.kind
    if not isinstance(table, Table):
        return Section("", [])
    every = fires.unmatched()
    rows = [Row("", str(it.cells), ",".join(map(str, it.inputs))) for it in every[:most]]
    if len(every) > most:
        rows.append(Row("", str(sum(it.cells for it in every[most:])), f"in {len(every) - most} other neighbourhoods"))
    head = [Row("", "cells", ",".join(PLACES[place] for place in table.places))] if rows else []
    same = "" if table.symmetry == "none" else "; of those that are the same by the symmetry one is listed"
    return Section(f"no line matches, so the cell stays{same}:", head + rows)
