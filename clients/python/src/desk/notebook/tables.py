"""Tables in HTML, which a notebook shows of a desk and of what a document has."""
from __future__ import annotations

from html import escape
from typing import TYPE_CHECKING, Iterable, List, Sequence, Tuple

from ..words import view_words

if TYPE_CHECKING:
    from ..listing import Bookmark, Branch, Intervention, Listing

MOST = 12  # lines of a kind; of the others it is said how many there are
CURRENT, PENDING = ("#2e7d32", "&#9679;"), ("#b26a00", "&#9675;")  # the colors of the words, and a full or hollow spot


def desk_table(rule: str, start: str, listing: Listing) -> str:
    """A document in short: its rule, its start, and what it has beside them."""
    return _table([("rule", [escape(rule)]), ("start", [escape(start)]), *_parts(listing)])


def listing_table(listing: Listing) -> str:
    """What a document has, by kinds."""
    return _table(_parts(listing))


def cells_table(lines: Sequence[Sequence[str]]) -> str:
    """A table of numbers, whose first line has the names of the columns."""
    head, *rows = ["".join(f"<{tag}>{escape(it)}</{tag}>" for it in line)
                   for tag, line in zip(["th", *["td"] * len(lines)], lines)]
    return "<table>" + "".join(f"<tr>{it}</tr>" for it in [head, *rows]) + "</table>"


Part = Tuple[str, List[str]]  # a name, and the lines in HTML that belong to it


def _parts(listing: Listing) -> List[Part]:
    return [
        ("branches", _shortened([_branch(it) for it in listing.branches])),
        ("interventions", _shortened([_intervention(it) for it in listing.interventions])),
        ("bookmarks", _shortened([_bookmark(it) for it in listing.bookmarks])),
    ]


def _table(parts: Iterable[Part]) -> str:
    rows = (f'<tr><th style="text-align: left; vertical-align: top">{name}</th>'
            f'<td style="text-align: left">{"<br>".join(lines) or "none"}</td></tr>' for name, lines in parts)
    return f"<table>{''.join(rows)}</table>"


def _shortened(lines: List[str]) -> List[str]:
    return lines if len(lines) <= MOST else [*lines[:MOST - 1], f"and {len(lines) - MOST + 1} more"]


def _branch(it: Branch) -> str:
    return f"{it.id} leaves {it.parent} at {it.generation}"


def _intervention(it: Intervention) -> str:
    again = f", and after every {it.distance} up to {it.last}" if it.distance else ""
    cells = "1 cell" if it.cells == 1 else f"{it.cells} cells"
    return f"{it.id} sets {cells}{_on(it.on)} at {it.first}{again}"


def _bookmark(it: Bookmark) -> str:
    color, spot = CURRENT if it.is_current else PENDING
    known = f'<span style="color: {color}">{spot} {"current" if it.is_current else "pending"}</span>'
    return f"{it.id} shows {view_words(it.view)}{_on(it.on)} at {it.generation} {known}"


def _on(branch: int) -> str:
    return f" of branch {branch}" if branch else ""
