"""How an experiment is made to suit a rule that has fewer states: by an empty start, or by other states in it."""
from __future__ import annotations

import re
from typing import Callable, Dict, Match, Tuple

from ..errors import Malformed
from ..words import Cell

from .document import Document, File
from .files import states_of

# The states of RLE text: a letter from A to X, after one from p to y where they are higher. In a macrocell text they
# stand in the lines of level 1.
LETTERS = re.compile(rb"([p-y]?)([A-X])")
LEAF = re.compile(rb"(?m)^1 (\d+) (\d+) (\d+) (\d+)[ \t]*$")
ALPHABET = 24


def states_in(document: Document) -> int:
    """How many states each rule of a document has at least."""
    return min(states_of(document.rule), states_of(document.second))


def emptied(document: Document) -> Document:
    """The document with an empty start, and without the interventions that set states which its rule hasn't."""
    most = states_in(document)
    fit = {it: value for it, value in document.interventions.items() if all(cell[2] < most for cell in value.cells)}
    return document._replace(start=None, cells=(), interventions=fit)


def lowered(document: Document) -> Document:
    """The document with state 1 in place of each state that its rule hasn't, in the start and in interventions."""
    most = states_in(document)
    start = document.start and document.start._replace(text=_lowered_text(document.start, most))
    return document._replace(
        start=start, cells=tuple(_lowered_cells(it, most) for it in document.cells),
        interventions={it: value._replace(cells=_lowered_cells(value.cells, most))
                       for it, value in document.interventions.items()})


def _lowered_cells(cells: Tuple[Cell, ...], most: int) -> Tuple[Cell, ...]:
    return tuple((x, y, state if state < most else 1) for x, y, state in cells)


def _lowered_text(file: File, most: int) -> bytes:
    if file.kind == "start mc":
        return LEAF.sub(lambda it: b"1 " + b" ".join(n if int(n) < most else b"1" for n in it.groups()), file.text)
    head, line, body = _halves(file.text)
    return head + line + LETTERS.sub(lambda it: it[0] if _state(it) < most else b"A", body)


def _halves(text: bytes) -> Tuple[bytes, bytes, bytes]:
    """What stands before an RLE text's header, the header, and the cells with all that follows."""
    header = re.search(rb"(?m)^[ \t]*x[ \t]*=[^\n]*(?:\n|\Z)", text)
    return (text[:header.start()], header[0], text[header.end():]) if header else (text, b"", b"")


def _state(letters: Match[bytes]) -> int:
    prefix = letters[1][0] - ord("o") if letters[1] else 0
    return ALPHABET * prefix + letters[2][0] - ord("A") + 1


FITS: Dict[str, Callable[[Document], Document]] = {"": lambda it: it, "empty": emptied, "ones": lowered}


def fitted(document: Document, fit: str) -> Document:
    """The document made to suit its rule: by "empty" or "ones", or as it is where that is empty."""
    if fit not in FITS:
        raise Malformed(f"{fit!r} is no way to make a start suit a rule")
    return FITS[fit](document)
