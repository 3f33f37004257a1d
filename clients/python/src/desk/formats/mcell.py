"""Patterns of MCell, Mirek Wojtowicz's program (.mcl), as RLE texts.

The cells stand in lines `#L`, as in RLE but for the states above 24, whose letters a to j stand where RLE has p to y.
As in Golly, the board's upper left corner lies half its width and half its height before (0, 0). The plane has no
bounds, so a board that wraps round is one no longer.

A rule has a name where it is one of Life's kind, of Generations or of Larger than Life, where Golly's line `#GOLLY`
names it, and where it is WireWorld, among MCell's special rules or written out as a table.
"""
from __future__ import annotations

import re
from typing import Optional

from ..errors import Trouble

BEGINNING = b"#MCell"
BODY = re.compile(rb"(?:[0-9]*(?:[.$]|[a-j]?[A-X])|[ \t])*")
HIGHER = bytes.maketrans(b"abcdefghij", b"pqrstuvwxy")
NAMED_BY_RULE = ("Life", "Generations", "Larger than Life")
# Two numbers say that all eight neighbours count. Then each state has a 0, and the next states by how many neighbours
# are in state 1, from 0 to 8: a head becomes a tail, a tail wire, and wire a head beside one or two heads.
WIREWORLD = "1,0" + ",0" * 10 + ",0" + ",2" * 9 + ",0" + ",3" * 9 + ",0" + ",3,1,1" + ",3" * 6


def is_mcell(text: bytes) -> bool:
    """Whether a text is one of MCell's."""
    return text.startswith(BEGINNING)


def wraps(text: bytes) -> bool:
    """Whether its board wraps round."""
    return _said(text, b"WRAP") == "1"


def game(text: bytes) -> str:
    """The kind of its rule, as MCell calls it."""
    return _said(text, b"GAME") or "Life"


def rule_named(text: bytes) -> str:
    """The name of its rule, as Golly's files have it; empty where no name can say it."""
    named = _said(text, b"GOLLY")
    if named is not None:
        return named
    kind, rule = game(text), "".join(re.findall(r"(?m)^#RULE[ \t]+([^\r\n]*?)[ \t]*\r?$", text.decode("latin-1")))
    if kind in NAMED_BY_RULE:
        return rule
    is_wireworld = rule == WIREWORLD if kind == "Rules table" else rule.lower() == "wireworld"
    return "WireWorld" if is_wireworld else ""


def rle_of(text: bytes, path: str) -> bytes:
    """The pattern as RLE. What can't be read is a Trouble with the line."""
    body = []
    for number, line in enumerate(text.splitlines(), 1):
        if line.startswith(b"#L "):
            cells = line[3:].strip()
            if not BODY.fullmatch(cells):
                raise Trouble(f"{path}: line {number}: these are no cells: {cells.decode('latin-1')}")
            body.append(cells.translate(HIGHER))
    board = re.fullmatch(r"([0-9]+)x([0-9]+)", _said(text, b"BOARD") or "")
    width, height = (int(it) for it in board.groups()) if board else (0, 0)
    name = rule_named(text)
    header = f"x = 0, y = 0, rule = {name}" if name else "x = 0, y = 0"
    return f"#CXRLE Pos={-(width // 2)},{-(height // 2)}\n{header}\n".encode("latin-1") + b"\n".join(body) + b"!\n"


def _said(text: bytes, word: bytes) -> Optional[str]:
    """What the first line with this word says."""
    found = re.search(rb"(?m)^#" + word + rb"[ \t]+([^\r\n]*?)[ \t]*\r?$", text)
    return found[1].decode("latin-1") if found else None
