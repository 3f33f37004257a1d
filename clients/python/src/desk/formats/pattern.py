"""Patterns of all formats that are read, as the texts that the program takes, with the names of their rules."""
from __future__ import annotations

import re
from typing import NamedTuple, Optional

from . import lif, mcell

# A name ends before a blank, and a comma behind it is no part of it.
RLE_RULE = re.compile(rb"^[ \t]*x[ \t]*=[^\r\n]*?\brule[ \t]*=[ \t]*([^\s]+?),?(?:\s|$)", re.MULTILINE)
MACROCELL_RULE = re.compile(rb"^#R[ \t]+([^\s]+)", re.MULTILINE)


class Pattern(NamedTuple):
    """A pattern's text as RLE or as macrocells, and the name of its rule.

    The name is empty where the pattern names none, and None where it has a rule that no name says.
    """

    text: bytes
    is_macrocell: bool
    rule: Optional[str]


def pattern_of(text: bytes, path: str) -> Pattern:
    """A pattern's text in RLE, as macrocells, of Life 1.05 or 1.06 or of MCell. What can't be read is a Trouble.

    path: what a Trouble calls it
    """
    if lif.is_lif(text):
        return Pattern(lif.rle_of(text, path), False, lif.rule_named(text))
    if mcell.is_mcell(text):
        has_name = mcell.rule_named(text) or mcell.game(text) in mcell.NAMED_BY_RULE
        return Pattern(mcell.rle_of(text, path), False, mcell.rule_named(text) if has_name else None)
    if text.startswith(b"[M2]"):
        names = MACROCELL_RULE.findall(text)  # the last one counts
        return Pattern(text, True, names[-1].decode("latin-1") if names else "")
    named = RLE_RULE.search(text)
    return Pattern(text, False, named[1].decode("latin-1") if named else "")
