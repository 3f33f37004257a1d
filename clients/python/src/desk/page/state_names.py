"""The names of a rule's states: what stands behind the color of a state in the section @COLORS of its file."""
from __future__ import annotations

import re
from typing import Dict

SECTION = re.compile(r"(?ms)^\s*@COLORS\b[^\n]*\n(.*?)(?=^\s*@|\Z)")
LINE = re.compile(r"\s*(\d+)\s+\d+\s+\d+\s+\d+[ \t]+(?:#\s*)?([^\s\d#][^\r\n]*?)\s*")
LONGEST = 60


def state_names(rule: bytes) -> Dict[int, str]:
    """The names of the states that have one, by the text of a rule file."""
    section = SECTION.search(rule.decode("utf-8", errors="replace"))
    found = (LINE.fullmatch(it) for it in section[1].splitlines()) if section else ()
    return {int(it[1]): it[2][:LONGEST] for it in found if it and int(it[1]) < 256}
