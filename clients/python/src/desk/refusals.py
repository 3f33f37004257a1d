"""Replies of refusal as exceptions: each with its place as a line of the user's own file."""
from __future__ import annotations

from typing import List, Optional

from .errors import Refused

LONGEST = 60  # of the signs of a line that are shown


def refusal(words: List[str], text: Optional[bytes], of: str) -> Refused:
    """What a reply says, its place as a line of the file whose text was sent."""
    number, name, told = int(words[1]), words[2], int(words[3]) if len(words) > 3 else None
    if text is None or told is None:
        return Refused(number, name, None, told, of)
    is_byte = name == "BadRun"
    place = text.count(b"\n", 0, told) + 1 if is_byte else told
    lines = text.split(b"\n", place)
    line = lines[place - 1] if 0 < place <= len(lines) else b""
    column = told - (text.rfind(b"\n", 0, told) + 1) if is_byte else 0
    return Refused(number, name, place, told, of, _shortened(line.decode(errors="replace"), column))


def brief(command: str) -> str:
    """A command's line, shortened."""
    return command if len(command) < LONGEST else command[:LONGEST - 3] + "..."


def _shortened(line: str, column: int) -> str:
    """A line, or of a long one what stands about a column; signs that can't be printed are replaced."""
    first = max(0, min(column - LONGEST // 2, len(line) - LONGEST)) if len(line) > LONGEST else 0
    cut = line[first:first + LONGEST].replace("\t", " ").strip()
    shown = "".join(it if it.isprintable() else "\ufffd" for it in cut)
    return f"{'...' if first else ''}{shown}{'...' if first + LONGEST < len(line) else ''}"
