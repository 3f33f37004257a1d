"""The lines of a rule file, numbered, and what the words of a line say."""
from __future__ import annotations

import re
from typing import Iterator, List, NamedTuple, Optional, Tuple

BLANKS = b" \t"
BEYOND = 1 << 64  # stands for any greater number, since nothing in a rule file reaches as far
MOST_DIGITS = 19


class SourceLine(NamedTuple):
    """A line of a file.

    number: from 1
    text: what stands there, without the blanks at its ends
    says: the same in bytes; of a line in a table or a tree without its comment
    """

    number: int
    text: str
    says: bytes


class Unreadable(Exception):
    """Why a file can't be read: the number of the refusal, and the line in which that shows, if there is one."""

    def __init__(self, number: int, line: Optional[int] = None) -> None:
        super().__init__(number, line)
        self.number, self.line = number, line


def lines_of(text: bytes) -> Iterator[SourceLine]:
    """All lines of a text. A carriage return belongs to a line's end directly before a line feed alone."""
    *ended, rest = text.split(b"\n")
    raw = [it[:-1] if it.endswith(b"\r") else it for it in ended] + ([rest] if rest else [])
    for number, line in enumerate(raw, 1):
        says = line.strip(BLANKS)
        yield SourceLine(number, says.decode(errors="replace"), says)


def without_comments(lines: Iterator[SourceLine]) -> Iterator[SourceLine]:
    """The lines that say something beside a comment."""
    for line in lines:
        says = line.says.partition(b"#")[0].strip(BLANKS)
        if says:
            yield line._replace(says=says)


def number_of(word: bytes) -> Optional[int]:
    """The number that a word of digits says, or None for another word."""
    if not word.isdigit():
        return None
    digits = word.lstrip(b"0")
    return int(digits or b"0") if len(digits) <= MOST_DIGITS else BEYOND


def words_of(line: bytes) -> List[bytes]:
    """The words between blanks."""
    return [word for word in re.split(rb"[ \t]+", line) if word]


def parts_of(line: bytes) -> List[bytes]:
    """What stands between the commas."""
    return [part.strip(BLANKS) for part in line.split(b",")]


def named_value(line: bytes, sign: bytes) -> Tuple[bytes, bytes]:
    """What stands before and behind the first such sign. Without it there is no name."""
    name, found, value = line.partition(sign)
    return (name.strip(BLANKS), value.strip(BLANKS)) if found else (b"", line)
