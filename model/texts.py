"""Lines, blanks and numbers, which rule files, patterns and scripts have in common."""
from __future__ import annotations

import re
from typing import Iterator, List, NamedTuple, Optional, Tuple

BLANKS = b" \t"

# A number beyond all limits, for which any greater one may stand.
BEYOND = 10**30


class Line(NamedTuple):
    """A line of a text: what it says, without the blanks at its ends, and its bytes with the line's end."""

    says: bytes
    raw: bytes


class NumberedLine(NamedTuple):
    """A line that says something, and its number in the text, whose first line is 1."""

    number: int
    text: bytes


def lines_of(text: bytes) -> List[Line]:
    """The lines of a text, of which the last may lack its line feed.

    A carriage return belongs to the line's end directly before a line feed alone.
    """
    *ended, rest = text.split(b"\n")
    lines = [Line(without_carriage_return(it).strip(BLANKS), it + b"\n") for it in ended]
    return lines + ([Line(rest.strip(BLANKS), rest)] if rest else [])


def without_carriage_return(line: bytes) -> bytes:
    return line[:-1] if line.endswith(b"\r") else line


def says_of(text: bytes) -> Iterator[NumberedLine]:
    """What each line of a text says, blank ones included."""
    return (NumberedLine(at, line.says) for at, line in enumerate(lines_of(text), 1))


def number_of(word: bytes) -> Optional[int]:
    """The number that a word of digits writes, of any length; other words write none."""
    if not word.isdigit():
        return None
    digits = word.lstrip(b"0")
    return BEYOND if len(digits) > 30 else int(digits or b"0")


def integer_of(word: bytes) -> Optional[int]:
    """The same, where one minus sign may stand before the digits."""
    if not word.startswith(b"-"):
        return number_of(word)
    number = number_of(word[1:])
    return None if number is None else -number


def words_of(line: bytes) -> List[bytes]:
    """The words of a line, which spaces alone separate."""
    return [word for word in line.split(b" ") if word]


def blank_words_of(line: bytes) -> List[bytes]:
    """The words of a line where tabs separate them too."""
    return [word for word in re.split(rb"[ \t]+", line) if word]


def comma_parts_of(text: bytes) -> List[bytes]:
    """What stands between the commas of a text, without the blanks around it."""
    return [part.strip(BLANKS) for part in text.split(b",")]


def named_value(line: bytes, sign: bytes) -> Optional[Tuple[bytes, bytes]]:
    """The name and the value that the first such sign parts, without the blanks around it."""
    name, found, value = line.partition(sign)
    return (name.rstrip(BLANKS), value.lstrip(BLANKS)) if found else None
