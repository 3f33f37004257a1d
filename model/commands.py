"""What the lines of a script ask for, by their words."""
from __future__ import annotations

import enum
from dataclasses import dataclass
from typing import Callable, Dict, List, Optional, Sequence, Tuple, Union

from documents import Acts, Every, Once
from edits import (
    AddBookmark,
    AddBranch,
    AddIntervention,
    ChangeIntervention,
    Edit,
    MoveBookmark,
    RemoveBookmark,
    RemoveBranch,
    RemoveIntervention,
    SetCells,
)
from texts import integer_of, number_of, words_of
from views import Counts, Macrocell, Rle, View, Window
from worlds import Cell

Words = Sequence[bytes]

# The types to whose nearest end a number that is too large is read.
MOST_COUNT = 2**64 - 1
MOST_STATE = 2**16 - 1
MOST_EXTENT = 2**32 - 1
COORDINATES = range(-(2**63), 2**63)


class Format(enum.Enum):
    """The formats of texts, by the words of the commands that they follow."""

    RULE = (b"rule",)
    RLE = (b"start", b"rle")
    MACROCELL = (b"start", b"mc")


class Plain(enum.Enum):
    """Commands of one word."""

    SETTLE = b"settle"
    WORK = b"work"
    POLL = b"poll"
    LIST = b"list"
    SCRIPT = b"script"
    HELP = b"help"
    QUIT = b"quit"


@dataclass(frozen=True)
class Show:
    """To show a bookmark."""

    id: int


@dataclass(frozen=True)
class Peek:
    """To show a bookmark as it is known now."""

    id: int


Command = Union[Edit, Plain, Show, Peek]


class NotACommand(Exception):
    """A line that asks for nothing: an unknown command, a wrong number of words, or no number where one is due."""


def format_of(line: bytes) -> Optional[Format]:
    """The format of the text that follows a line, if one does."""
    words = tuple(words_of(line))
    return next((it for it in Format if it.value == words), None)


def command_of(line: bytes) -> Command:
    """The command of a line that no text follows."""
    first, *rest = words_of(line)
    for plain in Plain:
        if first == plain.value and not rest:
            return plain
    reader = READERS.get(first)
    if reader:
        return reader(rest)
    if first == b"on" and rest:
        return _in_branch(_count(rest[0]), rest[1:])
    return _in_branch(0, [first, *rest])


def _in_branch(branch: int, words: Words) -> Command:
    """The commands that may name a branch, which is else 0."""
    first, *rest = words or [b""]
    if first == b"at":
        return AddIntervention(branch, *_once(rest))
    if first == b"every":
        return AddIntervention(branch, *_repeating(rest))
    if first == b"mark" and len(rest) > 1:
        return AddBookmark(branch, _count(rest[0]), _view(rest[1:]))
    raise NotACommand


def _change(words: Words) -> Command:
    if len(words) < 2:
        raise NotACommand
    id_, rest = _count(words[0]), words[1:]
    acts, cells = _repeating(rest[1:]) if rest[0] == b"every" else _once(rest)
    return ChangeIntervention(id_, acts, cells)


def _once(words: Words) -> Tuple[Acts, Tuple[Cell, ...]]:
    """A generation, and cells behind the word `set`."""
    if len(words) < 2 or words[1] != b"set":
        raise NotACommand
    return Once(_count(words[0])), _cells(words[2:])


def _repeating(words: Words) -> Tuple[Acts, Tuple[Cell, ...]]:
    """A distance, the first generation and the last, and cells behind the word `set`."""
    if len(words) < 4 or words[3] != b"set":
        raise NotACommand
    return Every(*_counts(words[:3], 3)), _cells(words[4:])


def _cells(words: Words) -> Tuple[Cell, ...]:
    """One cell or more, of three words each."""
    if not words or len(words) % 3:
        raise NotACommand
    triples = zip(*[iter(words)] * 3)
    return tuple([Cell(_coordinate(x), _coordinate(y), _count(state, MOST_STATE)) for x, y, state in triples])


def _view(words: Words) -> View:
    name, *rest = words
    plain: Dict[bytes, View] = {b"counts": Counts(), b"rle": Rle(), b"mc": Macrocell()}
    if name in plain and not rest:
        return plain[name]
    if name != b"window" or len(rest) != 4:
        raise NotACommand
    left, top = [_coordinate(word) for word in rest[:2]]
    width, height = [_count(word, MOST_EXTENT) for word in rest[2:]]
    return Window(left, top, width, height)


def _counts(words: Words, how_many: int) -> List[int]:
    if len(words) != how_many:
        raise NotACommand
    return [_count(word) for word in words]


def _count(word: bytes, most: int = MOST_COUNT) -> int:
    number = number_of(word)
    if number is None:
        raise NotACommand
    return min(number, most)


def _coordinate(word: bytes) -> int:
    integer = integer_of(word)
    if integer is None:
        raise NotACommand
    return max(COORDINATES.start, min(integer, COORDINATES.stop - 1))


# What the words behind each first word ask for.
READERS: Dict[bytes, Callable[[Words], Command]] = {
    b"set": lambda words: SetCells(_cells(words)),
    b"change": _change,
    b"drop": lambda words: RemoveIntervention(*_counts(words, 1)),
    b"move": lambda words: MoveBookmark(*_counts(words, 2)),
    b"unmark": lambda words: RemoveBookmark(*_counts(words, 1)),
    b"branch": lambda words: AddBranch(*_counts(words, 2)),
    b"unbranch": lambda words: RemoveBranch(*_counts(words, 1)),
    b"show": lambda words: Show(*_counts(words, 1)),
    b"peek": lambda words: Peek(*_counts(words, 1)),
}
