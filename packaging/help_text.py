"""Reads a text that `--help` writes, by clap for the program and by argparse for the commands in Python.

Both are paragraphs, and lists under a title that ends with a colon: of options, or of other terms with what is said
of each. An example is such a list too, whose lines are taken as they are.
"""
from __future__ import annotations

import dataclasses
import re
from typing import List, Tuple, Union

USAGE = "usage"
EXAMPLES = ("example", "examples")
OPTIONS = ("options", "optional arguments")
ARGUMENTS = ("positional arguments", "arguments")
BLANK_LINES = re.compile(r"\n(?:[ \t]*\n)+")
OPTION_INDENT = 8  # less than this: an option without a short form stands under the long forms of the others


@dataclasses.dataclass(frozen=True)
class Paragraph:
    text: str


@dataclasses.dataclass(frozen=True)
class Row:
    """A term, as an option with its values or a number, and what is said of it."""

    term: str
    text: str


@dataclasses.dataclass(frozen=True)
class Table:
    """Rows under a title, which has no colon here."""

    title: str
    rows: Tuple[Row, ...]


@dataclasses.dataclass(frozen=True)
class Code:
    """Lines that are taken as they are; the title is empty where none stands above them."""

    title: str
    lines: Tuple[str, ...]


Block = Union[Paragraph, Table, Code]


@dataclasses.dataclass(frozen=True)
class Option:
    """The spellings of an option, as -h and --help, the name of its values, or nothing, and what it does."""

    flags: Tuple[str, ...]
    value: str
    text: str


@dataclasses.dataclass(frozen=True)
class Help:
    """All that a command's help says."""

    usage: str
    about: Tuple[Paragraph, ...]
    arguments: Tuple[Row, ...]
    options: Tuple[Option, ...]
    further: Tuple[Block, ...]


def heading(title: str) -> str:
    """What a title is about: `Example` of `Example: a soup` and of `Example, in a folder`."""
    return re.split(r"[,:]", title, maxsplit=1)[0]


def blocks(text: str) -> List[Block]:
    """The paragraphs, lists and examples of a text, in order."""
    return [_block(it.split("\n")) for it in BLANK_LINES.split(text.strip("\n"))]


def read_help(text: str) -> Help:
    """What a help says.

    ValueError: it has no usage.
    """
    usage = ""
    about: List[Paragraph] = []
    arguments: Tuple[Row, ...] = ()
    options: Tuple[Option, ...] = ()
    further: List[Block] = []
    for block in blocks(text):
        title = heading(block.title).lower() if isinstance(block, Table) else ""
        if isinstance(block, Paragraph) and block.text.lower().startswith(f"{USAGE}:"):
            usage = block.text[len(USAGE) + 1:].strip()
        elif isinstance(block, Table) and title in ARGUMENTS:
            arguments = block.rows
        elif isinstance(block, Table) and title in OPTIONS:
            options = tuple(map(_option, block.rows))
        elif isinstance(block, Paragraph) and not options:
            about.append(block)
        else:
            further.append(block)
    if not usage:
        raise ValueError("the help says no usage")
    return Help(usage, tuple(about), arguments, options, tuple(further))


def _block(lines: List[str]) -> Block:
    first, others = lines[0], lines[1:]
    if first.startswith("    ") and all(it.startswith("    ") for it in others):
        return Code("", _without_indent(lines))
    if not first.endswith(":") or not others or not all(it.startswith(" ") for it in others):
        return Paragraph(" ".join(map(str.strip, lines)))
    title = first[:-1]
    if heading(title).lower() in EXAMPLES:
        return Code(title, _without_indent(others))
    return Table(title, _rows(others, OPTION_INDENT if title.lower() in OPTIONS else _indent(others[0]) + 1))


def _indent(line: str) -> int:
    return len(line) - len(line.lstrip(" "))


def _without_indent(lines: List[str]) -> Tuple[str, ...]:
    least = min(map(_indent, lines))
    return tuple(it[least:] for it in lines)


def _rows(lines: List[str], most_indent: int) -> Tuple[Row, ...]:
    """The rows of a list. A line that is indented further goes on with the text of the row above it."""
    rows: List[Row] = []
    for line in lines:
        if _indent(line) < most_indent:
            # What is said of a term stands behind two spaces or more, or in the next line.
            term, _, text = line.strip().partition("  ")
            rows.append(Row(term, text.strip()))
        else:
            rows[-1] = Row(rows[-1].term, f"{rows[-1].text} {line.strip()}".strip())
    return tuple(rows)


def _option(row: Row) -> Option:
    spellings = [it.partition(" ") for it in re.split(r", (?=-)", row.term)]
    return Option(tuple(flag for flag, _, _ in spellings), spellings[-1][2].strip("<>"), row.text)
