"""Makes the page of the manual, in man(7)'s form of roff, of what a command's `--help` says.

What help has no place for, as what a script is, stands in a text of its own in `man/COMMAND.txt`: sections that begin
with a line `# TITLE`, in which paragraphs and lists are written as help writes them.
"""
from __future__ import annotations

import re
from typing import Dict, Iterable, List, Sequence, Tuple

from commands import Command
from help_text import Block, Code, EXAMPLES, Option, Paragraph, Row, Table, blocks, heading
from places import NAME, ROOT
from release import Release

FOLDER = ROOT / "packaging/man"
SECTION = 1  # programs
NOTES, OPTIONS, LAST = "NOTES", "OPTIONS", "SEE ALSO"
# Sections stand in this order, those of no name here before the notes.
FIRST = ("DESCRIPTION", OPTIONS)
FINAL = (NOTES, "EXIT STATUS", "ENVIRONMENT", "FILES", "EXAMPLES", LAST)
# A word that was broken can't be searched for or copied.
NO_HYPHENS, LEFT_ALIGNED = ".nh", ".ad l"
# Signs that roff prints otherwise, or takes for its own.
SIGNS = str.maketrans({"\\": r"\(rs", "-": r"\-", "'": r"\(aq", "`": r"\(ga", "^": r"\(ha", "~": r"\(ti"})


def man_page(command: Command, others: Sequence[str], release: Release) -> str:
    """A command's page, which points to the others."""
    sections = _sections(command)
    sections[LAST] = [", ".join(rf"\fB{escaped(it)}\fR({SECTION})" for it in others) + "."]
    middle = [it for it in sections if it not in FIRST + FINAL]
    lines = [f'.TH {command.name.upper()} {SECTION} {release.day} "{NAME} {release.version}" "User Commands"',
             NO_HYPHENS, LEFT_ALIGNED, ".SH NAME", rf"{escaped(command.name)} \- {escaped(command.summary)}",
             ".SH SYNOPSIS", _synopsis(command)]
    for title in (*FIRST, *middle, *FINAL):
        if title in sections:
            lines += [f".SH {title}", *sections[title]]
    return "\n".join(lines) + "\n"


def escaped(text: str) -> str:
    """A text as roff prints it sign for sign, also where it begins a line."""
    found = text.translate(SIGNS)
    return rf"\&{found}" if found.startswith(".") else found


def _sections(command: Command) -> Dict[str, List[str]]:
    """The lines of each section that help and the texts beside it have."""
    sections: Dict[str, List[str]] = {}

    def add(title: str, lines: Iterable[str]) -> None:
        sections.setdefault(title, []).extend(lines)

    for paragraph in command.help.about:
        add("DESCRIPTION", _lines(paragraph, ""))
    add(OPTIONS, _rows(command.help.arguments))
    for option in command.help.options:
        add(OPTIONS, _option(option))
    for block in command.help.further:
        title, lead = _place(block)
        add(title, _lines(block, lead))
    for title, text in _written(command.name):
        for block in blocks(text):
            add(title, _lines(block, "" if isinstance(block, Paragraph) else block.title))
    return sections


def _written(name: str) -> List[List[str]]:
    """The title and the text of each section that stands in files, of this command and of all."""
    paths = [FOLDER / f"{it}.txt" for it in (name, "all-commands")]
    texts = [it.read_text(encoding="utf-8") for it in paths if it.is_file()]
    return [section.split("\n", 1) for text in texts for section in re.split(r"^# ", text, flags=re.M)[1:]]


def _place(block: Block) -> Tuple[str, str]:
    """The section of what help says behind the options, and the words that stand above it there."""
    if isinstance(block, Paragraph):
        return NOTES, ""
    if block.title.startswith("-"):
        return OPTIONS, block.title
    subject = heading(block.title)
    lead = block.title[len(subject) + 1:].strip()
    return "EXAMPLES" if subject.lower() in EXAMPLES else subject.upper(), lead


def _synopsis(command: Command) -> str:
    name, _, words = command.help.usage.partition(" ")
    return rf"\fB{escaped(name)}\fR {escaped(words)}".rstrip()


def _lines(block: Block, lead: str) -> List[str]:
    """The lines of a block, with these words above a list."""
    if isinstance(block, Paragraph):
        return [".PP", escaped(block.text)]
    above = [".PP", f"{escaped(lead[0].upper() + lead[1:])}:"] if lead else []
    return above + (_rows(block.rows) if isinstance(block, Table) else _code(block))


def _rows(rows: Iterable[Row]) -> List[str]:
    return [line for it in rows for line in _entry(rf"\fB{escaped(it.term)}\fR", it.text)]


def _option(option: Option) -> List[str]:
    flags = ", ".join(rf"\fB{escaped(it)}\fR" for it in option.flags)
    return _entry(rf"{flags} \fI{escaped(option.value)}\fR" if option.value else flags, option.text)


def _entry(term: str, text: str) -> List[str]:
    return [".TP", term, *([escaped(text)] if text else [])]


def _code(code: Code) -> List[str]:
    # .EE lets words be broken again.
    return [".PP", ".RS 4", ".EX", *map(escaped, code.lines), ".EE", NO_HYPHENS, ".RE"]
