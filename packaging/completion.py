"""Which words complete a command line, by what the command's `--help` says."""
from __future__ import annotations

import dataclasses
import re
from typing import Tuple

from commands import Command
from help_text import Option


@dataclasses.dataclass(frozen=True)
class Values:
    """What a word may be: one of these words, a folder, or a file; of these endings where there are any."""

    words: Tuple[str, ...] = ()
    is_folder: bool = False
    is_file: bool = False
    endings: Tuple[str, ...] = ()


UNKNOWN = Values()
RULE = Values(is_file=True, endings=("rule", "rule.gz"))
PATTERN = Values(is_file=True, endings=tuple(f"{it}{gz}" for it in ("rle", "mc", "mcl", "lif") for gz in ("", ".gz")))
FILE = Values(is_file=True)
# What help calls values that are places of files.
NAMED = {"RULE": RULE, "R": RULE, "PATTERN": PATTERN, "FILE": FILE, "PROGRAM": FILE, "FOLDER": Values(is_folder=True)}


@dataclasses.dataclass(frozen=True)
class CompletedOption:
    """An option, what its first value is, and whether it has one."""

    option: Option
    values: Values

    @property
    def has_value(self) -> bool:
        return bool(self.option.value)


@dataclasses.dataclass(frozen=True)
class Completion:
    """A command's options, and what its other words are."""

    name: str
    options: Tuple[CompletedOption, ...]
    others: Values


def completion_of(command: Command) -> Completion:
    """What completes the words of a command."""
    options = tuple(CompletedOption(it, values_of(it.value)) for it in command.help.options)
    others = [values_of(it.term) for it in command.help.arguments]
    if not others:
        # Behind an option that takes any number of words another one may stand.
        others = [it.values for it in options if "..." in it.option.value]
    return Completion(command.name, options, _any_of(others))


def values_of(name: str) -> Values:
    """What values are that help calls so: `RULE`, `RULE [RULE ...]` or `{rle,mc}`."""
    choices = re.match(r"\{(.*?)\}", name)
    return Values(tuple(choices[1].split(","))) if choices else NAMED.get(name.partition(" ")[0], UNKNOWN)


def _any_of(found: "list[Values]") -> Values:
    """What is one of several."""
    has_all = any(it.is_file and not it.endings for it in found)
    return Values(words=tuple(word for it in found for word in it.words), is_folder=any(it.is_folder for it in found),
                  is_file=any(it.is_file for it in found),
                  endings=() if has_all else tuple(dict.fromkeys(ending for it in found for ending in it.endings)))
