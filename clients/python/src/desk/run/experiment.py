"""A rule, a start, interventions and what is asked for, by the words of a command line."""
from __future__ import annotations

import argparse
import os
from typing import Dict, NamedTuple, Sequence, Union

from ..client import Desk
from ..console import say
from ..errors import Trouble
from ..formats.files import standard_input, text_of
from ..formats.pattern import pattern_of
from ..rules.found import Found, rule_named
from ..sweep.soups import Soup, rle, states_of
from ..words import View
from .arguments import Once, Repeated
from .asked import Asked

STANDARD_INPUT = "-"


class Start(NamedTuple):
    """The text of a pattern, and what refusals call it."""

    name: str
    text: bytes


class Experiment(NamedTuple):
    """What a command line asks to be computed."""

    rule: Found
    start: Start
    interventions: Sequence[Union[Once, Repeated]]
    generation: int
    asked: Sequence[Asked]

    def make_in(self, desk: Desk) -> Dict[View, int]:
        """Makes it the document of a new desk, and gives the bookmark of each view that is asked for."""
        desk.rule_text(self.rule.text, self.rule.path or self.rule.name)
        if desk.start_text(self.start.text, self.start.name):
            say("the pattern's own generation isn't used, generations count from 0")
        for it in self.interventions:
            if isinstance(it, Once):
                desk.at(it.generation, it.cells)
            else:
                desk.every(it.distance, it.first, it.last, it.cells)
        return {view: desk.mark(self.generation, view) for view in dict.fromkeys(it.view for it in self.asked)}


def experiment_of(given: argparse.Namespace) -> Experiment:
    """Reads the files that a command line names, finds the rule, and says which it is.

    Trouble: a file can't be read or has nothing in it, or there is no such rule.
    """
    if given.soup:
        rule = _said(rule_named("", None, given.pattern))
        start = _soup(Soup(given.seed, given.soup[0], given.soup[1], given.density), rule)
    else:
        start = _pattern(given.pattern)
        path = None if given.pattern == STANDARD_INPUT else given.pattern
        rule = _said(rule_named(pattern_of(start.text, start.name).rule, path, given.rule))
    return Experiment(rule, start, given.interventions, given.to, given.asked)


def _said(rule: Found) -> Found:
    """Says which rule was found, with a path below the working folder as from there."""
    say(rule.line.replace(f"{os.getcwd()}{os.sep}", ""))
    return rule


def _pattern(path: str) -> Start:
    found = Start("standard input", standard_input()) if path == STANDARD_INPUT else Start(path, text_of(path))
    if not found.text.strip():
        raise Trouble(f"{found.name}: there is nothing in it")
    return found


def _soup(soup: Soup, rule: Found) -> Start:
    say(f"a soup of {soup.width} by {soup.height} cells, seed {soup.seed}, density {soup.density:g}")
    return Start("the soup", rle(soup, range(1, states_of(rule.text))).encode())
