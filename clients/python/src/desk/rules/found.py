"""Where the rule of a pattern comes from: what is given, or what the pattern names, made here or found in a folder."""
from __future__ import annotations

import difflib
import os
import sys
from itertools import chain
from pathlib import Path
from typing import Iterator, List, NamedTuple, Optional

from ..formats.files import text_of
from ..formats.pattern import pattern_of
from . import names
from .names import CALLED, NoRule, Reason

LIFE = "B3/S23"
SYSTEM_FOLDERS = ("/usr/share/golly/Rules", "/usr/local/share/golly/Rules", "/usr/share/games/golly/Rules")


class Found(NamedTuple):
    """A rule that was found.

    name: the name by which it was found
    text: the text of its .rule file
    path: that file, or None where the text was made from the name
    line: a line that says which rule was taken, from where and why
    """

    name: str
    text: bytes
    path: Optional[str]
    line: str


def rule_named(header_name: Optional[str], pattern_path: Optional[str] = None, given: Optional[str] = None) -> Found:
    """The rule for a pattern.

    header_name: the name in the pattern's header; empty where it names none, which means Life as in Golly, and None
        where it has a rule that no name says, as some of MCell's
    pattern_path: the pattern's file, beside which rule files are looked for too
    given: the path of a .rule file, or a name, which goes before the header's

    Raises NoRule where the rule can't be had, and Trouble where a file can't be read.
    """
    if given is not None:
        return _of_path(given) or _of_name(given.removesuffix(".rule"), "as given", pattern_path)
    try:
        if header_name is None:
            raise NoRule("", Reason.NO_NAME, "the pattern has a rule of MCell's that no name says; give a .rule file")
        if header_name:
            return _of_name(header_name, "which the pattern names", pattern_path)
        return _of_name(LIFE, "since the pattern names none, as in Golly", pattern_path)
    except NoRule as fault:
        raise NoRule(fault.name, fault.reason, f"{pattern_path}: {fault}" if pattern_path else str(fault)) from fault


def rule_of_file(pattern_path: str, given: Optional[str] = None) -> Found:
    """The rule for a pattern's file, as `rule_named` finds it by the name in its header or by what is given."""
    return rule_named(pattern_of(text_of(pattern_path), pattern_path).rule, pattern_path, given)


def folders(pattern_path: Optional[str] = None) -> List[str]:
    """The folders in which rule files are looked for, in this order.

    They are the pattern's, the working one, those that the environment's GOLLY_RULES lists, the user's of Golly, and
    those in which systems have Golly's own.
    """
    found = [os.path.dirname(os.path.abspath(pattern_path))] if pattern_path else []
    found += [os.getcwd(), *filter(None, os.environ.get("GOLLY_RULES", "").split(os.pathsep))]
    return list(dict.fromkeys([*found, *_users_folders(), *SYSTEM_FOLDERS]))


def _users_folders() -> Iterator[str]:
    """Where Golly has the rule files of its user."""
    if sys.platform == "darwin":
        yield os.path.expanduser("~/Library/Application Support/Golly/Rules")
    if "APPDATA" in os.environ:
        yield os.path.join(os.environ["APPDATA"], "Golly", "Rules")
    yield os.path.expanduser("~/.golly/Rules")


def _of_path(given: str) -> Optional[Found]:
    """The rule of a file, where a path is given."""
    is_path = given.endswith(".rule") and os.path.basename(given) != given
    if not is_path and not os.path.isfile(given):
        return None
    return Found(os.path.basename(given).removesuffix(".rule"), text_of(given), given, f"rule {given}, as given")


def _of_name(name: str, why: str, pattern_path: Optional[str]) -> Found:
    """The rule of a name: made from it, or that of a file, or the one that people call so."""
    text = names.made(name)
    if text is not None:
        return Found(name, text.encode(), None, f"rule {name}, {why}: made from its name")
    path = _file_named(name, pattern_path)
    if path:
        return Found(name, text_of(path), path, f"rule {name}, {why}: {path}")
    if name.lower() not in CALLED:
        raise _no_file(name, pattern_path)
    return _of_name(CALLED[name.lower()], f"called {name}, {why}", None)


def _file_named(name: str, pattern_path: Optional[str]) -> Optional[str]:
    """The path of the first file NAME.rule in the folders, or else of the first that differs in capitals alone."""
    if os.path.basename(name) != name:
        return None
    file, places = f"{name}.rule", [it for it in folders(pattern_path) if os.path.isdir(it)]
    exact = (os.path.join(place, file) for place in places)
    like = (str(it) for place in places for it in sorted(Path(place).glob("*.rule")) if it.name.lower() == file.lower())
    return next((path for path in chain(exact, like) if os.path.isfile(path)), None)


def _no_file(name: str, pattern_path: Optional[str]) -> NoRule:
    """Why a rule wasn't found, with names that are like the one that was looked for."""
    there = [it for it in folders(pattern_path) if os.path.isdir(it)]
    files = [path.stem for folder in there for path in Path(folder).glob("*.rule")]
    known = {it.lower(): it for it in [*CALLED, *files]}
    like = [known[it] for it in difflib.get_close_matches(name.lower(), known, cutoff=0.8)]
    hint = f"; names like it are {', '.join(like)}" if like else ""
    told = f"no rule {name} is known, and there is no file {name}.rule in {', '.join(there)}{hint}. "
    return NoRule(name, Reason.NO_FILE, f"{told}Name a .rule file, or put its folder into GOLLY_RULES")
