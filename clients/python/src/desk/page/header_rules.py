"""The rule that a pattern's header names, and whether it is the one in use."""
from __future__ import annotations

from functools import lru_cache
from typing import Optional

from ..errors import Trouble
from ..formats.header import rule_named_by
from ..rules.found import rule_named
from ..rules.names import is_same

from .document import File


def rule_of_name(name: str, beside: Optional[str] = None) -> File:
    """The rule of a name, as all commands find it, beside a pattern's file too. Trouble: there is none, with why."""
    found = rule_named(name, beside)
    return File("rule", found.name, found.text)


@lru_cache(maxsize=16)  # it is asked for whenever tabs are told of the experiment
def why_not(name: str, beside: Optional[str] = None) -> str:
    """Why the rule of a name can't be had, or an empty text where it can."""
    try:
        rule_of_name(name, beside)
    except Trouble as trouble:
        return str(trouble)
    return ""


def named_rule(pattern: Optional[File]) -> str:
    """The name of the rule in a pattern's header, or an empty one."""
    return rule_named_by(pattern.text[:1 << 16]) if pattern else ""


@lru_cache(maxsize=4)
def other_rule(rule: Optional[File], start: Optional[File]) -> str:
    """The name of the rule that a start is made for, where it isn't the rule in use; else an empty one."""
    named = named_rule(start)
    used = rule_named_by(rule.text) if rule else ""
    return "" if not named or is_same(named, used) else named
