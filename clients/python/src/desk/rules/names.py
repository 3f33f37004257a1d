"""Rules that a name says by itself, as Golly understands it: their texts, or why there is none."""
from __future__ import annotations

import re
from enum import Enum
from typing import Callable, Dict, Optional

from ..errors import Malformed, Trouble
from . import hutton, isotropic, lifelike, mapped, neumann, nobili
from .isotropic import Isotropic

AUTOMATA: Dict[str, Callable[[], str]] = {
    "jvn29": neumann.rule_text, "jvn-29": neumann.rule_text, "nobili32": nobili.rule_text, "hutton32": hutton.rule_text,
}
# What people call rules, without capitals: the named rules that Golly comes with, and those of its help.
CALLED = {
    "life": "B3/S23", "conway's life": "B3/S23", "3-4 life": "B34/S34", "highlife": "B36/S23",
    "antilife": "B0123478/S01234678", "life without death": "B3/S012345678", "plow world": "B378/S012345678",
    "day and night": "B3678/S34678", "day & night": "B3678/S34678", "diamoeba": "B35678/S5678", "longlife": "B345/S5",
    "seeds": "B2/S", "persian rug": "B234/S", "serviettes": "B234/S", "replicator": "B1357/S1357",
    "fredkin": "B1357/S02468", "morley": "B368/S245", "just friends": "B2-a/S12", "wolfram 22": "W22",
    "wolfram 30": "W30", "wolfram 110": "W110", "banners": "2367/3457/5", "bloomerang": "234/34678/24",
    "brian's brain": "/2/3", "caterpillars": "124567/378/4", "cooties": "23/2/8", "fireworks": "2/13/21",
    "frogs": "12/34/3", "lava": "12345/45678/8", "lines": "012345/458/3", "star wars": "345/2/4", "sticks": "3456/2/6",
    "transers": "345/26/5", "xtasy": "1456/2356/16",
}
GRIDS = {"P": "a plane with edges", "T": "a torus", "K": "a Klein bottle", "C": "a cross-surface", "S": "a sphere"}
LARGER_THAN_LIFE = re.compile(r"R([0-9]{1,9}),C[0-9]+,", re.IGNORECASE)
ELEMENTARY = re.compile(r"W[0-9]{1,3}", re.IGNORECASE)


class Reason(Enum):
    """Why a rule that is named can't be had."""

    BOUNDED = "bounded grid"
    LARGER_THAN_LIFE = "Larger than Life"
    BORN_OF_NOTHING = "B0"
    ONE_DIMENSIONAL = "one-dimensional"
    UNCLEAR = "its name can be read in two ways, or in none"
    NO_NAME = "a kind of MCell's that has no name"
    NO_FILE = "no file of this name"


class NoRule(Trouble):
    """A rule that is named can't be had: `name` is its name, `reason` says why, and the text what can be done too."""

    def __init__(self, name: str, reason: Reason, text: str) -> None:
        self.name, self.reason = name, reason
        super().__init__("".join(sign if sign.isprintable() else "\ufffd" for sign in text))


def made(name: str) -> Optional[str]:
    """The text of a .rule file that is made from a rule's name, or None where a name alone doesn't say the rule.

    Raises NoRule where Golly understands the name, and the desk has no rules of its kind.
    """
    _refuse_foreign(name)
    automaton = AUTOMATA.get(name.lower())
    if automaton:
        return automaton()
    try:
        return _made_by_notation(name)
    except Malformed as fault:
        raise NoRule(name, Reason.UNCLEAR, f"the rule can't be made: {fault}") from fault


def counting(name: str) -> str:
    """The text of a .rule file for a Life-like rule, or for an isotropic one, whose name says how neighbours lie.

    Raises Malformed where there is none.
    """
    if lifelike.meaning(name) is None and isotropic.meaning(name):
        return isotropic.rule_text(name)
    return lifelike.rule_text(name)


def is_same(one: str, other: str) -> bool:
    """Whether two names are of one rule, as far as is known."""
    return _canonical(one) == _canonical(other)


def _made_by_notation(name: str) -> Optional[str]:
    mapping, like = mapped.meaning(name), lifelike.meaning(name)
    if mapping and mapping.is_live[0]:
        raise _born_of_nothing(name)
    if mapping:
        return mapped.rule_text(name)
    if like and re.search("[0-8]C", name):
        raise NoRule(name, Reason.UNCLEAR, f"in the rule's name {name} the C can come before the number of states, or "
                     f"say how neighbours lie, as Golly takes it; write {like.name()}, or a small c")
    rule = isotropic.meaning(name)
    if rule and "0" in rule.born:
        raise _born_of_nothing(name, rule)
    if rule and rule.is_totalistic:
        return lifelike.rule_text(rule.name())
    return isotropic.rule_text(name) if rule else None


def _refuse_foreign(name: str) -> None:
    """Raises NoRule for what Golly has other algorithms for."""
    reach = LARGER_THAN_LIFE.match(name)
    if reach:
        far = f"{reach[1]} cells" if int(reach[1]) > 1 else "1 cell"
        raise NoRule(name, Reason.LARGER_THAN_LIFE, f"the rule {name} is one of Larger than Life, where a cell counts "
                     f"what is up to {far} away; such rules aren't made here, and Golly runs it")
    inner, colon, grid = name.partition(":")
    if colon:
        kind = GRIDS.get(grid[:1].upper(), "a grid with edges")
        raise NoRule(name, Reason.BOUNDED, f"the rule {name} is for {kind}, and the plane of the desk is unbounded; "
                     f"where that makes no difference, let the pattern's header name {inner} alone")
    if ELEMENTARY.fullmatch(name):
        raise NoRule(name, Reason.ONE_DIMENSIONAL, f"the rule {name} is one of Wolfram's one-dimensional rules, which "
                     "aren't made from their names; a table in a .rule file can say it")


def _born_of_nothing(name: str, rule: Optional[Isotropic] = None) -> NoRule:
    exchanged = rule.exchanged() if rule and rule.states == 2 else None
    helps = "Golly runs it"
    if exchanged and "0" not in exchanged.born:
        helps = f"with live and empty cells exchanged it is the rule {exchanged.name()}, which is what Golly runs"
    return NoRule(name, Reason.BORN_OF_NOTHING, f"under the rule {name} cells are born without a live neighbour (B0), "
                  f"and the plane of the desk has to stay empty; {helps}")


def _canonical(name: str) -> str:
    """One name for all spellings of a rule that are known."""
    name = CALLED.get(name.strip().lower(), name.strip())
    try:
        rule = isotropic.meaning(name)
    except Malformed:
        rule = None
    return rule.name() if rule else name.lower()
