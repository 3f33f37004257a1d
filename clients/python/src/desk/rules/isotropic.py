"""Isotropic rules by their names in Hensel's notation, as B2-a/S12, and the text of a .rule file that says the same.

Such a rule looks at how the live neighbours lie, whichever way the plane is turned or reflected. Where their number
doesn't say it all, a letter tells how they lie: 2a are two that touch, 2-a are two that don't, and 2 are any two. The
spellings are those of Golly's help on QuickLife and on Generations: B2-a/S12, B2-a_S12, S12/B2-a and 12/2-a. One more
number is that of the states, as in 12/2-a/3, where a cell that doesn't stay grows old before it is empty. With a V at
its end a rule looks at the four nearest neighbours alone, as B13/S012V, and with an H at six of the eight, as on a
hexagonal grid, as B2/S34H; these two have numbers without letters.
"""
from __future__ import annotations

import re
from typing import Dict, FrozenSet, Iterator, NamedTuple, Optional, Tuple

from ..errors import Malformed
from .limits import check
from .tree import MOORE, tree_text

RING = ("N", "NE", "E", "SE", "S", "SW", "W", "NW")
# For each letter one way in which so many live neighbours lie. Of 5, 6 or 7 it says how the other neighbours lie.
LAID = {
    1: {"c": "NE", "e": "N"},
    2: {"c": "NW NE", "e": "N E", "k": "NW E", "a": "NW N", "i": "N S", "n": "NW SE"},
    3: {
        "c": "NW NE SE", "e": "N E S", "k": "NW E S", "a": "N NE E", "i": "NW N NE", "n": "NW NE E", "y": "NW NE S",
        "q": "NW N SE", "j": "NW N E", "r": "NW N S",
    },
    4: {
        "c": "NW NE SE SW", "e": "N E S W", "k": "NW NE E S", "a": "NW N NE E", "i": "N NE SE S", "n": "NW N NE SE",
        "y": "NW NE SE S", "q": "NW E SE S", "j": "NW N E S", "r": "N NE E S", "t": "NW N NE S", "w": "NW N E SE",
        "z": "NW N SE S",
    },
}
LOOKED_AT = {"": frozenset(RING), "V": frozenset("NESW"), "H": frozenset(RING) - {"NE", "SW"}}  # by the name's end

KINDS_OF_ONE = r"[0-8]-?[cekainyqjrtwz]*"
PART, SOME = f"(?:{KINDS_OF_ONE})*", f"(?:{KINDS_OF_ONE})+"
STATES = r"(?:(?:[/_][CG]?|G)(?P<states>[0-9]{1,9}))?(?P<grid>[VH]?)"
FORMS = [re.compile(form + STATES, re.IGNORECASE) for form in (
    rf"B(?P<born>{PART})[/_]?S(?P<stays>{PART})",
    rf"S(?P<stays>{PART})[/_]?B(?P<born>{PART})",
    rf"(?P<stays>{PART})[/_](?P<born>{PART})",
    rf"B(?P<born>{SOME})[/_]?(?P<stays>)",
    rf"S(?P<stays>{SOME})[/_]?(?P<born>)",
)]

Kind = str  # how the live neighbours of a cell lie: their number, with a letter where there are several ways


class Isotropic(NamedTuple):
    """How the live neighbours of a cell lie when it is born and when it stays, and how many states there are.

    `grid` is empty where all eight neighbours are looked at, and else V or H.
    """

    born: FrozenSet[Kind]
    stays: FrozenSet[Kind]
    states: int
    grid: str

    @property
    def is_totalistic(self) -> bool:
        """Whether the number of live neighbours among all eight says it all, so that the rule is Life-like."""
        return not self.grid and not re.search("[a-z]", self.name())

    def name(self) -> str:
        """The shortest name, as Golly writes it: B2-a/S12, or 12/2-a/3 where there are more than two states."""
        born, stays = (_shortest(kinds, self.grid) for kinds in (self.born, self.stays))
        return (f"B{born}/S{stays}" if self.states == 2 else f"{stays}/{born}/{self.states}") + self.grid

    def exchanged(self) -> Isotropic:
        """The rule of two states under which the same happens with live and empty cells exchanged."""
        places = LOOKED_AT[self.grid]
        kinds = {kind_of(live, self.grid): kind_of(places - live, self.grid) for live in KINDS if live <= places}
        born, stays = (frozenset(kinds[it] for it in kinds if it not in had) for had in (self.stays, self.born))
        return self._replace(born=born, stays=stays)

    def next(self, state: int, kind: Kind) -> int:
        """The next state of a cell whose neighbours in state 1 lie so."""
        if state == 0:
            return int(kind in self.born)
        if state == 1 and kind in self.stays:
            return 1
        return (state + 1) % self.states

    def text(self) -> str:
        """The text of a .rule file."""
        places = LOOKED_AT[self.grid]

        def is_live(own: int, place: str, state: int) -> bool:
            return own < 2 and state == 1 and place in places  # a cell that grows old doesn't look

        def following(state: int, lives: Tuple[bool, ...]) -> int:
            live = frozenset(place for place, is_live in zip(MOORE, lives) if is_live)
            return self.next(state, kind_of(live, self.grid))

        return tree_text(self.name(), self.states, MOORE, is_live, following)


def kind_of(live: FrozenSet[str], grid: str = "") -> Kind:
    """How live neighbours lie, each named as in RING: 2a for N and NE. All of them are looked at on this grid."""
    return str(len(live)) if grid else KINDS[live]


def meaning(name: str) -> Optional[Isotropic]:
    """What a name says, or None where it has no form of such a name.

    Raises Malformed where it has the form and can't be a rule, as B5z/S, since five neighbours have no letter z.
    """
    found = next(filter(None, (form.fullmatch(name.strip()) for form in FORMS)), None)
    if not found or re.fullmatch("[0-9_]*", name.strip()):  # 12_3 may be the name of a file, as Golly has it
        return None
    grid = found["grid"].upper()
    born, stays = (frozenset(_kinds(found[part].lower(), grid, name)) for part in ("born", "stays"))
    return Isotropic(born, stays, int(found["states"] or 2), grid)


def rule_text(name: str) -> str:
    """The text of a .rule file for an isotropic rule. Raises Malformed where there is none."""
    rule = meaning(name)
    if rule is None:
        raise Malformed(f"{name!r} names no isotropic rule; such names are B2-a/S12, 12/2-a, 12/2-a/3 and B13/S012V")
    check(name, rule.states, "0" in rule.born)
    return rule.text()


def _ways(number: int, grid: str) -> Tuple[str, ...]:
    """The letters of the ways in which so many live neighbours lie; an empty one where there is but one way."""
    return ("",) if grid or number in (0, 8) else tuple(LAID[min(number, 8 - number)])


def _kinds(part: str, grid: str, name: str) -> Iterator[Kind]:
    """What a part of a name says, as 2-a3: 2c, 2e, 2k, 2i, 2n, 3c and so on."""
    said = re.findall(r"([0-8])(-?)([a-z]*)", part)
    if re.search("[a-z-]", part) and len({number for number, _, _ in said}) < len(said):
        raise Malformed(f"{name!r} has a number of neighbours twice, so it isn't clear what its letters say")
    for number, minus, letters in said:
        if int(number) > len(LOOKED_AT[grid]):
            raise Malformed(f"{name!r} has {number} neighbours, and with {grid} at its end there are fewer")
        ways = _ways(int(number), grid)
        wrong = "".join(sorted(set(letters) - set(ways)))
        if wrong:
            has = f"the letters {''.join(ways)} alone" if ways[0] else "no letters"
            raise Malformed(f"{name!r} has {number}{wrong}, and {number} neighbours have {has}")
        chosen = set(ways) - set(letters) if minus or not letters else set(letters)
        yield from (number + letter for letter in chosen)


def _shortest(kinds: FrozenSet[Kind], grid: str) -> str:
    """The shortest part of a name that says these kinds; of two that are as short the one without a minus."""
    found = ""
    for number in range(len(LOOKED_AT[grid]) + 1):
        ways = set(_ways(number, grid))
        here = {kind[1:] for kind in kinds if kind[0] == str(number)}
        if here:
            these, others = "".join(sorted(here)), "".join(sorted(ways - here))
            found += str(number) + min("" if here == ways else these, f"-{others}", key=len)
    return found


def _alike(live: FrozenSet[str]) -> Iterator[FrozenSet[str]]:
    """The neighbours that these become when the plane is turned or reflected."""
    places = [RING.index(place) for place in live]
    for turn in range(0, 8, 2):
        for sign in (1, -1):
            yield frozenset(RING[(sign * place + turn) % 8] for place in places)


def _all_kinds() -> Dict[FrozenSet[str], Kind]:
    """The kind of each way in which live neighbours can lie."""
    every = frozenset(RING)
    kinds = {frozenset(): "0", every: "8"}
    for number, letters in LAID.items():
        for letter, laid in letters.items():
            for live in _alike(frozenset(laid.split())):
                kinds[live] = f"{number}{letter}"
                if number < 4:
                    kinds[every - live] = f"{8 - number}{letter}"
    return kinds


KINDS = _all_kinds()
