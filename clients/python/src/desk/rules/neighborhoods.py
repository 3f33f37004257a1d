"""Neighbourhoods of rule tables, and the maps of their symmetries.

The nine states at and around a cell are told in the order of `PLACES`. A line of a table lists some of them: the cell,
then its neighbours, which are taken as a circle. A map says for each neighbour which of the listed entries it puts
there, by numbers from 0.
"""
from __future__ import annotations

from functools import lru_cache
from itertools import permutations
from typing import Dict, NamedTuple, Tuple

PLACES = ("c", "n", "ne", "e", "se", "s", "sw", "w", "nw")
Entries = Tuple[int, ...]
PERMUTE = "permute"


class Map(NamedTuple):
    """A map of a symmetry by its name, and for each neighbour the number of the entry that it puts there."""

    name: str
    entries: Entries


class Symmetry(NamedTuple):
    """How many turns a symmetry has, and whether it has the reflection that keeps the first neighbour's place."""

    turns: int
    reflects: bool


# Of `permute` all orders are maps. Of two neighbours a turn is what swaps them.
SYMMETRIES: Dict[str, Symmetry] = {
    "none": Symmetry(1, False),
    "rotate2": Symmetry(2, False),
    "rotate3": Symmetry(3, False),
    "rotate4": Symmetry(4, False),
    "rotate6": Symmetry(6, False),
    "rotate8": Symmetry(8, False),
    "rotate4reflect": Symmetry(4, True),
    "rotate6reflect": Symmetry(6, True),
    "rotate8reflect": Symmetry(8, True),
    "reflect_horizontal": Symmetry(1, True),
    "reflect": Symmetry(2, False),
}


class Neighborhood(NamedTuple):
    """A neighbourhood by its name, with the neighbours that a line lists, and the names of its symmetries."""

    name: str
    neighbours: Tuple[str, ...]
    symmetries: Tuple[str, ...]

    @property
    def places(self) -> Tuple[int, ...]:
        """Where the cell and its neighbours stand among the nine states."""
        return (0, *map(PLACES.index, self.neighbours))


NEIGHBORHOODS = {it.name: it for it in (
    Neighborhood("vonNeumann", ("n", "e", "s", "w"),
                 ("none", "rotate4", "rotate4reflect", "reflect_horizontal", PERMUTE)),
    Neighborhood("Moore", PLACES[1:],
                 ("none", "rotate4", "rotate8", "rotate4reflect", "rotate8reflect", "reflect_horizontal", PERMUTE)),
    Neighborhood("hexagonal", ("n", "e", "se", "s", "w", "nw"),
                 ("none", "rotate2", "rotate3", "rotate6", "rotate6reflect", PERMUTE)),
    Neighborhood("oneDimensional", ("w", "e"), ("none", "reflect", PERMUTE)),
)}


@lru_cache(maxsize=None)
def maps_of(neighborhood: Neighborhood, symmetry: str) -> Tuple[Map, ...]:
    """The maps of a symmetry but `permute`, the one that changes nothing first."""
    turns, reflects = SYMMETRIES[symmetry]
    count = len(neighborhood.neighbours)
    steps = [turn * (count // turns) for turn in range(turns)]
    found = [Map(_turn_name(step, neighborhood), tuple((at + step) % count for at in range(count))) for step in steps]
    if reflects:
        found += [Map(_axis_name(step, neighborhood), tuple(-(at + step) % count for at in range(count)))
                  for step in steps]
    return tuple(found)


def order_named(neighborhood: Neighborhood, entries: Entries) -> Map:
    """An order of the entries as a map, named as a turn or a reflection where it is one."""
    return next((it for it in simple_maps(neighborhood) if it.entries == entries), Map("permuted", entries))


@lru_cache(maxsize=None)
def simple_maps(neighborhood: Neighborhood) -> Tuple[Map, ...]:
    """All turns and reflections of a neighbourhood, the one that changes nothing first."""
    count = len(neighborhood.neighbours)
    whole = {2: "reflect", 4: "rotate4reflect", 6: "rotate6reflect", 8: "rotate8reflect"}
    return maps_of(neighborhood, whole[count])


@lru_cache(maxsize=None)
def orders(neighborhood: Neighborhood, symmetry: str) -> Tuple[Entries, ...]:
    """What each map of a symmetry puts where; for `permute` these are up to 40,320."""
    if symmetry == PERMUTE:
        return tuple(permutations(range(len(neighborhood.neighbours))))
    return tuple(it.entries for it in maps_of(neighborhood, symmetry))


def greatest_arrangement(neighborhood: Neighborhood, symmetry: str, inputs: Tuple[int, ...]) -> Tuple[int, ...]:
    """Of the states that a symmetry takes for the same, a cell's and its neighbours', those with the greatest first.

    So all of them have one and the same.
    """
    first, rest = inputs[:1], inputs[1:]
    if symmetry == PERMUTE:
        return first + tuple(sorted(rest, reverse=True))
    return first + max(tuple([rest[it] for it in order]) for order in orders(neighborhood, symmetry))


def _turn_name(step: int, neighborhood: Neighborhood) -> str:
    """The name of the map that puts at each place the entry of the place so many steps further round."""
    count = len(neighborhood.neighbours)
    if step == 0:
        return "as written"
    if count == 2:
        return "mirrored: w and e are swapped"
    degrees = 360 * step // count
    if degrees == 180:
        return "turned by 180°"
    return f"turned {degrees}° counterclockwise" if degrees < 180 else f"turned {360 - degrees}° clockwise"


def _axis_name(step: int, neighborhood: Neighborhood) -> str:
    """The name of the reflection that puts at each place the entry of the place as far on the other side."""
    names = neighborhood.neighbours
    count = len(names)
    halves = -step % count  # how many half places the axis lies behind the first neighbour
    place, is_between = divmod(halves, 2)
    axis = f"between {names[place]} and {names[place + 1]}" if is_between else f"through {names[place]}"
    return f"mirrored at the axis {axis}"
