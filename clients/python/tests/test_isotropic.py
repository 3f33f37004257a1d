"""Tests of isotropic rules: by the tables of their notation, by Golly's help, and beside bgolly where it is there."""
import random
import unittest
from collections import Counter
from itertools import product

from beside_golly import IS_HERE, cells_after, cells_of, rle_of, tree_of
from desk import Desk, Malformed
from desk.rules.isotropic import KINDS, kind_of, meaning, rule_text
from places import PROGRAM

ASKED = ("NW", "NE", "SW", "SE", "N", "W", "E", "S", "C")  # the order in which a tree asks
SQUARE = ("NW", "N", "NE", "W", "C", "E", "SW", "S", "SE")
# How live neighbours lie for each letter: three rows from above, in which x is the cell itself.
SHOWN = """
1c ..o/.x./...  1e .../.xo/...
2c o../.x./o..  2e .o./ox./...  2k .o./.x./..o  2a oo./.x./...  2i .../oxo/...  2n ..o/.x./o..
3c o.o/.x./o..  3e .o./oxo/...  3k .o./ox./..o  3a oo./ox./...  3i o../ox./o..  3n oo./.x./o..  3y o.o/.x./.o.
3q oo./.x./..o  3j .oo/ox./...  3r oo./.x./.o.
4c o.o/.x./o.o  4e .o./oxo/.o.  4k o.o/.xo/.o.  4a ooo/.xo/...  4i .../oxo/o.o  4n ooo/.x./..o  4y o.o/.x./.oo
4q o../.xo/.oo  4j oo./.xo/.o.  4r .oo/.xo/.o.  4t ooo/.x./.o.  4w oo./.xo/..o  4z oo./.x./.oo
""".split()
PITCH = 4  # between the middles of neighbourhoods that don't touch
ALL = [dict(zip(SQUARE, states)) for states in product((0, 1), repeat=9)]


def all_neighbourhoods():
    """Rows with each neighbourhood of two states, and the middles of them."""
    rows, middles = [[0] * 32 * PITCH for _ in range(16 * PITCH)], []
    for number, cells in enumerate(ALL):
        x, y = 1 + PITCH * (number % 32), 1 + PITCH * (number // 32)
        middles.append((x, y))
        for place, state in cells.items():
            rows[y + place.count("S") - place.count("N")][x + place.count("E") - place.count("W")] = state
    return rows, middles


def soup(chosen, states, side=24):
    return [[chosen.choice((0, 0, 1, 1, chosen.randrange(states))) for _ in range(side)] for _ in range(side)]


def some_part(chosen, least):
    """A part of a name, from so many neighbours on."""
    letters = {number: "".join({kind[1:] for kind in KINDS.values() if kind[0] == str(number)}) for number in range(9)}
    said = ""
    for number in range(least, 9):
        if chosen.random() < 0.5:
            some = "".join(chosen.sample(sorted(letters[number]), chosen.randint(0, len(letters[number]))))
            said += str(number) + (chosen.choice(("", "-")) if some else "") + some
    return said


class IsotropicTest(unittest.TestCase):
    def test_live_neighbours_lie_as_their_letter_shows(self):
        every = frozenset(SQUARE) - {"C"}
        for kind, shown in zip(SHOWN[::2], SHOWN[1::2]):
            rows = [list(row) for row in shown.split("/")]
            for _ in range(2):
                rows = [row[::-1] for row in rows]
                for _ in range(4):
                    rows = [list(column) for column in zip(*rows[::-1])]
                    live = frozenset(place for place, sign in zip(SQUARE, sum(rows, [])) if sign == "o")
                    self.assertEqual(kind_of(live), kind, shown)
                    if kind[0] != "4":
                        self.assertEqual(kind_of(every - live), f"{8 - int(kind[0])}{kind[1]}", shown)

    def test_there_are_51_ways_to_lie(self):
        ways = Counter(kind[0] for kind in set(KINDS.values()))
        self.assertEqual("".join(f"{ways[str(number)]} " for number in range(9)), "1 2 6 10 13 10 6 2 1 ")
        self.assertEqual(len(KINDS), 256)

    def test_a_tree_says_what_the_name_says(self):
        for name, born, stays in (
            ("B2-a3i/S4nt8", {"2c", "2e", "2k", "2i", "2n", "3i"}, {"4n", "4t", "8"}),
            ("1e_3-qr", {"3c", "3e", "3k", "3a", "3i", "3n", "3y", "3j"}, {"1e"}),
        ):
            following = tree_of(rule_text(name))
            for cells in ALL:
                kind = kind_of(frozenset(place for place, state in cells.items() if state and place != "C"))
                wanted = kind in (stays if cells["C"] else born)
                self.assertEqual(following(*(cells[place] for place in ASKED)), wanted, (name, cells))

    def test_cells_grow_old(self):
        following = tree_of(rule_text("1e/2a/4"))
        beside = {"N": 1, "NE": 1}
        for state, cells, wanted in ((0, beside, 1), (1, beside, 2), (1, {"N": 1}, 1), (2, {"N": 1}, 3), (3, beside, 0),
                                     (0, {"N": 1, "NE": 2}, 0), (1, {"N": 1, "E": 3}, 1)):
            around = {**dict.fromkeys(ASKED, 0), **cells, "C": state}
            self.assertEqual(following(*(around[place] for place in ASKED)), wanted, (state, cells))

    def test_six_or_four_neighbours_are_looked_at(self):
        for name, places in (("B13/S0V", "N E S W"), ("B13/S0H", "N E S W NW SE")):
            following = tree_of(rule_text(name))
            for cells in ALL:
                live = sum(cells[place] for place in places.split())
                wanted = live == 0 if cells["C"] else live in (1, 3)
                self.assertEqual(following(*(cells[place] for place in ASKED)), wanted, (name, cells))

    def test_names_are_shortened_as_golly_does(self):
        for name, wanted in (
            ("B2cekin/S12", "B2-a/S12"), ("B2nic/S", "B2cin/S"), ("B2ceikn/S", "B2-a/S"),
            ("B4-qjrtwz/S", "B4aceikny/S"), ("B2aceikn3/S", "B23/S"), ("B2-3/S", "B23/S"), ("B2-aceikn3/S", "B3/S"),
            ("S12/B2-a", "B2-a/S12"), ("12/2-a", "B2-a/S12"), ("12_2-a", "B2-a/S12"), ("b2-a_s12", "B2-a/S12"),
            ("B2-aS12", "B2-a/S12"), ("B2CE", "B2ce/S"), ("S3a", "B/S3a"), ("B2/S3c4", "B2/S3c4"),
            ("B2-a/S12/3", "12/2-a/3"), ("/2nic/8", "/2cin/8"), ("012/13V", "B13/S012V"), ("345/2/4h", "345/2/4H"),
        ):
            self.assertEqual(meaning(name).name(), wanted, name)

    def test_what_has_no_such_form(self):
        for name in ("", "B", "S", "23", "12_3", "WireWorld", "B9/S", "B2a-c/S", "B3/S23:T9,9", "B2x/S", "JvN29"):
            self.assertIsNone(meaning(name), name)
            with self.assertRaisesRegex(Malformed, "names no isotropic rule"):
                rule_text(name)

    def test_what_can_be_no_rule(self):
        for name, told in (
            ("B1a/S", "1a, and 1 neighbours have the letters ce alone"), ("B5z/S", "5z"), ("B0c/S", "no letters"),
            ("B2a/S3V", "no letters"), ("B5/S3V", "5 neighbours"), ("B7/S3H", "7 neighbours"), ("B2a2/S", "twice"),
            ("12/2-a/1", "has 1 states"), ("12/2-a/257", "2 to 256"), ("B02a/S", "B0"),
        ):
            with self.assertRaisesRegex(Malformed, told):
                rule_text(name)

    def test_the_same_happens_with_live_and_empty_exchanged(self):
        for name, wanted in (("B0123478/S01234678", "B3/S23"), ("B3/S23", "B0123478/S01234678"),
                             ("B04/S234V", "B34/S123V")):
            self.assertEqual(meaning(name).exchanged().name(), wanted)
        # An empty cell is live in the other rule, and its live neighbours are those that are empty here.
        born, exchanged = meaning("B2a4n/S5j").born, meaning("B2a4n/S5j").exchanged()
        for live, kind in KINDS.items():
            others = kind_of(frozenset(ASKED[:8]) - live)
            self.assertEqual(kind in born, others not in exchanged.stays, kind)


@unittest.skipUnless(IS_HERE, "Golly isn't installed")
class BesideGollyTest(unittest.TestCase):
    def test_each_letter_means_what_golly_means(self):
        rows, middles = all_neighbourhoods()
        for kind in sorted(set(KINDS.values()) - {"0"}):
            for name in (f"B{kind}/S", f"B/S{kind}"):
                following = tree_of(rule_text(name))
                live = cells_after(rle_of(rows, name), 1, "HashLife")
                for middle, cells in zip(middles, ALL):
                    ours = following(*(cells[place] for place in ASKED))
                    self.assertEqual(ours, live.get(middle, 0), (name, cells))

    def test_soups_go_as_in_golly(self):
        chosen = random.Random(90)
        names = [(f"B{some_part(chosen, 1)}/S{some_part(chosen, 0)}", 2) for _ in range(12)]
        names += [(f"{some_part(chosen, 0)}/{some_part(chosen, 1)}/{states}", states) for states in (2, 3, 5, 9, 40)]
        names += [("B13/S012V", 2), ("B2/S013V", 2), ("B245/S3H", 2), ("12/1234/5H", 5), ("012/13/4V", 4)]
        for name, states in names:
            rows, engine = soup(chosen, states), "HashLife" if name.startswith("B") else "Generations"
            with self.subTest(name), Desk(PROGRAM) as desk:
                desk.rule_text(rule_text(name))
                desk.start_text(rle_of(rows, meaning(name).name()))
                for generation in (1, 2, 7):
                    ours = cells_of(desk.show(desk.mark(generation, "mc")))
                    self.assertEqual(ours, cells_after(rle_of(rows, name), generation, engine), generation)


if __name__ == "__main__":
    unittest.main()
