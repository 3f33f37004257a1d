"""Tests of soups and of what becomes of patterns, against the built program. They run with the other tests, or alone by

    python3 -m unittest discover -s clients/python/tests -p test_fates.py
"""
import hashlib
import unittest

from desk import Desk, Malformed, Window
from desk.bounding_box import bounding_box
from desk.sweep.fates import MOST_PERIOD, Fate, fate, growth, pair, placed, populations
from desk.sweep.soups import Soup, rle, rows_of, states_of
from places import EXAMPLES, PROGRAM

LIFE = {
    "an empty plane": ("!", Fate("died")),
    "one cell": ("o!", Fate("died")),
    "a block": ("2o$2o!", Fate("still", 1)),
    "a blinker": ("3o!", Fate("periodic", 2)),
    "a pulsar": ("2b3o3b3o2b2$o4bobo4bo$o4bobo4bo$o4bobo4bo$2b3o3b3o2b2$2b3o3b3o2b$o4bobo4bo$o4bobo4bo$o4bobo4bo2$"
                 "2b3o3b3o!", Fate("periodic", 3)),
    "a row of ten": ("10o!", Fate("periodic", 15)),
    "a blinker and a row of ten": ("3o40b10o!", Fate("periodic", 30)),
    "a glider": ("bo$2bo$3o!", Fate("moving", 1)),
    "a glider and a blinker": ("bo$2bo$3o20$30b3o!", Fate("moving", 1)),
    "a gun": ("24bo$22bobo$12b2o6b2o12b2o$11bo3bo4b2o12b2o$2o8bo5bo3b2o$2o8bo3bob2o4bobo$10bo5bo7bo$11bo3bo$12b2o!",
              Fate("open")),
}


def loop(w, h):
    """A loop of wire with an electron, w by h cells, with straight corners cut off."""
    rows = [[0] * w for _ in range(h)]
    for x in range(1, w - 1):
        rows[0][x] = rows[-1][x] = 3
    for y in range(1, h - 1):
        rows[y][0] = rows[y][-1] = 3
    rows[0][1], rows[0][2] = 1, 2
    return "$".join("".join(".ABC"[it] for it in row) for row in rows)


class FateTest(unittest.TestCase):
    def setUp(self):
        self.desk = Desk(PROGRAM, workers=1)
        self.addCleanup(self.desk.close)

    def test_patterns_of_life(self):
        self.desk.lifelike("B3/S23")
        for name, (body, wanted) in LIFE.items():
            self.desk.start_text(f"x = 9, y = 9\n{body}\n")
            with self.subTest(name):
                self.assertEqual(fate(self.desk, 1000), wanted)

    def test_periods_are_those_of_all_texts(self):
        """Loops of 6 to 140 cells, whose electron comes again after as many generations."""
        self.desk.rule(str(EXAMPLES / "wire.rule"))
        seen = set()
        for side in (*range(4, 30, 5), 58, 59, 60, 61, 62, 69):
            self.desk.start_text(f"x = 9, y = 9\n{loop(side, 4)}!\n")
            texts = [placed(self.desk.show(self.desk.mark(it, "mc"))) for it in range(200, 350)]
            period = next(it for it in range(1, 150) if texts[-1] == texts[-1 - it])
            found = fate(self.desk, 349)
            self.assertEqual(found, Fate("periodic", period) if period <= MOST_PERIOD else Fate("moving", 1), side)
            seen.add(found.kind)
        self.assertEqual(seen, {"periodic", "moving"})

    def test_every_distance_lies_between_two_generations_that_are_looked_at(self):
        looked_at = {1000 - it for it in (*range(11), *range(11, 122, 11))}
        self.assertEqual(len(looked_at), 22)
        for distance in range(1, MOST_PERIOD + 1):
            late, early = pair(1000, distance)
            self.assertEqual(late - early, distance)
            self.assertLessEqual({late, early}, looked_at)

    def test_near_the_beginning(self):
        self.desk.lifelike("B3/S23")
        self.desk.start_text("x = 3, y = 1\n3o!\n")
        self.assertEqual([fate(self.desk, it).kind for it in (0, 10, 11, 13)], ["open", "open", "periodic", "periodic"])

    def test_boxes_and_populations(self):
        self.desk.lifelike("B3/S23")
        self.assertIsNone(bounding_box(self.desk, 0))
        self.desk.start_text("x = 3, y = 3\nbo$2bo$3o20$30b2o$30b2o!\n")
        found = [bounding_box(self.desk, it) for it in (0, 0, 40)]
        self.assertEqual(found[1:], [Window(0, 0, 32, 24), Window(10, 10, 22, 14)])
        self.assertEqual(growth(*found[1:], 40), -0.25)
        self.assertEqual((growth(None, found[1], 16), growth(None, None, 5)), (2.0, 0.0))
        self.assertEqual(populations(self.desk, [0, 4, 8]), [(0, 9), (4, 9), (8, 9)])
        self.desk.lifelike("B1/S012345678")
        self.desk.start_text("x = 1, y = 1\no!\n")
        wide = bounding_box(self.desk, 900)  # of more cells than an RLE view shows
        self.assertEqual(wide, Window(-900, -900, 1801, 1801))


class SoupTest(unittest.TestCase):
    def test_each_cell_is_as_it_is_said(self):
        """Byte by byte, as the head of soups.py says it."""
        soup = Soup(7, 5, 3, 0.4)
        found = hashlib.shake_256(b"soup 7").digest(60)
        for states in ((1,), (1, 2), (3, 1, 200)):
            rows = rows_of(soup, states)
            for y in range(3):
                for x in range(5):
                    u, v = (int.from_bytes(found[4 * (5 * y + x) + it:][:2], "big") for it in (0, 2))
                    self.assertEqual(rows[y][x], states[v * len(states) // 65536] if u < 0.4 * 65536 else 0)

    def test_a_soup_stays_what_it_is(self):
        self.assertEqual(rle(Soup(1, 8, 4, 0.5), (1,)), SOUP_1)
        self.assertTrue(any(it for row in rows_of(Soup(1, 9, 9, 1), (1,)) for it in row))
        self.assertFalse(any(it for row in rows_of(Soup(1, 9, 9, 0), (1,)) for it in row))
        with self.assertRaises(Malformed):
            rle(Soup(1, 8, 4, 0.5), ())

    def test_the_program_reads_each_state(self):
        soup, states = Soup(3, 32, 16, 0.8), (1, 2, 23, 24, 25, 48, 49, 255)
        with Desk(PROGRAM, workers=1) as desk:
            desk.lifelike("B3/S23/C256")
            desk.start_text(rle(soup, states))
            self.assertEqual(desk.show(desk.mark(0, Window(0, 0, 32, 16))), rows_of(soup, states))

    def test_the_number_of_states(self):
        for text, wanted in ((b"@TABLE\nn_states:8\n", 8), (b"@TREE\nnum_states=29\n", 29), (b"nothing", 2)):
            self.assertEqual(states_of(text), wanted)


SOUP_1 = "x = 8, y = 4\nbooobooo$\nbboobbbb$\noobbbbob$\noobbooob!\n"

if __name__ == "__main__":
    unittest.main()
