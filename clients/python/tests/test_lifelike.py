"""Tests of Life-like rules, against the built program and a few lines that go cell by cell. They run with the other
tests, or alone by

    python3 -m unittest discover -s clients/python/tests -p test_lifelike.py
"""
import random
import unittest

from desk import Desk, Malformed, Window
from desk.rules.lifelike import is_same_rule, meaning, rule_text
from places import PROGRAM

SIDE = 40


def stepped(rows, born, stays, states):
    """The rows a generation later; what is outside is empty."""
    def live(x, y):
        near = [(x + a, y + b) for a in (-1, 0, 1) for b in (-1, 0, 1) if a or b]
        return str(sum(0 <= a < SIDE and 0 <= b < SIDE and rows[b][a] == 1 for a, b in near))

    def after(x, y):
        state = rows[y][x]
        if state == 0 and live(x, y) in born or state == 1 and live(x, y) in stays:
            return 1
        return (state + 1) % states if state else 0

    return [[after(x, y) for x in range(SIDE)] for y in range(SIDE)]


class LifeLikeTest(unittest.TestCase):
    def test_each_rule_goes_as_it_says(self):
        cases = [
            ("B3/S23", "3", "23", 2),
            ("s23/b36", "36", "23", 2),
            ("23/3", "3", "23", 2),
            ("B2/S", "2", "", 2),
            ("b3678s34678", "3678", "34678", 2),
            ("B1/S012345678", "1", "012345678", 2),
            ("B8/S8", "8", "8", 2),
            ("B2/S/C3", "2", "", 3),
            ("/2/3", "2", "", 3),
            ("345/2/4", "2", "345", 4),
            ("S345/B2/C4", "2", "345", 4),
            ("B2/S345/G7", "2", "345", 7),
            ("3467/25/25", "25", "3467", 25),
            ("B3/S23/C256", "3", "23", 256),
        ]
        for name, born, stays, states in cases:
            with self.subTest(name), Desk(PROGRAM) as desk:
                desk.lifelike(name)
                chosen = random.Random(name)
                rows = [[0] * SIDE for _ in range(SIDE)]
                for x in range(14, 26):
                    for y in range(14, 26):
                        rows[y][x] = chosen.choice((0, 1, chosen.randrange(states)))
                cells = [(x, y, state) for y, row in enumerate(rows) for x, state in enumerate(row) if state]
                desk.set(cells)
                for generation in range(1, 9):
                    rows = stepped(rows, born, stays, states)
                    shown = desk.show(desk.mark(generation, Window(0, 0, SIDE, SIDE)))
                    self.assertEqual(shown, rows, generation)

    def test_patterns_get_the_name(self):
        with Desk(PROGRAM) as desk:
            desk.lifelike("345/2/4")
            self.assertIn("rule = B2/S345/C4\n", desk.show(desk.mark(0, "rle")))
            self.assertEqual(desk.revision, 2)

    def test_letters_say_how_neighbours_lie_as_in_golly(self):
        for name in ("B2/S3c4", "b2-a/s12", "B2/S34H"):
            with self.subTest(name), Desk(PROGRAM) as desk, Desk(PROGRAM) as other:
                desk.lifelike(name)
                other.rule(name)
                self.assertEqual(desk.script(), other.script())
                desk.set([(0, 0, 1)])
                self.assertEqual(desk.show(desk.mark(0, "counts")), {1: 1})
        self.assertFalse(is_same_rule("B2/S3c4", "B2/S3/C4"))
        self.assertTrue(is_same_rule("b2/s3/c4", "B2/S3C4"))

    def test_what_is_no_such_rule(self):
        cases = [("WireWorld", "names no"), ("B9/S23", "names no"), ("B2a/S12", "names no"), ("B3/S23V", "names no"),
                 ("B3/S23:T30,20", "names no"), ("3", "names no"), ("", "names no"), ("B3/S23\nend", "names no"),
                 ("B2/S3c4", "names no"), ("345/2/1", "has 1 states"), ("345/2/257", "2 to 256"), ("B03/S23", "B0"),
                 ("23/03", "B0")]
        for name, told in cases:
            with self.subTest(name), self.assertRaisesRegex(Malformed, told):
                rule_text(name)

    def test_spellings_of_one_rule(self):
        same = [("B3/S23", "b3s23"), ("B3/S23", "23/3"), ("life", "S23/B3"), ("Conway's Life", "Life"),
                ("Brian's Brain", "B2/S/C3"), ("Star Wars", "345/2/4"), ("B32/S3", "B23/S3"),
                ("WireWorld", "Wireworld"), ("/2/3", "S/B2/3")]
        for one, other in same:
            self.assertTrue(is_same_rule(one, other) and is_same_rule(other, one), (one, other))
        for one, other in [("B3/S23", "B36/S23"), ("Life", "WireWorld"), ("B3/S23", "B3/S23/C3"), ("23/3", "3/23")]:
            self.assertFalse(is_same_rule(one, other), (one, other))
        self.assertEqual(meaning("32/3/2").name(), "B3/S23")


if __name__ == "__main__":
    unittest.main()
