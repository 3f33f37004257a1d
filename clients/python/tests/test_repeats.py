"""Tests of interventions that repeat, against the built program. They run with the other tests, or alone by

    python3 -m unittest discover -s clients/python/tests -p test_repeats.py
"""
import unittest

from desk import Desk, Refused, Settling, Window
from places import PROGRAM

CELL = Window(0, 0, 1, 1)


class RepeatTest(unittest.TestCase):
    """Under the rule `still` a cell keeps its state until it is set."""

    def setUp(self):
        self.desk = Desk(PROGRAM)
        self.addCleanup(self.desk.close)

    def states(self, bookmarks):
        return [self.desk.show(it)[0][0] for it in bookmarks]

    def test_it_acts_from_the_first_generation_to_the_last(self):
        desk = self.desk
        bookmarks = [desk.mark(generation, CELL) for generation in range(8)]
        on = desk.every(3, 1, 6, [(0, 0, 1)])
        off = desk.every(3, 2, 6, [(0, 0, 0)])
        self.assertEqual((on, off, desk.revision), (1, 2, 10))
        self.assertEqual(desk.settle(), Settling(0, 0))
        self.assertEqual(self.states(bookmarks), [0, 1, 0, 0, 1, 0, 0, 0])
        desk.repeat(off, 4, 3, 7, [(0, 0, 0)])
        self.assertEqual(self.states(bookmarks), [0, 1, 1, 0, 1, 1, 1, 0])
        desk.change(on, 6, [(0, 0, 1)])
        self.assertEqual(self.states(bookmarks), [0, 0, 0, 0, 0, 0, 1, 0])
        desk.drop(off)
        self.assertEqual(self.states(bookmarks), [0, 0, 0, 0, 0, 0, 1, 1])

    def test_a_branch_has_its_own(self):
        desk = self.desk
        branch = desk.branch(0, 2)
        desk.every(1, 3, 2**60, [(0, 0, 1)], on=branch)
        self.assertEqual(self.states([desk.mark(5, CELL), desk.mark(5, CELL, on=branch)]), [0, 1])
        with self.assertRaises(Refused) as refused:
            desk.every(1, 1, 5, [(0, 0, 1)], on=branch)
        self.assertEqual((refused.exception.number, refused.exception.name), (51, "BeforeFork"))

    def test_bad_ones_and_too_many_marks_are_refused(self):
        desk = self.desk
        for distance, first, last in ((0, 1, 5), (2, 6, 2)):
            with self.assertRaises(Refused) as refused:
                desk.every(distance, first, last, [(0, 0, 1)])
            self.assertEqual((refused.exception.number, refused.exception.name), (55, "BadRepeat"))
        repeat = desk.every(1, 0, 2**60, [(0, 0, 1)])
        desk.mark(8191, "counts")
        for edit in (
            lambda: desk.mark(8192, "counts"),
            lambda: desk.branch(0, 8192),
            lambda: desk.every(8191, 0, 8191, [(0, 0, 1)]),
        ):
            with self.assertRaises(Refused) as refused:
                edit()
            self.assertEqual((refused.exception.number, refused.exception.name), (54, "TooManyMarks"))
        desk.repeat(repeat, 2, 0, 2**60, [(0, 0, 1)])
        self.assertEqual(desk.show(desk.mark(8192, "counts")), {1: 1})


if __name__ == "__main__":
    unittest.main()
