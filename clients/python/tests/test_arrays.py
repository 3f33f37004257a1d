"""Tests of rows of states on their way into a document, against the built program. They run with the other tests, or
alone by

    python3 -m unittest discover -s clients/python/tests -p test_arrays.py
"""
import unittest

from desk import Desk, Malformed, Refused, Window
from places import PROGRAM

STILL = "@RULE All\n@TABLE\nn_states:256\nneighborhood:vonNeumann\nsymmetries:none\n"
# A line of Rule 90: each cell becomes live where exactly one of its two neighbours is.
X_RULE = (
    "@RULE X\n@TABLE\nn_states:2\nneighborhood:oneDimensional\nsymmetries:none\n0,1,0,1\n0,0,1,1\n1,0,0,0\n1,1,1,0\n"
)


class ArraysTest(unittest.TestCase):
    def setUp(self):
        self.desk = Desk(PROGRAM)
        self.addCleanup(self.desk.close)
        self.desk.rule_text(STILL)

    def seen(self, *window, at=0, on=0):
        return self.desk.show(self.desk.mark(at, Window(*window), on))

    def test_a_start_of_rows_has_its_left_and_top_cell_where_it_is_said(self):
        rows = [[0, 7, 7, 7], [255, 0, 0, 24], [25, 0, 0, 0]]
        self.assertEqual(self.desk.start(rows), 0)
        self.assertEqual(self.seen(0, 0, 4, 3), rows)
        self.desk.start(rows, -2, 5)
        self.assertEqual(self.seen(-2, 5, 4, 3), rows)
        self.assertEqual(self.desk.show(self.desk.mark(0, "counts")), {7: 3, 24: 1, 25: 1, 255: 1})
        self.desk.start([], 3, 3)
        self.assertEqual(self.desk.show(self.desk.mark(0, "counts")), {})

    def test_all_states_go_in(self):
        rows = [list(range(16 * it, 16 * it + 16)) for it in range(16)]
        self.desk.start(rows)
        self.assertEqual(self.seen(0, 0, 16, 16), rows)

    def test_interventions_of_rows_set_each_cell_of_them(self):
        desk, square = self.desk, [[1, 2], [0, 4]]
        desk.start([[9] * 4] * 4)
        branch = desk.branch(0, 1)
        once = desk.at(5, square, 1, 1)
        desk.at(2, [[3]], 0, 0, on=branch)
        self.assertEqual(self.seen(0, 0, 4, 4, at=5), [[9] * 4, [9, 1, 2, 9], [9, 0, 4, 9], [9] * 4])
        self.assertEqual(self.seen(0, 0, 2, 1, at=2, on=branch), [[3, 9]])
        desk.change(once, 5, [[8, 8]], x=-1, y=0)
        self.assertEqual(self.seen(-1, 0, 3, 2, at=5), [[8, 8, 9], [0, 9, 9]])
        desk.set([[5], [6]], 3, 3)
        self.assertEqual(self.seen(3, 2, 1, 3), [[9], [5], [6]])

    def test_rows_that_are_set_again_and_again(self):
        desk = self.desk
        desk.rule_text(X_RULE)
        source = desk.every(2, 2, 4, [[1]], 0, 0)
        rows = [self.seen(-2, 0, 5, 1, at=it)[0] for it in range(6)]
        empty = [0] * 5
        self.assertEqual(rows, [empty, empty, [0, 0, 1, 0, 0], [0, 1, 0, 1, 0], [1, 0, 1, 0, 1], [0, 0, 0, 0, 0]])
        desk.repeat(source, 1, 1, 1, [[1, 0, 1]], -1, 0)
        self.assertEqual(self.seen(-2, 0, 5, 1, at=1), [[0, 1, 0, 1, 0]])

    def test_behind_cells_the_next_argument_is_the_branch(self):
        desk = self.desk
        branch = desk.branch(0, 1)
        desk.at(5, [(0, 0, 7)], branch)
        desk.every(2, 6, 8, [(1, 0, 7)], branch)
        desk.at(9, [[7]], 2, 0, branch)
        desk.every(3, 9, 9, [[7]], 3, 0, branch)
        self.assertEqual([it.on for it in desk.list().interventions], [branch] * 4)
        self.assertEqual(self.seen(0, 0, 4, 1, at=9, on=branch), [[7, 7, 7, 7]])
        self.assertEqual(self.seen(0, 0, 4, 1, at=9), [[0, 0, 0, 0]])

    def test_what_is_no_array_of_states_is_malformed(self):
        desk, revision = self.desk, self.desk.revision
        for rows, word in (
            ([[1, 2], [3]], "one length"),
            ([[1, 256]], "is 256"),
            ([[1, -1]], "can't be negative"),
            ([[1.5]], "a state is 1.5"),
            ([1, 2], "rows of integers"),
            (7, "rows of integers"),
            ([[[1]]], "a state is"),
        ):
            for call in (lambda: desk.start(rows), lambda: desk.at(1, rows, 0, 0), lambda: desk.set(rows, 0, 0)):
                with self.subTest(rows), self.assertRaisesRegex(Malformed, word):
                    call()
        for place in ({"x": 1, "on": 0}, {"y": 1}):
            with self.assertRaisesRegex(Malformed, "x and y are given together"):
                desk.at(1, [(0, 0, 1)], **place)
        with self.assertRaisesRegex(Malformed, "x and y are given together"):
            desk.set([(0, 0, 1)], 1)
        with self.assertRaisesRegex(Malformed, "x is 'a'"):
            desk.start([[1]], "a", 0)
        self.assertEqual(desk.revision, revision)

    def test_cells_far_out_and_too_many_are_refused_by_the_program(self):
        with self.assertRaises(Refused) as caught:
            self.desk.start([[1, 1]], 2**60 - 1, 0)
        self.assertEqual(caught.exception.of, "an array")
        with self.assertRaises(Refused):
            self.desk.at(1, [[1] * 101] * 100, 0, 0)


if __name__ == "__main__":
    unittest.main()
