"""Tests of branches by the client, against the built program. They run with the other tests, or alone by

    python3 -m unittest discover -s clients/python/tests -p test_branches.py
"""
import tempfile
import unittest
from pathlib import Path

from desk import Desk, Refused, Settling, Window
from places import PROGRAM

X_RULE = (
    "@RULE X\n@TABLE\nn_states:2\nneighborhood:oneDimensional\nsymmetries:none\n0,1,0,1\n0,0,1,1\n1,0,0,0\n1,1,1,0\n"
)
ROW = Window(-4, 0, 9, 1)


class BranchTest(unittest.TestCase):
    def setUp(self):
        self.desk = Desk(PROGRAM)
        self.addCleanup(self.desk.close)
        with tempfile.TemporaryDirectory() as folder:
            path = Path(folder) / "x.rule"
            path.write_text(X_RULE, encoding="utf-8")
            self.desk.rule(str(path))
        self.desk.set([(0, 0, 1)])

    def test_a_branch_goes_its_own_way_from_its_fork(self):
        desk = self.desk
        branch = desk.branch(0, 2)
        self.assertEqual((branch, desk.revision), (1, 3))
        taken = desk.at(2, [(2, 0, 0)], on=branch)
        own, of_0 = desk.mark(4, ROW, on=branch), desk.mark(4, ROW)
        self.assertEqual(desk.settle(), Settling(0, 0))
        self.assertEqual(desk.show(own), [[1, 0, 0, 0, 1, 0, 0, 0, 0]])
        self.assertEqual(desk.show(of_0), [[1, 0, 0, 0, 0, 0, 0, 0, 1]])
        desk.change(taken, 3, [(1, 0, 0)])
        self.assertEqual(desk.show(own), [[1, 0, 0, 0, 1, 0, 1, 0, 1]])
        self.assertEqual(desk.show(of_0), [[1, 0, 0, 0, 0, 0, 0, 0, 1]])
        desk.drop(taken)
        self.assertEqual(desk.show(own), desk.show(of_0))

    def test_what_acts_before_the_fork_or_at_it_is_of_both(self):
        desk = self.desk
        branch = desk.branch(0, 2)
        bookmarks = [desk.mark(4, ROW, on=on) for on in (0, branch)]
        for generation, wanted in ((1, [1, 0, 1, 0, 1, 0, 1, 0, 0]), (2, [1, 0, 0, 1, 1, 0, 0, 1, 0])):
            intervention = desk.at(generation, [(1, 0, 0)] if generation == 1 else [(2, 0, 0), (1, 0, 1)])
            self.assertEqual([desk.show(it) for it in bookmarks], [[wanted], [wanted]], generation)
            desk.drop(intervention)
        desk.at(3, [(0, 0, 1)])
        self.assertEqual([desk.show(it)[0][5] for it in bookmarks], [1, 0])

    def test_a_branch_leaves_a_branch_and_is_removed(self):
        desk = self.desk
        first = desk.branch(0, 1)
        second = desk.branch(first, 3)
        self.assertEqual((first, second), (1, 2))
        counts = desk.mark(3, "counts", on=second)
        self.assertEqual(desk.show(counts), {1: 4})
        desk.at(1, [(-1, 0, 0), (1, 0, 0)], on=first)
        self.assertEqual(desk.show(counts), {})
        desk.unmark(counts)
        desk.unbranch(second)
        self.assertEqual(desk.branch(first, 1), 3)

    def test_refusals(self):
        desk = self.desk
        branch = desk.branch(0, 2)
        intervention, bookmark = desk.at(2, [(0, 0, 1)], on=branch), desk.mark(2, "counts", on=branch)
        cases = [
            (lambda: desk.branch(7, 2), 50, "NoSuchBranch"),
            (lambda: desk.at(2, [(0, 0, 1)], on=7), 50, "NoSuchBranch"),
            (lambda: desk.mark(2, "counts", on=7), 50, "NoSuchBranch"),
            (lambda: desk.unbranch(7), 50, "NoSuchBranch"),
            (lambda: desk.at(1, [(0, 0, 1)], on=branch), 51, "BeforeFork"),
            (lambda: desk.mark(1, "counts", on=branch), 51, "BeforeFork"),
            (lambda: desk.change(intervention, 1, [(0, 0, 1)]), 51, "BeforeFork"),
            (lambda: desk.move(bookmark, 1), 51, "BeforeFork"),
            (lambda: desk.branch(branch, 1), 51, "BeforeFork"),
            (lambda: desk.unbranch(branch), 52, "BranchInUse"),
            (lambda: desk.unbranch(0), 52, "BranchInUse"),
        ]
        for call, number, name in cases:
            with self.subTest(name), self.assertRaises(Refused) as caught:
                call()
            self.assertEqual((caught.exception.number, caught.exception.name), (number, name))
        for _ in range(63):
            desk.branch(0, 0)
        with self.assertRaises(Refused) as caught:
            desk.branch(0, 0)
        self.assertEqual((caught.exception.number, caught.exception.name), (53, "TooManyBranches"))
        self.assertEqual(desk.revision, 68)


if __name__ == "__main__":
    unittest.main()
