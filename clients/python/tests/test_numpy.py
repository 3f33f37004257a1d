"""Tests of arrays of numpy, on their way into a document and out of it. They run with the other tests, or alone by

    python3 -m unittest discover -s clients/python/tests -p test_numpy.py
"""
import unittest

from desk import Desk, Malformed, Trouble, Window
from places import EXAMPLES, PROGRAM
from test_page_with import here_or_elsewhere

try:
    import numpy
except ImportError:
    numpy = None

STILL = "@RULE All\n@TABLE\nn_states:256\nneighborhood:vonNeumann\nsymmetries:none\n"


def load_tests(loader, tests, pattern):
    return here_or_elsewhere(tests, ["numpy"], __file__)


class NumpyTest(unittest.TestCase):
    def setUp(self):
        self.desk = Desk(PROGRAM)
        self.addCleanup(self.desk.close)

    def test_arrays_are_taken(self):
        desk, states = self.desk, numpy.arange(6).reshape(2, 3)
        desk.rule_text(STILL)

        def seen(*window):
            return desk.mark(0, Window(*window))

        for array in (states, states.astype(numpy.uint8), states.T, states[:, ::-1], states > 2):
            wanted = array.astype(int).tolist()
            with self.subTest(wanted):
                desk.start(array, 1, 1)
                self.assertEqual(desk.show(seen(1, 1, len(wanted[0]), len(wanted))), wanted)
                desk.start([])
                desk.set(array, 1, 1)
                shown = desk.show(seen(1, 1, len(wanted[0]), len(wanted)), as_array=True)
                self.assertEqual(shown.tolist(), wanted)
        for array, word in ((states / 2, "has to be an integer"), (numpy.arange(3), "rows"), (states[None], "a state")):
            with self.subTest(word), self.assertRaisesRegex(Malformed, word):
                desk.start(array)
        desk.set(numpy.array([[7, 7, 1], [8, 7, 2]]))  # without a place these are two cells
        self.assertEqual(desk.show(seen(7, 7, 2, 1)), [[1, 2]])

    def test_arrays_are_shown(self):
        desk = self.desk
        desk.rule(str(EXAMPLES / "brain.rule"))
        desk.start(str(EXAMPLES / "brain.rle"))
        window, counts, text = (desk.mark(2, it) for it in (Window(-2, -2, 6, 5), "counts", "rle"))
        rows, numbers = desk.show(window), desk.show(counts)
        for call in (desk.show, desk.peek):
            found = call(window, as_array=True)
            self.assertEqual((found.shape, str(found.dtype), found.tolist()), ((5, 6), "uint8", rows))
            found = call(counts, as_array=True)
            self.assertEqual((str(found.dtype), dict(found.tolist())), ("int64", numbers))
            with self.assertRaisesRegex(Trouble, "no array"):
                call(text, as_array=True)
        desk.start(str(EXAMPLES / "doubling.mc"))
        self.assertEqual(desk.show(desk.mark(0, "counts"), as_array=True).tolist(), [[1, 2**122]])
        desk.set([(it, 0, 0) for it in range(3)])
        with Desk(PROGRAM) as fresh:
            self.assertEqual(fresh.show(fresh.mark(0, "counts"), as_array=True).shape, (0, 2))


if __name__ == "__main__":
    unittest.main()
