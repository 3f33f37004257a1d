"""Tests of how the model reads and writes patterns. Texts and cells are worked by hand."""
import sys
import unittest
from pathlib import Path

sys.path.insert(0, str(Path(__file__).resolve().parents[1]))

import macrocells  # noqa: E402
import rle  # noqa: E402
from refusals import Refused  # noqa: E402
from worlds import BeyondTheModel  # noqa: E402

FAR = 2**61


def refusal_of(read, text):
    """The number and the place of a text's refusal."""
    try:
        read(text.encode())
    except Refused as refused:
        return refused.fault.value, refused.place
    return None


class RunLengthEncoding(unittest.TestCase):
    def test_runs_of_many_states_are_read(self):
        for end in ("!", "", "!o", "\n7!"):
            found = rle.pattern_of(b"x = 3, y = 2, rule = T\n.A$2.pA" + end.encode())
            self.assertEqual(found, ({(1, 0): 1, (2, 1): 25}, b"T", 0))

    def test_a_comment_places_the_pattern(self):
        self.assertEqual(
            rle.pattern_of(b"#CXRLE Pos=-3,2 Gen=7\nx = 2, y = 1\n2A!"), ({(-3, 2): 1, (-2, 2): 1}, b"", 7)
        )
        self.assertEqual(rle.pattern_of(b"#CXRLE Pos = 1 ,2\n#CXRLE Pos=3\nx=1,y=1\no").world, {(1, 2): 1})
        self.assertEqual(rle.pattern_of(b"#CXRLE Gen=99999999999999999999\nx=1,y=1\n").generation, 2**64 - 1)

    def test_states_have_prefixes(self):
        for item, state in (("o", 1), ("A", 1), ("X", 24), ("pA", 25), ("pX", 48), ("yO", 255), ("p\n A", 25)):
            self.assertEqual(rle.pattern_of(f"x=1,y=1\n{item}!".encode()).world, {(0, 0): state})

    def test_what_is_refused(self):
        for text, number, place in (
            ("", 20, None),
            ("#C x = 1, y = 1\n", 20, None),
            ("o!\n", 20, None),
            ("x = 1\no!", 21, None),
            ("x = 1, y = -1\no!", 21, None),
            ("x = 1, y = 1, rules = T\no!", 21, None),
            ("x = 1, y = 1\nyP!", 22, 13),
            ("x = 1, y = 1\n3 p!", 22, 15),
            ("x = 1, y = 1\no\n#C\n!", 22, 15),
            ("x = 1, y = 1, rule = T:T30,20\no!", 23, None),
            ("x = 1, y = 1\n16777217o!", 24, None),
            ("x = 1, y = 1\n16777217oz!", 22, 22),
            (f"#CXRLE Pos={FAR - 1},0\nx = 2, y = 1\n2o!", 41, None),
        ):
            with self.subTest(text=text):
                self.assertEqual(refusal_of(rle.pattern_of, text), (number, place))
        self.assertIsNone(refusal_of(rle.pattern_of, f"#CXRLE Pos={FAR - 1},0\nx = 2, y = 1\no!"))

    def test_a_pattern_is_written(self):
        world = {(-2, 0): 1, (2, 0): 1}
        self.assertEqual(rle.text_of(world, b"X", 2, 2), b"#CXRLE Pos=-2,0 Gen=2\nx = 5, y = 1, rule = X\no3bo!\n")
        self.assertEqual(rle.text_of({}, b"still", 0, 2), b"#CXRLE Pos=0,0 Gen=0\nx = 0, y = 0, rule = still\n!\n")
        self.assertEqual(
            rle.text_of({(1, 0): 2, (0, 3): 25, (1, 3): 25}, b"T", 1, 26),
            b"#CXRLE Pos=0,0 Gen=1\nx = 2, y = 4, rule = T\n.B3$2pA!\n",
        )

    def test_lines_are_filled_by_whole_runs(self):
        row = {(2 * at, 0): 1 for at in range(36)}
        self.assertEqual(rle.text_of(row, b"X", 0, 2).splitlines()[2:], [b"ob" * 35, b"o!"])
        row[71, 0] = row.pop((70, 0))
        self.assertEqual(rle.text_of(row, b"X", 0, 2).splitlines()[2:], [b"ob" * 34 + b"o", b"2bo!"])


class Macrocells(unittest.TestCase):
    def test_nodes_are_read(self):
        found = macrocells.pattern_of(b"[M2]\n1 0 1 2 3\n2 0 1 0 0\n")
        self.assertEqual(found.world, {(1, -2): 1, (0, -1): 2, (1, -1): 3})
        self.assertEqual(macrocells.pattern_of(b"[M2]\n.*$\n").world, {(-3, -4): 1})
        self.assertEqual(macrocells.pattern_of(b"[M2] said\n#R a\n#G 5\n#R  b c \n#G x\n"), ({}, b"b c", 5))

    def test_what_is_refused(self):
        for text, number, place in (
            ("", 30, None),
            ("\n[M2]\n", 30, None),
            ("[M2]\n0 1 1 1 1\n", 31, 2),
            ("[M2]\n\n1 0 0 0 256\n", 31, 3),
            ("[M2]\n1 0 0 0\n", 31, 2),
            ("[M2]\n1 0\t0 0 0\n", 31, 2),
            ("[M2]\n.........$\n", 31, 2),
            ("[M2]\n$$$$$$$$*$\n", 31, 2),
            ("[M2]\nx\n", 31, 2),
            ("[M2]\n2 0 1 0 0\n", 32, 2),
            ("[M2]\n1 0 1 0 0\n3 0 1 0 0\n", 32, 3),
            ("[M2]\n63 0 0 0 0\n", 33, None),
            ("[M2]\n#R a:b\n", 23, None),
            ("[M2]\n#FRAME 1\n", 34, None),
        ):
            with self.subTest(text=text):
                self.assertEqual(refusal_of(macrocells.pattern_of, text), (number, place))
        self.assertIsNone(refusal_of(macrocells.pattern_of, "[M2]\n$$$$$$$$$$\n#G7\n#Rx\n"))

    def test_a_pattern_is_written(self):
        self.assertEqual(
            macrocells.text_of({(-2, 0): 1, (2, 0): 1}, b"X", 2),
            b"[M2] (experiment desk)\n#R X\n#G 2\n1 1 0 0 0\n2 0 1 0 0\n3 0 0 2 2\n",
        )
        self.assertEqual(
            macrocells.text_of({}, b"still", 0), b"[M2] (experiment desk)\n#R still\n#G 0\n1 0 0 0 0\n"
        )

    def test_what_is_written_is_read_as_the_same(self):
        world = {(x * x - 40, 7 * x - 100): x for x in range(1, 30)}
        self.assertEqual(macrocells.pattern_of(macrocells.text_of(world, b"R", 3)), (world, b"R", 3))
        self.assertEqual(rle.pattern_of(rle.text_of(world, b"R", 3, 30)), (world, b"R", 3))

    def test_a_pattern_of_too_many_cells_is_beyond_the_model(self):
        doubling = ["[M2]", "1 1 1 1 1"] + [f"{k} {k - 1} {k - 1} {k - 1} {k - 1}" for k in range(2, 62)]
        with self.assertRaises(BeyondTheModel):
            macrocells.pattern_of("\n".join(doubling).encode())


if __name__ == "__main__":
    unittest.main()
