"""Tests of Life 1.05 and 1.06: by hand, through the program, and beside bgolly where it is there."""
import unittest
from pathlib import Path

from beside_golly import GOLLY, IS_HERE, cells_after, cells_of
from desk import Desk, Trouble
from desk.formats.lif import is_lif, rle_of, rule_named
from desk.formats.mcell import WIREWORLD
from desk.formats.pattern import pattern_of
from places import PROGRAM

BLOCKS = b"#Life 1.05\r\n#D two blocks\r\n#R 23/36\r\n#P -2 -3\r\n.*\r\n***\r\n#P 5 4\r\n**.*\r\n\r\n..*\r\n"
CELLS = {(-1, -3), (-2, -2), (-1, -2), (0, -2), (5, 4), (6, 4), (8, 4), (7, 5)}
ONE_A_LINE = b"#Life 1.06\n0 0\n-3 7\n\n2 -1\n0 0\n"


def cells_in_desk(text):
    with Desk(PROGRAM) as desk:
        desk.start_text(rle_of(text, "a.lif"))
        return cells_of(desk.show(desk.mark(0, "mc")))


class LifTest(unittest.TestCase):
    def test_cells_lie_where_the_text_says(self):
        for text, wanted in (
            (BLOCKS, CELLS),
            (ONE_A_LINE, {(0, 0), (-3, 7), (2, -1)}),
            (b"#Life 1.05\n*\n.**\n", {(0, 0), (1, 1), (2, 1)}),
            (b"#Life 1.05\n#P 3 3\n*\n#P\n#D x\n**", {(3, 3), (3, 4), (4, 4)}),
            (b"#Life 1.05\n#N\n#P 1 1\n*\n#P 0 0\n*\n#P 1 1\n*\n", {(0, 0), (1, 1)}),
            (b"#Life 1.05\n#P 4 4\n...\n", set()),
            (b"#Life 1.06\n", set()),
        ):
            self.assertTrue(is_lif(text))
            self.assertEqual(cells_in_desk(text), dict.fromkeys(wanted, 1), text)

    def test_the_text_as_rle(self):
        self.assertEqual(rle_of(BLOCKS, "a"), b"#CXRLE Pos=-2,-3\nx = 0, y = 0, rule = 23/36\n"
                                              b"1b1o\n1$\n3o\n6$\n7b2o\n1b1o\n1$\n9b1o!\n")

    def test_rules(self):
        for said, name in ((b"", ""), (b"#N\n", "B3/S23"), (b"#R 23/36\n", "23/36"), (b"#R B36/S23  \r\n", "B36/S23"),
                           (b"#D R 1/1\n#N\r\n", "B3/S23")):
            self.assertEqual(rule_named(b"#Life 1.05\n" + said + b"#P 0 0\n*\n"), name, said)
        self.assertEqual(rule_named(b"#Life 1.06\n#R 23/36\n0 0\n"), "23/36")

    def test_what_can_t_be_read_is_told_with_its_line(self):
        for text, told in (
            (b"#Life 1.05\n#P 0 0\n.x*\n", "a.lif: line 3: this is no row"), (b"*\n", "line 1 says neither"),
            (b"#Life 1.05\n#P a b\n", "line 2: this is no place"), (b"#Life 1.06\n0 0 0\n", "line 2"),
            (b"#Life 1.06\n0 0\n1\n", "line 3: this is no cell"),
        ):
            with self.assertRaisesRegex(Trouble, told):
                rle_of(text, "a.lif")
        self.assertFalse(is_lif(b"#Life 1.04\n"))

    @unittest.skipUnless(IS_HERE, "Golly isn't installed")
    def test_cells_lie_as_in_golly(self):
        texts = [BLOCKS, ONE_A_LINE, b"#Life 1.05\n#P 3 3\n*\n#P\n#D x\n**\n"]
        texts += [path.read_bytes() for path in Path(GOLLY, "Patterns").rglob("*.lif")]
        self.assertGreaterEqual(len(texts), 7)
        for text in texts:
            theirs = cells_after(text.decode("latin-1"), 0, "HashLife", "lif")
            self.assertEqual(cells_in_desk(text), theirs, text[:40])


class PatternTest(unittest.TestCase):
    def test_names_of_rules(self):
        for text, name in (
            (b"x = 3, y = 1\n3o!\n", ""), (b"#C x = 1, rule = A\nx = 3, y = 1, rule = B36/S23\n3o!\n", "B36/S23"),
            (b"x=3,y=1,rule=B36/S23, z = 1\n3o!", "B36/S23"), (b"x = 3, y = 1, rule = B36/S23 more\r\n3o!", "B36/S23"),
            (b"x = 1, y = 1, rule = R5,C0,M1,S34..58,B34..45,NM\r\no!", "R5,C0,M1,S34..58,B34..45,NM"),
            (b"x = 1, y = 1, rule = \no!", ""), (b"[M2] (golly 3.3)\n#R Banks-I\n#C x\n1 0 0 0 1\n", "Banks-I"),
            (b"[M2]\n#R A\n#R B\n1 0 0 0 1\n", "B"), (b"[M2]\n1 0 0 0 1\n", ""), (BLOCKS, "23/36"), (ONE_A_LINE, ""),
            (b"#MCell 4.00\n#GAME Larger than Life\n#RULE R1,C0,M1,S1..1,B1..1,NN\n", "R1,C0,M1,S1..1,B1..1,NN"),
            (b"#MCell 4.00\n#RULE 23/36\n#L A\n", "23/36"), (b"#MCell 4.00\n#L A\n", ""),
            (b"#MCell 4.00\n#GAME Special rules\n#RULE WIREWORLD\n#L A\n", "WireWorld"),
            (b"#MCell 4.00\n#GAME Special rules\n#RULE Rug\n#L A\n", None),
            (b"#MCell 4.00\n#GAME Rules table\n#RULE 1,0,0\n#L A\n", None),
            (b"#MCell 4.00\n#GAME Weighted life\n#GOLLY Foo\n#L A\n", "Foo"),
        ):
            self.assertEqual(pattern_of(text, "a").rule, name, text)

    def test_texts_are_what_the_program_takes(self):
        for text, is_macrocell in ((b"x = 1, y = 1\no!\n", False), (b"[M2]\n1 0 0 0 1\n", True)):
            self.assertEqual(pattern_of(text, "a")[:2], (text, is_macrocell))
        for text in (BLOCKS, b"#MCell 4.00\n#L A\n"):
            self.assertTrue(pattern_of(text, "a").text.startswith(b"#CXRLE Pos="))

    def test_a_table_of_wireworld_s_is_known(self):
        table = "1,0," + "0," * 10 + "0," + "2," * 9 + "0," + "3," * 9 + "\n#RULE 0,3,1,1,3,3,3,3,3,3"
        said = f"#MCell 4.00\r\n#GAME Rules table\r\n#RULE {table}\r\n#L A\r\n"
        self.assertEqual(pattern_of(said.encode(), "a").rule, "WireWorld")
        self.assertIsNone(pattern_of(said.replace("3,1,1", "3,1,0").encode(), "a").rule)
        self.assertEqual(WIREWORLD.count(","), 41)

    @unittest.skipUnless(IS_HERE, "Golly isn't installed")
    def test_golly_s_patterns_of_wireworld_have_its_table(self):
        paths = sorted(Path(GOLLY, "Patterns/WireWorld").glob("*.mcl"))
        self.assertGreaterEqual(len(paths), 11)
        for path in paths:
            unnamed = path.read_bytes().replace(b"#GOLLY WireWorld", b"#D")
            self.assertEqual(pattern_of(unnamed, path.name).rule, "WireWorld", path)


if __name__ == "__main__":
    unittest.main()
