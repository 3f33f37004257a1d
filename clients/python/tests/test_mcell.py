"""Tests of MCell's files: by hand, through the program, and all of Golly's package beside bgolly."""
import glob
import re
import shutil
import subprocess
import tempfile
import unittest
import warnings
from pathlib import Path

from desk import BoardWarning, Desk, RuleNameWarning, Window
from desk.errors import Trouble
from desk.formats.mcell import is_mcell, rle_of, rule_named, wraps
from desk.page.files import file_of
from places import EXAMPLES, PROGRAM

GOLLY = "/usr/share/golly"
FILES = sorted(glob.glob(f"{GOLLY}/Patterns/**/*.mcl", recursive=True))
ENGINES = {"Generations": "Generations", "Larger than Life": "Larger than Life", "Rules table": "RuleLoader"}
WIRE = b"#MCell 4.00\r\n#GAME Rules table\r\n#GOLLY WireWorld\r\n#BOARD 8x5\r\n#WRAP 0\r\n#L 2.AB$\r\n#L 3C2$C\r\n"


def cells_of(rle):
    """The live cells of an RLE text, from the upper left of their box on."""
    body = re.sub(r"(?m)^(#|x).*\n", "", rle)
    x = y = 0
    found = {}
    for count, kind in re.findall(r"(\d*)([$.bo]|[p-y]?[A-X])", body.split("!")[0].replace("\n", "")):
        many = int(count or 1)
        if kind == "$":
            x, y = 0, y + many
            continue
        high = 24 * (ord(kind[0]) - ord("o")) if len(kind) > 1 else 0
        state = {".": 0, "b": 0, "o": 1}.get(kind) if kind in ".bo" else high + ord(kind[-1]) - ord("A") + 1
        for _ in range(many):
            if state:
                found[x, y] = state
            x += 1
    left, top = min(x for x, _ in found), min(y for _, y in found)
    return {(x - left, y - top): state for (x, y), state in found.items()}


class Mcell(unittest.TestCase):
    def test_cells_board_and_rule_are_said_as_rle(self):
        self.assertEqual(rle_of(WIRE, "w"), b"#CXRLE Pos=-4,-2\nx = 0, y = 0, rule = WireWorld\n2.AB$\n3C2$C!\n")
        self.assertEqual(rle_of(b"#MCell 2.0\n#L 2aAjX.X\n", "w"), b"#CXRLE Pos=0,0\nx = 0, y = 0\n2pAyX.X!\n")

    def test_rules_have_their_names(self):
        for said, name in (
            (b"#RULE 23/3", "23/3"),
            (b"#GAME Life\n#RULE 23/3", "23/3"),
            (b"#GAME Generations\r\n#RULE 345/2/4\r", "345/2/4"),
            (b"#GAME Larger than Life\n#RULE R5,C0,M1,S34..58,B34..45,NM", "R5,C0,M1,S34..58,B34..45,NM"),
            (b"#GAME Rules table\n#RULE 1,0,0", ""),
            (b"#GAME Rules table\n#GOLLY WireWorld\n#RULE 1,0,0", "WireWorld"),
        ):
            self.assertEqual(rule_named(b"#MCell 4.00\n" + said + b"\n"), name, said)

    def test_a_line_that_says_no_cells_is_told(self):
        for line in (b"#L 3Z", b"#L kA", b"#L a", b"#L A!"):
            with self.assertRaisesRegex(Trouble, "^w.mcl: line 2: these are no cells"):
                rle_of(b"#MCell 4.00\n" + line + b"\n", "w.mcl")

    def test_a_desk_takes_it(self):
        with tempfile.TemporaryDirectory() as room, Desk(PROGRAM) as desk:
            path = f"{room}/w.mcl"
            Path(path).write_bytes(WIRE)
            desk.rule(f"{EXAMPLES}/wire.rule")
            with self.assertWarns(RuleNameWarning):
                desk.start(path)
            shown = desk.show(desk.mark(0, Window(-4, -2, 4, 4)))
            self.assertEqual(shown, [[0, 0, 1, 2], [3, 3, 3, 0], [0, 0, 0, 0], [3, 0, 0, 0]])

    def test_a_board_that_wraps_is_warned_of(self):
        text = WIRE.replace(b"WRAP 0", b"WRAP 1")
        self.assertTrue(wraps(text))
        with Desk(PROGRAM) as desk, warnings.catch_warnings(record=True) as told:
            warnings.simplefilter("always")
            desk.rule(f"{EXAMPLES}/wire.rule")
            desk.start_text(text, "w.mcl")
            kinds = {it.category for it in told}
            self.assertIn(BoardWarning, kinds)
            self.assertEqual({it.filename for it in told if it.category is BoardWarning}, {__file__})

    def test_the_page_takes_it(self):
        found = file_of("w.mcl", WIRE)
        self.assertEqual((found.kind, found.text), ("start rle", rle_of(WIRE, "w.mcl")))

    @unittest.skipUnless(FILES and shutil.which("bgolly"), "Golly isn't installed")
    def test_files_of_golly_have_the_cells_that_golly_finds(self):
        with tempfile.TemporaryDirectory() as room:
            for path in FILES:
                text = Path(path).read_bytes()
                game = re.search(rb"(?m)^#GAME ([^\r\n]*)", text)[1].decode().strip()
                out = f"{room}/out.rle"
                words = ["bgolly", "-a", ENGINES[game], "-s", f"{GOLLY}/Rules/", "-m", "0", "-o", out, path]
                subprocess.run(words, capture_output=True, check=True, timeout=60)
                theirs = cells_of(Path(out).read_text(encoding="latin-1"))
                self.assertTrue(is_mcell(text))
                self.assertEqual(cells_of(rle_of(text, path).decode("latin-1")), theirs, path)


if __name__ == "__main__":
    unittest.main()
