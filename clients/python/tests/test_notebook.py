"""Tests of what a notebook shows by itself, against the built program. They run with the other tests, or alone by

    python3 -m unittest discover -s clients/python/tests -p test_notebook.py

What needs matplotlib, tqdm or IPython takes this Python or /usr/bin/python3, whichever has it.
"""
import struct
import subprocess
import sys
import tempfile
import threading
import types
import unittest
import zlib
from html.parser import HTMLParser
from pathlib import Path
from unittest import mock

from desk import Desk, Malformed, Pending, Refused, Trouble, Window
from desk.formats.macrocell import Frame
from desk.formats.rle import Run, RunLengths
from places import EXAMPLES, PROGRAM, WITH_PACKAGE, python_with

# A line of Rule 90: of one cell there are 2 to the number of ones in the generation's binary digits.
X_RULE = (
    "@RULE X\n@TABLE\nn_states:2\nneighborhood:oneDimensional\nsymmetries:none\n0,1,0,1\n0,0,1,1\n1,0,0,0\n1,1,1,0\n"
)
STILL = "@RULE Four\n@TABLE\nn_states:4\nneighborhood:vonNeumann\nsymmetries:none\n@COLORS\n0 0 0 0\n1 255 0 0\n"
WIRE = [[0, 1, 2] + [3] * 5 + [0] * 16, [3] + [0] * 7 + [3] + [0] * 15, [3] + [0] * 7 + [3] * 16,
        [3] + [0] * 7 + [3] + [0] * 15, [0] + [3] * 7 + [0] * 16]
BLUE, PINK, YELLOW = (74, 163, 255), (255, 111, 174), (255, 212, 71)
ENDLESS = 2**40 + 12345  # the brain's pattern there takes longer than anybody waits


def pixels(png):
    """The rows of pixels of a PNG with a palette, each pixel as its color."""
    chunks, rest = {}, png[8:]
    while rest:
        (size,) = struct.unpack(">I", rest[:4])
        chunks[rest[4:8]], rest = rest[8:8 + size], rest[12 + size:]
    width, height = struct.unpack(">II", chunks[b"IHDR"][:8])
    palette, data = chunks[b"PLTE"], zlib.decompress(chunks[b"IDAT"])
    lines = [data[it * (width + 1) + 1:(it + 1) * (width + 1)] for it in range(height)]
    return [[tuple(palette[3 * it:3 * it + 3]) for it in line] for line in lines]


def said_by(python, program):
    """What a small program writes that may use the package."""
    environment = {**WITH_PACKAGE, "DESK": PROGRAM}
    run = subprocess.run([python, "-c", program], env=environment, capture_output=True, text=True, timeout=100)
    if run.returncode:
        raise AssertionError(run.stderr)
    return run


class Table(HTMLParser):
    """The rows of a table in HTML: the words of each cell, those of lines apart."""

    def __init__(self, html):
        super().__init__()
        self.rows = []
        self.feed(html)

    def handle_starttag(self, tag, attributes):
        if tag == "tr":
            self.rows.append([])
        elif tag in ("td", "th"):
            self.rows[-1].append("")
        elif tag == "br":
            self.rows[-1][-1] += "\n"

    def handle_data(self, data):
        self.rows[-1][-1] += data


class WithDesk(unittest.TestCase):
    def setUp(self):
        self.desk = Desk(PROGRAM)
        self.addCleanup(self.desk.close)

    def take(self, name):
        self.desk.rule(str(EXAMPLES / f"{name}.rule"))
        self.desk.start(str(EXAMPLES / f"{name}.rle"))


class PictureTest(WithDesk):
    def test_a_window_has_its_cells_in_the_colors_of_the_rule(self):
        self.take("wire")
        picture = self.desk.picture(self.desk.mark(0, Window(0, 0, 24, 5)))
        self.assertEqual((picture.frame, picture.rows), (Frame(0, 0, 24, 5, 1), WIRE))
        colors = {0: (32, 32, 40), 1: (80, 160, 255), 2: (255, 255, 255), 3: (255, 160, 0)}
        wanted = [[colors[it] for it in row] for row in WIRE]
        self.assertEqual(pixels(picture.png(zoom=1)), wanted)
        found = pixels(picture.png(zoom=3))
        self.assertEqual((len(found), len(found[0])), (15, 72))
        self.assertEqual([row[1::3] for row in found[1::3]], wanted)
        self.assertEqual(picture._repr_png_(), picture.png())
        self.assertEqual(repr(picture), "<Picture of 24 by 5 cells from (0, 0)>")

    def test_lines_part_large_cells(self):
        self.take("wire")
        found = pixels(self.desk.picture(self.desk.mark(0, Window(0, 0, 2, 1))).png(zoom=8))
        line, dead, head = (56, 56, 62), (32, 32, 40), (80, 160, 255)
        self.assertEqual(found[0], [line] * 17)
        self.assertEqual(found[4], [line] + [dead] * 7 + [line] + [head] * 7 + [line])
        self.assertEqual((len(found), found[8]), (9, [line] * 17))

    def test_texts_of_patterns_show_all_live_cells(self):
        self.take("wire")
        for view in ("rle", "mc"):
            picture = self.desk.picture(self.desk.mark(0, view))
            self.assertEqual((picture.frame, picture.rows), (Frame(0, 0, 24, 5, 1), WIRE))
        self.desk.start([])
        for view in ("rle", "mc"):
            self.assertEqual(self.desk.picture(self.desk.mark(0, view)).rows, [[0]])

    def test_large_patterns_are_scaled_down(self):
        self.desk.set([(0, 0, 1), (3000, 100, 1)])
        for view in ("rle", "mc"):
            picture = self.desk.picture(self.desk.mark(0, view))
            self.assertEqual(picture.frame, Frame(0, 0, 751, 26, 4))
            live = [(x, y) for y, row in enumerate(picture.rows) for x, it in enumerate(row) if it]
            self.assertEqual(live, [(0, 0), (750, 25)])
        self.assertEqual(repr(picture), "<Picture of 751 by 26 pixels from (0, 0), 4 by 4 cells a pixel>")

    def test_an_rle_text_says_its_cells(self):
        text = RunLengths("#CXRLE Pos=-2,3 Gen=0\nx = 9, y = 4, rule = X\nA2.2pA$2$yO3.\nB!\n")
        self.assertEqual(list(text.runs()), [Run(-2, 3, 1, 1), Run(1, 3, 2, 25), Run(-2, 6, 1, 255), Run(2, 6, 1, 2)])
        self.assertEqual(text.drawn(Frame(-2, 3, 3, 2, 2)), [[1, 25, 25], [255, 0, 2]])

    def test_what_has_no_picture_says_so(self):
        self.take("wire")
        with self.assertRaisesRegex(Malformed, "shows counts"):
            self.desk.picture(self.desk.mark(0, "counts"))
        bookmark = self.desk.mark(0, Window(0, 0, 1, 1))
        with self.assertRaisesRegex(Malformed, "the zoom is 0"):
            self.desk.picture(bookmark).png(zoom=0)
        self.desk.start(str(EXAMPLES / "doubling.mc"))
        with self.assertRaisesRegex(Trouble, "`too many cells`; mark \"mc\""):
            self.desk.picture(self.desk.mark(0, "rle"))
        with self.assertRaises(Refused):
            self.desk.picture(99)

    def test_it_is_saved(self):
        self.desk.set([(0, 0, 1)])
        picture = self.desk.picture(self.desk.mark(0, "rle"))
        with tempfile.TemporaryDirectory() as folder:
            path = Path(folder) / "a.png"
            picture.save(str(path), zoom=2)
            self.assertEqual(path.read_bytes(), picture.png(zoom=2))
            with self.assertRaisesRegex(Trouble, "No such file"):
                picture.save(str(Path(folder) / "none" / "b.png"))

    def test_a_rule_with_all_states_has_all_colors(self):
        self.desk.rule_text(STILL.replace("states:4", "states:256"))
        rows = [list(range(256))]
        self.desk.start(rows)
        found = pixels(self.desk.picture(self.desk.mark(0, "rle")).png(zoom=9))
        self.assertEqual(len(found[0]), 255 * 9)  # state 0 at the left is no part of the pattern
        self.assertEqual(found[4][4], (255, 0, 0))


class DifferenceTest(WithDesk):
    def test_branches_are_compared_cell_for_cell(self):
        desk = self.desk
        desk.rule_text(X_RULE)
        desk.set([(0, 0, 1)])
        desk.at(2, [(2, 0, 0)], on=desk.branch(0, 2))
        view = Window(-4, 0, 9, 1)
        # The first has 1 0 0 0 0 0 0 0 1 and the second 1 0 0 0 1 0 0 0 0.
        found = desk.difference(desk.mark(4, view), desk.mark(4, view, on=1))
        self.assertEqual(found.kinds(), [[0, 0, 0, 0, 2, 0, 0, 0, 1]])
        self.assertEqual((found.only_first, found.only_second, found.other, found.cells), (1, 1, 0, 2))
        self.assertEqual(str(found), "2 cells differ: 1 live only in the first (blue), 1 only in the second (pink)")
        row = pixels(found.png(zoom=1))[0]
        self.assertEqual((row[4], row[8]), (PINK, BLUE))
        self.assertEqual(row[0], (87, 87, 87))  # white, dimmed: 28 + (255 - 28) * 0.26
        self.assertEqual(set(row[1:4] + row[5:8]), {(33, 33, 33)})  # and 48 of gray
        self.assertEqual(found._repr_png_(), found.png())

    def test_states_that_differ_in_live_cells(self):
        desk = self.desk
        desk.rule_text(STILL)
        desk.start([[1, 2, 3, 0]])
        branch, view = desk.branch(0, 0), Window(0, 0, 4, 1)
        desk.at(0, [[2, 2, 0, 3]], 0, 0, on=branch)
        found = desk.difference(desk.mark(0, view), desk.mark(0, view, on=branch))
        self.assertEqual(found.kinds(), [[3, 0, 1, 2]])
        self.assertEqual(str(found), "3 cells differ: 1 live only in the first (blue), 1 only in the second (pink), "
                         "1 in both in other states (yellow)")
        self.assertEqual(pixels(found.png(1))[0][:1] + pixels(found.png(1))[0][2:], [YELLOW, BLUE, PINK])
        self.assertEqual(str(desk.difference(desk.mark(0, view), desk.mark(0, view))), "0 cells differ")

    def test_all_256_states_and_the_kinds_fit_into_a_picture(self):
        desk = self.desk
        desk.rule_text(STILL.replace("states:4", "states:256"))
        desk.start([list(range(256)), [0] * 256])
        branch, view = desk.branch(0, 0), Window(0, 0, 256, 2)
        desk.at(0, [[0, 1, 2, 3]], 0, 1, on=branch)
        found = pixels(desk.difference(desk.mark(0, view), desk.mark(0, view, on=branch)).png(zoom=6))
        self.assertEqual(found[9][9], PINK)
        self.assertEqual(found[3][9], (87, 21, 21))  # red, dimmed
        self.assertTrue(set(found[3][6 * 252:]).isdisjoint({BLUE, PINK, YELLOW}))

    def test_patterns_are_compared_over_both_boxes(self):
        desk = self.desk
        desk.rule_text(STILL)
        desk.start([[1]], 5, 5)
        branch = desk.branch(0, 0)
        desk.at(0, [(5, 5, 0), (7, 4, 1)], on=branch)
        for views in (("rle", "mc"), ("mc", "rle")):
            found = desk.difference(desk.mark(0, views[0]), desk.mark(0, views[1], on=branch))
            self.assertEqual((found.frame, found.kinds()), (Frame(5, 4, 3, 2, 1), [[0, 0, 2], [1, 0, 0]]))
        desk.start([])
        desk.drop(1)
        self.assertEqual(desk.difference(desk.mark(0, "rle"), desk.mark(0, "mc", on=branch)).cells, 0)
        desk.set([(0, 0, 1), (5000, 0, 1)])
        with self.assertRaisesRegex(Trouble, "5001 by 1 cells"):
            desk.difference(desk.mark(0, "rle"), desk.mark(0, "rle", on=branch))

    def test_what_cant_be_compared_says_so(self):
        desk = self.desk
        marks = [desk.mark(0, it) for it in (Window(0, 0, 2, 3), Window(0, 0, 3, 2), "rle", "counts")]
        for one, other, word in ((0, 1, "2 by 3 with 3 by 2"), (0, 2, "not one with the other"), (2, 3, "counts")):
            with self.assertRaisesRegex(Malformed, word):
                desk.difference(marks[one], marks[other])


class CurveTest(WithDesk):
    def setUp(self):
        super().setUp()
        self.desk.rule_text(X_RULE)
        self.desk.set([(0, 0, 1)])

    def test_it_has_the_populations(self):
        desk = self.desk
        kept = desk.mark(3, "counts")
        curve = desk.curve(8, points=9)
        self.assertEqual((curve.generations, curve.cells(1)), (list(range(9)), [1, 2, 2, 4, 2, 4, 4, 8, 2]))
        self.assertEqual((curve.states, curve.cells(), curve.cells(2)), ([1], curve.cells(1), [0] * 9))
        self.assertEqual(desk.curve([64, 7, 63]).rows, [(7, {1: 8}), (63, {1: 64}), (64, {1: 2})])
        self.assertEqual([it.id for it in desk.list().bookmarks], [kept])
        self.assertEqual(repr(curve), "<Curve of 9 generations from 0 to 8>")
        self.assertEqual(str(curve).splitlines()[-2:], ["         7        8", "         8        2"])

    def test_how_far_it_is(self):
        told = []
        self.desk.curve(40, points=3, progress=lambda pending, of: told.append((pending, of)))
        self.assertEqual(list(dict.fromkeys(told)), [(3, 3), (2, 3), (1, 3)])

    def test_it_begins_with_its_branch(self):
        desk = self.desk
        desk.at(6, [(0, 0, 1)], on=desk.branch(0, 4))
        # At 4 there are cells at -4 and 4, at 5 at -5, -3, 3 and 5, and at 6 at -6, -2, 2, 6 and the one that is set.
        self.assertEqual(desk.curve(6, points=3, on=1).rows, [(4, {1: 2}), (5, {1: 4}), (6, {1: 5})])
        with self.assertRaises(Refused):
            desk.curve([3], on=1)
        self.assertEqual(desk.list().bookmarks, [])

    def test_what_is_asked_is_looked_at(self):
        for words, of in (((5, 1), "points is 1"), ((-1,), "can't be negative"), (([1, -2],), "can't be negative")):
            with self.assertRaisesRegex(Malformed, of):
                self.desk.curve(*words)

    def test_what_isnt_computed_is_said(self):
        with Desk(PROGRAM, squares=64) as desk:
            desk.rule(str(EXAMPLES / "brain.rule"))
            desk.start(str(EXAMPLES / "brain.rle"))
            with self.assertRaisesRegex(Pending, "generation 64 isn't computed.*squares"):
                desk.curve(64, points=2)
            self.assertEqual(desk.list().bookmarks, [])

    def test_without_matplotlib_it_is_a_table(self):
        curve = self.desk.curve(2, points=3)
        with mock.patch.dict(sys.modules, {"matplotlib": None}):
            self.assertIsNone(curve._repr_png_())
            wanted = [["generation", "state 1"], ["0", "1"], ["1", "2"], ["2", "2"]]
            self.assertEqual(Table(curve._repr_html_()).rows, wanted)
            with self.assertRaisesRegex(Trouble, "no matplotlib"):
                curve.png()

    def test_without_numpy_it_is_no_array(self):
        curve = self.desk.curve(2, points=3)
        with mock.patch.dict(sys.modules, {"numpy": None}), self.assertRaisesRegex(Trouble, "no numpy"):
            curve.as_array()

    def test_it_is_drawn_and_leaves_the_figures_of_others_alone(self):
        python = python_with("matplotlib", "numpy")
        if not python:
            self.skipTest("there is no matplotlib or no numpy")
        said = said_by(python, """
import sys
from matplotlib.figure import Figure
from desk import Curve
curve, drawn = Curve([(0, {1: 5}), (4, {1: 6, 3: 2}), (9, {3: 2**70})]), []
save = Figure.savefig
def kept(figure, *words, **more):
    drawn.extend((it.get_label(), list(it.get_xdata()), list(it.get_ydata())) for it in figure.axes[0].lines)
    save(figure, *words, **more)
Figure.savefig = kept
png = curve._repr_png_()
print(png[:8], png[16:24].hex(), curve._repr_html_(), "matplotlib.pyplot" in sys.modules)
print(drawn)
print(curve.as_array().tolist(), Curve([(1, {1: 2})]).as_array().dtype, Curve([(1, {})]).as_array().tolist())
""").stdout.splitlines()
        self.assertEqual(said[0], f"{bytes.fromhex('89504e470d0a1a0a')} 000001e000000100 None False")
        self.assertEqual(said[1], f"[('state 1', [0, 4, 9], [5, 6, 0]), ('state 3', [0, 4, 9], [0, 2, {2**70}])]")
        self.assertEqual(said[2], f"[[0, 5, 0], [4, 6, 2], [9, 0, {2**70}]] int64 [[1]]")


class TableTest(WithDesk):
    def rows(self):
        return [[name, text.split("\n")] for name, text in Table(self.desk._repr_html_()).rows]

    def test_a_document_in_short(self):
        desk = self.desk
        nothing = [["branches", ["none"]], ["interventions", ["none"]], ["bookmarks", ["none"]]]
        opening = ["rule", ["still, under which nothing changes"]], ["start", ["no cells"]]
        self.assertEqual(self.rows(), [*opening, *nothing])
        self.take("wire")
        desk.branch(0, 24)
        desk.at(24, [(9, 2, 0)], on=1)
        desk.every(5, 10, 20, [(9, 2, 0), (8, 2, 0)])
        desk.show(desk.mark(40, "counts"))
        desk.mark(2**60, Window(-1, 0, 5, 1), on=1)
        desk.set([(0, 0, 1)])
        wanted = [
            ["rule", [f"Wire, from {EXAMPLES}/wire.rule"]],
            ["start", [f"{EXAMPLES}/wire.rle, and 1 cell set"]],
            ["branches", ["1 leaves 0 at 24"]],
            ["interventions", ["1 sets 1 cell of branch 1 at 24", "2 sets 2 cells at 10, and after every 5 up to 20"]],
            ["bookmarks", ["1 shows counts at 40 \u25cb pending",
                           f"2 shows window -1 0 5 1 of branch 1 at {2**60} \u25cb pending"]],
        ]
        self.assertEqual(self.rows(), wanted)
        desk.show(1)
        self.assertEqual(self.rows()[4][1][0], "1 shows counts at 40 \u25cf current")
        self.assertEqual(Table(desk.list()._repr_html_()).rows, Table(desk._repr_html_()).rows[2:])

    def test_where_rule_and_start_come_from(self):
        desk = self.desk
        desk.lifelike("b36s23")
        desk.start([[1]])
        desk.set([(0, 0, 1), (1, 0, 1)])
        self.assertEqual(repr(desk), "<Desk: B36/S23, from b36s23; an array, and 2 cells set>")
        desk.lifelike("B3/S23")
        desk.start_text("bo!" and "x = 2, y = 1\nbo!", "<a> & b")
        self.assertEqual(repr(desk), "<Desk: B3/S23; <a> & b>")
        self.assertIn("&lt;a&gt; &amp; b", desk._repr_html_())
        for refused in (lambda: desk.rule_text("no"), lambda: desk.start_text("no"), lambda: desk.set([(0, 0, 9)])):
            with self.assertRaises(Refused):
                refused()
        self.assertEqual(repr(desk), "<Desk: B3/S23; <a> & b>")

    def test_an_opened_script_tells_too(self):
        with tempfile.TemporaryDirectory() as folder:
            path = str(Path(folder) / "a.script")
            self.take("wire")
            self.desk.save(path)
            with Desk.open(path, PROGRAM) as desk:
                self.assertEqual(repr(desk), f"<Desk: Wire, from {path}; {path}>")
                self.assertEqual(desk.picture(desk.mark(0, "rle")).colors[3], (255, 160, 0))

    def test_of_many_lines_the_first_are_shown(self):
        for it in range(30):
            self.desk.mark(it, "counts")
        lines = self.rows()[4][1]
        self.assertEqual((len(lines), lines[-1]), (12, "and 19 more"))

    def test_a_closed_one_has_no_table(self):
        self.desk.close()
        self.assertIsNone(self.desk._repr_html_())
        self.assertTrue(repr(self.desk).startswith("<Desk: "))


class Bars(list):
    """Stands for tqdm: the bars that were made, each with the words that it was made with and what it showed."""

    def tqdm(self, **words):
        bar = types.SimpleNamespace(words=words, shown=[], closed=False, total=words["total"], start_t=0)
        bar.refresh = lambda: bar.shown.append((bar.n, bar.total))
        bar.close = lambda: setattr(bar, "closed", True)
        self.append(bar)
        return bar


class ProgressTest(WithDesk):
    def setUp(self):
        super().setUp()
        self.take("brain")
        self.desk.show(self.desk.mark(4, "counts"))
        self.bars = Bars()

    def session(self, shell=None):
        """As if in a session of IPython with tqdm; without a shell IPython is imported alone."""
        there = {"IPython": types.SimpleNamespace(get_ipython=lambda: shell), "tqdm": types.ModuleType("tqdm"),
                 "tqdm.auto": types.SimpleNamespace(tqdm=self.bars.tqdm)}
        return mock.patch.dict(sys.modules, there)

    def test_a_long_wait_has_a_bar_in_a_notebook(self):
        desk = self.desk
        far = desk.mark(ENDLESS, "counts")
        with self.session(shell=object()):
            for wait in (lambda: desk.settle(1.5), lambda: desk.show(far, timeout=1.5)):
                with self.subTest(len(self.bars)):
                    self.bars.clear()
                    try:
                        wait()
                    except Pending:
                        pass
                    (bar,) = self.bars
                    self.assertEqual((bar.words["total"], bar.words["initial"], bar.words["leave"]), (2, 1, False))
                    self.assertTrue(bar.closed)
                    self.assertEqual(set(bar.shown), {(1, 2)})
                    self.assertLess(len(bar.shown), 5)

    def test_elsewhere_there_is_none(self):
        desk = self.desk
        desk.mark(ENDLESS, "counts")
        with self.session(shell=object()):
            desk.settle(0.5)
            desk.settle(1.3, progress=False)
            thread = threading.Thread(target=desk.settle, args=(1.3,))
            thread.start()
            thread.join()
        with self.session():
            desk.settle(1.3)
        desk.settle(1.3)
        self.assertEqual(self.bars, [])

    def test_a_bar_is_asked_for(self):
        desk = self.desk
        desk.mark(ENDLESS, "counts")
        with self.session():
            desk.settle(1.3, progress=True)
        self.assertEqual([it.closed for it in self.bars], [True])
        with self.session(), mock.patch.dict(sys.modules, {"tqdm": None, "tqdm.auto": None}):
            self.assertEqual(desk.settle(1.3, progress=True).pending, 1)

    def test_the_bar_of_tqdm(self):
        python = python_with("tqdm")
        if not python:
            self.skipTest("there is no tqdm")
        said = said_by(python, f"""
from desk import Desk
with Desk() as desk:
    desk.rule({str(EXAMPLES / "brain.rule")!r})
    desk.start({str(EXAMPLES / "brain.rle")!r})
    desk.show(desk.mark(4, "counts"))
    desk.mark({ENDLESS}, "counts")
    desk.settle(1.7, progress=True)
""").stderr
        lines = [it.strip() for it in said.split("\n") if it.strip()]
        self.assertEqual({it[-35:-1] for it in lines}, {"1 of 2 bookmarks are current, 00:0"})
        self.assertTrue(lines[-1].endswith("00:01"), lines)
        self.assertFalse(said.split("\n")[-2].strip())  # it is cleared again


class SessionTest(unittest.TestCase):
    def test_ipython_shows_them(self):
        python = python_with("IPython")
        if not python:
            self.skipTest("there is no IPython")
        said = said_by(python, """
from IPython.core.formatters import DisplayFormatter
from desk import Curve, Desk, Window
def kinds(value):
    return " ".join(sorted(DisplayFormatter().format(value)[0]))
with Desk() as desk:
    a = desk.mark(0, Window(0, 0, 2, 2))
    print([kinds(it) for it in (desk, desk.list(), desk.picture(a), desk.difference(a, a))])
print(kinds(desk), kinds(Curve([(0, {1: 1})])) in ("image/png text/plain", "text/html text/plain"))
""").stdout.splitlines()
        table, picture = "text/html text/plain", "image/png text/plain"
        self.assertEqual(said, [str([table, table, picture, picture]), "text/plain True"])


if __name__ == "__main__":
    unittest.main()
