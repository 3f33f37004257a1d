"""Tests of the clients against the built program, and of the table of refusals against the code.

    python3 -m unittest discover -s clients/python/tests

The environment's DESK names the program; without it crates/desk/out/desk is taken.
"""
import csv
import gzip
import os
import pickle
import re
import signal
import struct
import subprocess
import sys
import tempfile
import time
import unittest
import warnings
import zlib
from pathlib import Path

from desk import (
    Desk,
    Ended,
    Malformed,
    Pending,
    Refused,
    RuleNameWarning,
    Settling,
    Trouble,
    Window,
    meanings,
)
from desk.colors import colors_of
from desk.drawing import framed
from desk.formats.macrocell import Quadtree
from desk.meanings import Meaning
from places import CLIENTS, EXAMPLES, PROGRAM, ROOT

REFUSALS, _, CAUSES = (ROOT / "docs/REFUSALS.md").read_text(encoding="utf-8").partition("## Why")
X_RULE = (
    "@RULE X\n@TABLE\nn_states:2\nneighborhood:oneDimensional\nsymmetries:none\n0,1,0,1\n0,0,1,1\n1,0,0,0\n1,1,1,0\n"
)


def rows_of(text):
    """The cells of the lines of a document's tables that begin with a number."""
    lines = re.findall(r"(?m)^\| (\d+ \| .*) \|$", text)
    return [line.split(" | ") for line in lines]


def called(script, *words, python=sys.executable):
    """What a client writes and its exit status."""
    run = [python, "-B", str(CLIENTS / script), *map(str, words), "--desk", PROGRAM]
    return subprocess.run(run, cwd=ROOT, capture_output=True, text=True, timeout=50)


class WithFiles(unittest.TestCase):
    def setUp(self):
        folder = tempfile.TemporaryDirectory()
        self.addCleanup(folder.cleanup)
        self.folder = Path(folder.name)

    def file(self, name, text):
        path = self.folder / name
        path.write_bytes(text if isinstance(text, bytes) else text.encode())
        return str(path)


class DeskTest(WithFiles):
    def setUp(self):
        super().setUp()
        self.desk = Desk(PROGRAM)
        self.addCleanup(self.desk.close)

    def test_all_commands_that_edit_and_show(self):
        desk, row = self.desk, Window(-2, 0, 5, 1)
        desk.rule(self.file("x.rule", X_RULE))
        desk.set([(0, 0, 1)])
        counts, window = desk.mark(2, "counts"), desk.mark(2, row)
        self.assertEqual(desk.show(counts), {1: 2})
        self.assertEqual(desk.show(window), [[1, 0, 0, 0, 1]])
        intervention = desk.at(1, [(1, 0, 0)])
        self.assertEqual(desk.show(window), [[1, 0, 1, 0, 0]])
        desk.change(intervention, 2, [(0, 0, 1), (1, 0, 1)])
        self.assertEqual(desk.show(window), [[1, 0, 1, 1, 1]])
        desk.drop(intervention)
        desk.move(window, 1)
        self.assertEqual(desk.show(window), [[0, 1, 0, 1, 0]])
        desk.unmark(window)
        with self.assertRaises(Refused) as caught:
            desk.show(window)
        self.assertEqual((caught.exception.number, caught.exception.name), (44, "NoSuchBookmark"))
        self.assertEqual(desk.settle(), Settling(0, 0))
        self.assertEqual(desk.revision, 9)

    def test_texts_of_patterns(self):
        self.desk.rule(self.file("x.rule", X_RULE))
        self.desk.set([(0, 0, 1)])
        found = [self.desk.show(self.desk.mark(2, view)) for view in ("rle", "mc")]
        self.assertEqual(found[0], "#CXRLE Pos=-2,0 Gen=2\nx = 5, y = 1, rule = X\no3bo!\n")
        self.assertEqual(found[1], "[M2] (experiment desk)\n#R X\n#G 2\n1 1 0 0 0\n2 0 1 0 0\n3 0 0 2 2\n")
        self.assertEqual(self.desk.show(self.desk.mark(0, Window(9, 9, 1, 2))), [[0], [0]])
        self.desk.set([(0, 0, 0)])
        self.assertEqual(self.desk.show(self.desk.mark(0, "counts")), {})

    def test_work_waits_for_nothing(self):
        self.desk.mark(5, "counts")
        try:
            self.desk.work()
        except Refused as refused:
            self.assertEqual(refused.number, 80)
            self.skipTest("this program has no command `work` yet")
        self.assertEqual(self.desk.settle(), Settling(0, 0))

    def test_starts_from_either_format_packed_and_without_a_last_line_end(self):
        rle, mc = "#CXRLE Pos=1,2 Gen=7\nx = 2, y = 1\n2o!", "[M2]\n#G 3\n1 1 0 0 1"
        names = {"a.rle": rle.encode(), "a.rle.gz": gzip.compress(rle.encode()), "a.mc": mc.encode()}
        cells = {name: ([[0, 0, 0], [0, 1, 1]] if "rle" in name else [[0, 0], [0, 0]]) for name in names}
        for name, text in names.items():
            with self.subTest(name):
                self.assertEqual(self.desk.start(self.file(name, text)), 7 if "rle" in name else 3)
                window = Window(0, 1, len(cells[name][0]), 2)
                self.assertEqual(self.desk.show(self.desk.mark(0, window)), cells[name])
        self.assertEqual(self.desk.show(self.desk.mark(0, Window(-1, -1, 2, 2))), [[1, 0], [0, 1]])

    def test_a_refusal_has_the_line_of_the_users_file(self):
        bad_rule = self.file("bad.rule", X_RULE.replace("1,0,0,0", "# fine\n1,0,0"))
        bad_rle = self.file("bad.rle", "#C a comment\nx = 3, y = 3\no$o$\n?o!\n")
        bad_mc = self.file("bad.mc", "[M2]\n1 0 1 0 0\n\n3 1 0 0 0\n")
        end = "refused 8 BadTransition: `1,0,0`"
        cases = [
            (lambda: self.desk.rule(bad_rule), 8, "BadTransition", 9, f"{bad_rule}, line 9: {end}"),
            (lambda: self.desk.start(bad_rle), 22, "BadRun", 4, f"{bad_rle}, line 4: refused 22 BadRun: `?o!`"),
            (lambda: self.desk.start(bad_mc), 32, "BadChild", 4, f"{bad_mc}, line 4: refused 32 BadChild: `3 1 0 0 0`"),
            (lambda: self.desk.set([(0, 0, 2)]), 42, "CellStateTooHigh", None,
             "`set 0 0 2`: refused 42 CellStateTooHigh"),
        ]
        for call, number, name, place, text in cases:
            with self.subTest(name), self.assertRaises(Refused) as caught:
                call()
            found = caught.exception
            self.assertEqual((found.number, found.name, found.place, found.brief), (number, name, place, text))
            (means, remedy), = [row[3:] for row in rows_of(REFUSALS) if row[0] == str(number)]
            self.assertEqual(str(found), f"{text}\nIt means: {means}.\nWhat to do: {remedy}.")
            self.assertEqual(str(pickle.loads(pickle.dumps(found))), str(found))
        self.desk.set([(0, 0, 1)])
        self.assertEqual(self.desk.show(self.desk.mark(0, "counts")), {1: 1})

    def test_long_lines_are_shortened_in_a_refusal(self):
        row, o = "bo" * 100, "o" * 100
        cases = [
            ("a.rule", X_RULE + "1,1,0," + o + "\r\n", f"line 10: refused 8 BadTransition: `1,1,0,{o[:54]}...`"),
            ("b.rle", f"x = 9, y = 9\n{row}$\n{row}?{row}!\n", f"line 3: .*: `...{row[:30]}[?]{row[:29]}...`"),
            ("c.rle", f"x = 9, y = 9\n{row}?", f"line 2: refused 22 BadRun: `...{'ob' * 29}o[?]`"),
            ("d.rle", "x = 9, y = 9\no\x1bo!\r\n", "line 2: refused 22 BadRun: `o\ufffdo!`"),
        ]
        for name, text, told in cases:
            path = self.file(name, text)
            with self.subTest(name), self.assertRaisesRegex(Refused, told + "\nIt means: "):
                (self.desk.rule if name.endswith("rule") else self.desk.start)(path)

    def test_what_no_command_can_have_is_not_sent(self):
        desk, cell = self.desk, [(0, 0, 1)]
        kinds = '"counts", "rle", "mc" or a Window of four integers'
        cases = [
            (lambda: desk.mark(5, "count"), kinds),
            (lambda: desk.mark(5, "rle\nset 0 0 1"), kinds),
            (lambda: desk.mark(5, "abcd"), kinds),
            (lambda: desk.mark(5, None), kinds),
            (lambda: desk.mark(5, (0, 0, 1)), kinds),
            (lambda: desk.mark(5, (0, 0, 1, 1.0)), kinds),
            (lambda: desk.mark(5, Window(0, 0, -1, 1)), kinds),
            (lambda: desk.mark(5, Window(0, 0, "1\nset 0 0 1", 1)), kinds),
            (lambda: desk.mark(-1, "counts"), "the generation is -1, and can't be negative"),
            (lambda: desk.mark("5 counts\nset 0 0 1\nmark 5", "counts"), "the generation is '5 c.*integer"),
            (lambda: desk.mark(1.0, "counts"), "the generation is 1.0"),
            (lambda: desk.mark(1, "counts", on="0 "), "the branch is '0 '"),
            (lambda: desk.set([]), "there are no cells"),
            (lambda: desk.at(1, iter(())), "there are no cells"),
            (lambda: desk.every(1, 1, 2, []), "there are no cells"),
            (lambda: desk.change(1, 2, []), "there are no cells"),
            (lambda: desk.repeat(1, 1, 1, 2, []), "there are no cells"),
            (lambda: desk.set(None), "cells are a list of them, and not None"),
            (lambda: desk.set([(0, 0)]), r"three integers, x, y and a state, and not \(0, 0\)"),
            (lambda: desk.set([(0, 0, 1, 1)]), "three integers"),
            (lambda: desk.set([5]), "three integers"),
            (lambda: desk.set([(0, 0, "1")]), "three integers.*the state is '1'"),
            (lambda: desk.set([(0, 0.5, 1)]), "three integers.*y is 0.5"),
            (lambda: desk.set([(0, 0, -1)]), "three integers.*can't be negative"),
            (lambda: desk.every(1, -1, 2, cell), "the first is -1"),
            (lambda: desk.drop("1"), "the intervention is '1'"),
            (lambda: desk.move(1, None), "the generation is None"),
            (lambda: desk.show("1\nquit"), "the bookmark is "),
            (lambda: desk.branch(0, -2), "the generation is -2"),
            (lambda: desk.unbranch(None), "the branch is None"),
        ]
        for number, (call, text) in enumerate(cases):
            with self.subTest(number), self.assertRaisesRegex(Malformed, text) as caught:
                call()
            self.assertIsInstance(caught.exception, Trouble)
            self.assertIsInstance(caught.exception, ValueError)
        self.assertEqual(desk.revision, 0)
        self.assertEqual(desk.show(desk.mark(0, (0, 0, 2, 1))), [[0, 0]])

    def test_what_has_a_better_reason_is_left_to_the_program(self):
        far = 2**70
        cases = [
            (lambda: self.desk.mark(far, "counts"), "GenerationTooFar"),
            (lambda: self.desk.mark(0, Window(0, 0, 0, 1)), "BadWindow"),
            (lambda: self.desk.set([(far, 0, 1)]), "CellOutOfRange"),
            (lambda: self.desk.set([(0, 0, far)]), "CellStateTooHigh"),
            (lambda: self.desk.set([(0, 0, 1)] * 10001), "TooManyCells"),
            (lambda: self.desk.drop(far), "NoSuchIntervention"),
        ]
        for call, name in cases:
            with self.assertRaises(Refused) as caught:
                call()
            self.assertEqual(caught.exception.name, name)

    def test_names_of_rules_are_compared(self):
        rule, named = self.file("x.rule", X_RULE), "x = 1, y = 1, rule = {}\no!\n"
        self.desk.rule(rule)
        with warnings.catch_warnings():
            warnings.simplefilter("error")
            self.desk.start(self.file("same.rle", named.format("X")))
            self.desk.start(self.file("none.rle", "x = 1, y = 1\no!\n"))
        with self.assertWarnsRegex(RuleNameWarning, "names the rule Y, and the rule is X"):
            self.desk.start(self.file("other.rle", named.format("Y")))
        with self.assertWarns(RuleNameWarning):
            self.desk.start(self.file("other.mc", "[M2]\n#R Z\n1 1 0 0 0\n"))

    def test_spellings_of_one_rule_are_the_same(self):
        self.desk.lifelike("B3/S23")
        named = "x = 1, y = 1, rule = {}\no!\n"
        with warnings.catch_warnings():
            warnings.simplefilter("error")
            for name in ("b3s23", "23/3", "Life", "Conway's Life", "S23/B3"):
                self.desk.start(self.file("same.rle", named.format(name)))
            self.desk.start(self.file("same.mc", "[M2]\n#R life\n1 1 0 0 0\n"))
        with self.assertWarnsRegex(RuleNameWarning, "names the rule b36s23, and the rule is B3/S23") as caught:
            self.desk.start(self.file("other.rle", named.format("b36s23")))
        self.assertEqual(caught.filename, __file__)
        with self.assertWarnsRegex(RuleNameWarning, "the rule is B2/S") as caught:
            self.desk.lifelike("B2/S")
        self.assertEqual(caught.filename, __file__)

    def test_a_byte_order_mark_is_taken_off(self):
        mark = "\ufeff"
        self.desk.rule(self.file("x.rule", mark + X_RULE))
        self.desk.start(self.file("x.rle", mark + "x = 2, y = 1, rule = X\n2o!"))
        self.desk.start(self.file("x.rle.gz", gzip.compress((mark + "x = 2, y = 1, rule = X\n2o!").encode())))
        self.desk.start(self.file("x.mc", mark + "[M2]\n#R X\n1 1 0 0 0\n"))
        self.assertEqual(self.desk.revision, 4)
        with self.assertRaisesRegex(Refused, "bad.rle, line 2: refused 22 BadRun: `o[?]!`"):
            self.desk.start(self.file("bad.rle", mark + "x = 2, y = 1\no?!"))

    def test_what_cannot_be_sent_or_read(self):
        for name, text in (("end.rule", X_RULE + " end \n"), ("cut.gz", gzip.compress(b"x" * 99)[:-9])):
            with self.subTest(name), self.assertRaisesRegex(Trouble, name):
                self.desk.rule(self.file(name, text))
        with self.assertRaisesRegex(Trouble, "nowhere"):
            self.desk.rule("nowhere.rule")
        told = "no program /nowhere/desk .No such file.*: .*desk.sh --version builds one; DESK or"
        with self.assertRaisesRegex(Trouble, told):
            Desk("/nowhere/desk")

    def test_what_cannot_be_computed_is_pending(self):
        with Desk(PROGRAM, squares=64) as desk:
            desk.rule(str(EXAMPLES / "brain.rule"))
            desk.start(str(EXAMPLES / "brain.rle"))
            bookmark = desk.mark(64, "counts")
            self.assertEqual(desk.settle(), Settling(1, 71))
            with self.assertRaises(Pending):
                desk.show(bookmark)

    def test_options_reach_the_program(self):
        least, most = {"squares": 64, "workers": 1, "facts": 1}, {"squares": 16777216, "workers": 8, "facts": 4096}
        for options in (least, most):
            with Desk(PROGRAM, **options) as desk:
                self.assertEqual(desk.show(desk.mark(0, "counts")), {})
        for options in (least, most):
            for name, value in options.items():
                beyond = value - 1 if options is least else value + 1
                why = f"refused its options: invalid value '{beyond}' for '--{name} <N>': [^\n]*$"
                with self.subTest(name), self.assertRaisesRegex(Malformed, why):
                    Desk(PROGRAM, **{name: beyond})

    def program(self, commands):
        """A program that stands for another one, by the commands of a shell."""
        path = self.file("program", f"#!/bin/sh\n{commands}")
        os.chmod(path, 0o755)
        return path

    def test_a_closed_desk(self):
        self.desk.set([(0, 0, 1)])
        self.desk.close()
        self.desk.close()
        for call in (self.desk.settle, lambda: self.desk.set([(0, 0, 1)]), lambda: self.desk.show(1)):
            with self.assertRaisesRegex(Trouble, "the desk is closed"):
                call()
        self.assertEqual(self.desk.revision, 1)

    def test_a_program_that_ends_early(self):
        quits = "read line\necho no more >&2\nexit 3\n"
        with Desk(self.program(f"read line\necho listed 0\n{quits}")) as desk:
            for _ in range(2):
                with self.assertRaisesRegex(Ended, "status 3: no more") as caught:
                    desk.mark(1, "counts")
                self.assertEqual((caught.exception.status, caught.exception.said), (3, "no more"))
        with self.assertRaisesRegex(Ended, "status 3: no more"):
            Desk(self.program(quits))


class CurveTest(WithFiles):
    def test_numbers_are_those_of_a_script(self):
        table = self.folder / "brain.csv"
        words = ("--to", 64, "--points", 5, "--csv", table)
        run = called("curve.py", "examples/brain.rule", "examples/brain.rle", *words)
        self.assertEqual(run.returncode, 0, run.stderr)
        self.assertIn("5 of 5 bookmarks are current", run.stderr)
        texts = [(EXAMPLES / f"brain.{kind}").read_text() for kind in ("rule", "rle")]
        marks = "".join(f"mark {at} counts\n" for at in (0, 16, 32, 48, 64))
        shows = "".join(f"show {it}\n" for it in range(1, 6))
        script = f"rule\n{texts[0]}\nend\nstart rle\n{texts[1]}\nend\n{marks}{shows}"
        said = subprocess.run([PROGRAM], input=script, capture_output=True, text=True, timeout=50).stdout
        parts = re.split(r"bookmark \d current \d+\n", said)[1:]
        wanted = [[str(at), *re.findall(r"(?m)^\d+ (\d+)$", part)] for at, part in zip((0, 16, 32, 48, 64), parts)]
        with open(table, encoding="utf-8") as file:
            found = list(csv.reader(file))
        self.assertEqual(found, [["generation", "state 1", "state 2"], *wanted])
        self.assertEqual([line.split() for line in run.stdout.splitlines()[1:]], wanted)

    def test_generations_as_powers_and_rows_on_standard_output(self):
        words = ("examples/brain.rule", "examples/brain.rle", "--points", 3)
        run = called("curve.py", *words, "--to", "2^5", "--csv", "-")
        self.assertEqual(run.returncode, 0, run.stderr)
        self.assertEqual([line.split(",")[0] for line in run.stdout.splitlines()], ["generation", "0", "16", "32"])
        self.assertFalse((ROOT / "-").exists())
        run = called("curve.py", *words, "--to", "2^61")
        self.assertEqual(run.returncode, 2)
        self.assertIn("take a generation from 0 to 2^60", " ".join(run.stderr.split()))

    def test_too_few_squares_keep_what_is_known(self):
        words = ("--to", 2**16, "--points", 3, "--squares", 3000)
        run = called("curve.py", "examples/brain.rule", "examples/brain.rle", *words)
        self.assertEqual(run.returncode, 1)
        self.assertIn("--squares N allows more", run.stderr)
        self.assertEqual(run.stdout.split()[-3:], ["0", "14", "4"])

    def test_what_is_broken_off_keeps_what_is_known(self):
        table = self.folder / "brain.csv"
        words = ["examples/brain.rule", "examples/brain.rle", "--to", str(2**40), "--points", "2"]
        run = [sys.executable, "-B", str(CLIENTS / "curve.py"), *words, "--csv", str(table), "--desk", PROGRAM]
        pipe = subprocess.PIPE
        for seconds in (1, 3, 9):  # a busy machine may need them for the first row
            with subprocess.Popen(run, cwd=ROOT, stdout=pipe, stderr=pipe, text=True) as client:
                time.sleep(seconds)
                client.send_signal(signal.SIGINT)
                output, errors = client.communicate(timeout=30)
            if "broken off with 1 of 2" in errors:
                break
        self.assertEqual((client.returncode, errors),
                         (130, "curve.py: broken off with 1 of 2 bookmarks, up to generation 0\n"))
        self.assertEqual(output.split()[-3:], ["0", "14", "4"])
        self.assertEqual(table.read_text(), "generation,state 1,state 2\n0,14,4\n")

    def test_a_plot_or_a_clear_word(self):
        plot = self.folder / "plot.png"
        run = called("curve.py", "examples/brain.rule", "examples/brain.rle", "--to", 8, "--png", plot)
        if run.returncode == 0:
            self.assertTrue(plot.read_bytes().startswith(b"\x89PNG"))
        else:
            self.assertIn("this Python has no matplotlib", run.stderr)
        self.assertIn("generation", run.stdout)


class PictureTest(WithFiles):
    def test_letters_of_a_box_and_of_a_window(self):
        run = called("picture.py", "examples/wire.rule", "examples/wire.rle", "--at", 0)
        rows = [".1233333", "3.......3", "3.......3" + "3" * 15, "3.......3", ".3333333"]
        self.assertEqual([line.rstrip(".") for line in run.stdout.splitlines()], rows)
        run = called("picture.py", "examples/wire.rule", "examples/wire.rle", "--at", 1, "--window", 0, 0, 3, 2)
        self.assertEqual(run.stdout, ".23\n1..\n")
        again = called("picture.py", "examples/wire.rule", "examples/wire.rle", "--at", "1e0", "--window", 0, 0, 3, 2)
        self.assertEqual((again.returncode, again.stdout), (0, run.stdout), again.stderr)

    def test_letters_in_a_pipe_are_not_bound_by_a_terminal(self):
        run = called("picture.py", "examples/brain.rle", "--at", 0, "--window", 0, 0, 200, 100)
        self.assertEqual([len(line) for line in run.stdout.splitlines()], [200] * 100, run.stderr)
        self.assertIn("200 by 100 from (0, 0)\n", run.stderr)

    def test_a_png_on_standard_output(self):
        words = ["examples/wire.rle", "--at", "2^4", "--png", "-", "--desk", PROGRAM]
        run = subprocess.run([CLIENTS / "picture.py", *words], cwd=ROOT, capture_output=True, timeout=50)
        self.assertEqual(run.returncode, 0, run.stderr)
        self.assertTrue(run.stdout.startswith(b"\x89PNG"))
        self.assertFalse((ROOT / "-").exists())

    def test_a_png_has_the_cells_in_the_colors_of_the_rule(self):
        path = self.folder / "wire.png"
        run = called("picture.py", "examples/wire.rule", "examples/wire.rle", "--at", 0, "--png", path)
        self.assertEqual(run.returncode, 0, run.stderr)
        chunks, rest = {}, path.read_bytes()[8:]
        while rest:
            (size,) = struct.unpack(">I", rest[:4])
            chunks[rest[4:8]], rest = rest[8:8 + size], rest[12 + size:]
        width, height = struct.unpack(">II", chunks[b"IHDR"][:8])
        lines = zlib.decompress(chunks[b"IDAT"])
        self.assertEqual((width, height, len(lines)), (24 * 16, 5 * 16, (24 * 16 + 1) * 5 * 16))
        self.assertEqual(list(lines[1:1 + 16 * 9:16]), [0, 1, 2, 3, 3, 3, 3, 3, 0])
        self.assertEqual(list(chunks[b"PLTE"][:12]), [32, 32, 40, 80, 160, 255, 255, 255, 255, 255, 160, 0])

    def test_a_pattern_beyond_the_rle_view_is_scaled_down(self):
        rule = self.file("still.rule", X_RULE.split("0,1")[0])
        run = called("picture.py", rule, "examples/doubling.mc", "--at", 0, "--png", self.folder / "all.png")
        self.assertEqual(run.returncode, 0, run.stderr)
        self.assertIn(f"1024 by 1024 from ({-2**60}, {-2**60}), {2**51} by {2**51} cells a pixel", run.stderr)

    def test_macrocell_texts_are_drawn_as_their_cells(self):
        squares = Quadtree("[M2] (experiment desk)\n#R X\n#G 0\n1 0 1 2 3\n2 0 1 0 0\n3 0 2 2 0\n")
        self.assertEqual(squares.box(), Window(-2, -4, 6, 6))
        rows = squares.drawn(framed(Window(-4, -4, 8, 8), 8, 8))
        live = {(x - 4, y - 4): state for y, row in enumerate(rows) for x, state in enumerate(row) if state}
        wanted = {(3, -4): 1, (2, -3): 2, (3, -3): 3, (-1, 0): 1, (-2, 1): 2, (-1, 1): 3}
        self.assertEqual(live, wanted)
        self.assertEqual(framed(Window(-3, 5, 9, 1), 4, 4)[:], (-4, 4, 3, 1, 4))

    def test_what_is_broken_off_says_so(self):
        words = ["examples/brain.rule", "examples/brain.rle", "--at", str(2**40), "--desk", PROGRAM]
        run = [sys.executable, "-B", str(CLIENTS / "picture.py"), *words]
        for seconds in (1, 3, 9):  # a busy machine may need them to begin
            with subprocess.Popen(run, cwd=ROOT, stderr=subprocess.PIPE, text=True) as client:
                time.sleep(seconds)
                client.send_signal(signal.SIGINT)
                errors = client.communicate(timeout=30)[1]
            if client.returncode == 130:
                break
        self.assertEqual((client.returncode, errors), (130, "picture.py: broken off\n"))

    def test_colors(self):
        colors = b"0 0 200 0 200 0 from, to\n# no\n2 1 2 3 two\n"
        found = colors_of(b"@RULE C\n@TABLE\nn_states:4\n@COLORS\n" + colors + b"@ICONS\n3 9 9 9\n")
        self.assertEqual(found[:4], [(48, 48, 48), (0, 0, 200), (1, 2, 3), (0, 200, 0)])


class DocumentsTest(unittest.TestCase):
    def test_refusals_are_those_of_the_code(self):
        wanted, code = {}, ""
        for path in sorted(ROOT.glob("crates/*/src/*.rt")):
            text = path.read_text(encoding="utf-8")
            for fault in re.findall(r"impl Refusal for (\w+)", text):
                of = "text byte" if fault == "RleFault" else "script line" if fault == "ScriptFault" else "text line"
                told = re.findall(rf"{fault}::\w+(?:\(\w+\))? => Reason::(of|at)\((\d+), \"(\w+)\"", text)
                self.assertTrue(told, path)
                for made, number, name in told:
                    wanted.setdefault(int(number), set()).add((name, of if made == "at" else "-"))
            code += text
        self.assertIn("Cause::NumbersSpent => 73", code)
        found = {int(number): {(name, place)} for number, name, place, *_ in rows_of(REFUSALS)}
        self.assertEqual({it: found.get(it) for it in wanted}, wanted)
        self.assertLessEqual(set(found) - set(wanted), {60, 73})
        self.assertEqual(len(found), len(rows_of(REFUSALS)))

    def test_refusals_and_causes_mean_what_the_documents_say(self):
        wanted = {int(number): Meaning(name, means, remedy) for number, name, _, means, remedy in rows_of(REFUSALS)}
        self.assertGreater(len(wanted), 45)
        self.assertEqual(meanings.REFUSALS, wanted)
        names = {number: meaning.name for number, meaning in wanted.items()}
        self.assertEqual(meanings.CAUSES, {int(number): Meaning(names.get(int(number), ""), means, remedy)
                                           for number, means, remedy in rows_of(CAUSES)})

    def test_causes_are_those_of_the_code(self):
        code = (ROOT / "crates/desk_core/src/cause.rt").read_text(encoding="utf-8")
        self.assertEqual({"0", *re.findall(r"Cause::\w+ => (\d+)", code)}, {row[0] for row in rows_of(CAUSES)})

    def test_files_are_those_of_the_scripts(self):
        script = (EXAMPLES / "wire.script").read_text(encoding="utf-8")
        rule = (EXAMPLES / "wire.rule").read_text(encoding="utf-8").split("\n@COLORS")[0]
        self.assertIn(f"rule\n{rule}end\n", script)
        doubling = (EXAMPLES / "doubling.mc").read_text(encoding="utf-8")
        self.assertIn(f"start mc\n{doubling}end\n", (EXAMPLES / "doubling.script").read_text(encoding="utf-8"))

    def test_help_names_the_commands_of_the_documents(self):
        said = subprocess.run([PROGRAM, "--help"], capture_output=True, text=True, timeout=50).stdout
        if "Commands of a script" not in said:
            self.skipTest("this program's help has no commands yet")
        using = (ROOT / "docs/USING.md").read_text(encoding="utf-8")
        table = re.findall(r"(?m)^\| `(\w+)", using.split("| command |")[1].split("\n\n")[0])
        helped = re.findall(r"(?m)^  ([a-z]+)\b", said.split("Commands of a script")[1].split("\n\n")[0])
        self.assertEqual(set(table), set(helped))

    def test_the_program_answers_help_by_the_list_of_its_own_help(self):
        said = subprocess.run([PROGRAM, "--help"], capture_output=True, text=True, timeout=50).stdout
        listed = said[said.index("Commands of a script"):said.index("\nExit status:")]
        found = subprocess.run([PROGRAM], input="help\nhelp me\n", capture_output=True, text=True, timeout=50)
        self.assertEqual(found.stdout, f"help {len(listed)}\n{listed}refused 80 BadCommand 2\n")
        self.assertEqual(found.stderr, "")

    def test_the_clients_show_help_with_an_example(self):
        for script in ("curve.py", "picture.py"):
            run = called(script, "--help")
            self.assertIn("examples/brain.rle", run.stdout)


if __name__ == "__main__":
    unittest.main()
