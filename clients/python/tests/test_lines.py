"""Tests of the command that tells which lines fire, with the built program. They run with the other tests, or alone by

    python3 -m unittest discover -s clients/python/tests -p test_lines.py
"""
import contextlib
import glob
import io
import os
import signal
import subprocess
import sys
import tempfile
import unittest
from pathlib import Path
from unittest import mock

from desk import Desk, lines
from desk.formats.cells import cells_of
from desk.lines import Step, checked, steps
from desk.rules.fires import Fires
from desk.rules.reader import rule_of
from places import CLIENTS, EXAMPLES, PROGRAM

WIRE_RULE, WIRE = str(EXAMPLES / "wire.rule"), str(EXAMPLES / "wire.rle")
GOLLY = Path("/usr/share/golly")
COMMAND = str(CLIENTS / "lines.py")
# An electron at the left of a wire of four cells, and a rule with a line that can never fire.
ELECTRON = "x = 4, y = 1, rule = Wire\nBA2C!\n"
RULE = """@RULE Wire
@TABLE
n_states:4
neighborhood:vonNeumann
symmetries:permute
var a={0,1,2,3}
var b=a
var c=a
var d=a
var e={0,2,3}
var f=e
var g=e
1,a,b,c,d,2
2,a,b,c,d,3 # the tail
3,1,e,f,g,1
3,1,1,a,b,1
2,1,a,b,c,3
"""


class Ran:
    """The command, run here: its exit status, and what it wrote to standard output and standard error."""

    def __init__(self, *words):
        out, err = io.StringIO(), io.StringIO()
        with mock.patch.object(sys, "argv", ["desk-lines", *words, "--desk", PROGRAM]), \
                contextlib.redirect_stdout(out), contextlib.redirect_stderr(err):
            try:
                self.status = lines.main()
            except SystemExit as ended:
                self.status = ended.code
        self.out, self.err = out.getvalue(), err.getvalue()


class LinesTest(unittest.TestCase):
    def setUp(self):
        room = tempfile.TemporaryDirectory()
        self.addCleanup(room.cleanup)
        self.rule, self.pattern = os.path.join(room.name, "w.rule"), os.path.join(room.name, "w.rle")
        Path(self.rule).write_text(RULE, encoding="utf-8")
        Path(self.pattern).write_text(ELECTRON, encoding="utf-8")

    def test_an_electron_by_hand(self):
        # The generations are 2133, 3213, 3321 and 3332. The empty cells that see the wire stand above and below its
        # cells and at its ends.
        ran = Ran(self.rule, self.pattern, "--to", "3", "--unmatched", "3")
        self.assertEqual((ran.status, ran.out.split("\n")), (0, [
            "line  cells  text",
            "  13      3  1,a,b,c,d,2",
            "  14      3  2,a,b,c,d,3 # the tail",
            "  15      2  3,1,e,f,g,1",
            "",
            "never fired:",
            "  16         3,1,1,a,b,1",
            "",
            "can never fire, since earlier lines take all that they match:",
            "  17         2,1,a,b,c,3  (line 14)",
            "",
            "no line matches, so the cell stays; of those that are the same by the symmetry one is listed:",
            "      cells  c,n,e,s,w",
            "         16  0,3,0,0,0",
            "          7  0,1,0,0,0",
            "          7  0,2,0,0,0",
            "          4  in 3 other neighbourhoods",
            ""]), ran.err)
        self.assertEqual(ran.err, "desk-lines: 3 of 3 generations are counted, about 0 s to go\n")

    def test_from_and_every(self):
        # The lines 13, 14 and 15 decide a cell each in generations 0 and 1, and 13 and 14 in generation 2.
        for words, counts in (
            (["--to", "1"], [1, 1, 1]),
            (["--from", "1", "--to", "3"], [2, 2, 1]),
            (["--from", "2", "--to", "3"], [1, 1]),
            (["--to", "3", "--every", "2"], [2, 2, 1]),
            (["--to", "3", "--every", "9"], [1, 1, 1]),
            (["--from", "3", "--to", "200"], [1]),
            (["--from", "4", "--to", "200"], []),
        ):
            fired = Ran(self.rule, self.pattern, *words).out.partition("\n\n")[0].split("\n")[1:]
            self.assertEqual([int(line.split()[1]) for line in fired], counts, words)

    def test_the_steps_are_those_of_the_program(self):
        for generations in (range(0, 200, 1), range(3, 300, 7), range(5, 260, 2), range(9, 10)):
            with Desk(PROGRAM) as desk:
                desk.rule(WIRE_RULE)
                desk.start(WIRE)
                found = list(steps(desk, generations))
                self.assertEqual([it.generation for it in found], list(generations))
                for step in found[::40]:
                    for generation, world in ((step.generation, step.before), (step.generation + 1, step.after)):
                        self.assertEqual(cells_of(desk.show(desk.mark(generation, "mc"))), world)
                self.assertLess(len(desk.list().bookmarks), 80)

    def test_a_difference_is_told_and_nothing_else(self):
        wrong = RULE.replace("3,1,e,f,g,1", "3,1,e,f,g,2").encode()
        with mock.patch.object(lines, "rule_of", lambda text, name: rule_of(wrong, name)):
            ran = Ran(self.rule, self.pattern, "--to", "3")
        self.assertEqual((ran.status, ran.out), (1, ""))
        self.assertIn("the cell (2, 0) has state 1 at generation 1 by the program, and 2 as the rule is read", ran.err)
        self.assertIn("Around it was c = 3, e = 3, w = 1, and line 15: 3,1,e,f,g,2, ", ran.err)
        near, far = {(0, 0): 3}, {(0, 0): 3, (7, 7): 3}
        for before, after, told in ((near, far, "state 3 at generation 6 by the program, and 0"),
                                    (far, near, "state 0 at generation 6 by the program, and 3")):
            with self.assertRaisesRegex(lines.Differs, rf"the cell \(7, 7\) has {told}"):
                checked(Fires(rule_of(RULE.encode(), "x")), Step(5, before, after))

    def test_a_rule_that_only_the_program_takes_is_a_difference(self):
        with mock.patch.object(lines, "rule_of", lambda text, name: rule_of(b"@RULE X\n", name)):
            ran = Ran(self.rule, self.pattern, "--to", "3")
        self.assertEqual((ran.status, ran.out), (1, ""))
        self.assertIn("can't read it, which is an error in this command", ran.err)

    def test_what_cant_be_used(self):
        Path(self.rule).write_text(RULE.replace("1,a,b,c,d,2", "1,a,b,c,d,z"), encoding="utf-8")
        for words, status, told in (
            ([self.rule, self.pattern, "--to", "3"], 1, "line 13: refused 8 BadTransition"),
            ([WIRE_RULE, "nowhere.rle", "--to", "3"], 1, "nowhere.rle: No such file"),
            ([WIRE_RULE, self.pattern], 2, "--to"),
            ([WIRE_RULE, self.pattern, "--to", "3", "--from", "3"], 2, "--to is greater"),
            ([WIRE_RULE, self.pattern, "--to", "3", "--every", "0"], 2, "--every is 1 or more"),
        ):
            ran = Ran(*words)
            self.assertEqual((ran.status, ran.out), (status, ""), words)
            self.assertIn(told, ran.err)

    def test_where_squares_run_out_the_table_says_what_was_counted(self):
        rule, pattern = EXAMPLES / "brain.rule", EXAMPLES / "brain.rle"
        ran = Ran(str(rule), str(pattern), "--to", "400", "--squares", "2000")
        self.assertEqual(ran.status, 1)
        self.assertTrue(ran.out.startswith("line  "), ran.out)
        self.assertRegex(ran.err, r"no generation behind [0-9]+ is counted: a step needs more squares")

    def test_ctrl_c_shows_what_is_there(self):
        words = [sys.executable, COMMAND, WIRE_RULE, WIRE, "--to", "1000000", "--desk", PROGRAM]
        with subprocess.Popen(words, stdout=subprocess.PIPE, stderr=subprocess.PIPE, text=True) as process:
            process.stderr.readline()  # it tells how far it is after five seconds
            process.send_signal(signal.SIGINT)
            out, err = process.communicate(timeout=60)
        self.assertEqual(process.returncode, lines.BROKEN_OFF, err)
        self.assertRegex(out, r"^line +cells +text\n +21 +[0-9]+  1,a,b,c,d,e,f,g,h,2\n")
        self.assertRegex(err, r"broken off at generation [1-9][0-9]*\n$")

    @unittest.skipUnless(GOLLY.is_dir(), "Golly isn't installed")
    def test_rules_of_golly_are_read_as_the_program_reads_them(self):
        tables = 0
        for path in sorted(glob.glob(f"{GOLLY}/Rules/*.rule")):
            rule = rule_of(Path(path).read_bytes(), path)
            tables += bool(rule.places)
            with self.subTest(path), Desk(PROGRAM) as desk:
                desk.rule(path)
                cells = [(x, y, (x * x + 3 * y + x * y) % rule.states) for x in range(12) for y in range(9)]
                desk.set(cells)
                fires = Fires(rule)
                for step in steps(desk, range(6)):
                    checked(fires, step)
        self.assertGreater(tables, 40)


if __name__ == "__main__":
    unittest.main()
