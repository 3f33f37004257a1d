"""Tests of the command `run` against the built program. They run with the other tests, or alone by

    python3 -m unittest discover -s clients/python/tests -p test_run.py
"""
import contextlib
import gzip
import hashlib
import io
import os
import pty
import re
import select
import shutil
import signal
import struct
import subprocess
import sys
import tempfile
import time
import unittest
import warnings
import zlib
from pathlib import Path
from unittest import mock

from desk import Desk
from desk.run.command import main
from places import CLIENTS, EXAMPLES, PROGRAM, ROOT, WITH_PACKAGE

RUN = [sys.executable, "-B", str(CLIENTS / "run.py")]
ENVIRONMENT = {**os.environ, "DESK": PROGRAM, "COLUMNS": "120"}
WIRE = (EXAMPLES / "wire.rle", "--rule", EXAMPLES / "wire.rule")
BRAIN = (EXAMPLES / "brain.rle", "--rule", EXAMPLES / "brain.rule")
FAR = 2**40 + 12345  # the brain's pattern there takes longer than anybody waits
GLIDER = "x = 3, y = 3, rule = B3/S23\nbo$2bo$3o!\n"
NOTHING = "x = 0, y = 0, rule = B3/S23\n!\n"
BGOLLY = shutil.which("bgolly", path=f"{os.environ['PATH']}:/usr/games")
RABBITS = Path("/usr/share/golly/Patterns/Life/Methuselahs/rabbits.lif")


def called(*words, **more):
    """What the command writes, and its exit status."""
    settings = {"cwd": ROOT, "env": ENVIRONMENT, "text": True, "timeout": 50, **more}
    return subprocess.run([*RUN, *map(str, words)], capture_output=True, check=False, **settings)


def spoken(*words):
    """The exit status of a call within this Python, and what it writes."""
    output = io.TextIOWrapper(io.BytesIO())
    arguments = mock.patch.object(sys, "argv", ["run.py", *map(str, words)])
    with arguments, mock.patch.dict(os.environ, ENVIRONMENT), warnings.catch_warnings():
        with contextlib.redirect_stdout(output), contextlib.redirect_stderr(io.StringIO()) as errors:
            try:
                status = main()
            except SystemExit as ended:
                status = ended.code
            output.flush()
    return status, output.buffer.getvalue().decode(), errors.getvalue()


def read_until(terminal, wanted, seconds):
    """What a terminal was sent up to a word, or in so many seconds, or until nobody writes to it any more."""
    found, until = b"", time.monotonic() + seconds
    while wanted not in found and select.select([terminal], [], [], max(0.0, until - time.monotonic()))[0]:
        try:
            found += os.read(terminal, 4096)
        except OSError:
            break
    return found


class WithFolder(unittest.TestCase):
    def setUp(self):
        folder = tempfile.TemporaryDirectory()
        self.addCleanup(folder.cleanup)
        self.folder = Path(folder.name)

    def file(self, name, text):
        path = self.folder / name
        path.write_bytes(text if isinstance(text, bytes) else text.encode())
        return str(path)

    def answered(self, *words):
        """What a call shows that is answered."""
        status, shown, said = spoken(*words)
        self.assertEqual(status, 0, said)
        return shown

    def refused(self, *words):
        """What a call says that is refused, and shows nothing."""
        status, shown, said = spoken(*words)
        self.assertEqual((status, shown), (2, ""), said)
        return said


class ShownTest(WithFolder):
    def test_the_wire_of_the_readme(self):
        run = called("examples/wire.rle", "--to", 1000)
        wanted = "state  cells\n    1      2\n    2      2\n    3     31\n  all     35\n"
        self.assertEqual((run.returncode, run.stdout), (0, wanted), run.stderr)
        self.assertRegex(run.stderr, r"^run\.py: rule Wire, .*examples/wire\.rule\n$")

    def test_each_view_of_a_glider(self):
        """After four generations it lies one cell further right and down."""
        glider = self.file("glider.rle", GLIDER)
        cases = {
            (): "state  cells\n    1      5\n  all      5\n",
            ("--show", "counts"): "state  cells\n    1      5\n  all      5\n",
            ("--show", "rle"): "#CXRLE Pos=1,1 Gen=4\nx = 3, y = 3, rule = B3/S23\nbo$2bo$3o!\n",
            ("--show", "text"): ".o.\n..o\nooo\n",
            ("--show", "window", 0, 0, 5, 4): "0 0 0 0 0\n0 0 1 0 0\n0 0 0 1 0\n0 1 1 1 0\n",
            ("--show", "window", -1, 2, 1, 1): "0\n",
        }
        for view, text in cases.items():
            with self.subTest(view):
                self.assertEqual(self.answered(glider, "--to", 4, *view), text)

    def test_a_macrocell_text(self):
        block = self.file("block.rle", "x = 2, y = 2, rule = B3/S23\n2o$2o!\n")
        text = "[M2] (experiment desk)\n#R B3/S23\n#G 7\n1 1 1 1 1\n2 0 0 0 1\n"
        self.assertEqual(self.answered(block, "--to", 7, "--show", "mc"), text)

    def test_several_views_have_titles(self):
        glider = self.file("glider.rle", GLIDER)
        shown = self.answered("--show", "text", "window", 1, 1, 3, 1, glider, "--to", 4, "--show", "counts")
        self.assertEqual(shown, "text at generation 4\n.o.\n..o\nooo\n\nwindow 1 1 3 1 at generation 4\n0 1 0\n\n"
                                "counts at generation 4\nstate  cells\n    1      5\n  all      5\n")

    def test_an_empty_pattern(self):
        nothing = self.file("nothing.rle", NOTHING)
        self.assertEqual(self.answered(nothing, "--to", 9), "no live cells\n")
        self.assertEqual(self.answered(nothing, "--to", 9, "--show", "text"), "no live cells\n")

    def test_large_states_stand_in_columns(self):
        rule = self.file("many.rule", "@RULE many\n@TABLE\nn_states:256\nneighborhood:vonNeumann\nsymmetries:none\n")
        states = self.file("states.rle", "x = 3, y = 3, rule = many\n.AyO2$pAX!\n")
        words = (states, "--rule", rule, "--to", 5, "--show")
        self.assertEqual(self.answered(*words, "text"), ". A yO\n. . . \npAX . \n")
        self.assertEqual(self.answered(*words, "window", 0, 0, 3, 3), "  0   1 255\n  0   0   0\n 25  24   0\n")
        self.assertEqual(self.answered(*words, "counts"),
                         "state  cells\n    1      1\n   24      1\n   25      1\n  255      1\n  all      4\n")

    def test_numbers_are_exact(self):
        shown = self.answered(EXAMPLES / "doubling.mc", "--to", 0, "--rule", self.file(
            "still.rule", "@RULE still\n@TABLE\nn_states:2\nneighborhood:vonNeumann\nsymmetries:none\n"))
        self.assertEqual(shown.split()[-1], "5316911983139663491615228241121378304")  # 2^122

    def test_a_soup_has_the_cells_that_its_seed_says(self):
        drawn = struct.unpack(">24H", hashlib.shake_256(b"soup 7").digest(48))
        rows = [[int(drawn[2 * (4 * y + x)] < 0.4 * 65536) for x in range(4)] for y in range(3)]
        self.assertIn(sum(map(sum, rows)), range(1, 12))
        words = ("--seed", 7, "--density", 0.4, "--to", 0, "--show", "window", 0, 0, 4, 3)
        shown = self.answered("B36/S23", "--soup", "4x3", *words)
        self.assertEqual(shown, "".join(" ".join(map(str, row)) + "\n" for row in rows))

    def test_a_soup_of_a_rule_of_three_states_has_all_of_them(self):
        shown = self.answered("B2/S/C3", "--soup", 20, "--to", 0).split()
        self.assertEqual(shown[::2], ["state", "1", "2", "all"])

    @unittest.skipUnless(BGOLLY and RABBITS.exists(), "there is no Golly (Debian: golly)")
    def test_a_file_of_golly_has_bgolly_s_population(self):
        said = subprocess.run([BGOLLY, "-m", "1000", "-i", "1000", RABBITS], capture_output=True, text=True, timeout=50)
        population = re.search(r"(?m)^1,000: ([\d,]+)$", said.stdout)[1].replace(",", "")
        self.assertEqual(self.answered(RABBITS, "--to", 1000).split()[-1], population)

    @unittest.skipUnless(BGOLLY, "there is no bgolly (Debian: golly)")
    def test_a_soup_has_bgolly_s_population(self):
        soup = self.folder / "soup.rle"
        self.answered("B36/S23", "--soup", 64, "--to", 0, "--out", soup)
        words = ["-r", "B36/S23", "-m", "1000", "-i", "1000", soup]
        said = subprocess.run([BGOLLY, *words], capture_output=True, text=True, timeout=50)
        population = re.search(r"(?m)^1,000: ([\d,]+)$", said.stdout)[1].replace(",", "")
        self.assertEqual(self.answered("B36/S23", "--soup", 64, "--to", 1000).split()[-1], population)


class WordsTest(WithFolder):
    def test_ways_to_write_a_generation(self):
        nothing = self.file("nothing.rle", NOTHING)
        cases = {"1048576": 2**20, "1_048_576": 2**20, "2^20": 2**20, "1e6": 10**6, "3E2": 300, "2^60": 2**60, "0": 0}
        for said, generation in cases.items():
            with self.subTest(said):
                self.assertIn(f"\nmark {generation} counts\n", self.answered(nothing, "--to", said, "--script"))
        for said in ("2^61", "1e19", "-1", "1.5", "2^", "e6", "1__0", "_1", "", "1 0", "2^-1", "9" * 5000, "9e99", "x"):
            with self.subTest(said[:9]):
                self.assertIn(f"argument --to: {said!r}: take a generation from 0 to 2^60", self.refused(
                    nothing, f"--to={said}"))

    def test_cells_are_set_once_and_again_and_again(self):
        """A block stays, and a cell by itself is there at the generations at which it is set."""
        nothing = self.file("nothing.rle", NOTHING)
        block, cell = ("--at", "1e1: 0 0 1 1 0 1 0 1 1 +1 1 1"), ("--every", "2 4 8: 9 -9 1")
        for generation, cells in ((3, 0), (4, 1), (5, 0), (6, 1), (8, 1), (9, 0), (10, 4), (11, 4)):
            with self.subTest(generation):
                shown = self.answered(nothing, "--to", generation, *block, *cell)
                self.assertEqual(shown.split()[-1], str(cells) if cells else "cells")
        self.assertEqual(self.answered(nothing, "--to", 8, *cell, "--show", "window", 9, -10, 1, 3), "0\n1\n0\n")

    def test_words_that_are_no_intervention(self):
        nothing = self.file("nothing.rle", NOTHING)
        for said in ("5 0 0 1", "5:", "5: 0 0", "5: 0 0 1 1", "5: 0 0 x", ": 0 0 1", "1 2 3: 0 0 1", "5: 0 0 -1",
                     "5: 0 0 1.", "5: 0 0 10 0 1", "x: 0 0 1"):
            with self.subTest(said):
                why = self.refused(nothing, "--to", 9, f"--at={said}")
                self.assertRegex(why, "argument --at: .*: take a generation")
        for said in ("5: 0 0 1", "1 2: 0 0 1", "1 2 3 4: 0 0 1", "1 2 x: 0 0 1", "1 2 3:"):
            with self.subTest(said):
                why = self.refused(nothing, "--to", 9, f"--every={said}")
                self.assertRegex(why, "argument --every: .*: take a (distance|generation)")

    def test_words_that_are_no_view_or_no_file(self):
        nothing = self.file("nothing.rle", NOTHING)
        cases = [
            (("--show", "counted"), "argument --show: 'counted': take counts, rle, mc, text, png, or window"),
            (("--show", "window", 0, 0, 5), "'window 0 0 5': take "),
            (("--show", "window", 0, 0, 5, -1), "'window 0 0 5 -1': take "),
            (("--show", "window", 0, 0, 5, "x"), "'window 0 0 5 x': take "),
            (("--show=rle 5",), "'rle 5': take "),
            (("--show", "png"), "--show png needs --out FILE.png"),
            (("--out", "cells.txt.gz.bz2"), "its ending says what is written"),
            (("--out", "cells"), "its ending says what is written"),
            (("--out", "cells.png.gz"), "but no .png"),
            (("--out", self.folder / "nowhere/cells.rle"), f"there is no folder {self.folder}/nowhere"),
            (("--soup", 0), "argument --soup"),
            (("--soup", 9, "--rule", "B3/S23"), "the rule stands in place of the pattern"),
            (("--density", 2), "argument --density"),
            (("--seed", 0), "argument --seed"),
        ]
        (self.folder / "folder.rle").mkdir()
        cases.append((("--out", self.folder / "folder.rle"), "it is a folder"))
        for words, why in cases:
            with self.subTest(words):
                self.assertIn(why, self.refused(nothing, "--to", 9, *words))
        self.assertIn("--to", self.refused(nothing))

    def test_standard_input_is_a_pattern_packed_or_not(self):
        for text in (GLIDER.encode(), gzip.compress(GLIDER.encode())):
            run = called("-", "--to", 4, "--show", "text", input=text, text=False)
            self.assertEqual((run.returncode, run.stdout), (0, b".o.\n..o\nooo\n"), run.stderr)
        run = called("-", "--to", 4, input="x = 3\n")
        self.assertEqual(run.returncode, 2)
        self.assertRegex(run.stderr, "standard input.*: refused 21 BadHeader")

    def test_the_ways_to_call_it(self):
        for words, name in (([sys.executable, "-m", "desk", "run"], "desk run"), (RUN, "run.py")):
            run = subprocess.run([*words, "--help"], capture_output=True, text=True, env=WITH_PACKAGE, timeout=50)
            self.assertIn(f"{name} B36/S23 --soup 64", run.stdout, run.stderr)


class StatusTest(WithFolder):
    def test_pending_says_the_cause_and_what_helps(self):
        words = ("--to", 64, "--squares", 64, "--show", "counts", "rle", "--out", self.folder / "x.mc")
        status, shown, said = spoken(*BRAIN, *words)
        self.assertEqual((status, shown), (1, ""))
        told = said.splitlines()[1:]
        self.assertEqual(told[0], f"run.py: pending at generation 64: counts, rle, {self.folder}/x.mc")
        self.assertRegex(told[1], "^The cause is 71 NoRoom: a step .* needs more squares")
        self.assertRegex(told[2], "^What to do: more `--squares`.* `--script` prints")
        self.assertEqual(list(self.folder.iterdir()), [])

    def test_what_is_refused_has_file_line_and_remedy(self):
        rule = self.file("cut.rule", "@RULE cut\n@TABLE\nn_states:2\nneighborhood:Moore\nsymmetries:none\n\n0,1\n")
        rle = self.file("bad.rle", "x = 3, y = 3, rule = B3/S23\no$?!")
        cases = [
            ((*WIRE[:2], rule), r"cut\.rule, line 7: refused 8 BadTransition: `0,1`"),
            ((rle,), r"bad\.rle, line 2: refused 22 BadRun: `o\$\?!`"),
            ((*WIRE, "--at", "1: 0 0 9"), "`at 1 set 0 0 9`: refused 42 CellStateTooHigh"),
            ((*WIRE, "--every", "0 1 5: 0 0 1"), "`every 0 1 5 set 0 0 1`: refused 55 BadRepeat"),
            ((*WIRE, "--show", "window", 0, 0, 0, 1), "`mark 5 window 0 0 0 1`: refused 48 BadWindow"),
        ]
        for words, why in cases:
            with self.subTest(why):
                said = self.refused(*words, "--to", 5)
                self.assertRegex(said, f"(?m)^run\\.py: .*{why}")
                self.assertRegex(said, "(?m)^It means: .*\nWhat to do: .*$")

    def test_what_cannot_be_read(self):
        for path, why in (("nowhere.rle", "No such file"), (self.folder, "Is a directory"),
                          (self.file("empty.rle", ""), "there is nothing in it"),
                          (self.file("blank.rle", " \n\n"), "there is nothing in it"),
                          (self.file("cut.rle.gz", gzip.compress(GLIDER.encode())[:-9]), "ended before")):
            with self.subTest(why):
                self.assertRegex(self.refused(path, "--to", 5), f"^run\\.py: {path}: .*{why}")
        self.assertIn("nowhere/x.rule: No such file", self.refused(WIRE[0], "--rule", "nowhere/x.rule", "--to", 5))
        self.assertIn("Unheard", self.refused(WIRE[0], "--rule", "Unheard", "--to", 5))

    def test_options_reach_the_program(self):
        self.assertIn("'1' for '--squares", self.refused(*WIRE, "--to", 5, "--squares", 1))
        self.assertIn("'9' for '--workers", self.refused(*WIRE, "--to", 5, "--workers", 9))
        self.assertIn("no program /nowhere", self.refused(*WIRE, "--to", 5, "--desk", "/nowhere"))

    def test_a_program_that_ends_early(self):
        status, shown, said = spoken(*WIRE, "--to", 5, "--desk", "/bin/false")
        self.assertEqual((status, shown), (1, ""))
        self.assertRegex(said, r"run\.py: the program ended with status 1\n$")

    def test_what_is_too_large_to_be_shown(self):
        line = self.file("line.rle", "x = 1025, y = 1, rule = B3/S012345678\n1025o!\n")
        square = self.file("square.rle", "x = 1001, y = 1001, rule = B3/S012345678\n" + "1001o$" * 1001 + "!\n")
        for words, why in (((line, "--show", "text"), "the pattern has 1025 by 1 cells, and there is room for 1024 by"),
                           ((square, "--show", "rle"), "the pattern has more than 1,000,000 live cells"),
                           ((square, "--show", "text"), "the pattern has more than 1,000,000 live cells")):
            with self.subTest(why):
                self.assertRegex(self.refused(*words, "--to", 0), f"(?m)^run\\.py: (rle|text): {why}.*; take .*png")
        status, shown, _ = spoken(line, "--to", 0, "--show", "text", "counts")
        self.assertEqual((status, shown.split()[-1]), (2, "1025"))

    def test_a_name_of_another_rule_is_warned_of(self):
        words = (self.file("glider.rle", GLIDER), "--rule", "B36/S23", "--to", 4, "--show", "text")
        status, shown, said = spoken(*words)
        self.assertEqual((status, shown), (0, ".o.\n..o\nooo\n"))
        self.assertRegex(said, "^run.py: rule .*\nrun.py: the pattern names the rule B3/S23, and the rule is B36/S23\n")


class BrokenOffTest(WithFolder):
    def test_ctrl_c_says_what_is_pending(self):
        pipe = subprocess.PIPE
        words = [*RUN, *map(str, BRAIN), "--to", str(FAR), "--show", "counts", "rle"]
        for seconds in (1, 3, 9):  # a busy machine may need them to begin
            with subprocess.Popen(words, cwd=ROOT, env=ENVIRONMENT, stdout=pipe, stderr=pipe, text=True) as client:
                time.sleep(seconds)
                client.send_signal(signal.SIGINT)
                output, errors = client.communicate(timeout=30)
            if "pending" in errors:
                break
        self.assertEqual((client.returncode, output), (130, ""))
        self.assertEqual(errors.splitlines()[1:], [f"run.py: broken off; pending at generation {FAR}: counts, rle"])

    def test_ctrl_c_shows_what_is_known(self):
        """The moment between the last answer and its being shown is too short to be met, so it is made."""
        settle = Desk.settle

        def broken(desk, *more, **named):
            settle(desk, *more, **named)
            raise KeyboardInterrupt

        with mock.patch.object(Desk, "settle", broken):
            status, shown, said = spoken(self.file("glider.rle", GLIDER), "--to", 4, "--show", "text")
        self.assertEqual((status, shown), (130, ".o.\n..o\nooo\n"))
        self.assertIn("run.py: broken off; all is known\n", said)

    def test_whoever_reads_may_leave_early(self):
        words = [*RUN, "B3/S23", "--soup", "512", "--to", "0", "--show", "rle", "counts"]
        pipe = subprocess.PIPE
        with subprocess.Popen(words, cwd=ROOT, env=ENVIRONMENT, stdout=pipe, stderr=pipe, text=True) as client:
            self.assertEqual(client.stdout.readline(), "rle at generation 0\n")
            client.stdout.close()
            errors = client.stderr.read()
        self.assertEqual(client.returncode, 141)
        self.assertRegex(errors, r"^run\.py: rule [^\n]*\nrun\.py: a soup [^\n]*\n$")

    def test_a_standard_output_that_fails(self):
        with open("/dev/full", "wb") as full:
            run = subprocess.run([*RUN, *map(str, WIRE), "--to", "5"], cwd=ROOT, env=ENVIRONMENT, stdout=full,
                                 stderr=subprocess.PIPE, text=True, timeout=50)
        self.assertEqual(run.returncode, 1)
        self.assertRegex(run.stderr, r"\nrun\.py: standard output: No space left on device\n$")
        words = " ".join(["exec", *RUN, *map(str, WIRE), "--to", "5", ">&-"])
        run = subprocess.run(["sh", "-c", words], cwd=ROOT, env=ENVIRONMENT, stderr=subprocess.PIPE, text=True,
                             timeout=50)
        self.assertEqual(run.returncode, 1)
        self.assertRegex(run.stderr, r"\nrun\.py: standard output: it is closed\n$")


class TerminalTest(WithFolder):
    def setUp(self):
        super().setUp()
        self.terminal, self.end = pty.openpty()
        self.addCleanup(os.close, self.terminal)

    def begun(self, words, **ends):
        client = subprocess.Popen([*RUN, *map(str, words)], cwd=ROOT, env={**ENVIRONMENT, "COLUMNS": "20"}, **ends)
        self.addCleanup(client.wait)
        self.addCleanup(client.kill)
        os.close(self.end)
        return client

    def test_the_line_of_progress_stays_in_its_place_and_goes_away(self):
        client = self.begun((*BRAIN, "--to", FAR), stderr=self.end, stdout=subprocess.DEVNULL)
        found = read_until(self.terminal, b"are current, 2 s", 40)
        self.assertRegex(found, rb"\r\x1b\[Krun\.py: 0 of 1 bookmarks are current, 1 s\r\x1b\[Krun\.py: 0 of 1 .* 2 s$")
        client.send_signal(signal.SIGINT)
        found = read_until(self.terminal, b"\n", 20)
        self.assertRegex(found, rb"\r\x1b\[K\r\x1b\[Krun\.py: broken off; pending")
        self.assertEqual(client.wait(20), 130)

    def test_a_drawing_that_is_wider_than_the_terminal(self):
        client = self.begun((*WIRE, "--to", 0, "--show", "text"), stdout=self.end, stderr=subprocess.PIPE)
        with client.stderr:
            errors = client.stderr.read().decode()
        self.assertEqual(client.wait(20), 2)
        self.assertIn("the pattern has 24 by 5 cells, and there is room for 20 by", errors)

    def test_elsewhere_it_is_shown_where_it_is_asked_for(self):
        os.close(self.end)
        for more, told in (((), 0), (("--progress",), 1)):
            _, _, said = spoken(*WIRE, "--to", 5, *more)
            self.assertEqual(len(re.findall(r"(?m)^run\.py: 1 of 1 bookmarks are current, \d+ s$", said)), told)
            self.assertNotIn("\x1b", said)


class FilesTest(WithFolder):
    def test_files_by_their_endings(self):
        glider, texts = self.file("glider.rle", GLIDER), {
            "a.rle": "#CXRLE Pos=1,1 Gen=4\nx = 3, y = 3, rule = B3/S23\nbo$2bo$3o!\n",
            "a.txt": ".o.\n..o\nooo\n",
            "a.csv": "state,cells\n1,5\n",
        }
        names = [f"{name}{packed}" for name in (*texts, "a.mc") for packed in ("", ".gz")]
        words = [word for name in names for word in ("--out", self.folder / name)]
        self.assertEqual(self.answered(glider, "--to", 4, *words), "state  cells\n    1      5\n  all      5\n")
        for name, text in texts.items():
            with self.subTest(name):
                self.assertEqual((self.folder / name).read_text(), text)
                self.assertEqual(gzip.decompress((self.folder / f"{name}.gz").read_bytes()), text.encode())
        shown = self.answered(self.folder / "a.mc.gz", "--to", 0, "--show", "window", 1, 1, 3, 3)
        self.assertEqual(shown, "0 1 0\n0 0 1\n1 1 1\n")
        self.assertEqual({it.name for it in self.folder.iterdir()}, {"glider.rle", *names})

    def test_a_picture_has_the_cells_in_the_colors_of_the_rule(self):
        path = self.folder / "wire.png"
        status, shown, said = spoken(*WIRE, "--to", 0, "--show", "png", "--out", path)
        self.assertEqual((status, shown), (0, ""), said)
        self.assertIn("24 by 5 from (0, 0)", said)
        chunks, rest = {}, path.read_bytes()[8:]
        while rest:
            (size,) = struct.unpack(">I", rest[:4])
            chunks[rest[4:8]], rest = rest[8:8 + size], rest[12 + size:]
        width, height = struct.unpack(">II", chunks[b"IHDR"][:8])
        lines = zlib.decompress(chunks[b"IDAT"])
        self.assertEqual((width, height), (24 * 16, 5 * 16))
        self.assertEqual(list(lines[1:1 + 16 * 9:16]), [0, 1, 2, 3, 3, 3, 3, 3, 0])
        self.assertEqual(list(chunks[b"PLTE"][:12]), [32, 32, 40, 80, 160, 255, 255, 255, 255, 255, 160, 0])

    def test_a_large_pattern_is_drawn_smaller(self):
        line = self.file("line.rle", "x = 1025, y = 1, rule = B3/S012345678\n1025o!\n")
        _, _, said = spoken(line, "--to", 0, "--out", self.folder / "line.png")
        self.assertIn("513 by 1 from (0, 0), 2 by 2 cells a pixel", said)

    def test_what_cannot_be_written_leaves_the_old_file(self):
        line = self.file("line.rle", "x = 1025, y = 1, rule = B3/S012345678\n1025o!\n")
        old = self.file("old.txt", "old")
        status, _, _ = spoken(line, "--to", 0, "--out", old, "--out", self.folder / "new.csv")
        self.assertEqual((status, Path(old).read_text()), (2, "old"))
        self.assertEqual((self.folder / "new.csv").read_text(), "state,cells\n1,1025\n")
        (self.folder / "no.csv.new").mkdir()
        status, shown, said = spoken(line, "--to", 0, "--out", self.folder / "no.csv")
        self.assertEqual((status, shown.split()[-1]), (1, "1025"))
        self.assertRegex(said, r"\nrun\.py: .*no\.csv: Is a directory\n$")

    def test_a_script_in_place_of_running_it(self):
        views = ("rle", "counts", "window", 0, 0, 24, 5)
        words = (*WIRE, "--to", 100, "--at", "20: 12 2 0", "--every", "8 1 60: 0 0 1", "--show", *views)
        script = self.answered(*words, "--script", "--desk", "/nowhere")
        self.assertIn("\nat 20 set 12 2 0\n# intervention 1\nevery 8 1 60 set 0 0 1\n# intervention 2\n", script)
        self.assertRegex(script, r"\nmark 100 rle\n# bookmark 1\n(.*\n)*show 1\nshow 2\nshow 3\n$")
        said = subprocess.run([PROGRAM], input=script, capture_output=True, text=True, check=True, timeout=50).stdout
        texts = re.split(r"(?m)^bookmark \d current \d+\n", said)
        self.assertNotIn("refused", texts[0])
        rle, counts, window = (it.split("\n", 1)[1] for it in self.answered(*words).split("\n\n"))
        self.assertEqual((texts[1], texts[3]), (rle + "\n", window))
        self.assertEqual([it.split() for it in texts[2].splitlines()], [it.split() for it in counts.splitlines()[1:-1]])

    def test_a_script_needs_no_soup_twice(self):
        words = ("B36/S23", "--soup", 32, "--to", 50, "--show", "rle")
        said = subprocess.run([PROGRAM], input=self.answered(*words, "--script"), capture_output=True, text=True,
                              check=True, timeout=50).stdout
        self.assertEqual(re.split(r"(?m)^bookmark 1 current \d+\n", said)[1], self.answered(*words))


class DocumentTest(unittest.TestCase):
    def setUp(self):
        self.page = (CLIENTS / "docs/run.md").read_text(encoding="utf-8")

    def test_the_page_has_the_help(self):
        with mock.patch.object(sys, "argv", ["desk-run", "--help"]), mock.patch.dict(os.environ, {"COLUMNS": "100"}):
            with contextlib.redirect_stdout(io.StringIO()) as said, self.assertRaises(SystemExit):
                main()
        helped = said.getvalue().replace("optional arguments:", "options:")  # as Python 3.9 says it
        self.assertIn(f"```\n{helped}```\n", self.page)

    def examples(self):
        """Each command of the page, and the lines that it shows there."""
        for part in re.split(r"(?m)^    \$ ", self.page)[1:]:
            words, *lines = re.match(r".*\n((    .*)?\n)*", part)[0].rstrip().split("\n")
            yield words, [line[4:] for line in lines]

    def test_the_examples_show_what_the_page_says(self):
        with tempfile.TemporaryDirectory() as folder:
            (Path(folder) / "desk-run").symlink_to(CLIENTS / "run.py")
            places = {**ENVIRONMENT, "PATH": f"{folder}:{os.environ['PATH']}"}
            ran = 0
            for ran, (words, wanted) in enumerate(self.examples(), 1):
                run = subprocess.run(["bash", "-c", words], cwd=ROOT, env=places, stdout=subprocess.PIPE,
                                     stderr=subprocess.STDOUT, text=True, timeout=50)
                self.assertEqual(wanted, run.stdout.replace(f"{ROOT}/", "").splitlines(), words)
        self.assertGreater(ran, 4)


if __name__ == "__main__":
    unittest.main()
