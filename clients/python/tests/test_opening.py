"""Tests of starts that bring their rule, against the built program. They run with the other tests, or alone by

    python3 -m unittest discover -s clients/python/tests -p test_opening.py
"""
import sys
import tempfile
import threading
import time
import unittest
from concurrent.futures import ThreadPoolExecutor
from pathlib import Path
from unittest import mock

from desk import Desk, Refused, RuleNameWarning, Trouble, Window, opening
from desk.rules.lifelike import rule_text
from desk.transport import Command
from places import PROGRAM
from test_breaking_off import STEP

# A row of three live cells. At generation 1 Life has turned it, and B2/S has four cells above and below.
ROW = "x = 3, y = 1, rule = {}\n3o!\n"
TURNED, PARTED = [[0, 1, 0]] * 3, [[1, 0, 1], [0, 0, 0], [1, 0, 1]]
SQUARE = Window(0, -1, 3, 3)
# Three states, under which nothing changes.
THREE = "@RULE three\n@TABLE\nn_states:3\nneighborhood:vonNeumann\nsymmetries:none\n"


def is_broken_off_in_opening(call, step):
    """Calls, and breaks off before the step of this number in the module `opening` if there are so many.

    It calls in a thread of its own, since Python may keep an exception as being handled that is broken off so.
    """
    with ThreadPoolExecutor(1) as pool:
        return pool.submit(_is_broken_off, call, step).result()


def _is_broken_off(call, step):
    passed = 0

    def trace(frame, event, argument):
        nonlocal passed
        if frame.f_code.co_filename != opening.__file__:
            return None
        frame.f_trace_opcodes = True
        passed += event == STEP
        if passed == step:
            passed += 1
            raise KeyboardInterrupt
        return trace

    before = sys.gettrace()
    sys.settrace(trace)
    try:
        call()
        return False
    except KeyboardInterrupt:
        return True
    finally:
        sys.settrace(before)


class WithDesk(unittest.TestCase):
    def setUp(self):
        folder = tempfile.TemporaryDirectory()
        self.addCleanup(folder.cleanup)
        self.folder = Path(folder.name)
        self.desk = self.opened()

    def opened(self):
        desk = Desk(PROGRAM)
        self.addCleanup(desk.close)
        return desk

    def file(self, name, text):
        path = self.folder / name
        path.write_text(text, encoding="latin-1")
        return str(path)

    def shown(self, view=SQUARE, generation=1):
        bookmark = self.desk.mark(generation, view)
        found = self.desk.show(bookmark)
        self.desk.unmark(bookmark)
        return found


class BroughtTest(WithDesk):
    def test_a_start_brings_the_rule_that_it_names(self):
        for name, wanted in (("B3/S23", TURNED), ("B2/S", PARTED)):
            self.desk.start(self.file("row.rle", ROW.format(name)))
            self.assertEqual(self.shown(), wanted)
            self.assertIn(name, self.desk.rule_line)

    def test_a_rule_is_found_beside_the_pattern(self):
        self.file("Mine.rule", rule_text("B2/S").replace("B2/S", "Mine"))
        self.desk.start(self.file("row.rle", ROW.format("Mine")))
        self.assertEqual(self.shown(), PARTED)
        self.assertIn(str(self.folder / "Mine.rule"), self.desk.rule_line)

    def test_a_text_brings_its_rule_too(self):
        self.desk.start_text(ROW.format("B2/S"))
        self.assertEqual(self.shown(), PARTED)

    def test_a_pattern_without_a_name_keeps_what_a_start_brought_and_else_takes_life(self):
        self.desk.start_text("x = 3, y = 1\n3o!\n")
        self.assertEqual(self.shown(), TURNED)
        self.desk.start_text(ROW.format("B2/S"))
        self.desk.start_text("x = 3, y = 1\n3o!\n")
        self.assertEqual(self.shown(), PARTED)

    def test_a_rule_that_was_given_stays_and_another_name_is_warned_of(self):
        self.desk.rule("B2/S")
        with self.assertWarnsRegex(RuleNameWarning, "names the rule B3/S23, and the rule is B2/S") as caught:
            self.desk.start(self.file("row.rle", ROW.format("B3/S23")))
        self.assertEqual(caught.filename, __file__)
        self.assertEqual(self.shown(), PARTED)
        self.assertEqual(self.desk.rule_line, "")

    def test_a_rule_that_is_given_with_a_start_stays_too(self):
        with self.assertWarns(RuleNameWarning):
            self.desk.start_text(ROW.format("B3/S23"), rule="B2/S")
        self.assertEqual(self.shown(), PARTED)
        with self.assertWarns(RuleNameWarning):
            self.desk.start_text(ROW.format("B3/S23"))
        self.assertEqual(self.shown(), PARTED)

    def test_a_rule_that_is_there_is_not_sent_again(self):
        self.desk.start_text(ROW.format("B3/S23"))
        before = self.desk.revision
        self.desk.start_text(ROW.format("b3s23"))
        self.assertEqual(self.desk.revision, before + 1)
        self.desk.start_text(ROW.format("B3/S23"), rule="23/3")
        self.assertEqual(self.desk.revision, before + 2)
        with self.assertWarns(RuleNameWarning):  # since it was given by now
            self.desk.start_text(ROW.format("B2/S"))
        self.assertEqual(self.shown(), TURNED)

    def test_the_rule_of_a_script_was_given(self):
        self.desk.start_text(ROW.format("B3/S23"))
        self.desk.save(str(self.folder / "saved.script"))
        with Desk.open(str(self.folder / "saved.script"), PROGRAM) as desk:
            with self.assertWarnsRegex(RuleNameWarning, "names the rule B2/S"):
                desk.start_text(ROW.format("B2/S"))
            self.assertEqual(desk.show(desk.mark(1, SQUARE)), TURNED)

    def test_a_rule_by_its_name_or_path(self):
        self.desk.set([(0, 0, 1), (1, 0, 1), (2, 0, 1)])
        for rule, wanted in (("B3/S23", TURNED), (Path(self.file("mine.rule", rule_text("B2/S"))), PARTED)):
            self.desk.rule(rule)
            self.assertEqual(self.shown(), wanted)


class AsOneTest(WithDesk):
    """A document of three states, with something of each kind. What is refused leaves it as it was."""

    def setUp(self):
        super().setUp()
        self.begin(self.desk)

    def begin(self, desk):
        desk.rule_text(THREE)
        desk.start_text("x = 2, y = 1, rule = three\nAB!\n")
        desk.set([(5, 0, 2)])
        desk.branch(0, 3)
        desk.drop(desk.at(2, [(9, 9, 1)]))
        desk.every(2, 4, 8, [(1, 1, 1)], on=1)
        for view in ("counts", "rle", SQUARE):
            desk.mark(6, view, on=1)
        self.wanted = self.state(desk)

    def state(self, desk):
        listed = desk.list()
        shown = [desk.show(it.id) for it in listed.bookmarks]
        return listed.branches, listed.interventions, [it[:-1] for it in map(_fields, listed.bookmarks)], shown

    def test_fewer_states_than_the_old_start_are_no_obstacle(self):
        self.desk.start_text(ROW.format("B2/S"), rule="B2/S")
        self.assertEqual(self.shown(), PARTED)
        self.assertEqual([it.id for it in self.desk.list().bookmarks], [1, 2, 3])

    def test_what_is_refused_changes_nothing(self):
        cut, high = self.file("cut.rule", "@RULE cut\n@TABLE\nn_states:2\n"), "x = 1, y = 1, rule = B3/S23\nC!\n"
        cases = [
            ("the rule", ROW.format("x"), cut, "MissingDescriptor", "cut.rule"),
            ("the start", "x = 1, y = 1\n?!\n", "B3/S23", "BadRun", "the pattern"),
            ("a start of too many states", high, "B3/S23", "CellStateTooHigh", "the pattern"),
        ]
        for what, text, rule, name, of in cases:
            with self.subTest(what):
                with self.assertRaises(Refused) as caught:
                    self.desk.start_text(text, "the pattern", rule)
                self.assertEqual(caught.exception.name, name)
                self.assertIn(of, str(caught.exception))
                self.assertEqual(self.state(self.desk), self.wanted)

    def test_a_rule_that_an_intervention_does_not_fit_changes_nothing(self):
        self.desk.at(9, [(0, 0, 2)])
        wanted = self.state(self.desk)
        with self.assertRaisesRegex(Refused, "B2/S: refused 42 CellStateTooHigh"):
            self.desk.start_text(ROW.format("B2/S"), rule="B2/S")
        self.assertEqual(self.state(self.desk), wanted)

    def test_a_rule_that_is_not_found_sends_nothing(self):
        before = self.desk.revision
        with self.assertRaisesRegex(Trouble, "no rule Nowhere is known"):
            self.desk.start_text(ROW.format("Nowhere"), rule="Nowhere")
        self.assertEqual((self.desk.revision, self.state(self.desk)), (before, self.wanted))

    def test_the_opening_document_is_given_back_too(self):
        desk = self.opened()
        desk.set([(0, 0, 1)])
        bookmark = desk.mark(7, "rle")
        before = desk.show(bookmark)
        with self.assertRaises(Refused):
            desk.start_text("x = 1, y = 1, rule = B3/S23\n?!\n")
        self.assertEqual(desk.show(bookmark), before)
        desk.start_text(ROW.format("B2/S"))
        self.assertEqual(desk.show(desk.mark(1, SQUARE)), PARTED)

    def test_the_script_of_what_was_given_back_shows_the_same(self):
        with self.assertRaises(Refused):
            self.desk.start_text("x = 1, y = 1\n?!\n", rule="B3/S23")
        self.desk.save(str(self.folder / "saved.script"))
        with Desk.open(str(self.folder / "saved.script"), PROGRAM) as desk:
            self.assertEqual(self.state(desk), self.wanted)

    def test_what_cannot_be_given_back_at_once_is_given_back_later(self):
        taken, short = self.desk._transport.ask, []

        def ask(command, *more):
            if command in short:
                short.remove(command)
                return taken(Command("set"), *more)  # which is refused
            return taken(command, *more)

        with mock.patch.object(self.desk._transport, "ask", ask):
            short += [Command("rule", THREE.encode())] * 2
            with self.assertRaisesRegex(Refused, "that were there.*: refused 80"):
                self.desk.start_text("x = 1, y = 1\n?!\n", rule="B3/S23")
            with self.assertRaisesRegex(Refused, "that were there.*: refused 80"):
                self.desk.list()
            self.assertEqual(self.state(self.desk), self.wanted)

    def test_wherever_it_is_broken_off_both_are_taken_or_none(self):
        taken, broken = "#CXRLE Pos=0,0 Gen=0\nx = 3, y = 1, rule = B2/S\n3o!\n", 0
        for text in (ROW.format("B2/S"), ROW.format("B2/S").replace("3o", "3?")):
            is_over, step = False, 0
            while not is_over:
                step += 1
                try:
                    is_over = not is_broken_off_in_opening(lambda: self.desk.start_text(text, rule="B2/S"), step)
                except Refused:
                    is_over = True
                broken += not is_over
                if self.shown("rle", 0) == taken:
                    self.assertNotIn("?", text)
                    self.desk.close()
                    self.desk = self.opened()
                    self.begin(self.desk)
                self.assertEqual(self.state(self.desk), self.wanted, (text, step))
        self.assertEqual(sys.exc_info(), (None, None, None))
        self.assertGreater(broken, 50)

    def test_no_thread_finds_one_without_the_other(self):
        desk, found, is_over = self.opened(), [], threading.Event()
        texts = {"x = 3, y = 1, rule = B2/S\n3o!\n", "x = 2, y = 1, rule = B3/S23\n2o!\n"}

        def start(text):
            while not is_over.wait(0.01):
                desk.start_text(text)

        desk.start_text(min(texts))
        mark = desk.mark(0, "rle")
        threads = [threading.Thread(target=start, args=(text,)) for text in texts for _ in range(2)]
        for thread in threads:
            thread.start()
        began = time.monotonic()
        try:
            while time.monotonic() < began + (1 if texts <= set(found) else 30):
                desk.poll()
                shown = desk.peek(mark)
                found += [shown.partition("\n")[2]] if shown else []
        finally:
            is_over.set()
            for thread in threads:
                thread.join()
        self.assertEqual(set(found), texts)

    def break_off_before_the_start(self):
        """Leaves the new rule with an empty plane, as a call does that is broken off there."""
        ask = self.desk._transport.ask

        def broken(command, *more):
            if command.text == ROW.format("B2/S").encode():
                raise KeyboardInterrupt
            return ask(command, *more)

        with mock.patch.object(self.desk._transport, "ask", broken), self.assertRaises(KeyboardInterrupt):
            self.desk.start_text(ROW.format("B2/S"), rule="B2/S")

    def test_whatever_comes_next_finds_what_was_there(self):
        self.break_off_before_the_start()
        self.desk.drop(self.desk.at(9, [(0, 0, 2)]))  # a state that the new rule doesn't have
        self.assertEqual(self.shown("rle", 0), "#CXRLE Pos=0,0 Gen=0\nx = 6, y = 1, rule = three\nAB3.B!\n")
        before = self.desk.revision
        self.break_off_before_the_start()
        self.assertEqual(self.desk.revision, before + 6)  # no plane, the rule; no plane, rule, start and cell of before
        script = self.desk.script()
        self.break_off_before_the_start()
        self.assertEqual(self.desk.script(), script)
        self.break_off_before_the_start()
        self.desk.start_text("x = 2, y = 1, rule = three\nBA!\n")
        self.assertEqual(self.shown("rle", 0), "#CXRLE Pos=0,0 Gen=0\nx = 2, y = 1, rule = three\nBA!\n")

    def test_a_start_whose_reply_is_due_is_waited_for(self):
        cells = "$".join("bo" * 500 for _ in range(1000))
        for end in ("!", "?"):
            text = f"x = 1000, y = 1000, rule = B2/S\n{cells}{end}\n"
            taken = self.desk._transport.ask

            def ask(command, *more):
                if command.text != text.encode():
                    return taken(command, *more)
                threading.Thread(target=taken, args=(command, *more)).start()
                time.sleep(0.001)  # so that it is sent, and its reply isn't there
                raise KeyboardInterrupt

            with mock.patch.object(self.desk._transport, "ask", ask), self.assertRaises(KeyboardInterrupt):
                self.desk.start_text(text, rule="B2/S")
            if end == "?":
                self.assertEqual(self.state(self.desk), self.wanted)
            else:
                self.assertEqual(self.shown("counts", 0), {1: 500_000})
                self.desk.start_text("x = 2, y = 1\nAB3.B!\n", rule=self.file("three.rule", THREE))


def _fields(bookmark):
    return bookmark.id, bookmark.on, bookmark.generation, bookmark.view, bookmark.is_current


if __name__ == "__main__":
    unittest.main()
