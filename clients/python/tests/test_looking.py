"""Tests of looking at what is known, against the built program. They run with the other tests, or alone by

    python3 -m unittest discover -s clients/python/tests -p test_looking.py
"""
import contextlib
import random
import sys
import tempfile
import threading
import time
import unittest
from pathlib import Path
from unittest import mock

from desk import (
    Bookmark,
    Branch,
    Desk,
    Intervention,
    Listing,
    Malformed,
    Pending,
    Polling,
    Refused,
    Settling,
    TimedOut,
    Trouble,
    Window,
)
from desk.accepted import Accepted
from desk.transport import Command
from places import EXAMPLES, PROGRAM

ENDLESS = 2**40 + 12345  # the brain's pattern there takes longer than anybody waits


class WithBrain(unittest.TestCase):
    def setUp(self):
        self.desk = self.opened()

    def opened(self, **options):
        desk = Desk(PROGRAM, **options)
        self.addCleanup(desk.close)
        desk.rule(str(EXAMPLES / "brain.rule"))
        desk.start(str(EXAMPLES / "brain.rle"))
        return desk


class LookingTest(WithBrain):
    def test_a_peek_shows_what_is_known(self):
        desk = self.desk
        views = ("counts", "rle", "mc", Window(-3, -2, 5, 4))
        marks = [desk.mark(8, view) for view in views]
        self.assertEqual([desk.peek(it) for it in marks], [None] * 4)
        self.assertEqual(desk.settle(), Settling(0, 0))
        self.assertEqual([desk.peek(it) for it in marks], [desk.show(it) for it in marks])
        self.assertEqual(len(desk.peek(marks[3])), 4)
        desk.set([(0, 0, 0)])
        self.assertIsNone(desk.peek(marks[0]))
        with self.assertRaises(Refused) as caught:
            desk.peek(99)
        self.assertEqual((caught.exception.number, caught.exception.name), (44, "NoSuchBookmark"))
        with self.assertRaises(Malformed):
            desk.peek("1\nquit")

    def test_polls_come_to_the_end(self):
        desk = self.desk
        self.assertEqual(desk.poll(), Polling(0))
        marks, found, until = [desk.mark(it, "counts") for it in (3, 60, 9)], [], time.monotonic() + 30
        while not found or found[-1].pending and time.monotonic() < until:
            found.append(desk.poll())
        self.assertEqual(found[0], Polling(3))
        self.assertEqual(found[-1], Polling(0))
        self.assertEqual(found, sorted(found, key=lambda it: -it.pending))
        self.assertNotIn(None, [desk.peek(it) for it in marks])

    def test_what_there_is_is_listed(self):
        desk = self.desk
        self.assertEqual(desk.list(), Listing())
        desk.branch(0, 3)
        desk.branch(1, 4)
        desk.at(5, [(0, 0, 1)], on=1)
        desk.every(2, 6, 60, [(0, 0, 1), (1, 0, 2)])
        desk.mark(7, "rle", on=2)
        desk.mark(2**60, Window(-5, -(2**60), 3, 2))
        desk.unmark(desk.mark(1, "counts"))
        desk.mark(0, "mc")
        wanted = Listing(
            [Branch(1, 0, 3), Branch(2, 1, 4)],
            [Intervention(1, 1, 5, 5, None, 1), Intervention(2, 0, 6, 60, 2, 2)],
            [Bookmark(1, 2, 7, "rle", False), Bookmark(2, 0, 2**60, Window(-5, -(2**60), 3, 2), False),
             Bookmark(4, 0, 0, "mc", False)],
        )
        self.assertEqual(desk.list(), wanted)
        desk.unmark(2)
        desk.settle()
        self.assertEqual(desk.list().bookmarks, [Bookmark(1, 2, 7, "rle", True), Bookmark(4, 0, 0, "mc", True)])

    def test_a_long_list(self):
        for number in range(4096):
            self.desk.mark(number, "counts")
        began = time.monotonic()
        found = self.desk.list().bookmarks
        self.assertLess(time.monotonic() - began, 5)
        self.assertEqual([(it.id, it.generation) for it in found], [(it + 1, it) for it in range(4096)])
        self.assertEqual(self.desk.revision, 4098)

    def test_a_settling_tells_how_far_it_is(self):
        desk, told = self.desk, []
        for generation in (5, 40, 90):
            desk.mark(generation, "counts")
        desk.unmark(1)
        self.assertEqual(desk.settle(progress=lambda *numbers: told.append(numbers)), Settling(0, 0))
        self.assertEqual((told[0], told[-1]), ((2, 2), (0, 2)))
        self.assertEqual(told, sorted(told, reverse=True))
        self.assertEqual(desk.settle(timeout=0), Settling(0, 0))

    def test_time_runs_out(self):
        desk = self.desk
        near, far = desk.mark(2, "counts"), desk.mark(ENDLESS, "counts")
        for timeout in (0, 0.02, 0.3):
            began = time.monotonic()
            self.assertIn(desk.settle(timeout), (Settling(1, None), Settling(2, None)))
            with self.assertRaisesRegex(TimedOut, f"bookmark 2 is pending after {timeout} s"):
                desk.show(far, timeout=timeout)
            self.assertGreaterEqual(time.monotonic() - began, 2 * timeout)
            self.assertLess(time.monotonic() - began, 2 * timeout + 5)
        wanted = {1: 14, 2: 12}
        self.assertEqual(desk.show(near, timeout=30), wanted)
        self.assertEqual([it.is_current for it in desk.list().bookmarks], [True, False])
        desk.move(far, 2)
        self.assertEqual(desk.show(far, timeout=30), wanted)

    def test_a_callback_may_break_it_off(self):
        self.desk.mark(ENDLESS, "counts")

        def enough(pending, of):
            raise KeyError((pending, of))

        with self.assertRaisesRegex(KeyError, r"\(1, 1\)"):
            self.desk.settle(progress=enough)
        self.assertEqual(self.desk.poll(), Polling(1))

    def test_a_cause_ends_it(self):
        desk = self.opened(squares=64)
        bookmark = desk.mark(64, "counts")
        self.assertEqual(desk.settle(timeout=60), Settling(1, 71))
        self.assertEqual(desk.settle(progress=lambda pending, of: None), Settling(1, 71))
        with self.assertRaises(Pending) as caught:
            desk.show(bookmark, timeout=60)
        self.assertNotIsInstance(caught.exception, TimedOut)
        polls, until = [], time.monotonic() + 60
        while Polling(1, 71) not in polls and time.monotonic() < until:
            polls.append(desk.poll())
        self.assertEqual(set(polls) - {Polling(1)}, {Polling(1, 71)})

    def test_several_threads_look_while_one_edits(self):
        desk, ends, wrong = self.desk, threading.Event(), []
        marks = [desk.mark(it, Window(0, 0, 1 + it, 1)) for it in range(4)]

        def look(it):
            while not ends.is_set():
                found, listed = desk.peek(marks[it]), desk.list()
                if found is not None and len(found[0]) != 1 + it or len(listed.bookmarks) != 4:
                    wrong.append((it, found, listed))
                if desk.poll().pending > 4 or desk.script().count(b"\nmark ") != 4:
                    wrong.append(it)

        threads = [threading.Thread(target=look, args=(it,)) for it in range(4)]
        for thread in threads:
            thread.start()
        for edit in range(200):
            desk.move(marks[edit % 4], edit % 30)
        ends.set()
        for thread in threads:
            thread.join()
        self.assertEqual(wrong, [])

    def test_lists_that_make_no_sense_end_all(self):
        branch = "branch 1 of 0 at 3\\n"
        for reply in ("listed 1", f"{branch}listed 2", f"{branch}bye", "listed 0\\nok 1", "listed"):
            with self.subTest(reply), tempfile.TemporaryDirectory() as folder:
                odd = Path(folder) / "odd"
                said = f"read line\necho listed 0\nread line\nprintf '{reply}\\n'\nexec sleep 60\n"
                odd.write_text(f"#!/bin/sh\n{said}", encoding="utf-8")
                odd.chmod(0o755)
                with Desk(str(odd)) as desk:
                    with self.assertRaisesRegex(Trouble, "the call was broken off by"):
                        desk.list()
                    with self.assertRaisesRegex(Trouble, "the call before was broken off by"):
                        desk.peek(1)


class PollingTest(WithBrain):
    def settled(self, polls, seed):
        """How a random document settles and what is known of it then, by a desk that polls or one that waits."""
        chance = random.Random(seed)
        desk = self.opened(polls=polls, squares=chance.choice((400, 1 << 20)), workers=1)
        fork = chance.randrange(20)
        branch = desk.branch(0, fork)
        for on in (0, branch):
            desk.at(fork + chance.randrange(30), [(chance.randrange(9), chance.randrange(9), 1)], on)
            desk.every(3, fork + 5, 2**60, [(chance.randrange(9), chance.randrange(9), 2)], on)
        views = [chance.choice(("counts", "rle", "mc", Window(-9, -9, 20, 20))) for _ in range(8)]
        marks = [desk.mark(fork + 5 * it, view, chance.choice((0, branch))) for it, view in enumerate(views)]
        for mark in chance.sample(marks, 3):  # the others are computed by `settle` alone
            with contextlib.suppress(Pending):
                desk.show(mark)
        ended = desk.settle()
        known = {it.id: desk.show(it.id) for it in desk.list().bookmarks if it.is_current}
        self.assertEqual(len(known) + ended.pending, len(marks), seed)
        return ended.cause, known

    def test_desks_that_poll_and_that_wait_find_the_same(self):
        causes, common = set(), 0
        for seed in range(30):
            (cause, found), (wanted_cause, wanted) = self.settled(True, seed), self.settled(False, seed)
            self.assertEqual(cause, wanted_cause, seed)
            if cause:  # where a branch needs too many squares, what is known of the other one depends on the moment
                found, wanted = ({it: one[it] for it in one if it in other}
                                 for one, other in ((found, wanted), (wanted, found)))
                common += len(found)
            self.assertEqual(found, wanted, seed)
            causes.add(cause)
        self.assertEqual(causes, {0, 71})
        self.assertGreater(common, 20)

    def test_how_many_steps_there_are_at_most(self):
        accepted, ids = Accepted(), {"at": 0, "every": 0, "mark": 0}
        cases = [("rule", 1), ("mark 5 rle", 1), ("on 1 mark 5 window 0 0 1 1", 2), ("at 7 set 0 0 1", 3),
                 ("every 3 1 9 set 0 0 1", 6), ("change 1 every 2 0 7 set 0 0 1", 9), ("change 2 7 set 0 0 1", 7),
                 ("drop 1", 3), ("unmark 1", 2), ("on 1 every 1 0 1152921504606846976 set 0 0 1", 8193),
                 ("drop 3", 2), ("drop 2", 1)]
        for line, steps in cases:
            command = Command(line)
            kind = "at" if command.kind == "every" else command.kind
            ids[kind] = ids.get(kind, 0) + 1
            accepted.add(command, ["ok", "1", "id", str(ids[kind])])
            self.assertEqual(accepted.steps, steps, line)


class ArrayTest(WithBrain):
    def test_without_numpy_it_is_said(self):
        bookmark = self.desk.mark(0, "counts")
        with mock.patch.dict(sys.modules, {"numpy": None}):
            for call in (self.desk.show, self.desk.peek):
                with self.assertRaisesRegex(Trouble, "no numpy"):
                    call(bookmark, as_array=True)
        self.assertIsNone(self.desk.peek(bookmark))


if __name__ == "__main__":
    unittest.main()
