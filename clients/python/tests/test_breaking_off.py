"""Tests of calls that are broken off, against the built program. They run with the other tests, or alone by

    python3 -m unittest discover -s clients/python/tests -p test_breaking_off.py
"""
import contextlib
import os
import random
import signal
import subprocess
import sys
import tempfile
import threading
import time
import unittest
from pathlib import Path

from desk import Desk, Refused, Settling, Trouble, Window
from desk.formats.header import rule_named_by
from places import EXAMPLES, PROGRAM, WITH_PACKAGE

# Python 3.12 doesn't tell of each instruction where tracing begins a second time.
STEP = "line" if sys.version_info[:2] == (3, 12) else "opcode"
HOLDER = """\
import sys, time
from desk import Desk
desk = Desk(sys.argv[1])
desk.mark(5, "counts")
print(desk.process, flush=True)
time.sleep(60)
"""
FORK = """\
import os, sys
from desk import Desk, Trouble
desk = Desk(sys.argv[1])
child = os.fork()
if child:
    os.waitpid(child, 0)
try:
    print(desk.show(desk.mark(5, "counts")))
except Trouble as trouble:
    print(trouble)
    desk.close()
"""


def interrupt(number, frame):
    raise KeyboardInterrupt


def is_broken_off(call, seconds):
    """Calls, and breaks off after so many seconds if it takes so long."""
    before = signal.signal(signal.SIGALRM, interrupt)
    try:
        try:
            signal.setitimer(signal.ITIMER_REAL, max(seconds, 1e-6))
            call()
        finally:
            signal.setitimer(signal.ITIMER_REAL, 0)
        return False
    except KeyboardInterrupt:
        return True
    finally:
        signal.signal(signal.SIGALRM, before)


def is_broken_off_at(call, instruction):
    """Calls, and breaks off before the instruction of this number if there are so many."""
    passed = 0

    def trace(frame, event, argument):
        nonlocal passed
        frame.f_trace_opcodes = True
        passed += event == STEP
        if passed == instruction:
            passed += 1
            raise KeyboardInterrupt
        return trace

    before = sys.gettrace()
    sys.settrace(trace)
    try:
        call()
        return False
    except KeyboardInterrupt:
        return True
    finally:
        sys.settrace(before)


def rle(seed, side):
    """A square of random cells of state 0 or 1, without runs, and how many are live."""
    chosen = random.Random(seed)
    rows = ["".join(chosen.choice("bo") for _ in range(side)) for _ in range(side)]
    return f"x = {side}, y = {side}\n" + "$\n".join(rows) + "!\n", sum(row.count("o") for row in rows)


def duration(call, times=1):
    """How long a call takes, the shortest of so many."""
    found = []
    for _ in range(times):
        began = time.monotonic()
        call()
        found.append(time.monotonic() - began)
    return min(found)


def is_gone(process, seconds):
    """Whether a process that isn't ours to wait for ends within some seconds."""
    until = time.monotonic() + seconds
    while time.monotonic() < until:
        try:
            if Path(f"/proc/{process}/stat").read_text().split(")")[-1].split()[0] == "Z":
                return True
        except OSError:
            return True
        time.sleep(0.02)
    return False


class BreakingOffTest(unittest.TestCase):
    """The texts of a start are known."""

    def setUp(self):
        folder = tempfile.TemporaryDirectory()
        self.addCleanup(folder.cleanup)
        self.folder = Path(folder.name)
        self.desk = self.opened()

    def opened(self):
        desk = Desk(PROGRAM)
        self.addCleanup(desk.close)
        return desk

    def file(self, name, text):
        path = self.folder / name
        path.write_text(text, encoding="utf-8")
        return str(path)

    def test_the_next_show_is_its_own(self):
        path = self.file("soup.rle", rle("show", 600)[0])
        views = ("rle", "mc", "counts", Window(0, 0, 256, 256), Window(5, 5, 3, 2))
        with Desk(PROGRAM) as fresh:
            fresh.start(path)
            wanted = [fresh.show(fresh.mark(0, view)) for view in views]
        desk, chosen = self.desk, random.Random("views")
        desk.start(path)
        marks = [desk.mark(0, view) for view in views]
        desk.settle()
        longest, broken = max(duration(lambda it=it: desk.show(it), 3) for it in marks[:2]), 0
        for moment in range(40):
            cut = chosen.choice((0, 0, 1, 1, 3))
            broken += is_broken_off(lambda: desk.show(marks[cut]), longest * moment / 40)
            asked = chosen.randrange(len(views))
            self.assertEqual(desk.show(marks[asked]), wanted[asked], (moment, cut, asked))
        self.assertGreater(broken, 0)

    def test_a_start_is_taken_or_not(self):
        soups = [rle(seed, 500) for seed in (1, 2)]
        paths = [self.file(f"{it}.rle", soup[0]) for it, soup in enumerate(soups)]
        desk = self.desk
        longest, last = duration(lambda: desk.start(paths[0]), 3), 0
        mark, revision, broken = desk.mark(0, "counts"), 5, 0
        for moment in range(24):
            broken += is_broken_off(lambda: desk.start(paths[1 - last]), longest * 1.1 * moment / 24)
            last, revision = (last, revision) if desk.revision == revision else (1 - last, revision + 1)
            self.assertEqual(desk.revision, revision)
            self.assertEqual(desk.show(mark), {1: soups[last][1]}, moment)
        self.assertGreater(broken, 0)
        self.assertGreater(revision, 5)

    def test_a_rule_is_taken_or_refused(self):
        lines = "".join(f"0,{a},{b},0\n" for a in range(100) for b in range(100)) * 2
        head = "@RULE {}\n@TABLE\nn_states:{}\nneighborhood:oneDimensional\nsymmetries:none\n"
        paths = [self.file("many.rule", head.format("many", 100) + lines),
                 self.file("bad.rule", head.format("bad", 99) + lines)]
        desk = self.desk
        longest = duration(lambda: desk.rule(paths[0]))
        for moment in range(20):
            before = desk.revision
            with contextlib.suppress(Refused):
                is_broken_off(lambda: desk.rule(paths[moment % 2]), longest * moment / 20)
            self.assertIn(desk.revision - before, (0, 1 - moment % 2))
            self.assertEqual(rule_named_by(desk._accepted.rule.text), "many")
            with self.assertRaises(Refused) as caught:
                desk.set([(0, 0, 100)])
            self.assertEqual(caught.exception.name, "CellStateTooHigh")

    def test_at_every_instruction(self):
        desk = self.desk
        views = ("counts", Window(0, 0, 3, 1), "rle")
        shown = ({1: 1}, [[0, 1, 0]], "#CXRLE Pos=1,0 Gen=0\nx = 1, y = 1, rule = still\no!\n")
        desk.set([(1, 0, 1)])
        instruction, broken = 0, True
        while broken:
            instruction += 1
            view = instruction % 3
            before = len(desk._views)
            broken = is_broken_off_at(lambda: desk.mark(0, views[view]), instruction)
            revision = desk.revision
            self.assertEqual(revision, 1 + len(desk._views))
            for mark in range(before + 1, len(desk._views) + 1):
                self.assertEqual(desk.show(mark), shown[view])
        self.assertGreater(instruction, 10)
        marks = [desk.mark(0, view) for view in views]
        instruction, broken = 0, True
        while broken:
            instruction += 1
            broken = is_broken_off_at(lambda: desk.show(marks[instruction % 3]), instruction)
            other = (instruction + 1) % 3
            self.assertEqual(desk.show(marks[other]), shown[other])
        self.assertGreater(instruction, 10)
        self.assertEqual(desk.revision, revision + 3)

    def test_a_long_settling_is_gone_on_with(self):
        desk = self.desk
        desk.rule(str(EXAMPLES / "brain.rule"))
        desk.start(str(EXAMPLES / "brain.rle"))
        mark = desk.mark(600, "counts")
        self.assertTrue(is_broken_off(desk.settle, 0.02))
        self.assertTrue(is_broken_off(lambda: desk.show(mark), 0.02))
        with Desk(PROGRAM) as fresh:
            fresh.rule(str(EXAMPLES / "brain.rule"))
            fresh.start(str(EXAMPLES / "brain.rle"))
            wanted = fresh.show(fresh.mark(100, "counts"))
        desk.move(mark, 100)
        self.assertEqual(desk.show(mark), wanted)
        self.assertEqual((desk.settle(), desk.revision), (Settling(0, 0), 4))

    def test_the_next_call_is_answered_at_once(self):
        desk = self.desk
        desk.rule(str(EXAMPLES / "brain.rule"))
        desk.start(str(EXAMPLES / "brain.rle"))
        near, far = desk.mark(2, "counts"), desk.mark(2**40 + 12345, "counts")
        for call in (desk.settle, lambda: desk.show(far)):
            self.assertTrue(is_broken_off(call, 0.5))
            self.assertLess(duration(lambda: desk.peek(far)), 1)  # 0.1 on a machine that isn't busy
        desk.unmark(far)
        self.assertEqual(desk.show(near), {1: 14, 2: 12})

    def test_looks_leave_no_reply_to_the_next(self):
        desk, views = self.desk, ("rle", Window(0, 0, 200, 200), "counts", Window(1, 1, 2, 2))
        desk.start(self.file("soup.rle", rle("looks", 300)[0]))
        marks = [desk.mark(0, view) for view in views] * 3
        for _ in range(500):
            desk.mark(0, "counts")
        desk.settle()
        wanted, listed, script = [desk.show(it) for it in marks], desk.list(), desk.script()
        looks = [desk.list, desk.poll, desk.script, lambda: desk.settle(5), lambda: desk.peek(marks[0]),
                 lambda: desk.show(marks[1], 5)]
        longest, broken = [duration(look, 3) for look in looks], 0
        for moment in range(240):
            look = moment % len(looks)
            broken += is_broken_off(looks[look], longest[look] * moment / 240)
            asked = moment * 7 % len(marks)
            self.assertEqual(desk.peek(marks[asked]), wanted[asked], moment)
            self.assertEqual((desk.list(), desk.poll().pending, desk.revision), (listed, 0, 506), moment)
        self.assertEqual(desk.script(), script)
        self.assertGreater(broken, 20)

    def test_close_waits_for_nothing(self):
        self.desk.rule(str(EXAMPLES / "brain.rule"))
        self.desk.start(str(EXAMPLES / "brain.rle"))
        self.desk.mark(2**40 + 12345, "counts")
        self.assertTrue(is_broken_off(self.desk.settle, 0.2))
        self.assertLess(duration(self.desk.close), 5)

    def test_a_signal_from_a_thread(self):
        path = self.file("soup.rle", rle("thread", 400)[0])
        self.desk.start(path)
        big, small = self.desk.mark(0, "rle"), self.desk.mark(0, Window(-2, 0, 2, 1))
        before = signal.signal(signal.SIGINT, interrupt)
        self.addCleanup(signal.signal, signal.SIGINT, before)
        for moment in range(20):
            timer = threading.Timer(0.0005 * moment, os.kill, (os.getpid(), signal.SIGINT))
            try:
                timer.start()
                while True:
                    self.desk.show(big)
            except KeyboardInterrupt:
                pass
            self.assertEqual(self.desk.show(small), [[0, 0]])

    def test_several_threads_get_their_own(self):
        marks = [self.desk.mark(0, Window(0, 0, 1 + it, 1)) for it in range(4)]
        found = [[] for _ in marks]

        def ask(it):
            found[it] = [self.desk.show(marks[it]) for _ in range(50)]

        threads = [threading.Thread(target=ask, args=(it,)) for it in range(4)]
        for thread in threads:
            thread.start()
        for thread in threads:
            thread.join()
        self.assertEqual(found, [[[[0] * (1 + it)]] * 50 for it in range(4)])

    def test_replies_that_make_no_sense_end_all(self):
        for reply in ("", "bookmark 1", "ok 1\\nok 2"):
            said = f"read line\necho listed 0\nread line\nprintf '{reply}\\n'\nexec sleep 60\n"
            odd = self.file("odd", f"#!/bin/sh\n{said}")
            os.chmod(odd, 0o755)
            with self.subTest(reply), Desk(odd) as desk:
                with self.assertRaisesRegex(Trouble, "the call was broken off by"):
                    desk.settle()
                with self.assertRaisesRegex(Trouble, "the call before was broken off by"):
                    desk.settle()

    def test_the_program_ends_with_its_client(self):
        for number in (signal.SIGKILL, signal.SIGINT, signal.SIGTERM):
            words = [sys.executable, "-B", "-c", HOLDER, PROGRAM]
            with subprocess.Popen(words, env=WITH_PACKAGE, stdout=subprocess.PIPE, stderr=subprocess.DEVNULL,
                                  text=True) as client:
                process = int(client.stdout.readline())
                self.assertEqual(os.getsid(process), process)
                client.send_signal(number)
                client.wait(20)
                self.assertTrue(is_gone(process, 20), number)

    def test_a_fork_leaves_it_alone(self):
        words = [sys.executable, "-B", "-W", "ignore", "-c", FORK, PROGRAM]
        said = subprocess.run(words, env=WITH_PACKAGE, capture_output=True, text=True, timeout=30)
        self.assertEqual((said.stdout, said.stderr), ("the desk is one of another process\n{}\n", ""))

    def test_it_ends_where_nothing_refers_to_it(self):
        desk = Desk(PROGRAM)
        desk.mark(1, "counts")
        process = desk.process
        del desk
        self.assertTrue(is_gone(process, 20))


if __name__ == "__main__":
    unittest.main()
