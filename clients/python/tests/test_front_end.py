"""A test of a front end: it edits while the workers compute, and looks at what is known. Each text that it was shown is
compared with a fresh run of the document as it was then. It runs with the other tests, or alone by

    python3 -m unittest discover -s clients/python/tests -p test_front_end.py
"""
import random
import sys
import tempfile
import time
import unittest
from pathlib import Path

from desk import Desk, Polling, Refused, Settling, Window
from places import EXAMPLES, PROGRAM

EDITS, FARTHEST, MOST = 200, 120, 6
VIEWS = ("counts", "counts", "rle", "mc", Window(-12, -12, 30, 30))
# A call that waits for no worker takes some milliseconds. On a busy machine it may be put off for long.
MOST_SECONDS = 1
# There few texts are known so soon, and it goes on for so long at most until there are enough.
MORE_SECONDS = 60


class FrontEnd:
    """Somebody who edits, and meanwhile looks at what is known without ever waiting for it."""

    def __init__(self, desk, chance):
        self.desk, self.chance, self.slowest, self.pending = desk, chance, {}, 0
        self.moments = []  # the script of each document, and by their ids the bookmarks that it was shown
        desk.rule(str(EXAMPLES / "brain.rule"))
        desk.start(str(EXAMPLES / "brain.rle"))
        desk.mark(FARTHEST, "counts")

    def call(self, method, *words, **more):
        began = time.monotonic()
        try:
            return getattr(self.desk, method)(*words, **more)
        finally:
            self.slowest[method] = max(self.slowest.get(method, 0), time.monotonic() - began)

    def cells(self):
        return [(self.chance.randint(-8, 12), self.chance.randint(-8, 12), self.chance.randrange(3)) for _ in range(4)]

    def edit(self):
        """One of the edits, on anything that there is."""
        chance, there = self.chance, self.desk.list()
        branch = chance.choice([0, *(it.id for it in there.branches)])
        first, last = sorted(chance.randint(0, FARTHEST) for _ in range(2))
        edits = [("set", self.cells()), ("at", last, self.cells(), branch), ("branch", branch, first),
                 ("every", chance.randint(9, 99), first, last, self.cells(), branch),
                 ("mark", last, chance.choice(VIEWS), branch)]
        edits += [("move", it.id, last) for it in there.bookmarks[:2]]
        edits += [("change", it.id, last, self.cells()) for it in there.interventions]
        edits += [("repeat", it.id, 7, first, last, self.cells()) for it in there.interventions[:1]]
        removals = [("drop", there.interventions), ("unmark", there.bookmarks), ("unbranch", there.branches)]
        full = [(name, chance.choice(them).id) for name, them in removals if len(them) > MOST]
        try:
            self.call(*chance.choice(full or edits))
        except Refused as refused:
            assert refused.name in ("BeforeFork", "BranchInUse"), refused

    def look(self, seconds):
        """Polls and peeks for so long."""
        until, shown = time.monotonic() + seconds, {}
        self.moments.append((self.desk.script(), shown))
        while time.monotonic() < until:
            self.call("poll")
            for it in self.desk.list().bookmarks:
                found = self.call("peek", it.id)
                assert found is not None or not it.is_current, f"bookmark {it.id} was listed as current"
                assert found == shown.get(it.id, found), f"bookmark {it.id} showed something else before"
                self.pending += found is None
                shown.update({it.id: found} if found is not None else {})

    def shown(self):
        """How many texts it was shown."""
        return sum(len(shown) for _, shown in self.moments)


class FrontEndTest(unittest.TestCase):
    def test_what_is_shown_is_what_a_fresh_run_shows(self):
        for workers in (1, 2, 8):
            with self.subTest(workers=workers), Desk(PROGRAM, workers=workers) as desk:
                chance = random.Random(f"front end {workers}")
                front = FrontEnd(desk, chance)
                for _ in range(EDITS):
                    front.edit()
                    front.look(chance.choice((0, 0.001, 0.01, 0.04)))
                until = time.monotonic() + MORE_SECONDS
                while front.shown() <= EDITS and time.monotonic() < until:
                    front.edit()
                    front.look(0.2)
                self.assertEqual(desk.settle(timeout=60), Settling(0, 0))
                front.look(0.001)
                self.assertEqual(desk.poll(), Polling(0))
                self.assertTrue(all(it.is_current for it in desk.list().bookmarks))
                compared = sum(self.compared(*moment) for moment in front.moments)
                slowest = ", ".join(f"{name} {took * 1000:.0f} ms" for name, took in sorted(front.slowest.items()))
                print(f"front end, {workers} workers: {compared} texts were compared, {front.pending} looks found one"
                      f" pending; slowest: {slowest}", file=sys.stderr)
                self.assertGreater(compared, EDITS)
                self.assertGreater(front.pending, EDITS)
                self.assertLess(max(front.slowest.values()), MOST_SECONDS)

    def compared(self, script, shown):
        """How many bookmarks were shown of a document, each of which shows the same in a fresh run."""
        if not shown:
            return 0
        with tempfile.TemporaryDirectory() as folder:
            path = Path(folder) / "document.script"
            path.write_bytes(script)
            with Desk.open(str(path), PROGRAM) as fresh:
                for bookmark, found in shown.items():
                    self.assertEqual(found, fresh.show(bookmark), script)
        return len(shown)


if __name__ == "__main__":
    unittest.main()
