"""Tests of proving the program: what is proved before what, what is kept, and what is told of what is wrong."""
import asyncio
import contextlib
import os
import shutil
import sys
import tempfile
import time
import unittest
from unittest import mock

BUILDING = os.path.dirname(os.path.dirname(os.path.realpath(__file__)))
ROOT = os.path.dirname(BUILDING)
sys.path.insert(0, BUILDING)

import crates
import prove

LOWEST = "basics"


def crate(name, *uses, lines=1):
    """A crate of so many lines, below which are these."""
    urgency = lines + sum(it.urgency for it in uses)
    return crates.Crate(name, [*uses], ["std"], urgency)


def giving_way(jobs):
    """What a crate gets that is much less urgent than another."""
    return prove.Share(jobs, prove.NICENESS)


def has_ended(process):
    """Whether a process has gone, or is to be waited for alone."""
    try:
        return b") Z " in crates.read(f"/proc/{process}/stat")
    except FileNotFoundError:
        return True


class Order(unittest.TestCase):
    """What is proved next, and by how many processes."""

    def setUp(self):
        self.low = crate("low", lines=10)
        self.left, self.right = crate("left", self.low, lines=5), crate("right", self.low, lines=7)
        self.top = crate("top", self.left, self.right, lines=9)
        self.all = {self.low, self.left, self.right, self.top}

    def next(self, done, *running, room=4, most=99):
        return [*prove.next_to_prove(self.all - done - {*running}, {*running}, room, most)]

    def test_the_crates_of_the_program_are_found(self):
        needed = crates.crates()
        names = [it.name for it in needed]
        self.assertIn(LOWEST, names)
        self.assertEqual(names[-1], crates.PROGRAM)
        self.assertFalse([it for it in names if it.endswith("_tests")])
        for at, it in enumerate(needed):
            self.assertLessEqual(it.below, {*needed[:at]})

    def test_a_crate_alone_gets_all_processors(self):
        self.assertEqual(self.next(set()), [(self.low, prove.Share(4))])
        self.assertEqual(self.next({self.low, self.left, self.right}), [(self.top, prove.Share(4))])

    def test_urgent_crates_share_them(self):
        self.assertEqual(self.next({self.low}), [(self.right, prove.Share(2)), (self.left, prove.Share(2))])
        self.assertEqual(self.next({self.low}, self.left), [(self.right, prove.Share(2))])

    def test_urgent_crates_get_two_at_least(self):
        self.assertEqual(self.next({self.low}, room=2), [(self.right, prove.Share(2)), (self.left, prove.Share(2))])
        self.assertEqual(self.next({self.low}, self.right, room=2), [(self.left, prove.Share(2))])

    def test_there_are_no_more_than_memory_holds(self):
        self.assertEqual(self.next(set(), room=2, most=3), [(self.low, prove.Share(2))])
        both = [(self.right, prove.Share(1)), (self.left, prove.Share(1))]
        self.assertEqual(self.next({self.low}, room=2, most=3), both)
        self.assertEqual(self.next({self.low}, room=2, most=1), both)

    def test_less_urgent_ones_give_way(self):
        self.left.urgency = 1
        self.assertEqual(self.next({self.low}), [(self.right, prove.Share(4)), (self.left, giving_way(2))])
        self.assertEqual(self.next({self.low}, self.left), [(self.right, prove.Share(4))])
        self.assertEqual(self.next({self.low}, room=2), [(self.right, prove.Share(2)), (self.left, giving_way(1))])

    def test_a_crate_waits_for_those_below_it_and_for_room(self):
        self.assertEqual(self.next(set(), self.low), [])
        self.assertEqual(self.next({self.low}, room=1), [(self.right, prove.Share(1))])
        self.assertEqual(self.next({self.low}, self.right, room=1), [])


@unittest.skipUnless(shutil.which("rt"), "the toolchain is not on the PATH")
class Proofs(unittest.TestCase):
    """A crate that is proved in a copy."""

    def setUp(self):
        self.root = self.enterContext(tempfile.TemporaryDirectory())
        shutil.copytree(f"{ROOT}/crates/{LOWEST}", f"{self.root}/crates/{LOWEST}", ignore=shutil.ignore_patterns("out"))
        kept = f"{self.root}/kept"
        self.enterContext(mock.patch.multiple(crates, ROOT=self.root, KEPT=kept))
        self.enterContext(mock.patch.object(prove, "KEPT", kept))

    def append(self, text):
        with open(f"{self.root}/crates/{LOWEST}/src/lib.rt", "a", encoding="utf-8") as file:
            file.write(text)

    def test_what_is_proved_is_kept_until_its_text_changes(self):
        proved = crate(LOWEST)
        self.assertFalse(proved.is_kept())
        asyncio.run(prove.prove_library(proved, prove.Share(2)))
        self.assertTrue(proved.is_kept())
        self.assertTrue(os.path.isdir(proved.library))
        self.append("\n// More.\n")
        self.assertFalse(crate(LOWEST).is_kept())

    def test_what_is_wrong_with_a_crate_is_told(self):
        self.append("\nfn wrong() -> u8 {\n    nowhere()\n}\n")
        with self.assertRaises(prove.Refused) as refused:
            asyncio.run(prove.prove_library(crate(LOWEST), giving_way(1)))
        self.assertIn("nowhere", str(refused.exception))
        self.assertFalse(crate(LOWEST).is_kept())


class Commands(unittest.TestCase):
    """The commands that are run."""

    def test_what_a_command_says_is_told_where_it_fails(self):
        with self.assertRaises(prove.Refused) as refused:
            asyncio.run(prove.run("sh", "-c", "echo why; exit 3"))
        self.assertEqual(str(refused.exception), "why\n")

    def test_a_command_gives_way_as_it_is_told(self):
        with self.assertRaises(prove.Refused) as refused:
            asyncio.run(prove.run("sh", "-c", "sleep 1; nice; exit 3", niceness=7))
        self.assertEqual(str(refused.exception), f"{min(os.nice(0) + 7, 19)}\n")

    def test_a_command_ends_with_who_waits_for_it(self):
        with tempfile.NamedTemporaryFile() as file:
            words = ["sh", "-c", f"sleep 600 & echo $! > {file.name}; wait"]
            with contextlib.suppress(TimeoutError):
                asyncio.run(asyncio.wait_for(prove.run(*words), 1))
            started = int(crates.read(file.name))
        for _ in range(50):
            if has_ended(started):
                return
            time.sleep(0.1)
        self.fail("it goes on")


if __name__ == "__main__":
    unittest.main()
