"""Tests of the comparison: what it finds, what it allows, and how it shrinks a script."""
import sys
import unittest
from pathlib import Path

sys.path.insert(0, str(Path(__file__).resolve().parents[1]))

from differ import shrunk  # noqa: E402
from judge import MEMORY, NOTHING, SQUARES, Difference, judge  # noqa: E402
from replies import asked_by, replies_to  # noqa: E402
from scripts import random_script, words_of  # noqa: E402

SCRIPT = b"set 0 0 1\nmark 0 counts\nsettle\nshow 1\n"
REPLIES = b"ok 1\nok 2 bookmark 1\nsettled\nbookmark 1 current 4\n1 1\n"


class Judging(unittest.TestCase):
    def test_the_replies_of_the_definitions_pass(self):
        self.assertEqual(judge(SCRIPT, REPLIES), 0)

    def test_any_other_text_differs(self):
        other = REPLIES.replace(b"1 1\n", b"1 2\n")
        for wrong in (other, REPLIES[:-1], REPLIES + b"bye\n", b"", b"ok 2" + REPLIES[4:]):
            for allowed in ((), (SQUARES,), (MEMORY,)):
                with self.assertRaises(Difference):
                    judge(SCRIPT, wrong, *allowed)

    def test_a_shortage_passes_where_it_is_allowed(self):
        short = b"ok 1\nok 2 bookmark 1\nunsettled 1 71\nbookmark 1 pending\n"
        self.assertEqual(judge(SCRIPT, short, SQUARES), 2)
        for replies in (short.replace(b" 71", b" 70"), short.replace(b"unsettled 1", b"unsettled 2")):
            with self.assertRaises(Difference):
                judge(SCRIPT, replies, SQUARES)
        with self.assertRaises(Difference):
            judge(SCRIPT, short)

    def test_how_far_the_workers_have_come_may_be_anything(self):
        script = b"mark 0 counts\nmark 1 counts\nbranch 0 3\npoll\npeek 1\npeek 2\nlist\npoll\n"
        replies = b"ok 1 bookmark 1\nok 2 bookmark 2\nok 3 branch 1\n"
        branch, listed, text = b"branch 1 of 0 at 3\n", b"listed 3\n", b"current 6\nempty\n"
        lines = [[b"bookmark %d on 0 at %d counts %s\n" % (it, it - 1, word) for word in (b"pending", b"current")]
                 for it in (1, 2)]
        pending = [b"bookmark %d pending\n" % it for it in (1, 2)]
        shown = [b"bookmark %d " % it + text for it in (1, 2)]
        right = [
            (b"polled 0\n", *shown, branch, lines[0][1], lines[1][1], listed, b"polled 0\n"),
            (b"polled 2\n", *pending, branch, lines[0][0], lines[1][0], listed, b"polled 2\n"),
            (b"polled 1\n", pending[0], shown[1], branch, lines[0][0], lines[1][1], listed, b"polled 1\n"),
            (b"polled 2\n", *pending, branch, lines[0][1], lines[1][0], listed, b"polled 0\n"),
        ]
        wrong = [
            (b"polled 3\n", *pending, branch, lines[0][0], lines[1][0], listed, b"polled 2\n"),
            (b"polled 2 71\n", *pending, branch, lines[0][0], lines[1][0], listed, b"polled 2\n"),
            (b"polled 2\n", *pending, branch, lines[1][0], lines[0][0], listed, b"polled 2\n"),
            (b"polled 2\n", *pending, lines[0][0], lines[1][0], branch, listed, b"polled 2\n"),
            (b"polled 2\n", *pending, branch, lines[0][0], lines[1][0], b"listed 2\n", b"polled 2\n"),
            (b"polled 2\n", *pending, branch, lines[0][0], listed, b"polled 2\n"),
            (b"polled 2\n", b"bookmark 1 current 4\n1 1\n", pending[1], branch, *lines[0], listed, b"polled 2\n"),
            (b"polled 1\n", *pending, branch, lines[0][0], lines[1][0], listed, b"polled 1\n"),
            (b"polled 2\n", shown[0], pending[1], branch, lines[0][0], lines[1][0], listed, b"polled 2\n"),
            (b"polled 2\n", *pending, branch, lines[0][1], lines[1][0], listed, b"polled 2\n"),
            (b"polled 0\n", *shown, branch, lines[0][1], lines[1][1], listed, b"polled 1\n"),
        ]
        for told in right:
            self.assertEqual(judge(script, replies + b"".join(told)), 0)
        for told in wrong:
            with self.subTest(told), self.assertRaises(Difference):
                judge(script, replies + b"".join(told))

    def test_what_was_settled_is_known_until_the_next_edit(self):
        script = SCRIPT[: SCRIPT.index(b"show")] + b"%s\nset 0 0 0\n%s\n"
        replies = REPLIES[: REPLIES.index(b"bookmark 1 c")] + b"%s\nok 3\n%s\n"
        pending = {b"poll": b"polled 1", b"peek 1": b"bookmark 1 pending",
                   b"list": b"bookmark 1 on 0 at 0 counts pending\nlisted 1"}
        known = {b"poll": b"polled 0", b"peek 1": b"bookmark 1 current 4\n1 1",
                 b"list": b"bookmark 1 on 0 at 0 counts current\nlisted 1"}
        for ask in pending:
            self.assertEqual(judge(script % (ask, ask), replies % (known[ask], pending[ask])), 0)
            with self.assertRaises(Difference):
                judge(script % (ask, ask), replies % (pending[ask], pending[ask]))

    def test_a_cause_of_a_poll_passes_where_it_is_allowed(self):
        script, replies = b"mark 0 counts\npoll\n", b"ok 1 bookmark 1\npolled 1 71\n"
        self.assertEqual(judge(script, replies, SQUARES), 1)
        for allowed in (NOTHING, MEMORY):
            with self.assertRaises(Difference):
                judge(script, replies, allowed)

    def test_a_command_that_found_no_memory_changes_nothing(self):
        lost = b"refused 70 NoMemory\nok 1 bookmark 1\nsettled\nbookmark 1 current 6\nempty\n"
        self.assertEqual(judge(SCRIPT, lost, MEMORY), 1)
        with self.assertRaises(Difference):
            judge(SCRIPT, lost, SQUARES)


class Shrinking(unittest.TestCase):
    def test_no_line_stays_that_can_go(self):
        script = b"# desk\n" + b"".join(b"line %d\n" % it for it in range(50))
        kept = shrunk(script, lambda it: b"line 7\n" in it and b"line 31\n" in it)
        self.assertEqual(kept, b"# desk\nline 7\nline 31\n")


class RandomScripts(unittest.TestCase):
    def test_a_seed_has_one_script(self):
        self.assertEqual(random_script("a/1"), random_script("a/1"))
        self.assertNotEqual(random_script("a/1"), random_script("a/2"))

    def test_all_kinds_of_things_are_asked(self):
        kinds = {type(ask).__name__ for at in range(60) for ask in asked_by(random_script(f"kinds/{at}"))}
        self.assertEqual(
            kinds,
            {"SetCells", "AddIntervention", "ChangeIntervention", "RemoveIntervention", "AddBookmark", "MoveBookmark",
             "RemoveBookmark", "AddBranch", "RemoveBranch", "Text", "Plain", "Show", "Peek", "Refused"},
        )

    def test_the_first_line_has_the_words_of_the_program(self):
        words = words_of(random_script("words/1"))
        self.assertEqual(words[0], "--workers")

    def test_the_model_can_say_their_replies(self):
        for at in range(20):
            self.assertTrue(b"".join(replies_to(random_script(f"said/{at}"))))


if __name__ == "__main__":
    unittest.main()
