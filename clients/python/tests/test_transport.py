"""Tests of desks whose commands go elsewhere than to a program of their own. They run with the other tests, or alone by

    python3 -m unittest discover -s clients/python/tests -p test_transport.py
"""
import unittest

from desk import Desk, Malformed, Pending, Refused, Settling, Window
from desk.transport import Reply, nothing_kept


class Played:
    """A transport that plays a part: each command has its reply."""

    process = 7

    def __init__(self, part):
        self.part, self.asked, self.is_closed = part, [], False

    def ask(self, command, taken=nothing_kept):
        words, text = self.part[len(self.asked)]
        self.asked.append(command.sent())
        reply = Reply(words.split(), text)
        taken(reply)
        return reply

    def wait(self, taken=nothing_kept):
        taken(Reply([]))
        return True

    def close(self):
        self.is_closed = True


class TransportTest(unittest.TestCase):
    def test_commands_go_to_it_and_replies_come_from_it(self):
        played = Played([
            ("ok 1", b""), ("ok 2 gen 5", b""), ("ok 3 branch 4", b""), ("ok 4 bookmark 9", b""),
            ("refused 42 CellStateTooHigh", b""), ("bookmark 9 pending", b""), ("polled 1", b""),
            ("bookmark 9 pending", b""), ("polled 0", b""),
            ("bookmark 9 current 8", b"1 2\n3 4\n"), ("bookmark 9 current 8", b"1 2\n3 4\n")])
        with Desk(transport=played) as desk:
            desk.rule_text("@RULE a")
            self.assertEqual(desk.start_text("x = 1, y = 1\no!\n"), 5)
            mark = desk.mark(7, Window(0, 0, 2, 2), on=desk.branch(0, 6))
            with self.assertRaises(Refused):
                desk.set([(0, 0, 4)])
            self.assertEqual(desk.show(mark), [[1, 2], [3, 4]])
            self.assertEqual(desk.peek(mark), [[1, 2], [3, 4]])
            self.assertEqual((desk.process, desk.revision, mark), (7, 4, 9))
            self.assertEqual(desk.script(), b"rule\n@RULE a\nend\nstart rle\nx = 1, y = 1\no!\nend\n"
                                            b"branch 0 6\non 1 mark 7 window 0 0 2 2\n")
        self.assertTrue(played.is_closed)
        looks = [b"peek 9\n", b"poll\n", b"peek 9\n", b"poll\n", b"peek 9\n", b"peek 9\n"]
        self.assertEqual(played.asked[2:], [
            b"branch 0 6\n", b"on 4 mark 7 window 0 0 2 2\n", b"set 0 0 4\n", *looks])

    def test_a_desk_that_waits_sends_one_command(self):
        played = Played([("ok 1 bookmark 1", b""), ("bookmark 1 current 4", b"1 3\n"), ("unsettled 2 71", b""),
                         ("bookmark 1 pending", b"")])
        desk = Desk(transport=played, polls=False)
        mark = desk.mark(5, "counts")
        self.assertEqual(desk.show(mark), {1: 3})
        self.assertEqual(desk.settle(), (2, 71))
        with self.assertRaises(Pending):
            desk.show(mark)
        self.assertEqual(played.asked[1:], [b"show 1\n", b"settle\n", b"show 1\n"])

    def test_a_cause_is_the_end_where_nothing_becomes_known_up_to_the_next(self):
        cases = [
            (["2", "0"], Settling(0, 0)),
            (["1 70"], Settling(1, 70)),
            (["2 71", "2", "2", "2 73"], Settling(2, 71)),
            (["3 71", "2", "2 73", "2 73"], Settling(2, 71)),
            (["3 71", "3", "2 71", "2", "0"], Settling(0, 0)),
            (["2 71", "1 71"], Settling(1, 71)),
        ]
        for told, wanted in cases:
            played = Played([(f"polled {it}", b"") for it in told])
            self.assertEqual(Desk(transport=played).settle(), wanted, told)
            self.assertEqual(len(played.asked), len(told))

    def test_it_has_its_program(self):
        for options in ({"program": "desk"}, {"squares": 64}, {"workers": 1}, {"facts": 1}):
            with self.assertRaisesRegex(Malformed, "has its program already"):
                Desk(transport=Played([]), **options)


if __name__ == "__main__":
    unittest.main()
