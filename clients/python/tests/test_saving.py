"""Tests of documents as scripts, against the built program. They run with the other tests, or alone by

    python3 -m unittest discover -s clients/python/tests -p test_saving.py
"""
import gzip
import os
import random
import re
import subprocess
import tempfile
import threading
import unittest
import warnings
from pathlib import Path
from unittest import mock

from desk import Desk, Malformed, Refused, RuleNameWarning, Trouble, Window
from desk.accepted import Accepted, Edit, needed
from desk.transport import Command
from places import EXAMPLES, PROGRAM

# Of 2, 4 and 7 states, so that some of them can't follow.
RULES = ("B3/S23", "B2/S345/C4", "B2/S345/C7", "B36/S125", "B3/S23")
STILL = b"@RULE still\n@TABLE\nn_states:2\nneighborhood:vonNeumann\nsymmetries:none\n"
VIEWS = ("counts", "rle", "mc", Window(-4, -4, 9, 8))


def replied(script):
    """What the program replies to a script, line by line."""
    run = subprocess.run([PROGRAM], input=script, capture_output=True, check=True, timeout=60)
    return run.stdout.decode().split("\n")


class Session:
    """Edits at random, of which some are refused."""

    def __init__(self, desk, chance, folder):
        self.desk, self.chance, self.folder, self.refused = desk, chance, folder, 0

    def edit(self):
        chance, desk, near = self.chance, self.desk, self.chance.randint(0, 9)
        there, cells = desk.list(), [(chance.randint(-3, 3), chance.randint(-3, 3), chance.choice((0, 1, 1, 1, 3, 5)))]
        branch = chance.choice([0, 0, *(it.id for it in there.branches)])
        edits = [
            (2, lambda: desk.lifelike(chance.choice(RULES))),
            (2, lambda: desk.start(self.pattern())),
            (3, lambda: desk.set(cells * chance.randint(1, 3))),
            (3, lambda: desk.at(near, cells, on=branch)),
            (2, lambda: desk.every(chance.randint(0, 3), near, chance.randint(0, 9), cells, on=branch)),
            (3, lambda: desk.mark(near, chance.choice(VIEWS), on=branch)),
            (1, lambda: desk.branch(branch, near)),
            (1, lambda: desk.unbranch(branch)),
        ]
        for it in there.bookmarks[-2:]:
            edits += [(1, lambda it=it: desk.move(it.id, near)), (1, lambda it=it: desk.unmark(it.id))]
        for it in there.interventions[-2:]:
            edits += [(2, lambda it=it: desk.change(it.id, near, cells)), (1, lambda it=it: desk.drop(it.id)),
                      (1, lambda it=it: desk.repeat(it.id, 2, near, 9, cells))]
        weights, calls = zip(*edits)
        try:
            chance.choices(calls, weights)[0]()
        except Refused:
            self.refused += 1

    def pattern(self):
        path = Path(self.folder) / "some.pattern"
        rle = "x = 3, y = 3\n" + self.chance.choice(("3o$obo!", "3A$C.A!\n", "A2E$E!", "", "!\nwhatever")) + "\n"
        path.write_text(self.chance.choice((rle, rle, "[M2]\n#R Life\n1 1 0 1 0\n")), encoding="utf-8")
        return str(path)


class WithFolder(unittest.TestCase):
    def setUp(self):
        folder = tempfile.TemporaryDirectory()
        self.addCleanup(folder.cleanup)
        self.folder = Path(folder.name)

    def opened(self, *words):
        desk = Desk.open(*map(str, words), PROGRAM)
        self.addCleanup(desk.close)
        return desk

    def script(self, text):
        path = self.folder / "a.script"
        path.write_bytes(text if isinstance(text, bytes) else text.encode())
        return path


class ScriptTest(WithFolder):
    def test_random_sessions_are_made_anew(self):
        refused = left_out = 0
        for seed in range(60):
            with warnings.catch_warnings(), mock.patch("desk.accepted.MANY", seed * 50), Desk(PROGRAM) as desk:
                warnings.simplefilter("ignore", RuleNameWarning)
                session = Session(desk, random.Random(seed), self.folder)
                for _ in range(random.Random(seed).randint(5, 80)):
                    session.edit()
                refused += session.refused
                self.is_made_anew(desk, seed)
                left_out += desk.revision - sum(line.startswith("ok ") for line in replied(desk.script()))
        self.assertGreater(refused, 100)
        self.assertGreater(left_out, 100)

    def is_made_anew(self, desk, seed):
        """Whether a script makes the same document, by the program alone and by `open`, and ids go on."""
        script, there = desk.script(), desk.list()
        shown = {it.id: desk.show(it.id) for it in there.bookmarks}
        told = replied(script + b"settle\nlist\n")
        self.assertNotIn("refused", " ".join(told), seed)
        desk.settle()
        path = self.folder / "saved.script"
        desk.save(str(path))
        self.assertEqual(path.read_bytes(), script, seed)
        with Desk.open(str(path), PROGRAM) as fresh:
            self.assertEqual({it.id: fresh.show(it.id) for it in fresh.list().bookmarks}, shown, seed)
            self.assertEqual(fresh.list(), desk.list(), seed)
            self.assertEqual(fresh.script(), script, seed)
            lists = "\n".join(told).partition("settled\n")[2]
            lines = sum(map(len, (there.branches, there.interventions, there.bookmarks))) + 1
            self.assertEqual(lists.count("\n"), lines, seed)
            for ask in (lambda it: it.branch(0, 0), lambda it: it.at(9, [(0, 0, 1)]), lambda it: it.mark(9, "counts")):
                self.assertEqual(ask(fresh), ask(desk), seed)
            self.assertEqual(fresh.show(fresh.mark(9, "rle")), desk.show(desk.mark(9, "rle")), seed)

    def test_what_is_needless_is_left_out(self):
        def edit(line, text=None, id_=0):
            return Edit(Command(line, text), id_)

        rule, start, other = edit("rule", b"R\n"), edit("start rle", b"S\n"), edit("start mc", b"T\n")
        at, every = edit("on 1 at 5 set 1 1 3", None, 1), edit("every 1 2 9 set 1 1 4", None, 2)
        mark = edit("mark 5 rle")
        again, anew = edit("change 1 6 set 2 2 5"), edit("change 1 every 2 3 9 set 3 3 6")
        one, two = edit("set 1 1 1"), edit("set 0 0 0")
        move, there, else_ = edit("move 1 5"), edit("move 1 7"), edit("move 2 7")
        bare = edit("on 1 at 5 set 0 0 0", None, 1)
        cases = [
            ([one, start, two, one, mark, other, one], [mark, other, one]),
            ([rule, start, rule, other], [rule, other]),
            ([rule, start, rule], [rule, start, rule]),
            ([rule, two, mark, rule, rule], [two, mark, rule]),
            ([rule, at, rule], [rule, at, rule]),
            ([rule, at, edit("drop 1"), rule], [bare, edit("drop 1"), rule]),
            ([at, every, again, anew, edit("drop 1")],
             [bare, every, edit("change 1 every 2 3 9 set 0 0 0"), edit("drop 1")]),
            ([at, again, anew, again], [at, again]),
            ([at, again, mark, anew], [at, again, mark, anew]),
            ([move, there, else_, move, there], [there, else_, there]),
            ([again, rule, anew], [again, rule, anew]),
            ([mark, edit("unmark 1"), edit("branch 0 1"), edit("unbranch 1")],
             [mark, edit("unmark 1"), edit("branch 0 1"), edit("unbranch 1")]),
        ]
        for edits, wanted in cases:
            self.assertEqual(needed(edits), wanted, edits)
            self.assertEqual(needed(wanted), wanted)

    def test_a_long_session_of_many_starts_stays_small(self):
        accepted, text = Accepted(), b"o" * 70 + b"!\n"
        for number in range(30000):
            accepted.add(Command("rule", text), ["ok", "1"])
            accepted.add(Command("start rle", text), ["ok", "2", "gen", "0"])
            accepted.add(Command("at 5 set" + " 1 1 1" * 100), ["ok", "3", "intervention", str(number + 1)])
            accepted.add(Command(f"drop {number + 1}"), ["ok", "4"])
        self.assertLess(accepted._size, 4 << 20)
        self.assertLess(len(accepted.script()), 2 << 20)

    def test_it_has_what_was_broken_off_and_outlives_the_program(self):
        with Desk(PROGRAM) as desk:
            desk.set([(0, 0, 1)])
            wanted = desk.script()
            self.assertEqual(wanted, b"set 0 0 1\n")
            with self.assertRaises(Refused):
                desk.set([(0, 0, 9)])
            os.kill(desk.process, 9)
            with self.assertRaises(Trouble):
                desk.set([(0, 0, 0)])
            self.assertEqual(desk.script(), wanted)
        self.assertEqual(desk.script(), wanted)
        self.assertEqual(desk.revision, 1)

    def test_it_is_whole_while_others_edit(self):
        with mock.patch("desk.accepted.MANY", 10), Desk(PROGRAM) as desk:
            path = self.folder / "dot.rle"
            path.write_text("x = 1, y = 1\no!\n", encoding="utf-8")
            wanted = b"rule\n%send\nstart rle\nx = 1, y = 1\no!\nend\n" % STILL
            threads = [threading.Thread(target=lambda: [desk.start(str(path)) for _ in range(100)]) for _ in range(3)]
            desk.rule_text(STILL)
            desk.start(str(path))
            for thread in threads:
                thread.start()
            while any(thread.is_alive() for thread in threads):
                self.assertEqual(desk.script(), wanted)
            self.assertEqual(desk.revision, 302)


class OpeningTest(WithFolder):
    def test_scripts_that_look_too(self):
        plain = [path for path in sorted(EXAMPLES.glob("*.replies")) if b"refused" not in path.read_bytes()]
        self.assertGreater(len(plain), 10)
        for path in plain:
            with self.subTest(path.name):
                script, replies = path.with_suffix(".script"), path.read_text(encoding="utf-8")
                desk = self.opened(script)
                self.assertEqual(desk.revision, len(re.findall("(?m)^ok ", replies)))
                ids = re.findall("(?m)^ok [0-9]+ bookmark ([0-9]+)$", replies)
                removed = re.findall("(?m)^unmark ([0-9]+)$", script.read_text(encoding="utf-8"))
                self.assertEqual([str(it.id) for it in desk.list().bookmarks], [it for it in ids if it not in removed])

    def test_blanks_ends_and_packed_files(self):
        rule = "@RULE X\r\n@TABLE\n n_states:2\nneighborhood:oneDimensional\nsymmetries:none\n0,1,0,1\n1,1,1,0\n"
        text = f"\n # no\n#\r\n rule\t\r\n{rule} end\r\n\n  set  0   0 1 \r\nwork\nhelp\n"
        text += "  mark  007  window -0 0  2 1\nquit\nmark\n"
        for script in (text.encode(), gzip.compress(text.encode())):
            desk = self.opened(self.script(script))
            self.assertEqual(desk.revision, 3)
            self.assertEqual(desk.list().bookmarks[0].view, Window(0, 0, 2, 1))
            self.assertEqual(desk.script(), f"rule\n{rule}end\nset 0 0 1\nmark 007 window -0 0 2 1\n".encode())
            self.assertEqual(desk.show(1), [[1, 0]])

    def test_what_is_refused_has_its_line(self):
        path = self.folder / "a.script"
        cases = [
            ("set 0 0 1\n\npaint 3\n", 80, "BadCommand", 3, "paint 3"),
            ("\nrule\n@RULE X\n@TABLE\nn_states:2\nneighborhood:Moore\nsymmetries:none\n1,0\nend\n",
             8, "BadTransition", 8, "1,0"),
            ("# a\nstart rle\nx = 1, y = 1\no?!\nend\n", 22, "BadRun", 4, "o?!"),
            ("set 0 0 1\nstart rle\nx = 1, y = 1\nB!\nend\n", 42, "CellStateTooHigh", 2, "start rle"),
            ("mark 0 what\n", 80, "BadCommand", 1, "mark 0 what"),
            ("mark 0 window 1 2 3\n", 80, "BadCommand", 1, "mark 0 window 1 2 3"),
        ]
        for script, number, name, place, line in cases:
            with self.subTest(script), self.assertRaises(Refused) as caught:
                self.opened(self.script(script))
            found = caught.exception
            self.assertEqual((found.number, found.name, found.place, found.line), (number, name, place, line))
            self.assertIn(f"{path}, line {place}: refused {number} {name}", str(found))

    def test_what_is_no_script(self):
        with self.assertRaisesRegex(Trouble, "the text from line 2 on has no `end`"):
            self.opened(self.script("set 0 0 1\nrule\n@RULE X\n"))
        with self.assertRaisesRegex(Trouble, "nowhere.script"):
            self.opened(self.folder / "nowhere.script")

    def test_names_are_warned_of_and_options_passed_on(self):
        rule = "rule\n@RULE X\n@TREE\nnum_states=2\nnum_neighbors=4\nnum_nodes=1\n1 0 1\nend\n"
        start = "start rle\nx = 1, y = 1, rule = Y\no!\nend\n"
        tree = rule.replace("num_nodes=1\n1 0 1\n", "num_nodes=5\n1 0 1\n2 0 0\n3 1 1\n4 2 2\n5 3 3\n")
        path = str(self.script(tree + start))
        with self.assertWarnsRegex(RuleNameWarning, "names the rule Y, and the rule is X") as caught:
            self.addCleanup(Desk.open(path, PROGRAM, squares=64, workers=1, facts=1).close)
        self.assertEqual(caught.filename, __file__)
        with self.assertRaisesRegex(Malformed, "refused its options: invalid value '9'"):
            Desk.open(path, PROGRAM, workers=9)

    def test_saving_leaves_the_old_file_where_it_fails(self):
        with Desk(PROGRAM) as desk:
            desk.set([(0, 0, 1)])
            with self.assertRaisesRegex(Trouble, "a.script"):
                desk.save(str(self.folder / "none/a.script"))
            path, link = self.script("before\n"), self.folder / "link"
            link.symlink_to(path)
            desk.save(str(link))
            self.assertEqual((path.read_bytes(), link.is_symlink()), (b"set 0 0 1\n", True))
            self.assertEqual(sorted(it.name for it in self.folder.iterdir()), ["a.script", "link"])


if __name__ == "__main__":
    unittest.main()
