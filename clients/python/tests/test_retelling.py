"""Tests of documents that are told one after another in one program, against the built program. They run with the
other tests, or alone by

    python3 -m unittest discover -s clients/python/tests -p test_retelling.py
"""
import os
import random
import tempfile
import unittest
import warnings

from desk import Desk, Trouble, Window
from desk.rules.lifelike import rule_text
from desk.exchange import Exchange
from desk.sweep import retelling
from desk.sweep.retelling import Retelling
from places import PROGRAM

RULES = [rule_text(it) for it in ("B3/S23", "B2/S/C3", "B36/S125")] + ["no rule", "@RULE x\n@TREE\nnum_states=9\n"]
STARTS = ["x = 3, y = 3\nbo$2bo$3o!\n", "x = 2, y = 1\nAB!\n", "[M2]\n2 1 1 1 0\n", "x = 4, y = 1\n4o!\n",
          "x = 0, y = 0\n!\n"]
VIEWS = ["counts", "rle", "mc", Window(-3, -3, 9, 7)]


def document(chance):
    """A random document: the method of each call and what it is given; an id is the number of the call that gave it."""
    calls, ids = [], {"at": [], "mark": [], "branch": []}

    def add(kind, name, *given):
        ids.get(kind, []).append(len(calls))
        calls.append((name, given))

    def cells():
        return [(chance.randrange(-2, 5), chance.randrange(-2, 5), chance.choice((0, 1, 1, 2))) for _ in range(3)]

    for _ in range(chance.randrange(1, 10)):
        on = ("of", chance.choice(ids["branch"])) if ids["branch"] and chance.random() < 0.4 else 0
        kind = chance.choice(["rule", "start", "set", "at", "every", "mark", "mark", "branch", "show"] * 3
                             + ["change", "drop", "move", "unmark", "unbranch"])
        if kind in ("rule", "start"):
            add("", f"{kind}_text", chance.choice(RULES if kind == "rule" else STARTS))
        elif kind == "set":
            add("", "set", cells())
        elif kind == "at":
            add("at", "at", chance.randrange(8), cells(), on)
        elif kind == "every":
            add("at", "every", 3, 1, 9, cells(), on)
        elif kind == "mark":
            add("mark", "mark", chance.randrange(12), chance.choice(VIEWS), on)
        elif kind == "branch":
            add("branch", "branch", on, chance.randrange(6))
        elif kind in ("change", "drop") and ids["at"]:
            add("", kind, ("of", chance.choice(ids["at"])), *([2, cells()] if kind == "change" else []))
        elif kind in ("show", "move", "unmark") and ids["mark"]:
            add("", kind, ("of", chance.choice(ids["mark"])), *([5] if kind == "move" else []))
        elif kind == "unbranch" and ids["branch"]:
            add("", kind, ("of", chance.choice(ids["branch"])))
    return calls + [("show", (("of", it),)) for it in ids["mark"]]


def said(desk, calls):
    """What a desk shows or refuses at each call of a document."""
    got, told = [], []
    for name, given in calls:
        try:
            words = [got[it[1]] if isinstance(it, tuple) and it[:1] == ("of",) else it for it in given]
            got.append(getattr(desk, name)(*(2**40 if it is None else it for it in words)))
            told.append(got[-1] if name == "show" else "ok")
        except Trouble as trouble:
            got.append(2**40 if name in ("at", "every", "mark", "branch") else None)
            told.append((type(trouble).__name__, getattr(trouble, "name", "")))
    return told


class RetellingTest(unittest.TestCase):
    def retelling(self):
        found = Retelling(Exchange.begun([PROGRAM, "--workers=1"]))
        self.addCleanup(found.close)
        return found

    def compare(self, seed, count):
        chance = random.Random(seed)
        calls, kinds = document(chance), set()
        program = self.retelling()
        for number in range(count):
            # The next one often begins as the one before.
            calls = calls[:chance.randrange(len(calls) + 1)] if chance.random() < 0.6 else []
            calls += document(chance) if not calls else [it for it in document(chance) if "of" not in repr(it)]
            with Desk(PROGRAM, workers=1) as fresh:
                wanted = said(fresh, calls)
            self.assertEqual(said(program.begin(), calls), wanted, (seed, number, calls))
            kinds |= {it if isinstance(it, str) else it[0] if isinstance(it, tuple) else "shown" for it in wanted}
        return kinds

    def test_documents_are_those_of_fresh_desks(self):
        kinds = set().union(*(self.compare(seed, 25) for seed in range(12)))
        self.assertLessEqual({"ok", "shown", "Refused"}, kinds)

    def test_also_where_squares_are_forgotten_each_time(self):
        before, retelling.MANY = retelling.MANY, -2**40
        try:
            for seed in range(100, 106):
                self.compare(seed, 25)
        finally:
            retelling.MANY = before

    def test_what_is_told_again_is_not_sent(self):
        program = self.retelling()
        for generation in range(5):
            desk = program.begin()
            desk.rule_text(RULES[0])
            desk.start_text(STARTS[0])
            desk.at(generation, [(9, 9, 1)])
            self.assertEqual(desk.show(desk.mark(generation, "counts")), {1: 6})
        self.assertEqual(desk.revision, 2 + 5 * 2 + 4 * 2)

    def test_a_script_is_of_the_document_that_was_told_last(self):
        program, wanted = self.retelling(), []
        for generation in range(3):
            desk = program.begin()
            desk.rule_text(RULES[0])
            desk.start_text(STARTS[0])
            branch = desk.branch(0, generation)
            gone, kept = desk.at(generation, [(9, 9, 1)], branch), desk.at(generation, [(8, 8, 1)], branch)
            desk.change(kept, generation + 1, [(7, 7, 1)])
            desk.drop(gone)
            mark, other = desk.mark(5, "rle", branch), desk.mark(7, "rle", branch)
            desk.move(mark, 6)
            desk.unmark(other)
            wanted.append((desk.show(mark), desk.script()))
        self.assertGreater(mark, 1)
        for shown, script in wanted:
            path = self.saved(script)
            with Desk.open(path, PROGRAM) as fresh:
                self.assertEqual([fresh.show(it.id) for it in fresh.list().bookmarks], [shown])
                self.assertEqual(fresh.script(), script)

    def saved(self, script):
        """The path of a file with a script."""
        with tempfile.NamedTemporaryFile(suffix=".script", delete=False) as file:
            file.write(script)
        self.addCleanup(os.remove, file.name)
        return file.name

    def test_the_names_of_rules_are_still_compared(self):
        named = "x = 1, y = 1, rule = B36/S23\no!\n"
        program = self.retelling()
        for _ in range(2):
            desk = program.begin()
            with warnings.catch_warnings():
                warnings.simplefilter("error")
                desk.rule_text(RULES[0])
            with self.assertWarnsRegex(UserWarning, "names the rule B36/S23, and the rule is B3/S23"):
                desk.start_text(named)
            desk.set([(1, 1, 1)])


if __name__ == "__main__":
    unittest.main()
