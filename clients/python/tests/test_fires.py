"""Tests of which lines fire and which never can: by hand, and beside the model and enumeration on random rules. They
run with the other tests, or alone by

    python3 -m unittest discover -s clients/python/tests -p test_fires.py
"""
import itertools
import random
import sys
import unittest
from collections import Counter
from pathlib import Path
from unittest import mock

from desk.rules import dead_lines
from desk.rules.dead_lines import Alive, Dead, Unknown, verdicts_of
from desk.rules.fires import Fires, Unmatched
from desk.rules.fires_table import table_text
from desk.rules.reader import rule_of
from places import EXAMPLES, ROOT
from test_rule_reader import SEED, first_match, table

sys.path.insert(0, str(ROOT / "model"))
import random_rules  # noqa: E402
import refusals  # noqa: E402
import rule_files  # noqa: E402
import worlds  # noqa: E402

GOLLY = Path("/usr/share/golly/Rules")
WIRE = (EXAMPLES / "wire.rule").read_bytes()


def random_world(chance, states):
    """Some cells about (0, 0), of a few states."""
    few = min(states, chance.choice((2, 3, states)))
    return {(x, y): chance.randrange(1, few) for x in range(-4, 4) for y in range(-3, 3) if chance.random() < 0.5}


def random_model(chance):
    """The text of a random rule, with the rule as the model reads it."""
    while True:
        text = random_rules.wild_rule(chance) if chance.random() < 0.9 else random_rules.tame_rule(chance)
        try:
            return text, rule_files.rule_of(text)
        except refusals.Refused:
            continue


class FiresTest(unittest.TestCase):
    def test_an_electron_on_a_wire(self):
        fires = Fires(rule_of(WIRE, "wire.rule"))
        world = {(0, 0): 2, (1, 0): 1, (2, 0): 3, (3, 0): 3}
        world = fires.add(world)
        self.assertEqual(world, {(0, 0): 3, (1, 0): 2, (2, 0): 1, (3, 0): 3})
        self.assertEqual(fires.cells, {21: 1, 22: 1, 23: 1})
        # Below and above the wire are six cells each, and one more at each end, which see it and stay empty; the last
        # cell of the wire stays too.
        self.assertEqual(sum(it.cells for it in fires.unmatched()), 6 + 6 + 2 + 1)
        self.assertEqual(fires.unmatched()[0], Unmatched((0, 2, 0, 0, 0, 0, 0, 0, 0), 3))
        self.assertIn(Unmatched((0, 3, 2, 1, 0, 0, 0, 0, 0), 2), fires.unmatched())
        self.assertIn(Unmatched((3, 3, 0, 0, 0, 0, 0, 0, 0), 1), fires.unmatched())
        self.assertEqual(fires.add(world), {(0, 0): 3, (1, 0): 3, (2, 0): 2, (3, 0): 1})
        self.assertEqual((fires.cells, fires.generations), ({21: 2, 22: 2, 23: 2}, 2))
        self.assertEqual([line.text for line in fires.never_fired()], ["3,1,1,o,p,q,r,s,t,1"])

    def test_the_nodes_of_a_tree(self):
        # A cell becomes 1 if its neighbour in the north is 1; the third node is never reached.
        nodes = "1 0 0", "1 1 1", "1 1 0", "2 0 0", "2 1 1", "2 2 2", "3 3 3", "3 4 4", "4 6 6", "4 7 7", "5 8 9"
        head = "@RULE X", "@TREE", "num_states=2", "num_neighbors=4", f"num_nodes={len(nodes)}"
        fires = Fires(rule_of("\n".join([*head, *nodes, ""]).encode(), "x"))
        self.assertEqual(fires.add({(5, 5): 1, (90, 90): 0}), {(5, 6): 1})
        # Five cells see the live one, and it is in the north of one of them.
        self.assertEqual(fires.cells, {6: 4, 7: 1, 9: 4, 10: 1, 12: 4, 13: 1, 14: 4, 15: 1, 16: 5})
        self.assertEqual([line.number for line in fires.never_fired()], [8, 11])
        dead = [number for number, verdict in verdicts_of(fires.rule).items() if verdict == Dead(())]
        self.assertEqual(dead, [8, 11])
        self.assertEqual(fires.unmatched(), [])

    def test_random_rules_beside_the_model(self):
        chance = random.Random(SEED)
        unmatched = 0
        for _ in range(150):
            text, model = random_model(chance)
            fires, world = Fires(rule_of(text, "x")), random_world(chance, model.states)
            wanted, stay, seen = Counter(), 0, 0
            for _ in range(2):
                for x, y in itertools.product(range(-7, 7), range(-6, 6)):
                    around = bytes(world.get((x + a, y + b), 0) for a, b in worlds.OFFSETS)
                    if isinstance(model.kind, rule_files.Table):
                        if any(around[it] for it in (0, *model.kind.neighborhood.places)):
                            line = first_match(model.kind, around)
                            seen += 1
                            stay += line is None
                            wanted.update([] if line is None else [fires.rule.lines[line].number])
                following = worlds.stepped(world, model)
                self.assertEqual(fires.add(world), following, text)
                if isinstance(model.kind, rule_files.Table):
                    self.assertEqual(+fires.cells, wanted, text)
                    self.assertEqual(sum(it.cells for it in fires.unmatched()), stay, text)
                    self.assertEqual(sum(fires.cells.values()) + stay, seen)
                    self.check_unmatched(fires, model.kind)
                unmatched += stay
                world = {(x, y): state for (x, y), state in following.items() if -6 < x < 6 and -5 < y < 5}
        self.assertGreater(unmatched, 1000)

    def check_unmatched(self, fires, model):
        """That each of them meets no line, and that no two of them are the same by the symmetry."""
        places = (0, *model.neighborhood.places)
        listed = [it.inputs for it in fires.unmatched()]
        for inputs in listed:
            around = bytearray(9)
            for place, state in zip(places, inputs):
                around[place] = state
            self.assertIsNone(first_match(model, bytes(around)))
        for one, other in itertools.combinations(listed[:12], 2):
            if one[0] == other[0]:
                self.assertFalse(model.symmetry.admits([frozenset((it,)) for it in one[1:]], other[1:]), (one, other))


class DeadLines(unittest.TestCase):
    def dead(self, text):
        """The dead lines, each with the lines that take all that it matches."""
        found = verdicts_of(rule_of(text, "x"))
        self.assertNotIn(Unknown(), found.values())
        return {number: verdict.by for number, verdict in found.items() if isinstance(verdict, Dead)}

    def test_by_hand(self):
        a, b = "var a={0,1,2}", "var b={0,1,2}"
        for neighborhood, symmetries, lines, wanted in (
            ("oneDimensional", "none", ("1,0,2,2", "1,0,2,2"), {7: (6,)}),
            ("oneDimensional", "none", ("1,0,2,2", "1,2,0,2"), {}),
            ("oneDimensional", "reflect", ("1,0,2,2", "1,2,0,2"), {7: (6,)}),
            ("oneDimensional", "permute", ("1,0,2,2", "1,2,0,2"), {7: (6,)}),
            # Lines 9 to 11 together take what line 12 matches, and only two of them take nothing of it.
            ("oneDimensional", "none", (a, b, "var c={0,1}", "1,c,a,0", "1,2,c,0", "1,2,2,2", "1,a,b,2"),
             {12: (9, 10, 11)}),
            ("oneDimensional", "none", (a, b, "var c={0,1}", "1,c,a,0", "1,2,c,0", "1,a,b,2"), {}),
            # A bound variable has one value, so line 8 leaves what differs.
            ("oneDimensional", "none", (a, b, "1,a,a,0", "1,a,b,2", "1,b,b,2"), {10: (8,)}),
            ("oneDimensional", "none", (a, b, "a,a,1,0", "1,1,b,2", "2,2,1,2"), {10: (8,)}),
            # Line 15 fires alone where n is 1, e is 2 and s isn't 0.
            ("vonNeumann", "none", (a, "var b=a", "var c=a", "var d={0,1}", "var e={1,2}", "1,a,b,0,d,2", "1,a,b,0,2,2",
                                    "1,0,a,e,b,2", "1,1,d,a,b,2", "1,d,a,b,c,0"), {}),
            ("vonNeumann", "rotate4", ("1,0,0,1,1,2", "1,0,1,1,0,2", "1,0,1,0,1,2"), {7: (6,)}),
            ("vonNeumann", "rotate4reflect", ("1,0,0,1,2,2", "1,0,0,2,1,2"), {7: (6,)}),
            ("vonNeumann", "rotate4", ("1,0,0,1,2,2", "1,0,0,2,1,2"), {}),
            ("Moore", "permute", ("1,0,0,1,0,0,2,0,0,2", "1,2,1,0,0,0,0,0,0,2", "1,2,2,0,0,0,0,0,0,2"), {7: (6,)}),
            ("hexagonal", "rotate2", ("1,0,1,0,0,0,0,2", "1,0,0,0,0,1,0,2", "1,0,0,1,0,0,0,2"), {7: (6,)}),
        ):
            with self.subTest(lines):
                self.assertEqual(self.dead(table(neighborhood, symmetries, 3, *lines)), wanted)

    def test_random_tables_beside_enumeration(self):
        chance = random.Random(SEED)
        dead, alive = 0, 0
        for _ in range(300):
            text, model = self.small_table(chance)
            rule = rule_of(text, "x")
            matched = self.matched(model)
            taken, verdicts = set(), verdicts_of(rule)
            for line, its_own in zip(rule.lines, matched):
                verdict = verdicts[line.number]
                with self.subTest(text=text, line=line.number):
                    if its_own <= taken:
                        self.assertIsInstance(verdict, Dead)
                        by = [those for other, those in zip(rule.lines, matched) if other.number in verdict.by]
                        self.assertTrue(all(it < line.number for it in verdict.by))
                        self.assertLessEqual(its_own, set().union(*by))
                        dead += 1
                    else:
                        self.assertIsInstance(verdict, Alive)
                        self.assertEqual(rule.decision(verdict.around).lines, (line.number,))
                        alive += 1
                taken |= its_own
        self.assertGreater(min(dead, alive), 100)

    def small_table(self, chance):
        """A random table with so few states and neighbours that all neighbourhoods can be gone through, and with more
        lines than it needs: some of them stand again, with other states in some entries."""
        while True:
            text, model = random_model(chance)
            if not isinstance(model.kind, rule_files.Table):
                continue
            if model.states ** (1 + len(model.kind.neighborhood.places)) > 300:
                continue
            lines = text.decode().replace("\r", "").rstrip("\n").split("\n")
            entries = [it for it in lines if it.count(",") > 2 and not it.startswith(("@", "var", " ", "#"))]
            if "@COLORS" in text.decode() or not entries:
                continue
            for line in chance.choices(entries, k=3):
                words = line.split(",")
                words[chance.randrange(1, len(words) - 1)] = str(chance.randrange(model.states))
                lines.append(",".join(words))
            text = "\n".join([*lines, ""]).encode()
            try:
                return text, rule_files.rule_of(text).kind
            except refusals.Refused:
                continue

    def matched(self, model):
        """Of each transition which neighbourhoods it matches, by the model."""
        places = (0, *model.neighborhood.places)
        found = [set() for _ in model.transitions]
        for inputs in itertools.product(range(model.states), repeat=len(places)):
            for transition, its_own in zip(model.transitions, found):
                for assignment in transition.assignments():
                    sets = transition.sets(assignment)
                    if inputs[0] in sets[0] and model.symmetry.admits(sets[1:], inputs[1:]):
                        its_own.add(inputs)
                        break
        return found

    @unittest.skipUnless(GOLLY.is_dir(), "Golly isn't installed")
    def test_rules_of_golly_beside_enumeration(self):
        for name, dead in (("Banks-III", 5), ("Banks-IV", 1), ("Evoloop", 5)):
            path = GOLLY / f"{name}.rule"
            rule = rule_of(path.read_bytes(), str(path))
            fired = set()
            around = bytearray(9)
            for states in itertools.product(range(rule.states), repeat=len(rule.places)):
                for place, state in zip(rule.places, states):
                    around[place] = state
                fired.update(rule.decision(bytes(around)).lines)
            verdicts = verdicts_of(rule)
            self.assertEqual({number for number, it in verdicts.items() if isinstance(it, Alive)}, fired, name)
            self.assertEqual(sum(isinstance(it, Dead) for it in verdicts.values()), dead, name)

    def test_what_takes_too_long_is_unknown(self):
        every = ["var a={0,1,2}", "var b=a", "var c=a", "1,1,a,0", "1,a,1,0", "1,b,c,2"]
        text = table("oneDimensional", "none", 3, *every)
        self.assertEqual(set(map(type, verdicts_of(rule_of(text, "x")).values())), {Alive})
        with mock.patch.object(dead_lines, "MOST_TRIED", 0):
            self.assertEqual(verdicts_of(rule_of(text, "x"))[11], Unknown())
        with mock.patch.object(dead_lines, "MOST_TRIED_IN_ALL", 3):
            found = verdicts_of(rule_of(text, "x"))
            self.assertEqual((type(found[9]), type(found[10]), found[11]), (Alive, Alive, Unknown()))
        with mock.patch.object(dead_lines, "MOST_BOXES", 1):  # that is those of line 9
            found = verdicts_of(rule_of(text, "x"))
            self.assertEqual((type(found[9]), type(found[10]), found[11]), (Alive, Alive, Unknown()))


class TableText(unittest.TestCase):
    def test_all_of_it(self):
        lines = "1,0,0,2", "1,1,0,2", "1,0,1,2", "2,0,0,0"
        fires = Fires(rule_of(table("oneDimensional", "reflect", 3, *lines), "x"))
        world = fires.add({(0, 0): 1, (5, 0): 1, (9, 0): 2, (10, 0): 2})
        self.assertEqual(world, {(0, 0): 2, (5, 0): 2, (9, 0): 2, (10, 0): 2})
        self.assertEqual(table_text(fires, 2).split("\n"), [
            "line  cells  text",
            "   6      2  1,0,0,2",
            "",
            "never fired:",
            "   7         1,1,0,2",
            "   9         2,0,0,0",
            "",
            "can never fire, since earlier lines take all that they match:",
            "   8         1,0,1,2  (line 7)",
            "",
            "no line matches, so the cell stays; of those that are the same by the symmetry one is listed:",
            "      cells  c,w,e",
            "          4  0,1,0",
            "          2  0,2,0",
            "          2  in 1 other neighbourhoods",
        ])

    def test_what_isnt_known(self):
        fires = Fires(rule_of(table("oneDimensional", "none", 3, "var a={0,1,2}", "1,1,a,0", "1,a,1,0"), "x"))
        with mock.patch.object(dead_lines, "MOST_TRIED", 0):
            self.assertIn("to find out whether they ever can:\n   8         1,a,1,0", table_text(fires, 5))


if __name__ == "__main__":
    unittest.main()
