"""Tests of the reader of rules: by hand, beside the model on random rules, and its refusals beside the program's. They
run with the other tests, or alone by

    python3 -m unittest discover -s clients/python/tests -p test_rule_reader.py
"""
import random
import sys
import unittest

from desk import Desk, Malformed, Refused
from desk.rules.neighborhoods import NEIGHBORHOODS, PERMUTE, maps_of
from desk.rules.reader import rule_of
from desk.rules.reasons import ByLine, ByTree, Stays
from places import EXAMPLES, PROGRAM, ROOT

sys.path.insert(0, str(ROOT / "model"))
import random_rules  # noqa: E402
import refusals  # noqa: E402
import rule_files  # noqa: E402
import symmetries  # noqa: E402

SEED = 20261130
WIRE = (EXAMPLES / "wire.rule").read_bytes()
SPOILT = b"0123456789,abc{}=:#@\n \t"


def table(neighborhood, symmetries, states, *lines):
    """The text of a rule whose lines begin in line 6."""
    head = ["@RULE X", "@TABLE", f"n_states:{states}", f"neighborhood:{neighborhood}", f"symmetries:{symmetries}"]
    return "\n".join([*head, *lines, ""]).encode()


def random_around(chance, states):
    """Nine states, often few different ones, since then more lines match."""
    few = min(states, chance.choice((2, 3, 4, states)))
    return bytes(chance.randrange(few) for _ in range(9))


def first_match(model, around):
    """Which transition is the first that matches, counted from 0, by the model; None where none does."""
    inputs = [around[place] for place in (0, *model.neighborhood.places)]
    for at, transition in enumerate(model.transitions):
        for assignment in transition.assignments(frozenset(inputs)):
            sets = transition.sets(assignment)
            if inputs[0] in sets[0] and model.symmetry.admits(sets[1:], inputs[1:]):
                return at
    return None


class ByHand(unittest.TestCase):
    def test_wire_world(self):
        rule = rule_of(WIRE, "wire.rule")
        self.assertEqual((rule.name, rule.states, len(rule.lines)), ("Wire", 4, 4))
        for around, state, line in (
            ((1, 3, 0, 0, 0, 2, 0, 0, 0), 2, 21),
            ((2, 0, 0, 1, 0, 0, 0, 3, 0), 3, 22),
            ((3, 0, 0, 1, 0, 0, 0, 3, 0), 1, 23),
            ((3, 1, 0, 0, 2, 0, 0, 3, 1), 1, 24),
            ((3, 1, 1, 1, 0, 0, 0, 0, 0), 3, None),
            ((3, 2, 0, 0, 0, 0, 0, 3, 0), 3, None),
            ((0, 1, 1, 1, 0, 0, 0, 0, 0), 0, None),
        ):
            with self.subTest(around):
                reason = rule.why(around)
                self.assertEqual((rule.next_state(around), reason.state), (state, state))
                self.assertEqual(reason.line.number if line else reason, line or Stays(state))

    def test_why_a_wire_conducts(self):
        reason = rule_of(WIRE, "wire.rule").why((3, 0, 0, 1, 0, 0, 0, 2, 0))
        self.assertEqual(reason.line.text, "3,1,o,p,q,r,s,t,u,1")
        self.assertEqual(reason.map.name, "turned 90° clockwise")
        self.assertEqual(reason.map.entries, (6, 7, 0, 1, 2, 3, 4, 5))
        self.assertEqual(reason.values, {"o": 0, "p": 0, "q": 0, "r": 2, "s": 0, "t": 0, "u": 0})
        self.assertEqual(str(reason), (
            "line 23: 3,1,o,p,q,r,s,t,u,1, turned 90° clockwise (n: t, ne: u, e: 1, se: o, s: p, sw: q, w: r, nw: s), "
            "where o = 0, p = 0, q = 0, r = 2, s = 0, t = 0, u = 0"))

    def test_which_assignment_wins(self):
        sets = "var a={1,2}", "var b={1,2}", "var d={2,1}"
        permuted = rule_of(table("vonNeumann", "permute", 3, *sets, "0,d,a,0,0,d"), "x")
        reason = permuted.why((0, 1, 0, 2, 0, 0, 0, 0, 0))
        self.assertEqual((reason.state, reason.values), (1, {"d": 1, "a": 2}))
        turned = rule_of(table("vonNeumann", "rotate4", 3, *sets, "0,a,a,b,d,b"), "x")
        reason = turned.why((0, 1, 0, 1, 0, 2, 0, 2, 0))
        self.assertEqual((reason.state, reason.values), (2, {"a": 1, "b": 2, "d": 2}))
        self.assertEqual(reason.map.name, "as written")
        # As it is written the line would match with a = 2 and b = 1.
        reason = turned.why((0, 2, 0, 2, 0, 1, 0, 1, 0))
        self.assertEqual((reason.state, reason.values), (2, {"a": 1, "b": 2, "d": 2}))
        self.assertEqual(reason.map.name, "turned by 180°")

    def test_the_first_line_wins_and_a_name_may_be_defined_again(self):
        said = "var a={1}", "1,a,0,2", "var a={2,3}", "var b=a", "var c={0,b}", "1,a,0,3 # more", "1a01", "1c20"
        rule = rule_of(table("oneDimensional", "none", 4, *said), "x")
        for inputs, state, line in (((1, 1, 0), 2, 7), ((1, 2, 0), 3, 11), ((1, 3, 0), 3, 11), ((1, 0, 2), 0, 13),
                                    ((1, 3, 2), 0, 13), ((1, 0, 0), 1, None)):
            cell, west, east = inputs
            reason = rule.why((cell, 0, 0, east, 0, 0, 0, west, 0))
            found = reason.line.number if isinstance(reason, ByLine) else None
            self.assertEqual((reason.state, found), (state, line), inputs)
        self.assertEqual(rule.why((1, 0, 0, 0, 0, 0, 0, 2, 0)).line.text, "1,a,0,3 # more")

    def test_maps_have_their_names(self):
        von_neumann, moore, hexagonal = "0,1,2,3,4,1", "0,1,2,3,4,5,6,7,8,1", "0,1,2,3,4,5,6,1"
        # The states of the neighbours in the order of the line, as the map leaves them.
        for kind, symmetry, line, states, name in (
            ("vonNeumann", "rotate4", von_neumann, (1, 2, 3, 4), "as written"),
            ("vonNeumann", "rotate4", von_neumann, (4, 1, 2, 3), "turned 90° clockwise"),
            ("vonNeumann", "rotate4", von_neumann, (2, 3, 4, 1), "turned 90° counterclockwise"),
            ("vonNeumann", "rotate4", von_neumann, (3, 4, 1, 2), "turned by 180°"),
            ("vonNeumann", "reflect_horizontal", von_neumann, (1, 4, 3, 2), "mirrored at the axis through n"),
            ("vonNeumann", "rotate4reflect", von_neumann, (3, 2, 1, 4), "mirrored at the axis through e"),
            ("vonNeumann", "rotate4reflect", von_neumann, (2, 1, 4, 3), "mirrored at the axis between n and e"),
            ("vonNeumann", "rotate4reflect", von_neumann, (4, 3, 2, 1), "mirrored at the axis between e and s"),
            ("vonNeumann", "permute", von_neumann, (1, 3, 2, 4), "permuted"),
            ("vonNeumann", "permute", von_neumann, (4, 1, 2, 3), "turned 90° clockwise"),
            ("Moore", "rotate8", moore, (8, 1, 2, 3, 4, 5, 6, 7), "turned 45° clockwise"),
            ("Moore", "rotate4", moore, (3, 4, 5, 6, 7, 8, 1, 2), "turned 90° counterclockwise"),
            ("Moore", "reflect_horizontal", moore, (1, 8, 7, 6, 5, 4, 3, 2), "mirrored at the axis through n"),
            ("Moore", "rotate4reflect", moore, (3, 2, 1, 8, 7, 6, 5, 4), "mirrored at the axis through ne"),
            ("Moore", "rotate8reflect", moore, (2, 1, 8, 7, 6, 5, 4, 3), "mirrored at the axis between n and ne"),
            ("hexagonal", "rotate6", hexagonal, (6, 1, 2, 3, 4, 5), "turned 60° clockwise"),
            ("hexagonal", "rotate3", hexagonal, (3, 4, 5, 6, 1, 2), "turned 120° counterclockwise"),
            ("hexagonal", "rotate2", hexagonal, (4, 5, 6, 1, 2, 3), "turned by 180°"),
            ("hexagonal", "rotate6reflect", hexagonal, (3, 2, 1, 6, 5, 4), "mirrored at the axis through e"),
            ("oneDimensional", "reflect", "0,1,2,1", (2, 1), "mirrored: w and e are swapped"),
        ):
            around = [0] * 9
            for place, state in zip(NEIGHBORHOODS[kind].places[1:], states):
                around[place] = state
            reason = rule_of(table(kind, symmetry, 9, line), "x").why(around)
            self.assertIsInstance(reason, ByLine, (kind, symmetry, states))
            self.assertEqual((reason.state, reason.map.name), (1, name), (kind, symmetry, states))

    def test_every_symmetry_has_as_many_maps_as_its_name_says(self):
        counts = {"none": 1, "reflect": 2, "reflect_horizontal": 2}
        for neighborhood in NEIGHBORHOODS.values():
            for name in set(neighborhood.symmetries) - {PERMUTE}:
                turns = "".join(filter(str.isdigit, name))
                wanted = counts.get(name) or int(turns) * (2 if name.endswith("reflect") else 1)
                maps = maps_of(neighborhood, name)
                self.assertEqual((len({it.entries for it in maps}), len({it.name for it in maps})), (wanted, wanted),
                                 (neighborhood.name, name))

    def test_the_way_through_a_tree(self):
        # A cell becomes 1 if it or its neighbour in the north is 1, but not both.
        text = b"""
@RULE Tree
@COLORS
@TREE
num_states=2 # two
num_neighbors=4
num_nodes=9
1 0 1
1 1 0
2 0 0
2 1 1
3 2 2
3 3 3
4 4 4
4 5 5
5 6 7
@TABLE
"""
        rule = rule_of(text, "x")
        for cell, north, state in ((0, 0, 0), (1, 0, 1), (0, 1, 1), (1, 1, 0)):
            reason = rule.why((cell, north, 0, 0, 0, 1, 0, 0, 0))
            self.assertIsInstance(reason, ByTree)
            self.assertEqual((reason.state, rule.next_state((cell, north, 1, 0, 0, 0, 0, 0, 0))), (state, state))
            wanted = [(16, "n", north), (14 + north, "w", 0), (12 + north, "e", 0), (10 + north, "s", 1),
                      (8 + north, "c", cell)]
            self.assertEqual([(it.line.number, it.asks, it.state) for it in reason.way], wanted)
        self.assertEqual(rule.why((1, 1, 0, 0, 0, 0, 0, 0, 0)).way[-1].line.text, "1 1 0")
        self.assertEqual(str(rule.why(bytes(9))), "line 16: n = 0, line 14: w = 0, line 12: e = 0, line 10: s = 0, "
                                                  "line 8: c = 0, which gives 0")

    def test_what_are_no_nine_states(self):
        rule = rule_of(WIRE, "wire.rule")
        for around in ((0,) * 8, (0,) * 10, (4,) * 9, (0,) * 8 + (-1,)):
            for call in (rule.why, rule.next_state):
                self.assertRaisesRegex(Malformed, "nine states", call, around)


# A text, the number of its refusal, and the line in which it shows; the program may tell no line there.
WRONG = (
    (b"@RULE\n@TABLE\n", 1, 1),
    (b"\n \n@TABLE\n", 1, 3),
    (b"", 1, None),
    (b"@RULE X\nn_states:2\n", 2, None),
    (b"@RULE X\n@TABLE\nn_states:2\nvar a={0}\n", 3, 4),
    (b"@RULE X\n@TABLE\nn_states:2\n", 3, None),
    (b"@RULE X\n@TABLE\nn_states:1\n", 4, 3),
    (b"@RULE X\n@TABLE\nn_states:257\n", 4, 3),
    (b"@RULE X\n@TABLE\nn_states:-2\n", 4, 3),
    (table("moore", "none", 2), 5, 4),
    (table("Moore", "rotate3", 2), 6, 5),
    (table("vonNeumann", "none", 2, "var a={0,b}"), 7, 6),
    (table("vonNeumann", "none", 2, "var a={0"), 7, 6),
    (table("vonNeumann", "none", 2, "var 7={0}"), 7, 6),
    (table("vonNeumann", "none", 2, "var a={}"), 7, 6),
    (table("vonNeumann", "none", 2, "var a={2,b}"), 7, 6),
    (table("vonNeumann", "none", 2, "# so", "0,1,1,1,1"), 8, 7),
    (table("vonNeumann", "none", 2, "0,1,1,1,b,1"), 8, 6),
    (table("vonNeumann", "none", 11, "011111"), 8, 6),
    (table("vonNeumann", "none", 2, "n_states:2"), 8, 6),
    (table("vonNeumann", "none", 2, "011111", "symmetries:none"), 8, 7),
    (table("vonNeumann", "none", 2, "var a={0,2}"), 9, 6),
    (table("vonNeumann", "none", 2, "0,1,1,1,1,2"), 9, 6),
    (table("vonNeumann", "none", 2, "var a={0,1}", "0,1,1,1,1,a"), 10, 7),
    (table("Moore", "none", 256, "var a={" + ",".join(map(str, range(256))) + "}", "var b=a", "var c=a",
           "a,a,b,b,c,c,1,1,1,1"), 11, 9),
    (b"@RULE X\n@TREE\n", 12, 2),
    (b"@RULE X\n@TREE\nnum_states=2\nnum_neighbors=4\nnum_nodes=5\n1 0 1\n", 12, 6),
    (b"@RULE X\n@TREE\nnum_states=2\nnum_neighbors=4\nnum_nodes=5\n1 0 2\n", 12, 6),
    (b"@RULE X\n@TREE\nnum_states=2\nnum_neighbors=4\nnum_nodes=5\n1 0 1\n3 0 0\n", 12, 7),
    (b"@RULE X\n@TREE\nnum_states=2\nnum_neighbors=5\n", 12, 4),
    (b"@RULE X\n@TREE\nnum_states=2\nnum_neighbors=4\nnum_nodes=1\n1 0 1\n", 12, 6),
    (table("vonNeumann", "none", 2, "1,1,1,1,1,0", "0,0,0,0,0,1"), 13, 7),
    (b"@RULE X\n@TREE\nnum_states=2\nnum_neighbors=4\nnum_nodes=5\n1 1 1\n2 0 0\n3 1 1\n4 2 2\n5 3 3\n", 13, 6),
)


class Refusals(unittest.TestCase):
    def test_what_cant_be_read_is_told_with_its_line(self):
        for text, number, line in WRONG:
            with self.subTest(text), self.assertRaises(Refused) as told:
                rule_of(text, "my.rule")
            fault = told.exception
            self.assertEqual((fault.number, fault.place), (number, line), text)
            self.assertEqual(fault.of, "my.rule")

    def test_the_program_refuses_the_same(self):
        with Desk(PROGRAM) as desk:
            for text, number, line in WRONG:
                with self.subTest(text), self.assertRaises(Refused) as told:
                    desk.rule_text(text, "my.rule")
                fault = told.exception
                self.assertEqual(fault.number, number, text)
                self.assertIn(fault.place, (line, None), text)

    def test_spoilt_rules_beside_the_model(self):
        chance = random.Random(SEED)
        refused = set()
        for _ in range(1000):
            text = bytearray(random_rules.wild_rule(chance))
            for _ in range(chance.randint(1, 3)):
                at, way = chance.randrange(len(text)), chance.random()
                text[at:at + (way < 0.7)] = bytes([chance.choice(SPOILT)]) if way < 0.4 or way >= 0.7 else b""
            wanted = self.refusal(rule_files.rule_of, bytes(text))
            found = self.refusal(lambda given: rule_of(given, "x"), bytes(text))
            self.assertEqual(found and found[0], wanted and wanted[0], text)
            if wanted:
                self.assertIn(wanted[1], (found[1], None), text)
                refused.add(wanted[0])
        self.assertLessEqual({1, 2, 3, 4, 5, 6, 7, 8, 9, 12}, refused)

    def refusal(self, read, text):
        """The number and the line, or None where it can be read."""
        try:
            read(text)
        except Refused as fault:
            return fault.number, fault.place
        except refusals.Refused as fault:
            return fault.fault.value, fault.place
        return None


class BesideTheModel(unittest.TestCase):
    def test_random_rules(self):
        chance = random.Random(SEED)
        kinds, named, values = set(), set(), 0
        for _ in range(800):
            text = random_rules.wild_rule(chance) if chance.random() < 0.9 else random_rules.tame_rule(chance)
            try:
                model = rule_files.rule_of(text)
            except refusals.Refused:
                continue
            rule = rule_of(text, "x")
            self.assertEqual((rule.name.encode(), rule.states), (model.name, model.states))
            if isinstance(model.kind, rule_files.Table):
                kinds.add((model.kind.neighborhood.title, model.kind.symmetry.value))
            else:
                kinds.add(model.kind.neighbors)
            for _ in range(40):
                around = random_around(chance, rule.states)
                reason = rule.why(around)
                wanted = model.next_state(around)
                self.assertEqual((rule.next_state(around), reason.state), (wanted, wanted), (text, around))
                self.check(reason, rule, model.kind, text, around)
                if isinstance(reason, ByLine):
                    named.add(reason.map.name.split(" ")[0])
                    values += bool(reason.values)
        every = {(it.title, name.value) for it in symmetries.Neighborhood for name in it.symmetries}
        self.assertEqual(kinds, every | {4, 8})
        self.assertEqual(named, {"as", "turned", "mirrored", "mirrored:", "permuted"})
        self.assertGreater(values, 500)

    def test_random_lines_with_bound_variables(self):
        chance = random.Random(SEED)
        for _ in range(150):
            neighborhood = chance.choice(list(symmetries.Neighborhood))
            symmetry = chance.choice(neighborhood.symmetries).value.decode()
            said = [f"var {name}={{{','.join(chance.sample('0123', chance.randint(2, 4)))}}}" for name in "abc"]
            for _ in range(2):
                inputs = [chance.choice("123abc"), *(chance.choice("abc01") for _ in neighborhood.places)]
                found = [it for it in inputs if it in "abc"] or ["0"]
                said.append(",".join([*inputs, chance.choice(found)]))
            text = table(neighborhood.title.decode(), symmetry, 4, *said)
            try:
                model = rule_files.rule_of(text)
            except refusals.Refused:
                continue
            rule = rule_of(text, "x")
            for _ in range(60):
                around = random_around(chance, 4)
                reason = rule.why(around)
                self.assertEqual(reason.state, model.next_state(around), (text, around))
                self.check(reason, rule, model.kind, text, around)

    def check(self, reason, rule, model, text, around):
        """That what a reason says is in the file and leads to the next state."""
        lines = text.decode().split("\n")
        if isinstance(reason, ByTree):
            self.assertEqual([around[it] for it in rule.places], [node.state for node in reason.way])
            for node, below in zip(reason.way, [*(it.line for it in reason.way[1:]), None]):
                self.assertEqual(lines[node.line.number - 1].strip(" \t\r"), node.line.text)
                words = node.line.says.split()
                self.assertEqual(int(words[1 + node.state]), node.leads_to)
                self.assertEqual(rule.lines[node.leads_to] if below else node.leads_to, below or reason.state)
            return
        wanted = first_match(model, around)
        if wanted is None:
            self.assertEqual(reason, Stays(around[0]), (text, around))
            return
        self.assertEqual(reason.line, rule.lines[wanted], (text, around))
        self.assertEqual(lines[reason.line.number - 1].strip(" \t\r"), reason.line.text)
        own, *neighbours, result = reason.entries
        placed = [own, *(neighbours[it] for it in reason.map.entries)]
        state_of = {**reason.values, **{word: int(word) for word in reason.entries if word.isdigit()}}
        self.assertEqual(sorted(reason.map.entries), list(range(len(neighbours))))
        self.assertEqual([state_of[word] for word in placed], [around[it] for it in rule.places], (text, around))
        self.assertEqual(state_of[result], reason.state)


if __name__ == "__main__":
    unittest.main()
