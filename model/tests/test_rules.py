"""Tests of how the model reads rule files and what rules do. The rules and what comes of them are worked by hand."""
import sys
import unittest
from pathlib import Path

sys.path.insert(0, str(Path(__file__).resolve().parents[1]))

from refusals import Fault, Refused  # noqa: E402
from rule_files import rule_of, still  # noqa: E402
from worlds import stepped  # noqa: E402

RULE_X = (
    "@RULE X\n@TABLE\nn_states:2\nneighborhood:oneDimensional\nsymmetries:none\n"
    "0,1,0,1\n0,0,1,1\n1,0,0,0\n1,1,1,0\n"
)
COPIES_WEST = (
    "@RULE W\n@TREE\nnum_states=2\nnum_neighbors=4\nnum_nodes=8\n"
    "1 0 0\n1 1 1\n2 0 0\n2 1 1\n3 2 2\n3 3 3\n4 4 5\n5 6 6\n"
)


def table(states, neighborhood, symmetry, *lines):
    head = ["@RULE R", "@TABLE", f"n_states:{states}", f"neighborhood:{neighborhood}", f"symmetries:{symmetry}"]
    return "\n".join([*head, *lines]) + "\n"


def after(text, world, generations=1):
    """The pattern so many generations later under the rule of a text."""
    rule = rule_of(text.encode())
    for _ in range(generations):
        world = stepped(world, rule)
    return world


def refusal_of(text):
    """The number and the place of a text's refusal."""
    try:
        rule_of(text.encode())
    except Refused as refused:
        return refused.fault.value, refused.place
    return None


class WhatRulesDo(unittest.TestCase):
    def test_rule_x_is_born_of_one_neighbour(self):
        # At generation 2 the cell (0, 0) has two live neighbours; no line matches, so it stays empty.
        self.assertEqual(after(RULE_X, {(0, 0): 1}), {(-1, 0): 1, (1, 0): 1})
        self.assertEqual(after(RULE_X, {(0, 0): 1}, 2), {(-2, 0): 1, (2, 0): 1})

    def test_a_cell_keeps_its_state_where_no_line_matches(self):
        self.assertEqual(after(table(2, "oneDimensional", "none", "0,1,0,1"), {(0, 0): 1}), {(0, 0): 1, (1, 0): 1})

    def test_a_cell_is_born_north_of_a_live_one_in_each_turn(self):
        turned = table(2, "vonNeumann", "rotate4", "0,1,0,0,0,1")
        compact = table(2, "vonNeumann", "rotate4", "010001")
        plus = {(0, 0): 1, (0, -1): 1, (1, 0): 1, (0, 1): 1, (-1, 0): 1}
        self.assertEqual(after(turned, {(0, 0): 1}), plus)
        self.assertEqual(after(compact, {(0, 0): 1}), plus)

    def test_a_bound_variable_has_one_value_throughout(self):
        for lines in (("var a={1,2}",), ("var c={1,2}", "var a=c")):
            found = after(table(3, "vonNeumann", "rotate4", *lines, "0,a,0,0,0,a"), {(0, 0): 2})
            self.assertEqual(sorted(found.values()), [2] * 5)

    def test_the_least_assignment_counts_where_several_match(self):
        world = {(0, -1): 2, (1, 0): 1}
        lines = ("var a={1,2}", "var b={1,2}", "0,a,b,0,0,a")
        for symmetry, state in (("permute", 1), ("none", 2)):
            self.assertEqual(after(table(3, "vonNeumann", symmetry, *lines), world)[0, 0], state)

    def test_a_tree_copies_the_west_neighbour(self):
        self.assertEqual(after(COPIES_WEST, {(0, 0): 1}, 3), {(3, 0): 1})

    def test_the_hexagonal_grid_has_no_north_east_and_no_south_west(self):
        found = after(table(2, "hexagonal", "rotate6", "0,1,0,0,0,0,0,1"), {(0, 0): 1})
        self.assertEqual(set(found), {(0, 0), (0, -1), (1, 0), (1, 1), (0, 1), (-1, 0), (-1, -1)})

    def test_nothing_changes_under_the_opening_rule(self):
        self.assertEqual(stepped({(3, 4): 1}, still()), {(3, 4): 1})


class HowManyTransitionsAreExpanded(unittest.TestCase):
    """How many different lists of sets the symmetries make of a line, counted by hand."""

    def counted(self, neighborhood, symmetry, *sets):
        rule = rule_of(table(3, neighborhood, symmetry).encode())
        return rule.kind.symmetry.count(tuple(frozenset([it]) for it in sets))

    def test_counts(self):
        for neighborhood, symmetry, sets, count in (
            ("vonNeumann", "rotate4", (1, 0, 0, 0), 4),
            ("vonNeumann", "permute", (1, 2, 0, 0), 12),
            ("Moore", "rotate8reflect", (1, 1, 0, 0, 0, 0, 0, 0), 8),
            ("Moore", "permute", (1, 1, 0, 0, 0, 0, 0, 0), 28),
            ("Moore", "rotate4reflect", (0, 1, 0, 0, 0, 0, 0, 0), 4),
            ("hexagonal", "rotate6reflect", (1, 1, 0, 1, 0, 0), 12),
            ("oneDimensional", "reflect", (1, 0), 2),
            ("oneDimensional", "reflect", (1, 1), 1),
        ):
            with self.subTest(neighborhood=neighborhood, symmetry=symmetry):
                self.assertEqual(self.counted(neighborhood, symmetry, *sets), count)

    def test_a_million_is_the_limit(self):
        for states, wanted in ((100, None), (101, (11, None))):
            names = ",".join(map(str, range(states)))
            lines = [f"var {name}={{{names}}}" for name in "abc"] + ["a,a,b,b,c,c,0,0,0,0"]
            self.assertEqual(refusal_of(table(states, "Moore", "none", *lines)), wanted)


class WhatIsRefused(unittest.TestCase):
    def test_tables(self):
        one = "oneDimensional"
        for text, number, place in (
            ("", 1, None),
            ("@RULE  X\n@TABLE\n", 1, None),
            ("@RULE X:1\n@TABLE\n", 1, None),
            ("\n @RULE X\n@NAMES\n@TABLE#\n@ TABLE\n", 2, None),
            ("@RULE X\n@TABLE\n", 3, None),
            ("@RULE X\n@TABLE\nn_states=2\n", 3, None),
            ("@RULE X\n@TABLE\nn_states:2\nneighborhood:Moore\nn_states:2\n", 8, 5),
            (table(1, one, "none"), 4, None),
            (table(257, one, "none"), 4, None),
            (table(2, "Margolus", "none"), 5, None),
            (table(2, one, "rotate4"), 6, None),
            (table(2, one, "none", "var a{0,1}"), 7, 6),
            (table(2, one, "none", "var a={}"), 7, 6),
            (table(2, one, "none", "var a={0,1"), 7, 6),
            (table(2, one, "none", "var a={b,9}"), 7, 6),
            (table(2, one, "none", "var 1={0}"), 7, 6),
            (table(2, one, "none", "var"), 8, 6),
            (table(2, one, "none", "0,1,0"), 8, 6),
            (table(2, one, "none", "0,1,0,1,0"), 8, 6),
            (table(2, one, "none", "0 100"), 8, 6),
            (table(2, one, "none", "0,a,0,1"), 8, 6),
            (table(2, one, "none", "n_states:2"), 8, 6),
            (table(2, one, "none", "0,0,2,a"), 9, 6),
            (table(2, one, "none", "# said", "var a={0,2}"), 9, 7),
            (table(2, one, "none", "var a={0,1}", "0,1,0,a"), 10, 7),
            (table(2, one, "none", "0,0,0,1"), 13, None),
        ):
            with self.subTest(text=text):
                self.assertEqual(refusal_of(text), (number, place))

    def test_trees(self):
        lines = COPIES_WEST.splitlines()
        for cut, place in ((lines[:-1], 12), (lines[:3], 3), (lines[:2], 2), (lines + ["5 6 6"], 14)):
            self.assertEqual(refusal_of("\n".join(cut) + "\n"), (12, place))
        # A root of another depth, an entry that is no earlier node, a state that there isn't.
        for at, line in ((12, "4 4 5"), (7, "2 0 2"), (5, "1 0 2"), (4, "num_nodes=x")):
            changed = lines[:at] + [line] + lines[at + 1 :]
            self.assertEqual(refusal_of("\n".join(changed) + "\n"), (12, at + 1))
        self.assertEqual(refusal_of(COPIES_WEST.replace("1 0 0", "1 1 1", 1)), (Fault.NotQuiescent.value, None))


if __name__ == "__main__":
    unittest.main()
