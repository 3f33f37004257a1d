"""Tests of von Neumann's, Nobili's and Hutton's automata: by what is published of them, and beside bgolly.

States are in Golly's numbers: 9 to 12 are ordinary arrows to the right, up, to the left and down, 13 to 16 are these
excited, 17 to 24 the special ones, and 25 to 28 are confluent.
"""
import gzip
import random
import tempfile
import unittest
from pathlib import Path

from beside_golly import GOLLY, IS_HERE, cells_after, cells_of, rle_of, tree_of, written
from desk import Desk
from desk.formats.pattern import pattern_of
from neumann_neighbourhoods import RULES, STATES, golly_s
from places import PROGRAM

NEXT = {name: tree_of(text()) for name, text in RULES.items()}
BUILT = (("10000", 9), ("10001", 10), ("1001", 11), ("1010", 12), ("1011", 17), ("1100", 18), ("1101", 19),
         ("1110", 20), ("1111", 25))
PATTERNS = sorted(Path(GOLLY, "Patterns/Self-Rep/JvN").glob("*.[rm]*"))


def after(cells, generations, rule="JvN29"):
    """The live cells after so many generations, by the rule's text alone."""
    for _ in range(generations):
        near = {(x + a, y + b) for x, y in cells for a, b in ((0, 0), (1, 0), (-1, 0), (0, 1), (0, -1))}
        asked = {(x, y): ((x, y - 1), (x - 1, y), (x + 1, y), (x, y + 1), (x, y)) for x, y in near}
        found = {at: NEXT[rule](*(cells.get(it, 0) for it in places)) for at, places in asked.items()}
        cells = {at: state for at, state in found.items() if state}
    return cells


def row(*states, x=0, y=0):
    return {(x + column, y): state for column, state in enumerate(states) if state}


def wire(signals, length=12, special=False):
    """A wire to the right whose end is at (-1, 0), with these signals on it, the first at its end."""
    states = [9 + 8 * special + 4 * int(signal) for signal in signals.ljust(length, "0")]
    return row(*reversed(states), x=-length)


class PublishedTest(unittest.TestCase):
    def test_signals_build_cells(self):
        for rule in ("JvN29", "Nobili32"):
            for signals, built in BUILT:
                for special in (False, True):
                    found = after(wire(signals, special=special), len(signals), rule)
                    self.assertEqual(found[0, 0], built, (rule, signals, special))

    def test_signals_run_along_a_wire(self):
        for rule in RULES:
            for quiet in (9, 17):
                states = [quiet + 4, quiet, quiet, quiet, quiet]
                found = after(row(*states, 25), 3, rule)
                self.assertEqual(found, row(quiet, quiet, quiet, quiet + 4, quiet, 25), (rule, quiet))

    def test_arrows_turn_signals_but_not_back(self):
        found = after({**row(13, 10, 9), **row(0, 11, y=-1), **row(0, 9, y=1)}, 1)
        self.assertEqual(found, {**row(9, 14, 9), **row(0, 11, y=-1), **row(0, 9, y=1)})
        self.assertEqual(after(row(13, 11, 11), 1), row(9, 11, 11))  # head on there is nothing to take

    def test_a_confluent_cell_waits_and_passes_on_to_all(self):
        cells = {**row(13, 25, 9), (1, -1): 10, (1, 1): 20}
        self.assertEqual(after(cells, 1), {**row(9, 26, 9), (1, -1): 10, (1, 1): 20})
        self.assertEqual(after(cells, 2), {**row(9, 27, 9), (1, -1): 10, (1, 1): 20})
        self.assertEqual(after(cells, 3), {**row(9, 25, 13), (1, -1): 14, (1, 1): 24})
        self.assertEqual(after(row(13, 28, 9), 1), row(9, 28, 13))

    def test_a_confluent_cell_takes_what_all_bring(self):
        for above, left, wanted in ((16, 13, 26), (12, 13, 25), (16, 9, 25), (12, 9, 25), (0, 13, 26)):
            self.assertEqual(after({(0, -1): above, (-1, 0): left, (0, 0): 25}, 1)[0, 0], wanted, (above, left))

    def test_the_other_kind_destroys(self):
        for rule in ("JvN29", "Nobili32"):
            for kind, foe in ((9, 21), (13, 21), (17, 13), (21, 13), (11, 21), (19, 13), (25, 21), (28, 21)):
                self.assertNotIn((1, 0), after(row(foe, kind), 1, rule), (rule, kind))
            self.assertEqual(after(row(13, 25), 1, rule)[1, 0], 26)

    def test_nobilis_crossing(self):
        for left, above, state, right, below in (
            (13, 12, 29, 13, 12), (9, 16, 30, 9, 16), (13, 16, 31, 13, 16), (9, 12, 25, 9, 12),
        ):
            cells = {(-1, 0): left, (0, 0): 25, (1, 0): 9, (0, -1): above, (0, 1): 12}
            self.assertEqual(after(cells, 1, "Nobili32")[0, 0], state)
            found = after(cells, 2, "Nobili32")
            self.assertEqual((found[0, 0], found[1, 0], found[0, 1]), (25, right, below))
        self.assertEqual(after({(-1, 0): 13, (0, 0): 25, (1, 0): 9, (0, -1): 12, (0, 1): 12}, 1)[0, 0], 25)

    def test_nobilis_memory(self):
        for state in (25, 26, 27, 28):
            self.assertEqual(after(row(9, state), 5, "Nobili32"), row(9, state))
            self.assertEqual(after(row(9, state), 5, "JvN29"), row(9, 25))
        self.assertEqual(after(row(13, 26), 1, "Nobili32"), row(9, 28))
        self.assertEqual(after(row(9, 28, 9), 1, "Nobili32"), row(9, 27, 13))

    def test_huttons_wire_writes_and_goes_back(self):
        # The signals that Golly's pattern Hutton-replicator lists, what they build, and whether the wire goes back.
        for signals, ahead, is_shorter in (
            ("100000", 9, False), ("100010", 10, False), ("10100", 12, False), ("100001", 9, True),
            ("100011", 10, True), ("10011", 11, True), ("10101", 12, True), ("101101", 17, True), ("110001", 18, True),
            ("110101", 19, True), ("111001", 20, True), ("1111", 25, True), ("101111", 0, True),
        ):
            wanted = {**row(*[9] * (12 - is_shorter), x=-12), **row(ahead)}
            self.assertEqual(after(wire(signals), 16, "Hutton32"), wanted, signals)

    def test_huttons_wire_begins_anew_behind_a_confluent_cell(self):
        self.assertEqual(after(wire("11111"), 4, "Hutton32"), {**row(*[9] * 11, x=-12), **row(1, 25, x=-1)})

    def test_huttons_wires_build_in_their_own_direction(self):
        up = {(0, 1 + at): 10 + 4 * int(signal) for at, signal in enumerate("100011".ljust(10, "0"))}
        self.assertEqual(after(up, 16, "Hutton32"), {**{(0, 1 + at): 10 for at in range(1, 10)}, (0, 0): 11})
        self.assertEqual(after(row(21), 1, "Hutton32"), row(17, 9))  # a special signal builds an ordinary arrow ahead


@unittest.skipUnless(IS_HERE, "Golly isn't installed")
class BesideGollyTest(unittest.TestCase):
    def test_soups_of_all_states_go_as_in_golly(self):
        chosen = random.Random(29)
        for name, text in RULES.items():
            states = STATES[name]
            # The second soup has more of what seldom meets by chance: sensitized and confluent cells, and signals.
            often = (*range(9), *range(13, 17), *range(21, 25), *range(25, states))
            for kinds in (range(states), [*range(states), *often, *often, *often]):
                rows = [chosen.choices(kinds, k=160) for _ in range(160)]
                with self.subTest(name), Desk(PROGRAM) as desk:
                    desk.rule_text(text())
                    desk.start_text(rle_of(rows, name))
                    for generation in (1, 2, 3, 16):
                        ours = cells_of(desk.show(desk.mark(generation, "mc")))
                        self.assertEqual(ours, cells_after(rle_of(rows, name), generation, "JvN"), generation)

    def test_neighbourhoods_go_as_in_golly(self):
        chosen = random.Random(1966)
        for name, states in STATES.items():
            asked = [tuple(chosen.choices(range(states), k=5)) for _ in range(100_000)]
            for neighbourhood, theirs in zip(asked, golly_s(name, asked)):
                self.assertEqual(NEXT[name](*neighbourhood), theirs, (name, neighbourhood))

    def test_golly_s_patterns_go_as_in_golly(self):
        """Cell for cell: bgolly writes both patterns as RLE, so that equal ones have equal runs."""
        self.assertGreaterEqual(len(PATTERNS), 18)
        for path in PATTERNS:
            packed = path.read_bytes()
            pattern = pattern_of(gzip.decompress(packed) if path.name.endswith(".gz") else packed, str(path))
            with self.subTest(path.name), tempfile.TemporaryDirectory() as room, Desk(PROGRAM) as desk:
                desk.rule_text(RULES[pattern.rule]())
                begun = desk.start_text(pattern.text, path.name)
                ours = Path(room, "ours.mc")
                ours.write_text(desk.show(desk.mark(64, "mc")), encoding="latin-1")
                runs, theirs = written(ours, 64, "JvN", "rle", 64), written(path, begun + 64, "JvN", "rle", begun)
                self.assertTrue(runs.splitlines()[1:] == theirs.splitlines()[1:], "some cells differ")


if __name__ == "__main__":
    unittest.main()
