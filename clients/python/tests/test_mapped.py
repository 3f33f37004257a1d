"""Tests of MAP names: by the example of Golly's help, by hand, and beside bgolly where it is there."""
import base64
import random
import unittest
from itertools import product

from beside_golly import IS_HERE, cells_after, cells_of, rle_of, tree_of
from desk import Desk, Malformed
from desk.rules import lifelike
from desk.rules.mapped import meaning, rule_text
from places import PROGRAM

LIFE = "MAPARYXfhZofugWaH7oaIDogBZofuhogOiAaIDogIAAgAAWaH7oaIDogGiA6ICAAIAAaIDogIAAgACAAIAAAAAAAA"  # Golly's help


def named(bits, states=2):
    """The MAP name of bits."""
    filled = bits.ljust(-len(bits) % 8 + len(bits), "0")
    letters = base64.b64encode(bytes(int(filled[at:at + 8], 2) for at in range(0, len(filled), 8))).decode()
    return "MAP" + letters.rstrip("=") + (f"/{states}" if states > 2 else "")


def some_bits(chosen, cells):
    return "0" + "".join(chosen.choice("01") for _ in range(2 ** cells - 1))


class MappedTest(unittest.TestCase):
    def test_life_by_its_bits(self):
        of_bits, of_numbers = tree_of(rule_text(LIFE)), tree_of(lifelike.rule_text("B3/S23"))
        for states in product((0, 1), repeat=9):
            self.assertEqual(of_bits(*states), of_numbers(*states), states)

    def test_one_bit_is_one_neighbourhood(self):
        # The bits of a number say the cells in rows from above, the highest first; a tree asks nw ne sw se n w e s c.
        for bit, states in ((0b000000001, (0, 0, 0, 1, 0, 0, 0, 0, 0)), (0b100000000, (1, 0, 0, 0, 0, 0, 0, 0, 0)),
                            (0b010110001, (0, 0, 0, 1, 1, 1, 0, 0, 1)), (0b001001110, (0, 1, 1, 0, 0, 0, 1, 1, 0))):
            following = tree_of(rule_text(named("".join("1" if at == bit else "0" for at in range(512)))))
            born = [it for it in product((0, 1), repeat=9) if following(*it)]
            self.assertEqual(born, [states], bit)

    def test_cells_grow_old(self):
        following = tree_of(rule_text(named("0" * 16 + "1" + "0" * 15, 4)))  # born of a live cell above alone
        for states, wanted in (((0, 0, 0, 0, 1, 0, 0, 0, 0), 1), ((0, 0, 0, 0, 2, 0, 0, 0, 0), 0),
                               ((0, 0, 0, 0, 1, 0, 0, 0, 1), 2), ((0, 0, 0, 0, 1, 0, 0, 0, 2), 3),
                               ((0, 0, 0, 0, 1, 0, 0, 0, 3), 0)):
            self.assertEqual(following(*states), wanted, states)

    def test_what_is_no_such_name(self):
        for name in ("MAP", "MAPAAAA", LIFE[:-1], LIFE + "A", "MAPAAAA*g", "Maps"):
            self.assertIsNone(meaning(name), name)
            with self.assertRaisesRegex(Malformed, "is no MAP name"):
                rule_text(name)
        self.assertEqual(meaning(LIFE + "==").is_live, meaning(LIFE).is_live)
        for name, told in (("MAPgAAAAA", "B0"), (LIFE + "/1", "1 states"), (LIFE + "/300", "2 to 256")):
            with self.assertRaisesRegex(Malformed, told):
                rule_text(name)


@unittest.skipUnless(IS_HERE, "Golly isn't installed")
class BesideGollyTest(unittest.TestCase):
    def test_soups_go_as_in_golly(self):
        chosen = random.Random(512)
        for cells, states in product((9, 7, 5), (2, 3, 6)):
            for _ in range(2):
                name, engine = named(some_bits(chosen, cells), states), "HashLife" if states == 2 else "Generations"
                rows = [[chosen.choice((0, 1, chosen.randrange(states))) for _ in range(24)] for _ in range(24)]
                with self.subTest(name), Desk(PROGRAM) as desk:
                    desk.rule_text(rule_text(name))
                    desk.start_text(rle_of(rows, name))
                    for generation in (1, 5):
                        ours = cells_of(desk.show(desk.mark(generation, "mc")))
                        self.assertEqual(ours, cells_after(rle_of(rows, name), generation, engine), generation)


if __name__ == "__main__":
    unittest.main()
