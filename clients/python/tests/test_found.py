"""Tests of how a pattern's rule is found: by name, in folders, and what can't be had."""
import os
import tempfile
import unittest
from pathlib import Path
from unittest import mock

import desk
from desk import Desk
from desk.errors import Trouble
from desk.rules import hutton, isotropic, lifelike, mapped, neumann, nobili
from desk.rules.found import folders, rule_named
from desk.rules.names import CALLED, NoRule, Reason, is_same, made
from places import PROGRAM

FILE = "@RULE {}\n@TABLE\nn_states:2\nneighborhood:vonNeumann\nsymmetries:none\n"
LIFE_BITS = "MAPARYXfhZofugWaH7oaIDogBZofuhogOiAaIDogIAAgAAWaH7oaIDogGiA6ICAAIAAaIDogIAAgACAAIAAAAAAAA"


class MadeTest(unittest.TestCase):
    def test_the_package_has_what_is_raised(self):
        with Desk(PROGRAM) as started, self.assertRaises(desk.NoRule) as raised:
            started.rule("W30")
        self.assertIs(raised.exception.reason, desk.Reason.ONE_DIMENSIONAL)

    def test_names_that_say_the_rule(self):
        for name, wanted in (
            ("B3/S23", lifelike.rule_text("B3/S23")), ("23/3", lifelike.rule_text("B3/S23")),
            ("b36s23", lifelike.rule_text("B36/S23")), ("B234", lifelike.rule_text("B234/S")),
            ("345/2/4", lifelike.rule_text("345/2/4")), ("B2/S345/C4", lifelike.rule_text("345/2/4")),
            ("B2S345G4", lifelike.rule_text("345/2/4")), ("B2aceikn3/S", lifelike.rule_text("B23/S")),
            ("B2-a/S12", isotropic.rule_text("B2-a/S12")), ("B3_S23-a4ei6", isotropic.rule_text("B3/S23-a4ei6")),
            ("12/2-a/3", isotropic.rule_text("12/2-a/3")), ("B13/S012V", isotropic.rule_text("B13/S012V")),
            ("B2/S3c4", isotropic.rule_text("B2/S3c4")), (LIFE_BITS, mapped.rule_text(LIFE_BITS)),
            ("JvN29", neumann.rule_text()), ("jvn29", neumann.rule_text()), ("JvN-29", neumann.rule_text()),
            ("Nobili32", nobili.rule_text()), ("HUTTON32", hutton.rule_text()),
        ):
            self.assertEqual(made(name), wanted, name)

    def test_names_that_say_none(self):
        for name in ("WireWorld", "Banks-I", "Worm-1040512", "Life", "HighLife", "23_3", "Turmite_121181121020"):
            self.assertIsNone(made(name), name)

    def test_why_golly_s_other_rules_can_t_be_had(self):
        for name, reason, told in (
            ("R5,C0,M1,S34..58,B34..45,NM", Reason.LARGER_THAN_LIFE, "up to 5 cells away"),
            ("r1,c0,m1,s1..1,b1..1,nn", Reason.LARGER_THAN_LIFE, "up to 1 cell away"),
            ("R5,C0,M1,S34..58,B34..45,NM:T400,400", Reason.LARGER_THAN_LIFE, "Larger than Life"),
            ("B3/S23:T30,20", Reason.BOUNDED, "for a torus, .* header name B3/S23 alone"),
            ("LifeHistory:K40*,20", Reason.BOUNDED, "a Klein bottle"), ("23/3:P9,9", Reason.BOUNDED, "with edges"),
            ("LifeHistory:C40,20", Reason.BOUNDED, "a cross-surface"), ("LifeHistory:S30", Reason.BOUNDED, "a sphere"),
            ("B013568/S01", Reason.BORN_OF_NOTHING, "B0.*Golly runs it"), ("23/03", Reason.BORN_OF_NOTHING, "B0"),
            ("B0123478/S01234678", Reason.BORN_OF_NOTHING, "exchanged it is the rule B3/S23,"),
            ("B02a/S8/3", Reason.BORN_OF_NOTHING, "Golly runs it"), ("MAPgAAAAA", Reason.BORN_OF_NOTHING, "B0"),
            ("W22", Reason.ONE_DIMENSIONAL, "W22 .* a table"), ("w110", Reason.ONE_DIMENSIONAL, "one-dimensional"),
            ("B2/S3C4", Reason.UNCLEAR, "write B2/S3/C4, or a small c"), ("B2S345C4", Reason.UNCLEAR, "B2/S345/C4"),
            ("B5z/S", Reason.UNCLEAR, "5z"), ("345/2/257", Reason.UNCLEAR, "257 states"),
        ):
            with self.subTest(name), self.assertRaisesRegex(NoRule, told) as caught:
                made(name)
            self.assertEqual((caught.exception.name, caught.exception.reason), (name, reason))
            self.assertIsInstance(caught.exception, Trouble)

    def test_spellings_of_one_rule(self):
        for one, other in (("B3_S23-a4ei6", "23-a4ie6/3"), ("Life", "23/3"), ("HighLife", "b36s23"), ("JvN29", "jvn29"),
                           ("12/2-a", "B2cekin/S12"), ("345/2/4", "B2/S345/C4"), ("Star Wars", "345/2/4"),
                           ("B234", "/234")):
            self.assertTrue(is_same(one, other) and is_same(other, one), (one, other))
        for one, other in (("B2-a/S12", "B2/S12"), ("WireWorld", "Life"), ("B5z/S", "B5/S"), ("B2/S3c4", "B2/S3/C4")):
            self.assertFalse(is_same(one, other), (one, other))

    def test_what_people_call_rules_is_understood(self):
        for called, name in CALLED.items():
            self.assertEqual(called, called.lower())
            if name not in ("W22", "W30", "W110", "B0123478/S01234678"):
                self.assertIsNotNone(made(name), called)


class FoundTest(unittest.TestCase):
    def setUp(self):
        room = tempfile.TemporaryDirectory()
        self.addCleanup(room.cleanup)
        self.room = Path(room.name).resolve()
        for folder in ("pattern", "working", "listed", "also", "home/.golly/Rules", "system"):
            (self.room / folder).mkdir(parents=True)
        listed = os.pathsep.join(str(self.room / it) for it in ("listed", "also"))
        changed = {"GOLLY_RULES": listed, "HOME": str(self.room / "home")}
        for change in (mock.patch.dict(os.environ, changed),
                       mock.patch("desk.rules.found.SYSTEM_FOLDERS", (str(self.room / "system"),))):
            change.start()
            self.addCleanup(change.stop)
        self.addCleanup(os.chdir, os.getcwd())
        os.chdir(self.room / "working")
        self.pattern = str(self.room / "pattern" / "a.rle")

    def write(self, folder, name="Foo"):
        path = self.room / folder / f"{name}.rule"
        path.write_text(FILE.format(name) + f"# in {folder}\n", encoding="ascii")
        return str(path)

    def test_a_name_in_the_header_makes_the_rule(self):
        found = rule_named("B36/S23", self.pattern)
        self.assertEqual((found.name, found.path), ("B36/S23", None))
        self.assertEqual(found.text, lifelike.rule_text("B36/S23").encode())
        self.assertEqual(found.line, "rule B36/S23, which the pattern names: made from its name")

    def test_no_name_means_life_and_the_line_says_so(self):
        found = rule_named("", self.pattern)
        self.assertEqual(found.text, lifelike.rule_text("B3/S23").encode())
        self.assertEqual(found.line, "rule B3/S23, since the pattern names none, as in Golly: made from its name")

    def test_folders_are_looked_through_in_their_order(self):
        order = ("system", "home/.golly/Rules", "also", "listed", "working", "pattern")
        for folder in order:  # from the last one on, so that each new file comes before those that are there
            path = self.write(folder)
            found = rule_named("Foo", self.pattern)
            self.assertEqual((found.path, found.text), (path, Path(path).read_bytes()), folder)
            self.assertEqual(found.line, f"rule Foo, which the pattern names: {path}")
        self.assertEqual(folders(self.pattern), [str(self.room / it) for it in reversed(order)])
        self.assertEqual(folders()[0], str(self.room / "working"))

    def test_capitals_count_only_where_there_are_two(self):
        small = self.write("pattern", "foo")
        self.assertEqual(rule_named("Foo", self.pattern).path, small)
        large = self.write("system", "Foo")
        self.assertEqual(rule_named("Foo", self.pattern).path, large)
        self.assertEqual(rule_named("foo", self.pattern).path, small)

    def test_what_a_name_says_by_itself_goes_before_files_and_they_before_what_people_call_rules(self):
        self.write("pattern", "JvN29")
        self.assertIsNone(rule_named("JvN29", self.pattern).path)
        self.assertEqual(rule_named("HighLife", self.pattern).line,
                         "rule B36/S23, called HighLife, which the pattern names: made from its name")
        path = self.write("pattern", "HighLife")
        self.assertEqual(rule_named("HighLife", self.pattern).path, path)

    def test_what_is_given_goes_before_the_header(self):
        path = self.write("listed", "Bar")
        for given, name, where, line in (
            ("B2/S", "B2/S", None, "rule B2/S, as given: made from its name"),
            ("Brian's Brain", "/2/3", None, "rule /2/3, called Brian's Brain, as given: made from its name"),
            ("Bar", "Bar", path, f"rule Bar, as given: {path}"),
            ("Bar.rule", "Bar", path, f"rule Bar, as given: {path}"),
            (path, "Bar", path, f"rule {path}, as given"),
        ):
            for header in ("B36/S23", "B3/S23:T9,9", "", None):
                found = rule_named(header, self.pattern, given)
                self.assertEqual((found.name, found.path, found.line), (name, where, line), given)
        with self.assertRaisesRegex(Trouble, "none.rule: No such file"):
            rule_named("B3/S23", self.pattern, str(self.room / "none.rule"))

    def test_what_isn_t_found_is_told_with_names_like_it(self):
        self.write("also", "WireWorld")
        with self.assertRaises(NoRule) as caught:
            rule_named("Wireword", self.pattern)
        self.assertIs(caught.exception.reason, Reason.NO_FILE)
        told = str(caught.exception)
        begins = f"{self.pattern}: no rule Wireword is known, and there is no file Wireword.rule in "
        self.assertTrue(told.startswith(begins), told)
        self.assertIn(str(self.room / "working"), told)
        self.assertRegex(told, "; names like it are WireWorld. Name a .rule file, or put its folder into GOLLY_RULES")

    def test_a_name_is_no_way_out_of_the_folders(self):
        self.write("pattern")
        for name in ("../pattern/Foo", str(self.room / "pattern" / "Foo"), "x" * 5000, "a\0b", "\033[2J"):
            with self.assertRaises(NoRule) as caught:
                rule_named(name, str(self.room / "working" / "a.rle"))
            self.assertTrue(str(caught.exception).isprintable())

    def test_what_the_header_names_and_can_t_be_had_is_told_with_the_file(self):
        for header, reason in (("W22", Reason.ONE_DIMENSIONAL), ("B03/S2", Reason.BORN_OF_NOTHING),
                               (None, Reason.NO_NAME)):
            with self.assertRaises(NoRule) as caught:
                rule_named(header, self.pattern)
            self.assertIs(caught.exception.reason, reason)
            self.assertTrue(str(caught.exception).startswith(f"{self.pattern}: "))

    def test_the_program_takes_what_is_made(self):
        for name in ("B3/S23", "B2-a/S12", "345/2/4", "12/2-a/3", "JvN29", "Nobili32", "Hutton32", LIFE_BITS):
            with self.subTest(name), Desk(PROGRAM) as desk:
                desk.rule_text(rule_named(name).text, name)
                self.assertEqual(desk.revision, 1)


if __name__ == "__main__":
    unittest.main()
