"""Tests of the model's replies to scripts: those of examples/, and others whose replies are worked by hand."""
import re
import sys
import unittest
from pathlib import Path

FOLDER = Path(__file__).resolve().parents[1]
EXAMPLES = FOLDER.parent / "examples"
sys.path.insert(0, str(FOLDER))

from replies import replies_to  # noqa: E402
from worlds import BeyondTheModel  # noqa: E402

RULE_X = (
    "rule\n@RULE X\n@TABLE\nn_states:2\nneighborhood:oneDimensional\nsymmetries:none\n"
    "0,1,0,1\n0,0,1,1\n1,0,0,0\n1,1,1,0\nend\n"
)

# Their patterns have more cells, or are wanted later, than can be said cell by cell.
BEYOND = {"doubling.script", "far_ahead.script", "soup.script"}


def replied(script):
    return b"".join(replies_to(script.encode())).decode()


class Examples(unittest.TestCase):
    def test_their_replies_are_those_beside_them(self):
        for script in sorted(EXAMPLES.glob("*.script")):
            with self.subTest(script=script.name):
                if script.name not in BEYOND:
                    told = b"".join(replies_to(script.read_bytes()))
                    self.assertEqual(told, script.with_suffix(".replies").read_bytes())

    def test_a_growing_pattern_is_beyond_the_model_soon(self):
        script = RULE_X + "start rle\nx = 1, y = 1\n999b99o3b99o!\nend\nmark 1000000 counts\nshow 1\n"
        with self.assertRaises(BeyondTheModel):
            replied(script)


class Documents(unittest.TestCase):
    """A cell under rule X is two cells after two generations and four after three."""

    def check(self, script, *replies):
        self.assertEqual(replied(script), "".join(f"{it}\n" for it in replies))

    def test_a_bookmark_counts_cells(self):
        self.check(
            RULE_X + "set 0 0 1\nmark 2 counts\nsettle\nshow 1\nquit\n",
            "ok 1", "ok 2", "ok 3 bookmark 1", "settled", "bookmark 1 current 4", "1 2", "bye",
        )

    def test_a_bookmark_shows_what_the_interventions_of_its_generation_leave(self):
        self.check(
            RULE_X + "set 0 0 1\nat 1 set 1 0 0\nmark 2 window -2 0 5 1\nmark 1 window -2 0 5 1\nshow 1\nshow 2\n",
            "ok 1", "ok 2", "ok 3 intervention 1", "ok 4 bookmark 1", "ok 5 bookmark 2",
            "bookmark 1 current 10", "1 0 1 0 0", "bookmark 2 current 10", "0 1 0 0 0",
        )

    def test_a_script_makes_the_document_anew_with_its_ids(self):
        commands = (
            "set 0 0 1\nset 1 0 1\nbranch 0 3\nbranch 0 4\nunbranch 1\nmark 2 counts\non 2 mark 7 window -2 0 5 1\n"
            "at 1 set 1 0 0 2 0 1\ndrop 1\non 2 every 2 5 9 set 1 0 0 2 0 1\n"
        )
        script = (
            RULE_X + "start mc\n[M2] (experiment desk)\n#R X\n#G 0\n1 1 1 0 0\n2 0 0 0 1\nend\n"
            "branch 0 0\nunbranch 1\nbranch 0 4\non 0 mark 2 counts\non 2 mark 7 window -2 0 5 1\n"
            "on 0 at 0 set 0 0 0\ndrop 1\non 2 every 2 5 9 set 1 0 0 2 0 1\n"
        )
        told = f"{script}scripted {len(script)}\n"
        self.assertTrue(replied(RULE_X + commands + "script\n").endswith(f" intervention 2\n{told}"))
        self.assertTrue(replied(script + "script\n").endswith(f" intervention 2\n{told}"))

    def test_a_script_of_nothing_has_an_empty_start_alone(self):
        script = "start mc\n[M2] (experiment desk)\n#R still\n#G 0\n1 0 0 0 0\nend\n"
        self.assertEqual(replied("script\n"), f"{script}scripted {len(script)}\n")

    def test_the_last_mention_of_a_cell_wins(self):
        self.check(
            "set 0 0 1 0 0 0 1 0 0 1 0 1\nat 0 set 5 5 1\nat 0 set 5 5 0\nmark 0 counts\nshow 1\n",
            "ok 1", "ok 2 intervention 1", "ok 3 intervention 2", "ok 4 bookmark 1", "bookmark 1 current 4", "1 1",
        )

    def test_an_intervention_repeats(self):
        self.check(
            RULE_X + "set 0 0 1\nevery 2 2 6 set 0 0 1\nmark 2 counts\nmark 5 counts\nmark 6 counts\n"
            "show 1\nshow 2\nshow 3\n",
            "ok 1", "ok 2", "ok 3 intervention 1", "ok 4 bookmark 1", "ok 5 bookmark 2", "ok 6 bookmark 3",
            "bookmark 1 current 4", "1 3", "bookmark 2 current 4", "1 2", "bookmark 3 current 4", "1 5",
        )

    def test_repeats_are_counted_up_to_what_is_wanted(self):
        self.check(
            "every 1 0 1152921504606846976 set 0 0 1\nmark 8191 counts\nmark 8192 counts\nbranch 0 8192\n"
            "every 0 1 5 set 0 0 1\nevery 2 6 2 set 0 0 1\nevery 18446744073709551616 3 9 set 0 0 0\nshow 1\n",
            "ok 1 intervention 1", "ok 2 bookmark 1", "refused 54 TooManyMarks", "refused 54 TooManyMarks",
            "refused 55 BadRepeat", "refused 55 BadRepeat", "refused 54 TooManyMarks", "bookmark 1 current 4", "1 1",
        )

    def test_a_branch_goes_on_from_its_parent(self):
        """In branch 1 the cell (2, 0) is taken away at generation 2."""
        self.check(
            RULE_X + "set 0 0 1\nbranch 0 2\non 1 at 2 set 2 0 0\non 1 mark 4 window -4 0 9 1\n"
            "mark 4 window -4 0 9 1\nshow 1\nshow 2\nat 1 set 1 0 0\nshow 1\nshow 2\n"
            "on 1 at 1 set 0 0 1\nunbranch 1\nunbranch 0\nbranch 7 2\nbranch 1 1\n",
            "ok 1", "ok 2", "ok 3 branch 1", "ok 4 intervention 1", "ok 5 bookmark 1", "ok 6 bookmark 2",
            "bookmark 1 current 18", "1 0 0 0 1 0 0 0 0", "bookmark 2 current 18", "1 0 0 0 0 0 0 0 1",
            "ok 7 intervention 2",
            "bookmark 1 current 18", "1 0 1 0 1 0 1 0 0", "bookmark 2 current 18", "1 0 1 0 1 0 1 0 0",
            "refused 51 BeforeFork", "refused 52 BranchInUse", "refused 52 BranchInUse", "refused 50 NoSuchBranch",
            "refused 51 BeforeFork",
        )

    def test_what_there_is_is_listed_by_rising_ids(self):
        self.check(
            "list\nmark 9 mc\nbranch 0 3\non 1 mark 7 window -4 -5 6 7\nevery 2 3 9 set 1 1 1 2 2 0\n"
            "on 1 at 4 set 0 0 1\nbranch 1 3\nmark 0 counts\nmark 0 rle\nunmark 3\nmove 2 8\nchange 1 5 set 0 0 0\n"
            "change 2 every 1 4 6 set 0 0 0 1 1 1 1 1 1\nlist\n",
            "listed 0", "ok 1 bookmark 1", "ok 2 branch 1", "ok 3 bookmark 2", "ok 4 intervention 1",
            "ok 5 intervention 2", "ok 6 branch 2", "ok 7 bookmark 3", "ok 8 bookmark 4", "ok 9", "ok 10", "ok 11",
            "ok 12",
            "branch 1 of 0 at 3", "branch 2 of 1 at 3", "intervention 1 on 0 at 5 cells 1",
            "intervention 2 on 1 every 1 4 6 cells 3", "bookmark 1 on 0 at 9 mc current",
            "bookmark 2 on 1 at 8 window -4 -5 6 7 current", "bookmark 4 on 0 at 0 rle current", "listed 7",
        )

    def test_a_peek_shows_as_show_does(self):
        self.check(
            RULE_X + "set 0 0 1\nmark 2 counts\npoll\npeek 1\npeek 2\n",
            "ok 1", "ok 2", "ok 3 bookmark 1", "polled 0", "bookmark 1 current 4", "1 2", "refused 44 NoSuchBookmark",
        )

    def test_help_lists_the_commands_and_changes_nothing(self):
        first, _, rest = replied("help\nset 0 0 1\nhelp\n").partition("\n")
        size = int(first[len("help "):])
        self.assertEqual(rest, f"{rest[:size]}ok 1\nhelp {size}\n{rest[:size]}")
        self.assertEqual(re.findall(r"(?m)^  (list|script|help|quit)\b", rest[:size]), ["list", "script", "help", "quit"])
        self.assertTrue(rest[:size].endswith("\n"))

    def test_limits(self):
        self.check(
            "set 1152921504606846975 0 1\nset 1152921504606846976 0 1\nmark 1152921504606846977 counts\n"
            "set" + " 0 0 2" * 10001 + "\nset" + " 0 0 2" * 10000 + "\nmark 0 window 0 0 65537 1\n"
            "mark 0 window 0 0 0 4\nmark 0 window 2305843009213693951 0 2 1\ndrop 1\nmove 1 0\n",
            "ok 1", "refused 41 CellOutOfRange", "refused 40 GenerationTooFar", "refused 47 TooManyCells",
            "refused 42 CellStateTooHigh", "refused 48 BadWindow", "refused 48 BadWindow", "refused 41 CellOutOfRange",
            "refused 43 NoSuchIntervention", "refused 44 NoSuchBookmark",
        )

    def test_a_new_rule_has_to_have_the_states_that_there_are(self):
        four = "rule\n@RULE F\n@TABLE\nn_states:4\nneighborhood:Moore\nsymmetries:none\nend\n"
        self.check(
            four + "set 0 0 3\n" + RULE_X + "set 0 0 1\nat 5 set 0 0 3\n" + RULE_X + "drop 1\n" + RULE_X,
            "ok 1", "ok 2", "refused 42 CellStateTooHigh", "ok 3", "ok 4 intervention 1",
            "refused 42 CellStateTooHigh", "ok 5", "ok 6",
        )

    def test_the_opening_document_is_empty(self):
        self.check(
            "mark 0 counts\nmark 0 rle\nmark 0 mc\nmark 0 window 0 0 2 2\nshow 1\nshow 2\nshow 3\nshow 4\n",
            "ok 1 bookmark 1", "ok 2 bookmark 2", "ok 3 bookmark 3", "ok 4 bookmark 4",
            "bookmark 1 current 6", "empty",
            "bookmark 2 current 50", "#CXRLE Pos=0,0 Gen=0", "x = 0, y = 0, rule = still", "!",
            "bookmark 3 current 47", "[M2] (experiment desk)", "#R still", "#G 0", "1 0 0 0 0",
            "bookmark 4 current 8", "0 0", "0 0",
        )

    def test_a_still_pattern_is_followed_to_the_farthest_generation(self):
        self.check(
            "set 7 7 1\nmark 1152921504606846976 window 7 7 1 1\nshow 1\n",
            "ok 1", "ok 2 bookmark 1", "bookmark 1 current 2", "1",
        )


class Lines(unittest.TestCase):
    def test_what_is_no_command(self):
        for line in ("paint 3", "set 0 0", "set", "settle x", "show", "show x", "mark 0", "mark 0 window 1 1 1",
                     "at 1 0 0 1", "on 0 set 0 0 1", "on at 1 set 0 0 1", "every 1 2 set 0 0 1", "rule x", "start foo",
                     "move 1", "set\t0 0 1", "set +1 0 1", "set 0 0 -1", "quit now",
                     "peek", "peek 1 1", "poll 1", "list 0", "help 1", "helps", "Help"):
            with self.subTest(line=line):
                self.assertEqual(replied(f"\n# said\n{line}\n"), "refused 80 BadCommand 3\n")

    def test_blanks_and_numbers(self):
        self.assertEqual(replied(" \tset  -0   007 001 \t\r\n\r\nmark 00 counts\nshow 01"),
                         "ok 1\nok 2 bookmark 1\nbookmark 1 current 4\n1 1\n")

    def test_a_text_without_its_end_is_refused_with_the_line_of_its_command(self):
        self.assertEqual(replied("\nrule\n@RULE X\nquit\n"), "refused 81 NoEnd 2\n")
        self.assertEqual(replied("rule\n end \nquit"), "refused 1 NoRuleLine\nbye\n")


if __name__ == "__main__":
    unittest.main()
