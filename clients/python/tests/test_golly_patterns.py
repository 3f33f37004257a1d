"""The whole pattern folder of Golly's package, run to generation 64 beside bgolly, and the table in docs."""
import unittest
import warnings

from beside_golly import GOLLY, IS_HERE
from desk.errors import BoardWarning, RuleNameWarning
from desk.rules.names import Reason
from golly_patterns import EDGES, WIREWORLD, Row, files_of, row_of, table_of
from places import ROOT

# What can't be had of Golly 3.3's package, by why.
REFUSED = {Reason.LARGER_THAN_LIFE: 18, Reason.BOUNDED: 16, Reason.BORN_OF_NOTHING: 1, Reason.ONE_DIMENSIONAL: 1}


class TableTest(unittest.TestCase):
    def test_files_are_counted_by_kinds(self):
        rows = [Row("a", "x", 3, 3, ""), Row("b", Reason.BOUNDED.value, None, None, "why"), Row("c", "x", 4, 5, ""),
                Row("d", WIREWORLD, 1, 1, EDGES), Row("e", "x", None, 5, "")]
        self.assertEqual(table_of(rows)[2:], [
            "| x | 3 | 2 | 1 | |", f"| {WIREWORLD} | 1 | 1 | 1 | 1 of them beside {EDGES} |",
            f"| {Reason.BOUNDED.value} | 1 | 0 | 0 | can't be had |", "| all | 5 | 3 | 2 | |",
        ])


@unittest.skipUnless(IS_HERE, "Golly isn't installed")
class GollyPatternsTest(unittest.TestCase):
    def test_each_pattern_has_bgolly_s_population(self):
        rows = []
        with warnings.catch_warnings():
            warnings.simplefilter("ignore", BoardWarning)
            warnings.simplefilter("ignore", RuleNameWarning)
            for path in files_of(f"{GOLLY}/Patterns"):
                row = row_of(path, 64)
                rows.append(row)
                self.assertEqual(row.ours, row.theirs, row)
        self.assertGreaterEqual(sum(row.is_same for row in rows), 300)
        for reason, files in REFUSED.items():
            self.assertEqual(sum(row.kind == reason.value for row in rows), files, reason)
        docs = (ROOT / "docs/PATTERNS.md").read_text(encoding="ascii")
        self.assertIn("\n".join(table_of(rows)), docs)


if __name__ == "__main__":
    unittest.main()
