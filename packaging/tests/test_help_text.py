"""Tests of reading what `--help` writes, on texts as clap and argparse write them."""
from __future__ import annotations

import unittest

from trials import PACKAGING  # noqa: F401

from help_text import Code, Help, Option, Paragraph, Row, Table, blocks, read_help

BY_CLAP = """\
Evolves something, as a script says

Usage: desk [OPTIONS]

Options:
      --workers <N>  How many workers, from 1 to 8 [default: 2]
      --progress     Shows how far it is
  -h, --help         Print help

Commands of a script, one a line; blank lines are passed over:
  rule                      takes the rule: the lines up to `end`
  change ID every K G H set X Y S ..
                            lets it act at generation G and every K later
  on B at ..                does so in branch B; without `on`
                            it is branch 0

Exit status:
  0  the script was answered

Example: the cells of each state:
  { echo rule; cat a.rule; echo end
    echo show 1; } | desk
"""
BY_ARGPARSE = """\
usage: desk-curve [-h] --to G [--rule RULE [RULE ...]] [--form {rle,mc}] PATTERN

How many cells each state has.

It is no part
of what is proved.

positional arguments:
  PATTERN               a pattern, with: a colon

options:
  -h, --help            show this help message and exit
  -t G, --to G          the last generation, up to 2^60
  --rule RULE [RULE ...]
                        files, or names such as B3/S23
  --form {rle,mc}       the form

--form takes a word:
  rle  run lengths
       of cells

A case that fails has a row.
"""


class HelpTextTest(unittest.TestCase):
    def test_what_clap_writes(self) -> None:
        self.assertEqual(read_help(BY_CLAP), Help(
            usage="desk [OPTIONS]",
            about=(Paragraph("Evolves something, as a script says"),),
            arguments=(),
            options=(
                Option(("--workers",), "N", "How many workers, from 1 to 8 [default: 2]"),
                Option(("--progress",), "", "Shows how far it is"),
                Option(("-h", "--help"), "", "Print help")),
            further=(
                Table("Commands of a script, one a line; blank lines are passed over", (
                    Row("rule", "takes the rule: the lines up to `end`"),
                    Row("change ID every K G H set X Y S ..", "lets it act at generation G and every K later"),
                    Row("on B at ..", "does so in branch B; without `on` it is branch 0"))),
                Table("Exit status", (Row("0", "the script was answered"),)),
                Code("Example: the cells of each state",
                     ("{ echo rule; cat a.rule; echo end", "  echo show 1; } | desk")))))

    def test_what_argparse_writes(self) -> None:
        for title in ("options:", "optional arguments:"):  # the second by Python 3.9
            self.assertEqual(read_help(BY_ARGPARSE.replace("options:", title)), Help(
                usage="desk-curve [-h] --to G [--rule RULE [RULE ...]] [--form {rle,mc}] PATTERN",
                about=(Paragraph("How many cells each state has."), Paragraph("It is no part of what is proved.")),
                arguments=(Row("PATTERN", "a pattern, with: a colon"),),
                options=(
                    Option(("-h", "--help"), "", "show this help message and exit"),
                    Option(("-t", "--to"), "G", "the last generation, up to 2^60"),
                    Option(("--rule",), "RULE [RULE ...]", "files, or names such as B3/S23"),
                    Option(("--form",), "{rle,mc}", "the form")),
                further=(
                    Table("--form takes a word", (Row("rle", "run lengths of cells"),)),
                    Paragraph("A case that fails has a row."))))

    def test_lines_without_a_title_that_stand_apart(self) -> None:
        self.assertEqual(blocks("As in\n\n    desk -V\n      desk\n\nit is."),
                         [Paragraph("As in"), Code("", ("desk -V", "  desk")), Paragraph("it is.")])

    def test_a_text_without_usage_is_refused(self) -> None:
        with self.assertRaises(ValueError):
            read_help("It does nothing.\n")


if __name__ == "__main__":
    unittest.main()
