"""Tests of the pages of the manual: that `man` shows what `--help` says, and complains of nothing."""
from __future__ import annotations

import datetime
import os
import re
import shutil
import subprocess
import unittest
from pathlib import Path
from typing import Iterator, List, Tuple
from unittest import mock

from trials import COMMANDS, FolderTest, NO_HELP, PROGRAM

import man_page
from commands import Command, commands, help_texts
from help_text import Code, Help, Option, Paragraph, Row, Table
from release import Release

HAS_MAN = shutil.which("man") and shutil.which("groff")
NO_MAN = "there is no man or no groff; apt-get install man-db groff"
RELEASE = Release("9.8.7", datetime.date(2031, 2, 3))
# Titles of help under which the manual has options.
UNTITLED = {"optional arguments", "positional arguments"}
# A help whose texts have whatever roff would take for its own.
SIGNS = r"""\fBa\fR \n(x 'b' "c" `d` e^2 ~/f g-h --i .j %k .. '"""
AWKWARD = Command("desk-awkward", Help(
    usage="desk-awkward [-h] [--at 'G: X Y'] FILE",
    about=(Paragraph("Does it with a dot."), Paragraph(".TH is no title, nor are 'quotes'."), Paragraph(SIGNS)),
    arguments=(Row("FILE", "'a file', or - for none"),),
    options=(Option(("-h", "--help"), "", ".help"), Option(("--at",), "'G: X Y'", "'.at' \\ or \\n")),
    further=(Table("--form takes a word", (Row(".rle", "run lengths"),)), Paragraph("A note stands by itself."),
             Table("Exit status", (Row("0", "all went well"),)),
             Code("Example, in a folder", (".desk-awkward 'a' \\", "'  --at \"1: 2 3\"")))))


def shown(page: str, folder: Path, width: int = 9999) -> Tuple[str, str]:
    """What man shows of a page, in lines of this width, and what it complains of."""
    path = folder / "page.1"
    path.write_text(page, encoding="utf-8")
    environment = {**os.environ, "LC_ALL": "C.UTF-8", "MANWIDTH": str(width), "MAN_KEEP_FORMATTING": ""}
    words = ["man", "--warnings", "--encoding=UTF-8", "--local-file", str(path)]
    done = subprocess.run(words, capture_output=True, text=True, env=environment, check=True, timeout=60)
    return done.stdout, done.stderr


def joined(text: str) -> str:
    return " ".join(text.split())


def parts_of(help_text: str) -> Iterator[str]:
    """All that a help says, in small letters: of a title its subject and what follows, of other lines the columns."""
    for line in help_text.lower().splitlines():
        if line.endswith(":") and not line.startswith((" ", "-")):
            yield from re.split("[,:] ", line[:-1], maxsplit=1)
        else:
            line = re.sub("^usage: |[<>]", "", line)
            yield from map(joined, re.split(" {2,}", line.strip()))


def titles(page: str) -> List[str]:
    return re.findall(r"^\.SH (.*)$", page, re.M)


@unittest.skipIf(NO_HELP, NO_HELP)
class EachCommandTest(FolderTest):
    def test_there_is_one_of_each(self) -> None:
        self.assertGreaterEqual({it.name for it in commands(PROGRAM)}, COMMANDS)

    def test_help_is_read_in_unbroken_lines(self) -> None:
        for name, text in help_texts(PROGRAM).items():
            self.assertRegex(text, rf"(?im)^usage: {name} .*\S\n\n")

    def test_they_have_the_usual_sections(self) -> None:
        for command in commands(PROGRAM):
            with self.subTest(command=command.name):
                found = titles(man_page.man_page(command, ["other"], RELEASE))
                self.assertEqual(found[:4], ["NAME", "SYNOPSIS", "DESCRIPTION", "OPTIONS"])
                self.assertEqual(found[-4:], ["EXIT STATUS", "FILES", "EXAMPLES", "SEE ALSO"])
                self.assertEqual(len(found), len(set(found)))

    @unittest.skipUnless(HAS_MAN, NO_MAN)
    def test_man_shows_what_help_says(self) -> None:
        texts = help_texts(PROGRAM, columns=80)
        for command in commands(PROGRAM):
            page, complaints = shown(man_page.man_page(command, ["other"], RELEASE), self.folder)
            self.assertEqual(complaints, "", command.name)
            there = joined(page).lower()
            lacking = [it for it in parts_of(texts[command.name]) if it not in there]
            self.assertEqual(set(lacking) - UNTITLED, set(), command.name)


class AwkwardTest(FolderTest):
    @unittest.skipUnless(HAS_MAN, NO_MAN)
    def test_signs_are_shown_as_they_are(self) -> None:
        page, complaints = shown(man_page.man_page(AWKWARD, ["desk", "desk-run"], RELEASE), self.folder)
        self.assertEqual(complaints, "")
        lines = [joined(it) for it in page.splitlines() if it.strip()]
        self.assertEqual(lines[1:-1], [
            "NAME", "desk-awkward - does it with a dot",
            "SYNOPSIS", "desk-awkward [-h] [--at 'G: X Y'] FILE",
            "DESCRIPTION", "Does it with a dot.", ".TH is no title, nor are 'quotes'.", SIGNS,
            "OPTIONS", "FILE 'a file', or - for none", "-h, --help", ".help", "--at 'G: X Y'", "'.at' \\ or \\n",
            "--form takes a word:", ".rle run lengths",
            "NOTES", "A note stands by itself.",
            "EXIT STATUS", "0 all went well",
            "FILES", lines[lines.index("FILES") + 1],
            "EXAMPLES", "In a folder:", ".desk-awkward 'a' \\", "' --at \"1: 2 3\"",
            "SEE ALSO", "desk(1), desk-run(1)."])
        self.assertIn("DESK-AWKWARD(1)", lines[0])
        self.assertEqual(lines[-1], "desk 9.8.7 2031-02-03 DESK-AWKWARD(1)")

    @unittest.skipUnless(HAS_MAN, NO_MAN)
    def test_no_word_is_broken(self) -> None:
        others = [f"desk-{it}" for it in ("picture", "illustration", "representation")]
        for width in range(40, 60):
            page, _ = shown(man_page.man_page(AWKWARD, others, RELEASE), self.folder, width)
            self.assertNotIn("\N{HYPHEN}", page)
            self.assertGreaterEqual(set(page.split()), {f"{it}(1)," for it in others[:-1]})

    def test_signs_that_roff_prints_otherwise_are_named(self) -> None:
        # As groff_char(7) has them. Debian's groff prints some of these signs as they are all the same.
        self.assertEqual(man_page.escaped("a-b'c`d^e~f\\g.h"), r"a\-b\(aqc\(gad\(hae\(tif\(rsg.h")
        self.assertEqual(man_page.escaped(".TH"), r"\&.TH")

    def test_texts_beside_help_are_added(self) -> None:
        text = "# THE END\n\nOne.\n\nSaid so:\n  a  b\n# NOTES\n\nTwo.\n"
        (self.folder / "desk-awkward.txt").write_text(text, encoding="utf-8")
        with mock.patch.object(man_page, "FOLDER", self.folder):
            page = man_page.man_page(AWKWARD, ["desk"], RELEASE)
        self.assertIn("\n.SH THE END\n.PP\nOne.\n.PP\nSaid so:\n.TP\n\\fBa\\fR\nb\n.SH NOTES\n", page)
        self.assertIn("A note stands by itself.\n.PP\nTwo.\n", page)


if __name__ == "__main__":
    unittest.main()
