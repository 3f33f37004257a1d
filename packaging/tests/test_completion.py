"""Tests of completions: what bash, zsh and fish find for the words of a command, in a folder with some files."""
from __future__ import annotations

import re
import shutil
import subprocess
import unittest
from typing import Iterable, List, Set, Tuple

from trials import FolderTest, NO_HELP, PROGRAM

from commands import Command, commands, help_texts
from completion import completion_of
from completion_bash import bash_script
from completion_fish import fish_script
from completion_zsh import zsh_script
from help_text import Help, Option, Paragraph, Row

FILES = ("a.rule", "b.rule.gz", "c.rle", "d.mc.gz", "e.txt", "sub/f.rule", "with space.rule")
OPTIONS = (
    Option(("-h", "--help"), "", "show this help"),
    Option(("--to",), "G", "the last generation: [2^60]"),
    Option(("-r", "--rule"), "RULE [RULE ...]", "a rule, such as 'a.rule'"),
    Option(("--form",), "{rle,mc}", "the form"),
    Option(("--out",), "FILE", "writes a file"),
    Option(("--keep",), "FOLDER", "writes there"))


def command(*arguments: str, name: str = "desk-try") -> Command:
    """A command that has these names of arguments."""
    rows = tuple(Row(it, "") for it in arguments)
    return Command(name, Help(f"{name} [-h]", (Paragraph("Tries something."),), rows, OPTIONS, ()))


# The words in front of the cursor, the last of which is completed, and what it may become.
FOUND: Tuple[Tuple[str, Set[str]], ...] = (
    ("--", {"--help", "--to", "--rule", "--form", "--out", "--keep"}),
    ("--f", {"--form"}),
    ("--to ", set()),
    ("--form ", {"rle", "mc"}),
    ("--form m", {"mc"}),
    ("--rule ", {"a.rule", "b.rule.gz", "with space.rule", "sub"}),
    ("-r sub/", {"sub/f.rule"}),
    ("--out ", {"a.rule", "b.rule.gz", "c.rle", "d.mc.gz", "e.txt", "with space.rule", "sub"}),
    ("--keep ", {"sub"}),
    ("--to 3 ", {"c.rle", "d.mc.gz", "sub"}),
    ("--to 3 c", {"c.rle"}))


class CompletionTest(FolderTest):
    def setUp(self) -> None:
        super().setUp()
        self.work = self.folder / "work"
        for name in FILES:
            (self.work / name).parent.mkdir(parents=True, exist_ok=True)
            (self.work / name).touch()

    def written(self, text: str) -> str:
        path = self.folder / "script"
        path.write_text(text, encoding="utf-8")
        return str(path)

    def lines(self, *words: str) -> List[str]:
        """What a shell says that ends well and complains of nothing."""
        done = subprocess.run(words, cwd=self.work, capture_output=True, text=True, timeout=60, check=False)
        self.assertEqual((done.returncode, done.stderr), (0, ""))
        return done.stdout.splitlines()


class BashTest(CompletionTest):
    CALL = """\
set -u
. "$1" || exit
COMP_WORDS=("${@:2}") COMP_CWORD=$(($# - 2))
"_${2//-/_}"
[ ${#COMPREPLY[@]} = 0 ] || printf '%s\\n' "${COMPREPLY[@]}"
"""

    def found(self, it: Command, words: Iterable[str]) -> List[str]:
        script = self.written(bash_script(completion_of(it)))
        return self.lines("bash", "--norc", "-c", self.CALL, "bash", script, it.name, *words)

    def test_what_words_become(self) -> None:
        for text, wanted in FOUND:
            with self.subTest(text=text):
                found = self.found(command("PATTERN"), text.split(" "))
                self.assertEqual(sorted(found), sorted(wanted))

    def test_a_value_behind_a_sign_of_equality(self) -> None:
        for words, wanted in ((["--form", "="], ["rle", "mc"]), (["--form", "=", "r"], ["rle"]), (["--to", "="], [])):
            self.assertEqual(self.found(command("PATTERN"), words), wanted)

    def test_further_words_of_an_option_where_there_are_no_arguments(self) -> None:
        self.assertEqual(set(self.found(command(), ["--rule", "x.rule", "a"])), {"a.rule"})

    def test_nothing_where_arguments_are_unknown(self) -> None:
        self.assertEqual(self.found(command("WORD"), [""]), [])

    @unittest.skipIf(NO_HELP, NO_HELP)
    def test_all_options_that_help_says(self) -> None:
        texts = help_texts(PROGRAM)
        for it in commands(PROGRAM):
            said = set(re.findall(r"^ {2,6}(?:-\w(?: \S+)?, )?(--[\w-]+)", texts[it.name], re.M))
            self.assertEqual(sorted(self.found(it, ["--"])), sorted(said), it.name)
            self.assertIn("--help", said)


@unittest.skipUnless(shutil.which("zsh"), "there is no zsh; apt-get install zsh")
class ZshTest(CompletionTest):
    def test_it_is_of_the_language(self) -> None:
        for it in (command("PATTERN"), command(), command("WORD")):
            self.assertEqual(self.lines("zsh", "-f", "-n", self.written(zsh_script(completion_of(it)))), [])

    def told(self, it: Command) -> List[str]:
        """What zsh's own function is told of a command's words."""
        script = self.written(zsh_script(completion_of(it)))
        return self.lines("zsh", "-f", "-c", "_arguments() { print -rl -- \"$@\" }; . $1", "zsh", script)

    def test_what_it_is_told(self) -> None:
        self.assertEqual(self.told(command("PATTERN")), [
            "-s", "-S",
            "(-h --help)-h[show this help]",
            "(-h --help)--help[show this help]",
            r"*--to[the last generation\: \[2^60\]]:G: ",
            """*-r[a rule, such as 'a.rule']:RULE:_files -g "*.(rule|rule.gz)\"""",
            """*--rule[a rule, such as 'a.rule']:RULE:_files -g "*.(rule|rule.gz)\"""",
            "*--form[the form]:{rle,mc}:(rle mc)",
            "*--out[writes a file]:FILE:_files",
            "*--keep[writes there]:FOLDER:_files -/",
            """*:file:_files -g "*.(rle|rle.gz|mc|mc.gz|mcl|mcl.gz|lif|lif.gz)\""""])
        self.assertEqual(self.told(command())[-1], '*:file:_files -g "*.(rule|rule.gz)"')
        self.assertEqual(self.told(command("WORD"))[-1], "*--keep[writes there]:FOLDER:_files -/")


@unittest.skipUnless(shutil.which("fish"), "there is no fish; apt-get install fish")
class FishTest(CompletionTest):
    def found(self, it: Command, text: str) -> Set[str]:
        script = self.written(fish_script(completion_of(it)))
        line = f"{it.name} {text}"
        lines = self.lines("fish", "--no-config", "-c", f"source {script}; complete -C $argv[1]", line)
        return {it.partition("\t")[0].rstrip("/") if not text.endswith("/") else it.partition("\t")[0] for it in lines}

    def test_what_words_become(self) -> None:
        for text, wanted in FOUND:
            with self.subTest(text=text):
                self.assertEqual(self.found(command("PATTERN"), text), wanted)

    def test_what_options_do_is_said(self) -> None:
        script = self.written(fish_script(completion_of(command("PATTERN"))))
        lines = self.lines("fish", "--no-config", "-c", f"source {script}; complete -C 'desk-try --r'")
        self.assertEqual(lines, ["--rule\ta rule, such as 'a.rule'"])


if __name__ == "__main__":
    unittest.main()
