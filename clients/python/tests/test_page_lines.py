"""Tests of the page's counts of lines that fire. They run with the other tests, or alone by

    python3 -m unittest discover -s clients/python/tests -p test_page_lines.py
"""
import unittest

from page_browser import By, tests_in_browser
from test_lines import ELECTRON, RULE
from test_page_rule import CODEMIRROR, GOLLY, InRule

try:
    from desk.errors import Trouble
    from desk.page import line_counts
    from desk.page.document import Branch, Document, File, Intervention
except ImportError:
    line_counts = None

# What stands in the gutter beside the numbers of lines: pairs of a line's number and a text.
GUTTER = """
const { editor } = app.ruleText, found = [];
if (editor.editor) editor.editor.eachLine((it) => {
  const sign = it.gutterMarkers?.counts;
  if (sign) found.push([editor.editor.getLineNumber(it) + 1, sign.textContent]);
});
else document.querySelectorAll("#rule .gutter .count").forEach((it, at) => {
  if (it.textContent) found.push([at + 1, it.textContent]);
});
return found;
"""
COUNTED = [[13, "3"], [14, "3"], [15, "2"], [16, "0"], [17, "never"]]


def load_tests(loader, tests, pattern):
    return tests_in_browser(tests, __file__)


class AskedTest(unittest.TestCase):
    def asked(self, document, **more):
        return line_counts._asked(document, {"branch": 0, "first": "0", "last": "9", "every": "1", **more})

    def test_what_cant_be_counted(self):
        rule = File("rule", "w.rule", RULE.encode())
        document = Document(rule, branches={1: Branch(0, 5)})
        self.assertEqual(self.asked(document).generations, range(9))
        self.assertEqual(self.asked(document, branch=1, first="5", last="20", every="7").generations, range(5, 20, 7))
        for given, more, told in (
            (Document(), {}, "no rule yet"), (document, {"branch": 2}, "no branch 2"),
            (document, {"branch": 1, "first": "4"}, "begins at generation 5"),
            (document, {"first": "9"}, "has to be behind the first one"),
            (document, {"last": str(2 ** 60)}, "are too many"),
        ):
            with self.assertRaisesRegex(Trouble, told):
                self.asked(given, **more)

    def test_cells_that_are_set_in_the_next_generation(self):
        once = Intervention(0, 3, 0, 3, ((0, 0, 1), (1, 0, 2)))
        often = Intervention(0, 1, 2, 7, ((1, 0, 0), (2, 0, 3)))
        elsewhere = Intervention(1, 3, 0, 3, ((9, 9, 1),))
        document = Document(File("rule", "w.rule", RULE.encode()), interventions={1: once, 2: often, 3: elsewhere})
        asked = self.asked(document)
        self.assertEqual(line_counts._laid(asked, 3), {(0, 0): 1, (1, 0): 0, (2, 0): 3})
        self.assertEqual(line_counts._laid(asked, 4), {})
        self.assertEqual(line_counts._laid(asked, 5), {(1, 0): 0, (2, 0): 3})

    def test_patterns_of_too_many_cells(self):
        lines = ["[M2] (desk)", "#R X", "1 1 1 1 1"]
        lines += [" ".join(map(str, (level, *[level - 1] * 4))) for level in range(2, 12)]
        with self.assertRaisesRegex(Trouble, "generation 7 has 4194304 live cells, and at most 200000 are looked at"):
            line_counts._cells("\n".join(lines) + "\n", 7)


class CountTests:
    """The same tests for each editor."""

    def electron(self):
        for name, text in (("w.rule", RULE), ("w.rle", ELECTRON)):
            (self.folder / name).write_text(text, encoding="utf-8")
        self.rule(self.folder / "w.rule", self.folder / "w.rle")

    def count(self, last, first="", every=""):
        self.js("""
            const fields = document.querySelectorAll("#fires input");
            [...fields].forEach((it, at) => { it.value = arguments[at]; });
            document.getElementById("fires").open = true;
            """, first, str(last), every)
        self.click(self.find("#fires .row button"))

    def until_counted(self, words="Counted", seconds=30):
        self.until(f"document.querySelector('#fires output').textContent.startsWith({words!r})", seconds)

    def gutter(self):
        return self.js(GUTTER)

    def test_counts_in_the_gutter_by_hand(self):
        self.electron()
        self.js("document.activeElement.blur()")
        self.press("j")
        self.until("document.activeElement.name === 'fires-first'")
        self.count(3)
        self.until_counted("Counted the steps from generation 0 to 3 in branch 0.")
        self.assertEqual(self.gutter(), COUNTED)
        self.assertEqual((self.marked("idle"), self.marked("dead")), ([16], [17]))
        self.assertEqual(self.find("#fires .dead").text, "Can never fire, for certain: 17")
        self.assertEqual(self.find("#fires .idle").text, "Never fired in these steps: 16")
        self.assertIn("line 14 take all that it matches", self.find("#fires .dead button").get_attribute("title"))
        rows = [it.text for it in self.browser.find_elements(By.CSS_SELECTOR, "#fires tr")]
        self.assertEqual(rows[:4], ["c n e s w cells", "0 3 0 0 0 16", "0 1 0 0 0 7", "0 2 0 0 0 7"])
        self.click(self.find("#fires .dead button"))
        self.assertEqual(self.marked("shown"), [17])
        self.count(3, "1", "2")
        self.until_counted("Counted the steps from generation 1 to 3, one in 2 in branch 0.")
        self.assertEqual(self.gutter(), [[13, "1"], [14, "1"], [15, "1"], [16, "0"], [17, "never"]])

    def test_counts_are_of_the_text_and_the_experiment_that_are_shown(self):
        self.electron()
        self.count(3)
        self.until_counted()
        self.write(3, " ")
        self.until("document.querySelector('#fires output').classList.contains('hatched') || "
                   "document.querySelector('#fires output').textContent.includes('has changed')")
        self.assertEqual((self.gutter(), self.marked("dead")), ([], []))
        self.until_in_use()
        self.until_counted("The experiment has changed: count again.")
        self.assertEqual((self.gutter(), self.find("#fires .found").text), ([], ""))
        self.count(3)
        self.until_counted()
        self.js("app.ask('branch', { parent: 0, generation: '1' })")
        self.until("app.state.branches.length === 1")
        self.assertEqual(self.gutter(), COUNTED)
        self.js("app.go({ branch: 1 })")
        self.until_text("#fires output", "Counted the steps from generation 0 to 3 in branch 0. They aren't shown, "
                        "since another branch is in sight.")
        self.assertEqual((self.gutter(), self.find("#fires .found").text), ([], ""))
        self.js("app.go({ branch: 0 })")
        self.until_text("#fires output", "Counted the steps from generation 0 to 3 in branch 0.")
        self.assertEqual(self.gutter(), COUNTED)
        self.js("app.ask('paint', { branch: 0, generation: '0', cells: [[50, 50, 3]] })")
        self.until_counted("The experiment has changed: count again.")
        self.assertEqual((self.gutter(), self.marked("idle"), self.marked("dead")), ([], [], []))


@unittest.skipUnless(CODEMIRROR.exists(), "libjs-codemirror isn't installed; clients/python/tests/setup.sh installs it")
class MirrorCountTest(CountTests, InRule):
    kind, folder_of_editor = "Mirror", str(CODEMIRROR.parent)

    def test_interventions_and_branches(self):
        self.electron()
        self.js("app.ask('paint', { branch: 0, generation: '2', cells: [[0, 0, 0], [1, 0, 1], [7, 0, 3]] })")
        self.js("app.ask('branch', { parent: 0, generation: '1' })")
        self.until("app.state.branches.length === 1")
        self.js("app.ask('paint', { branch: 1, generation: '3', cells: [[3, 0, 0]] })")
        self.until("app.state.interventions.length === 2")
        self.count(4)
        self.until_counted("Counted the steps from generation 0 to 4 in branch 0.")
        self.js("app.go({ branch: 1 })")
        self.until_known(1, 1)
        self.count(4)
        self.until_counted("Counted the steps from generation 1 to 4 in branch 1.")
        self.count(4, "0")
        self.until_counted("Not counted: branch 1 begins at generation 1")

    def test_progress_and_cancel(self):
        self.rule()
        self.count(90000)
        self.until("/branch 0: [1-9][0-9]* of 90000/.test(document.querySelector('#fires output').textContent)", 60)
        self.assertTrue(self.js("return document.querySelector('#fires output').classList.contains('hatched')"))
        self.assertEqual(self.marked("idle"), [])
        self.assertEqual(self.find("#fires .row button").text, "Cancel")
        self.click(self.find("#fires .row button"))
        self.until_counted("Cancelled after ")
        words = self.find("#fires output").text
        self.js("window.told = 0; app.lineCounts.take = () => { window.told++; }")
        self.assertFalse(self.comes("window.told > 0", 1.5))
        self.assertEqual(self.find("#fires output").text, words)
        self.assertEqual(self.js("return app.state.pending"), 0)

    def test_numbers_that_are_none(self):
        self.electron()
        self.count("many", every="0")
        self.until("document.querySelectorAll('#fires [aria-invalid=true]').length === 2")
        self.count(0)
        self.until_counted("Not counted: the last generation has to be behind the first one.")
        self.js("app.ask('undo')")

    def test_it_ends_where_the_experiment_changes(self):
        self.rule()
        self.count(90000)
        self.until("/branch 0: [1-9][0-9]* of 90000/.test(document.querySelector('#fires output').textContent)", 60)
        self.js("app.ask('paint', { branch: 0, generation: '0', cells: [['50', '50', 3]] })")
        self.until_counted("The experiment has changed")
        self.assertEqual(self.gutter(), [])
        self.until("app.state.pending === 0")

    @unittest.skipUnless(GOLLY.is_dir(), "Golly isn't installed")
    def test_lines_of_evoloop_that_can_never_fire(self):
        self.rule(GOLLY / "Rules/Evoloop.rule", GOLLY / "Patterns/Loops/Evoloop.rle")
        self.count(5)
        self.until_counted(seconds=60)
        dead = [216, 219, 252, 254, 268]
        self.assertEqual(self.marked("dead"), dead)
        self.assertEqual(self.find("#fires .dead").text, f"Can never fire, for certain: {' '.join(map(str, dead))}")

    def test_nodes_of_a_tree(self):
        tree = "@RULE T\n@TREE\nnum_states=2\nnum_neighbors=4\nnum_nodes=6\n1 0 0\n1 0 1\n2 0 0\n3 2 2\n4 3 3\n5 4 4\n"
        for name, text in (("T.rule", tree), ("t.rle", "x = 1, y = 1, rule = T\no!\n")):
            (self.folder / name).write_text(text, encoding="utf-8")
        self.rule(self.folder / "T.rule", self.folder / "t.rle")
        self.count(1)
        self.until_counted()
        self.assertEqual(self.gutter(), [[6, "5"], [7, "never"], [8, "5"], [9, "5"], [10, "5"], [11, "5"]])
        self.assertIn("no way from the root leads here", self.find("#fires .dead button").get_attribute("title"))


class PlainCountTest(CountTests, InRule):
    kind, folder_of_editor = "Plain", "/nowhere"


if __name__ == "__main__":
    unittest.main()
