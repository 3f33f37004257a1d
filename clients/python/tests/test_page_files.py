"""Tests of rules and patterns that the page is given, together or one by one, in the server and in the browser."""
import unittest

from page_browser import DROP, InBrowser
from places import EXAMPLES
from test_page_with import BLINKER, LIFE, here_or_elsewhere

try:
    from desk.errors import Trouble
    from desk.page.document import Document, File, Intervention
    from desk.page.fitting import emptied, lowered
    from desk.page.header_rules import other_rule, rule_of_name, why_not
except ImportError:
    Document = None

# Rules of 9 and of 3 states, and starts that have the highest of them.
NINE = b"@RULE Nine\n@TABLE\nn_states:9\nneighborhood:vonNeumann\nsymmetries:none\n8,0,0,0,0,7\n"
HIGH = b"x = 3, y = 1, rule = Nine\n.HB!\n"
BRAIN = [(EXAMPLES / it).read_bytes().decode() for it in ("brain.rule", "brain.rle")]


def load_tests(loader, tests, pattern):
    return here_or_elsewhere(tests, ["aiohttp", "selenium"], __file__)


class FittingTest(unittest.TestCase):
    def test_states_above_become_1_and_all_else_stays(self):
        three = File("rule", "three", b"@RULE Three\n@TABLE\nn_states:3\n")
        cases = [
            ("start rle", b"#C pHY\nx = 9, y = 2, rule = ABC\n.A2B3CpAyO$bo!\n", b"#C pHY\nx = 9, y = 2, rule = ABC\n"
             b".A2B3AAA$bo!\n"),
            ("start mc", b"[M2]\n#R H\n1 0 2 3 255\n1 1 1 0 0\n2 0 1 2 0\n3 3 0 0 3\n",
             b"[M2]\n#R H\n1 0 2 1 1\n1 1 1 0 0\n2 0 1 2 0\n3 3 0 0 3\n"),
        ]
        for kind, text, wanted in cases:
            cells = ((0, 0, 2), (1, 0, 3))
            old = Document(three, File(kind, "a", text), (cells,), {}, {1: Intervention(0, 4, 0, 4, cells)})
            new = lowered(old)
            self.assertEqual(new.start.text, wanted)
            wanted = (0, 0, 2), (1, 0, 1)
            self.assertEqual((new.cells, new.interventions[1].cells), ((wanted,), wanted))
            self.assertEqual(emptied(old), Document(three))

    def test_rules_of_names(self):
        self.assertIn(b"num_states=2", rule_of_name("Life").text)
        for name in ("../wire", "no such rule"):
            self.assertRaises(Trouble, rule_of_name, name)
            self.assertIn(name, why_not(name))
        self.assertEqual(why_not("Life"), "")
        life, start = File("rule", "a", LIFE), File("start rle", "b", b"x = 1, y = 1, rule = B3/S23\no!")
        self.assertEqual(other_rule(life, start), "")
        self.assertEqual(other_rule(life, start._replace(text=HIGH)), "Nine")
        self.assertEqual(other_rule(life, start._replace(text=BLINKER)), "")
        self.assertEqual(other_rule(None, start), "B3/S23")


class FilesTest(InBrowser):
    def nine(self):
        for name, data in (("nine.rule", NINE), ("high.rle", HIGH)):
            (self.folder / name).write_bytes(data)
        self.open(self.folder / "nine.rule", self.folder / "high.rle")
        self.until_known(0, 0)

    def alert(self):
        return self.find("#alert")

    def names(self):
        return self.js("return [app.state.rule, app.state.start, app.state.undo]")

    def test_a_rule_and_a_pattern_are_one_edit(self):
        self.nine()
        self.js(DROP, "brain.rle", BRAIN[1], "brain.rule", BRAIN[0])
        self.until("app.state.rule === 'brain.rule' && app.state.start === 'brain.rle'")
        self.assertEqual(self.names(), ["brain.rule", "brain.rle", 1])
        self.until_known(0, 0)
        self.assertFalse(self.alert().is_displayed(), self.alert().text)
        self.press("z")
        self.until("app.state.rule === 'nine.rule' && app.state.start === 'high.rle'")
        self.assertEqual(self.names(), ["nine.rule", "high.rle", 0])
        self.until_known(0, 0)
        self.assertEqual(self.js("return app.frames.stateAt(app.pane.place, { x: 1n, y: 0n })"), 8)

    def test_of_two_files_of_which_one_is_refused_none_is_taken(self):
        self.nine()
        for rule, start, number in ((BRAIN[0], "x = 1, y = 1\nq!\n", "BadRun"), ("@RULE a\n", BRAIN[1], "NoTable"),
                                    (BRAIN[0], "x = 1, y = 1\nH!\n", "StateTooHigh")):
            self.js(DROP, "a.rle", start, "a.rule", rule)
            self.until(f"document.getElementById('alert').textContent.includes('{number}')")
            self.assertEqual(self.names(), ["nine.rule", "high.rle", 0])
            self.until_known(0, 0)
            self.assertEqual(self.js("return app.frames.stateAt(app.pane.place, { x: 1n, y: 0n })"), 8)

    def test_a_rule_of_fewer_states_offers_what_can_be_done_with_the_start(self):
        for offer, state in (("let states above become 1", 1), ("with an empty start", 0)):
            self.nine()
            self.js("document.getElementById('begin').open = true")
            self.js("document.getElementById('lifelike').value = 'B3/S23'")
            self.click(self.find("#takerule"))
            self.until("document.getElementById('alert').textContent.includes('42 CellStateTooHigh')")
            self.assertEqual(self.names(), ["nine.rule", "high.rle", 0])
            [button] = [it for it in self.alert().find_elements("css selector", "button") if offer in it.text]
            self.click(button)
            self.until("app.state.rule === 'B3/S23' && app.state.undo === 1")
            self.until_known(0, 0)
            found = self.js("return [1n, 2n].map((x) => app.frames.stateAt(app.pane.place, { x, y: 0n }))")
            self.assertEqual(found, [state, state])
            self.assertFalse(self.alert().is_displayed())
            self.press("z")
            self.until("app.state.rule === 'nine.rule' && app.state.start === 'high.rle'")

    def test_where_header_and_rule_differ_a_banner_says_so_and_offers_the_rule(self):
        self.nine()
        self.assertEqual(self.find("#banners").text, "")
        self.js(DROP, "life.rle", "x = 3, y = 1, rule = B3/S23\n3o!\n")
        self.until("document.querySelector('.banner')")
        words = self.find(".banner").text
        self.assertIn("life.rle is made for the rule B3/S23, and nine.rule is in use.", words)
        self.click(self.find(".banner button"))
        self.until("app.state.rule === 'B3/S23' && !document.querySelector('.banner')")
        self.js(DROP, "other.rle", "x = 3, y = 1, rule = NoSuchRule\n3o!\n")
        self.until("document.querySelector('.banner')?.textContent.includes('no rule NoSuchRule is known')")

    def test_a_pattern_brings_the_rule_of_its_header_where_there_is_none(self):
        self.open()
        self.js(DROP, "life.rle", "x = 3, y = 1, rule = B3/S23\n3o!\n")
        self.until("app.state.rule === 'B3/S23' && app.state.undo === 1")

    def test_a_pattern_with_more_states_than_the_rule_offers_its_own_rule(self):
        (self.folder / "brain.rule").write_text(BRAIN[0])
        self.open(self.folder / "brain.rule")
        self.js(DROP, "wire.rle", "x = 1, y = 1, rule = 345/2/4\nC!\n")
        self.until("document.getElementById('alert').textContent.includes('StateTooHigh')")
        [button] = [it for it in self.alert().find_elements("css selector", "button") if "345/2/4" in it.text]
        self.click(button)
        self.until("app.state.rule === '345/2/4' && app.state.start === 'wire.rle' && app.state.undo === 1")

    def test_an_old_refusal_goes_when_the_next_file_is_taken(self):
        self.nine()
        self.js(DROP, "bad.rle", "x = 1, y = 1\nq!\n")
        self.until("!document.getElementById('alert').hidden")
        self.js(DROP, "good.rle", "x = 1, y = 1\nA!\n")
        self.until("app.state.start === 'good.rle'")
        self.until("document.getElementById('alert').hidden")


if __name__ == "__main__":
    unittest.main()
