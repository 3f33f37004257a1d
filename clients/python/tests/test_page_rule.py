"""Tests of the rule as text beside the picture: in CodeMirror, and in the field that stands in for it. They run with
the other tests, or alone by

    python3 -m unittest discover -s clients/python/tests -p test_page_rule.py
"""
import os
import time
import unittest
from pathlib import Path
from unittest import mock

from page_browser import DROP, By, InBrowser, Keys, tests_in_browser
from places import EXAMPLES
from test_page_with import slack

try:
    from desk.page import static_files
    from desk.page.document import File
    from desk.page.rule_id import rule_id
    from desk.page.rule_text import decoded, encoded
except ImportError:
    decoded = None

CODEMIRROR = Path("/usr/share/javascript/codemirror/codemirror.js")
GOLLY = Path("/usr/share/golly")
WIRE_RULE = (EXAMPLES / "wire.rule").read_text(encoding="utf-8")
# The cursor at the end of a line.
TO_LINE = """
const { editor } = app.ruleText, line = arguments[0];
editor.focus();
if (editor.editor) editor.editor.setCursor(line - 1, 1e6);
else {
  const at = editor.text.split("\\n").slice(0, line).join("\\n").length;
  editor.field.setSelectionRange(at, at);
}
"""
# The numbers of lines that are marked in a way, and what stands in the gutter at a line.
MARKED = """
const { editor } = app.ruleText, name = `line-${arguments[0]}`;
if (editor.editor) {
  const found = [];
  editor.editor.eachLine((it) => {
    if ((it.wrapClass ?? "").split(" ").includes(name)) found.push(editor.editor.getLineNumber(it) + 1);
  });
  return found;
}
return [...document.querySelectorAll("#rule .gutter > div")].flatMap((it, at) =>
  it.classList.contains(name) ? [at + 1] : []);
"""
# What is saved, in place of saving it: its name and its text.
SAVED = """
const make = URL.createObjectURL;
URL.createObjectURL = (blob) => { window.kept = blob; return make.call(URL, blob); };
HTMLAnchorElement.prototype.click = async function () { window.saved = [this.download, await window.kept.text()]; };
"""
# How long it takes from an edit of a line until the picture of the new text is drawn, in milliseconds.
LATENCY = """
const [old, now, done] = arguments, { ruleText, pane } = app, { epoch } = app.state, begun = performance.now();
ruleText.edit(ruleText.draft.replace(old, now));
const look = () => {
  const isKnown = pane.node.dataset.known?.endsWith(`|${app.state.epoch}`);
  if (app.state.epoch > epoch && isKnown) done(performance.now() - begun);
  else requestAnimationFrame(look);
};
look();
"""
PAUSE = 300


def load_tests(loader, tests, pattern):
    return tests_in_browser(tests, __file__)


class TextsTest(unittest.TestCase):
    def test_an_edited_text_is_encoded_as_the_old_one(self):
        for old, now in (
            (b"@RULE a\r\n# \xe9\r\n", b"@RULE a\n# \xe9\nx"),
            ("@RULE a\n# \u00e9\n".encode(), "@RULE a\n# \u00e9\nx".encode()),
            (b"", b"x"),
        ):
            text = decoded(old)
            self.assertNotIn("\r", text)
            self.assertEqual(encoded(text, old), old)
            self.assertEqual(encoded(text + "x", old), now)
        self.assertEqual(encoded("\u2192", b"\xe9"), "\u2192".encode())
        self.assertEqual(encoded("a\ud800", b""), b"a?")

    def test_texts_are_known_by_words(self):
        ids = [rule_id(it) for it in (None, File("rule", "a", b"1"), File("rule", "b", b"1"), File("rule", "a", b"2"))]
        self.assertEqual(ids[0], "")
        self.assertEqual(ids[1], ids[2])
        self.assertEqual(len(set(ids)), 3)

    def test_the_files_of_codemirror_are_empty_where_it_isnt_installed(self):
        with mock.patch.dict(os.environ, DESK_CODEMIRROR="/nowhere"):
            self.assertEqual(static_files.file_named("codemirror.js"), b"")
        self.assertIsNone(static_files.file_named("../server.py"))
        self.assertIn(b"<title>desk</title>", static_files.file_named("index.html"))


class InRule(InBrowser):
    """What both editors are tested by."""

    def setUp(self):
        super().setUp()
        self.enterContext(mock.patch.dict(os.environ, DESK_CODEMIRROR=self.folder_of_editor))

    def rule(self, *files):
        """A page with its rule's text open."""
        self.open(*(files or (EXAMPLES / "wire.rule", EXAMPLES / "wire.rle")))
        self.until_known(0, 0)
        self.press("r")
        self.until("app.ruleText.draft !== null")
        self.assertEqual(self.js("return app.ruleText.editor.constructor.name"), self.kind)

    def line(self, number):
        return self.js("return app.ruleText.draft").split("\n")[number - 1]

    def to_line(self, number):
        self.js(TO_LINE, number)

    def write(self, number, *keys):
        """Types at the end of a line."""
        self.to_line(number)
        self.press(*keys)

    def marked(self, kind):
        return self.js(MARKED, kind)

    def standing(self):
        return self.find("#rule .standing").text

    def until_in_use(self):
        self.until_text("#rule .standing", "This text is in use.")


class EditorTests:
    """The same tests for each editor."""

    def test_r_opens_the_text_and_keys_in_it_are_written(self):
        self.rule()
        self.assertEqual(self.js("return app.ruleText.draft"), WIRE_RULE)
        self.until_in_use()
        self.assertTrue(self.js("return document.querySelector('#rule .editor').contains(document.activeElement)"))
        self.write(25, Keys.ENTER, "#", "r", "z", " ", "1")
        self.assertEqual(self.line(26), "#rz 1")
        self.assertTrue(self.find("#rule").is_displayed())
        self.press(Keys.TAB)
        self.assertFalse(self.js("return document.querySelector('#rule .editor').contains(document.activeElement)"))
        self.assertTrue(self.js("return document.getElementById('rule').contains(document.activeElement)"))
        self.to_line(1)
        self.press(Keys.ESCAPE)
        self.assertEqual(self.js("return document.activeElement.tagName"), "CANVAS")
        self.press("r")
        self.assertFalse(self.find("#rule").is_displayed())
        self.click(self.find("#ruletext"))
        self.assertTrue(self.find("#rule").is_displayed())
        self.until("document.querySelector('#rule .editor').textContent.includes('25') || "
                   "document.querySelector('#rule .gutter')?.children.length > 25")

    def test_a_pause_takes_what_was_written_and_z_takes_it_back(self):
        self.rule()
        self.go(0, 1)
        state = "return app.frames.stateAt(app.pane.place, { x: 1n, y: 0n })"
        self.assertEqual(self.js(state), 2)
        self.write(21, Keys.BACKSPACE + "3")  # the head becomes a wire
        self.until_in_use()
        self.until_known(0, 1)
        self.assertEqual(self.js(state), 3)
        self.assertEqual((self.marked("changed"), self.marked("taken")), ([], [21]))
        self.assertEqual(self.js("return app.state.undo"), 1)
        self.assertIn("1,a,b,c,d,e,f,g,h,3\n", self.script())
        self.press(Keys.ESCAPE, "z")
        self.until("app.state.undo === 0 && app.ruleText.draft === app.ruleText.inUse && "
                   "app.ruleText.draft.includes('1,a,b,c,d,e,f,g,h,2')")
        self.until_known(0, 1)
        self.assertEqual(self.js(state), 2)
        self.assertEqual((self.line(21), self.marked("taken")), ("1,a,b,c,d,e,f,g,h,2", []))
        self.press("y")
        self.until("app.ruleText.draft.includes('1,a,b,c,d,e,f,g,h,3')")
        self.until_in_use()
        self.assertEqual(self.marked("taken"), [21])

    def test_flags_and_curves_follow(self):
        self.rule()
        self.press(Keys.ESCAPE)
        self.go(0, 24)
        self.press("m", "c")
        self.until("app.state.bookmarks[0]?.isCurrent")
        self.until("/^[0-9]/.test(document.querySelector('#details pre').textContent)")
        before = self.find("#details pre").text
        self.write(22, Keys.BACKSPACE + "0")  # the tail becomes nothing, and so the wire goes
        self.until_in_use()
        self.until("app.state.bookmarks[0].isCurrent && "
                   f"document.querySelector('#details pre').textContent.trim() !== {before.strip()!r}")
        self.until("!document.querySelector('#curve span').textContent.includes('pending')")

    def test_a_refused_text_is_marked_and_the_last_one_stays_in_use(self):
        self.rule()
        self.go(0, 1)
        self.write(21, Keys.BACKSPACE + "9")
        self.until("!document.querySelector('#rule .fault').hidden")
        self.assertEqual(self.standing(), "Refused: the last text that was taken stays in use.")
        fault = self.find("#rule .fault").text
        for words in ("9 StateTooHigh", "line 21", "1,a,b,c,d,e,f,g,h,9", "It means: ", "What to do: correct it"):
            self.assertIn(words, fault)
        self.assertEqual(self.marked("refused"), [21])
        self.assertEqual(self.js("return app.ruleText.editor.field.getAttribute('aria-invalid')"), "true")
        self.assertEqual(self.js("return app.state.undo"), 0)
        self.until_known(0, 1)
        self.assertEqual(self.js("return app.frames.stateAt(app.pane.place, { x: 1n, y: 0n })"), 2)
        # What was refused is another text now: no mark is of before.
        was = self.js(f"""
            app.ruleText.edit(app.ruleText.draft.replace("n_states:4", "n_states:4 "));
            const marked = (() => {{ {MARKED} }}).call(null, "refused");
            return [document.querySelector("#rule .fault").hidden, marked]""".replace("arguments[0]", "'refused'"))
        self.assertEqual(was, [True, []])
        self.until("!document.querySelector('#rule .fault').hidden")
        self.assertEqual((self.marked("refused"), self.marked("changed")), ([21], [3, 21]))
        self.click(self.find("#rule [data-do=back]"))
        self.until_in_use()
        self.assertEqual(self.js("return app.ruleText.draft"), WIRE_RULE)
        self.assertFalse(self.find("#rule .fault").is_displayed())

    def test_faults_without_a_line_are_told_too(self):
        self.rule()
        self.js("app.ruleText.edit('@RULE Empty\\n')")
        self.until("document.querySelector('#rule .fault').textContent.includes('2 NoTable')")
        self.assertEqual(self.marked("refused"), [])
        self.js("app.ruleText.edit('@RULE a\\nend\\n')")
        self.until("document.querySelector('#rule .fault').textContent.includes('a line is just `end`')")

    def test_the_draft_stays_where_the_last_text_is_undone(self):
        self.rule()
        self.write(21, Keys.BACKSPACE + "3")
        self.until_in_use()
        self.write(22, Keys.BACKSPACE + "9")
        self.until("!document.querySelector('#rule .fault').hidden")
        self.press(Keys.ESCAPE, "z")
        self.until("app.state.undo === 0 && app.ruleText.inUse.includes('1,a,b,c,d,e,f,g,h,2')")
        self.assertEqual((self.line(21)[-1], self.line(22)[-1]), ("3", "9"))
        self.until("app.ruleText.changedLines === 2")
        self.assertEqual(self.marked("changed"), [21, 22])

    def test_the_draft_stays_where_the_page_is_loaded_again(self):
        self.rule()
        self.write(22, Keys.BACKSPACE + "9")
        self.until("!document.querySelector('#rule .fault').hidden")
        self.js("app.changed()")
        self.until("JSON.parse(sessionStorage.getItem('place')).rule.draft?.includes('h,9')")
        self.browser.refresh()
        self.until("window.app?.ruleText.draft && !document.querySelector('#rule .fault').hidden")
        self.assertEqual((self.line(22)[-1], self.marked("refused")), ("9", [22]))
        self.click(self.find("#rule [data-do=back]"))
        self.until_in_use()
        self.js("app.ruleText.close()")
        self.until("!JSON.parse(sessionStorage.getItem('place')).rule.isOpen")
        self.browser.refresh()
        self.until("window.app?.state.epoch >= 0")
        self.assertFalse(self.find("#rule").is_displayed())

    def test_lines_are_highlighted_until_the_text_in_use_changes(self):
        self.rule()
        self.js("window.times = 0; app.ruleText.addEventListener('inuse', () => window.times++)")
        self.js("app.ruleText.highlight([24, 22])")
        self.assertEqual(self.marked("shown"), [22, 24])
        self.js("app.ruleText.highlight([])")
        self.assertEqual(self.marked("shown"), [])
        self.js("app.ruleText.close(); app.ruleText.highlight([21])")
        self.js("app.ruleText.show()")
        self.until("app.ruleText.isOpen")
        self.assertEqual(self.marked("shown"), [21])
        self.write(2, Keys.ENTER, "x")  # in the draft it is one line further down
        self.assertEqual(self.marked("shown"), [22])
        self.press(Keys.BACKSPACE * 2)
        self.assertEqual((self.marked("shown"), self.js("return window.times")), ([21], 0))
        self.write(21, Keys.BACKSPACE + "3")
        self.until_in_use()
        self.assertEqual((self.marked("shown"), self.js("return window.times")), ([], 1))

    def test_the_editors_own_undo(self):
        self.rule()
        self.write(21, Keys.BACKSPACE + "9")
        self.until("!document.querySelector('#rule .fault').hidden")
        self.js("document.activeElement.dispatchEvent(new KeyboardEvent('keydown', { key: 'z', bubbles: true }))")
        self.assertEqual(self.js("return app.state.redo"), 0)
        for _ in range(3):
            self.browser.execute_cdp_cmd("Input.dispatchKeyEvent", {
                "type": "keyDown", "key": "z", "code": "KeyZ", "windowsVirtualKeyCode": 90, "modifiers": 2,
                "commands": ["undo"] if self.kind == "Plain" else []})
            if self.line(21) == "1,a,b,c,d,e,f,g,h,2":
                break
        self.assertEqual(self.line(21), "1,a,b,c,d,e,f,g,h,2")
        self.until_in_use()

    def test_swatches_change_the_text(self):
        self.rule()
        self.js("document.querySelector('#rule .swatches').open = true")
        self.until("document.querySelectorAll('#rule .swatches li').length === 4")
        self.js("""const it = document.querySelector('#rule .swatches li[data-state="2"] input');
            it.value = '#102030'; it.dispatchEvent(new Event('input'))""")
        self.until("app.state.colors[2].join() === '16,32,48'")
        self.assertIn("\n2 16 32 48 tail\n", self.js("return app.ruleText.draft"))
        field = self.find("#rule .swatches li[data-state='0'] input[type=text]")
        field.send_keys("7 up" + Keys.ENTER)
        self.until("document.querySelector('#rule .swatches .wrong')")
        field.clear()
        field.send_keys("nothing" + Keys.ENTER)
        self.until("app.state.names[0] === 'nothing'")
        self.assertIn("0 32 32 40 nothing\n", self.js("return app.ruleText.draft"))
        names = self.js("return [...document.querySelectorAll('#palette button')].map((it) => it.ariaLabel)")
        self.assertEqual(names[1], "state 0: nothing")
        self.press(Keys.ESCAPE)
        self.js("document.activeElement.blur()")
        # On a busy machine the cleared name is taken before the new one, and is an edit too.
        self.press(*"z" * self.js("return app.state.undo"))
        self.until("app.state.undo === 0 && app.state.colors[2].join() === '255,255,255'")
        self.until("document.querySelector('#rule .swatches li[data-state=\"2\"] input').value === '#ffffff'")

    def test_another_rule_is_shown_when_it_is_taken(self):
        self.rule()
        self.write(21, Keys.BACKSPACE + "9")
        self.until("!document.querySelector('#rule .fault').hidden")
        self.js("app.ask('new')")
        self.until("app.state.start === ''")
        self.assertEqual(self.line(21)[-1], "9")
        self.js("app.files.takeRule('B3/S23')")
        self.until("app.ruleText.draft.startsWith('@RULE B3')")
        self.until_in_use()
        self.assertFalse(self.find("#rule .fault").is_displayed())
        self.assertEqual(self.marked("taken"), [])
        self.js(DROP, "wire.rule", WIRE_RULE)
        self.until("app.ruleText.draft.includes('1,a,b,c,d,e,f,g,h,2')")

    def test_a_rule_is_written_where_there_is_none(self):
        self.open()
        self.press("r")
        self.until("app.ruleText.draft === ''")
        self.assertEqual(self.standing(), "There is no rule in use: write one here, or open one.")
        self.js("app.ruleText.edit(arguments[0])", WIRE_RULE)
        self.until_in_use()
        self.assertEqual(self.js("return [app.state.rule, app.state.states, app.state.undo]"), ["Wire.rule", 4, 1])

    def test_fewer_states_than_the_start_has(self):
        self.rule()
        self.js("app.ruleText.edit(app.ruleText.draft.replace('n_states:4', 'n_states:2').split('\\nvar')[0])")
        self.until("document.querySelector('#rule .fault').textContent.includes('42 CellStateTooHigh')")
        [ones, _] = self.browser.find_elements(By.CSS_SELECTOR, "#rule .fault button")
        self.assertEqual(ones.text, "Take it, and let states above become 1")
        self.assertEqual(self.js("return app.state.states"), 4)
        self.click(ones)
        self.until("app.state.states === 2")
        self.until_in_use()

    def test_it_is_saved_as_a_rule_file(self):
        self.rule()
        self.js(SAVED)
        self.write(21, Keys.BACKSPACE + "3")
        self.until_in_use()
        self.click(self.find("#rule [data-do=save]"))
        self.until("window.saved")
        name, text = self.js("return window.saved")
        self.assertEqual(text, WIRE_RULE.replace("1,a,b,c,d,e,f,g,h,2", "1,a,b,c,d,e,f,g,h,3"))
        self.assertEqual((name, self.marked("taken")), ("Wire.rule", []))

    def test_on_a_small_screen_it_is_below_the_picture(self):
        self.rule()
        self.in_window(420, 900)
        pane, text, tools = self.js("return ['#panes', '#rule', 'aside'].map((it) => "
                                    "document.querySelector(it).getBoundingClientRect().toJSON())")
        self.assertGreaterEqual(text["top"], pane["bottom"])
        self.assertGreaterEqual(tools["top"], text["bottom"])
        self.assertGreaterEqual(text["width"], 380)
        self.assertLessEqual(self.js("return document.documentElement.scrollWidth"), 420)


@unittest.skipUnless(CODEMIRROR.exists(), "libjs-codemirror isn't installed; clients/python/tests/setup.sh installs it")
class MirrorTest(EditorTests, InRule):
    kind, folder_of_editor = "Mirror", str(CODEMIRROR.parent)

    @unittest.skipUnless(GOLLY.is_dir(), "Golly isn't installed")
    def test_an_edit_of_a_line_to_its_picture(self):
        self.rule(GOLLY / "Rules/Langtons-Loops.rule", GOLLY / "Patterns/Loops/Langtons-Loops.rle")
        self.go(0, 10000)
        times = []
        for old, now in (("014221", "014222"), ("702321", "702322"), ("502152", "502153"), ("000063", "000064")):
            times.append(self.browser.execute_async_script(LATENCY, old, now) - PAUSE)
            time.sleep(0.2)
        print(f"from an edit to its picture: {', '.join(f'{it:.0f}' for it in times)} ms beyond the pause")
        self.assertLess(sorted(times)[1], 3000 * slack())  # generous, since machines differ


class PlainTest(EditorTests, InRule):
    kind, folder_of_editor = "Plain", "/nowhere"


class DifferenceTest(InBrowser):
    def test_lines_that_stand_in_another_text_too(self):
        self.wire()
        cases = [("abc", "abc", [0, 1, 2]), ("abc", "xabc", [-1, 0, 1, 2]), ("abc", "ac", [0, 2]), ("", "ab", [-1, -1]),
                 ("abcd", "axcyd", [0, -1, 2, -1, 3]), ("aab", "ab", [0, 2]), ("abab", "baba", [-1, 0, 1, 2])]
        for old, now, wanted in cases:
            found = self.browser.execute_async_script(
                "const [old, now, done] = arguments; import('./line_diff.js').then((it) => "
                "done([...it.placesIn([...old], [...now])]))", old, now)
            self.assertEqual(found.count(-1), wanted.count(-1), (old, now))
            self.assertTrue(all(it < 0 or old[it] == now[at] for at, it in enumerate(found)), (old, now, found))
            kept = [it for it in found if it >= 0]
            self.assertEqual(kept, sorted(set(kept)))

    def test_colors_in_a_text(self):
        self.wire()
        cases = [
            ("@RULE a\n@TABLE\n", 1, "", "@RULE a\n@TABLE\n\n@COLORS\n1 9 8 7\n"),
            ("@COLORS\n0 1 2 3\n1 4 5 6 old\n\n@ICONS\n1 0 0 0\n", 1, "new",
             "@COLORS\n0 1 2 3\n1 9 8 7 new\n\n@ICONS\n1 0 0 0\n"),
            ("@COLORS\n1 0 0 255 0 0\n11 4 5 6\n", 1, "x", "@COLORS\n1 0 0 255 0 0\n11 4 5 6\n1 9 8 7 x\n"),
            ("@COLORS\n2 4 5 6", 3, "", "@COLORS\n2 4 5 6\n3 9 8 7"),
        ]
        for text, state, name, wanted in cases:
            found = self.browser.execute_async_script(
                "const [text, state, name, done] = arguments; import('./rule_swatches.js').then((it) => "
                "done(it.withColor(text, state, [9, 8, 7], name)))", text, state, name)
            self.assertEqual(found, wanted)


if __name__ == "__main__":
    unittest.main()
