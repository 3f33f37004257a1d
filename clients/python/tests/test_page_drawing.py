"""Tests of selecting, drawing, stamps and saving patterns on the page, in a browser."""
import base64
import os
import re
import shutil
import subprocess
import unittest

from page_browser import DROP, WIRE, ActionChains, By, InBrowser, Keys, tests_in_browser
from places import EXAMPLES, PROGRAM

GOLLY = shutil.which("bgolly", path="/usr/games:" + os.environ.get("PATH", ""))
# The live cells of a window of the present place, as rows of states.
SHOWN = """
const [x, y, w, h] = arguments, rows = [];
for (let row = 0; row < h; row++) rows.push(Array.from({ length: w }, (_, it) =>
  app.frames.stateAt(app.pane.place, { x: BigInt(x + it), y: BigInt(y + row) })).join(" "));
return rows;
"""
RLE = """
const [rle, done] = arguments;
import("./rle.js").then((it) => [...it.readRle(rle).states].join(" ")).then(done, (fault) => done(fault.message));
"""
# What is handed to the user, in place of saving it: its name and its bytes.
SAVED = """
const make = URL.createObjectURL;
URL.createObjectURL = (blob) => { window.kept = blob; return make.call(URL, blob); };
HTMLAnchorElement.prototype.click = async function () {
  window.saved = [this.download, btoa(String.fromCharCode(...new Uint8Array(await window.kept.arrayBuffer())))];
};
"""


def load_tests(loader, tests, pattern):
    return tests_in_browser(tests, __file__)


def shown_by_program(kind, text, window, rule):
    """The rows of a window of a pattern's text, as the program reads it."""
    script = (f"rule\n{rule}\nend\nstart {kind}\n{text}\nend\nmark 0 window {' '.join(map(str, window))}\nshow 1\n")
    run = subprocess.run([PROGRAM], input=script.encode(), capture_output=True, check=True, timeout=60)
    lines = run.stdout.decode().splitlines()
    assert not any(it.startswith("refused") for it in lines), lines[:3]
    return lines[-window[3]:]


class DrawingTest(InBrowser):
    def wire(self):
        found = super().wire()
        kinds = ["clipboardReadWrite", "clipboardSanitizedWrite"]
        self.browser.execute_cdp_cmd("Browser.grantPermissions", {"permissions": kinds})
        self.rule = (EXAMPLES / "wire.rule").read_text()
        return found

    def shown(self, x, y, w, h):
        self.until_known(*self.js("return [app.pane.branch, Number(app.pane.generation)]"))
        return self.js(SHOWN, x, y, w, h)

    def until_shown(self, window, *rows):
        asked = SHOWN.replace("arguments", repr(list(window)))
        self.until(f"({{ f() {{ {asked} }} }}).f().join() === {','.join(rows)!r}")
        self.assertEqual(self.shown(*window), list(rows))

    def select(self, left, top, right, bottom):
        chain = self.at(left, top).key_down(Keys.SHIFT).click_and_hold()
        x, y = (right - left) * 16, (bottom - top) * 16
        chain = chain.move_by_offset(x // 2, y // 2).move_by_offset(x - x // 2, y - y // 2)
        chain.release().key_up(Keys.SHIFT).perform()
        self.until("app.selection.box")

    def control(self, key):
        ActionChains(self.browser).key_down(Keys.CONTROL).send_keys(key).key_up(Keys.CONTROL).perform()

    def clipboard(self):
        return self.browser.execute_async_script(
            "navigator.clipboard.readText().then(arguments[0], (it) => arguments[0](`${it}`))")

    def edits(self, count):
        self.until(f"app.state.undo === {count}")
        self.until_known(*self.js("return [app.pane.branch, Number(app.pane.generation)]"))

    def undo(self, count):
        self.press("z")
        self.edits(count)

    def test_a_selection_is_copied_cut_and_pasted_as_rle(self):
        self.wire()
        self.select(0, 0, 8, 2)
        box = self.js("const { x, y, w, h } = app.selection.box; return [Number(x), Number(y), w, h]")
        self.assertEqual(box, [0, 0, 9, 3])
        self.assertIn("Selection: 9 by 3 at (0, 0)", self.find("#selection h2").text)
        self.control("c")
        self.until("document.getElementById('status').textContent.includes('Copied 9 by 3')")
        text = self.clipboard()
        self.assertIn("x = 9, y = 3, rule = Wire\n", text)
        wanted = ["0 1 2 3 3 3 3 3 0", "3 0 0 0 0 0 0 0 3", "3 0 0 0 0 0 0 0 3"]
        self.assertEqual(shown_by_program("rle", text, (0, 0, 9, 3), self.rule), wanted)
        self.control("x")
        self.edits(1)
        self.until_shown((0, 0, 9, 3), *["0 0 0 0 0 0 0 0 0"] * 3)
        self.control("v")
        self.until("app.ghost.pattern")
        self.at(4, -4).perform()
        self.assertIn("To be placed: 9 by 3 at (0, -5)", self.find("#selection h2").text)
        self.at(4, -4).click().perform()
        self.edits(2)
        self.until_shown((0, -5, 9, 3), *wanted)
        self.undo(1)
        self.undo(0)
        self.until_shown((0, 0, 9, 3), *wanted)

    @unittest.skipUnless(GOLLY, "there is no bgolly; apt-get install golly has it")
    def test_rle_goes_both_ways_with_golly(self):
        self.wire()
        states = [[(x * 7 + y * 3) % 5 % 4 for x in range(11)] for y in range(6)]
        cells = [[str(x - 3), str(y + 9), state]
                 for y, row in enumerate(states) for x, state in enumerate(row) if state]
        self.js("app.ask('paint', { branch: 0, generation: '0', cells: arguments[0] })", cells)
        self.edits(1)
        self.js("app.selection.set({ x: -3n, y: 9n }, { x: 7n, y: 14n })")
        self.control("c")
        self.until("document.getElementById('status').textContent.includes('Copied 11 by 6')")
        (self.folder / "Wire.rule").write_text(self.rule)
        (self.folder / "in.rle").write_text(self.clipboard())
        words = [GOLLY, "-a", "RuleLoader", "-s", f"{self.folder}/", "-m", "0", "-o", "out.rle", "in.rle"]
        subprocess.run(words, cwd=self.folder, check=True, capture_output=True, timeout=60)
        text = (self.folder / "out.rle").read_text()
        rows = [" ".join(map(str, it)) for it in states]
        found = self.browser.execute_async_script(RLE, text)
        live = [" ".join(map(str, it)) for it in states]
        self.assertEqual(found.split(), " ".join(live).split())
        self.assertEqual(shown_by_program("rle", re.sub(r"(?m)^#.*\n", "", text), (0, 0, 11, 6), self.rule), rows)

    def test_what_is_no_rle_is_said(self):
        self.wire()
        for text, words in (("hello", "can't be read"), ("x = 3, y = 1\n3q!", "can't be read"),
                            ("x = 99999, y = 99999\no!", "too large"), ("x = 1, y = 1\nyZ!", "can't be read")):
            self.assertIn(words, self.browser.execute_async_script(RLE, text))
        self.js("app.clipboard.pasted('hello')")
        self.assertIn("can't be pasted: it is no pattern as RLE", self.find("#status").text)

    def test_rotate_flip_fill_and_clear(self):
        self.wire()
        self.select(0, 0, 3, 1)
        self.press("}")
        self.edits(1)
        self.until_shown((0, -1, 5, 4), "0 3 0 0 0", "0 0 1 0 3", "0 0 2 0 0", "3 0 3 0 0")
        self.undo(0)
        self.js("app.selection.set({ x: 0n, y: 0n }, { x: 3n, y: 1n })")
        for key, rows in (("|", ("3 2 1 0", "0 0 0 3")), ("_", ("3 0 0 0", "0 1 2 3"))):
            self.press(key)
            self.edits(1)
            self.until_shown((0, 0, 4, 2), *rows)
            self.undo(0)
        self.press("2", Keys.ENTER)
        self.edits(1)
        self.until_shown((0, 0, 4, 2), *["2 2 2 2"] * 2)
        self.press("%")
        self.edits(2)
        found = " ".join(self.shown(0, 0, 4, 2)).split()
        self.assertEqual(set(found) - {"0", "2"}, set())
        self.press(Keys.DELETE)
        self.edits(3)
        self.until_shown((-1, -1, 6, 4), "0 0 0 0 0 0", "0 0 0 0 0 3", "0 0 0 0 0 0", "0 3 0 0 0 0")
        self.press("z", "z", "z")
        self.edits(0)
        ActionChains(self.browser).key_down(Keys.SHIFT).send_keys(Keys.DELETE).key_up(Keys.SHIFT).perform()
        self.edits(1)
        self.until_shown((-1, -1, 6, 4), "0 0 0 0 0 0", "0 0 1 2 3 0", "0 3 0 0 0 0", "0 0 0 0 0 0")
        self.until("document.querySelector('#census').textContent.includes('population 4')")
        self.press(Keys.ESCAPE)
        self.until("!app.selection.box && document.getElementById('selection').hidden")

    def test_a_selection_is_moved_by_arrows_and_seen_before_it_is_placed(self):
        self.wire()
        self.select(1, 0, 2, 0)
        self.press(Keys.ARROW_DOWN, Keys.ARROW_DOWN)
        self.until("app.ghost.pattern && app.ghost.at.y === 2n")
        self.assertEqual(self.js("return app.state.undo"), 0)
        tinted = self.pixel(1, 2)
        self.assertNotIn(tinted, (WIRE[0], WIRE[1]))  # the ghost lies over the cell
        self.press(Keys.ARROW_RIGHT, Keys.ENTER)
        self.edits(1)
        self.until_shown((0, 0, 5, 3), "0 0 0 3 3", "3 0 0 0 0", "3 0 1 2 0")
        self.undo(0)
        self.until_shown((0, 0, 5, 3), "0 1 2 3 3", "3 0 0 0 0", "3 0 0 0 0")
        self.press(Keys.ESCAPE, Keys.ESCAPE)
        self.assertIsNone(self.js("return app.selection.box"))
        self.press(Keys.ARROW_RIGHT)  # a step again
        self.js("document.activeElement.blur()")
        self.press(Keys.ARROW_RIGHT)
        self.until("app.pane.generation > 0n")

    def test_line_rectangle_bucket_and_picking_a_state(self):
        self.wire()
        self.press("2", "e")
        self.until("app.tools.tool === 'line'")
        self.assertEqual(self.find("[data-tool=line]").get_attribute("aria-pressed"), "true")
        self.at(0, -8).click_and_hold().move_by_offset(16, 16).move_by_offset(32, 0).release().perform()
        self.edits(1)
        self.until_shown((0, -8, 4, 2), "2 2 0 0", "0 0 2 2")
        self.press("e")
        self.at(6, -8).click_and_hold().move_by_offset(32, 16).move_by_offset(32, 32).release().perform()
        self.edits(2)
        self.until_shown((6, -8, 5, 4), "2 2 2 2 2", "2 0 0 0 2", "2 0 0 0 2", "2 2 2 2 2")
        self.press("e", "1")
        self.at(8, -7).click().perform()
        self.edits(3)
        self.until_shown((6, -8, 5, 4), "2 2 2 2 2", "2 1 1 1 2", "2 1 1 1 2", "2 2 2 2 2")
        self.at(15, -8).click().perform()
        self.until("document.getElementById('status').textContent.includes(\"isn't closed in sight\")")
        self.at(3, 0).key_down(Keys.ALT).click().key_up(Keys.ALT).perform()
        self.until("app.palette.ink === 3")
        self.assertEqual(self.js("return app.state.undo"), 3)

    def test_stamps_are_kept_placed_and_removed(self):
        self.wire()
        self.select(1, 0, 3, 0)
        self.js("document.querySelector('#shelf input').value = 'electron'")
        self.press("t")
        self.until("document.getElementById('shelf').open && document.activeElement.matches('summary')")
        self.press("v")
        self.until("document.querySelector('.stamps li')?.textContent.includes('electron')")
        self.assertEqual([it.name for it in (self.folder / "state/desk/stamps").iterdir()], ["electron.rle"])
        self.js("""
            const data = new DataTransfer();
            data.items.add(new File(["x = 2, y = 1\\n2A!\\n"], "two.rle"));
            const event = new DragEvent("drop", { dataTransfer: data, bubbles: true, cancelable: true });
            document.querySelector("#shelf .stamps").dispatchEvent(event);""")
        self.until("document.querySelectorAll('.stamps li').length === 2")
        self.assertEqual(self.js("return app.state.start"), "wire.rle")
        self.wire()  # another page
        self.press("t")
        self.until("document.querySelectorAll('.stamps li').length === 2")
        self.click(self.find(".stamps button"))
        self.until("app.ghost.pattern")
        self.at(1, -6).click().perform()
        self.edits(1)
        self.until_shown((0, -6, 4, 1), "1 2 3 0")
        self.click(self.browser.find_elements(By.CSS_SELECTOR, ".stamps li:first-child button")[1])
        self.until("document.querySelectorAll('.stamps li').length === 1")
        self.assertEqual([it.name for it in (self.folder / "state/desk/stamps").iterdir()], ["two.rle"])

    def test_coordinates(self):
        self.wire()
        self.press("k")
        self.assertEqual(self.js("return document.activeElement.id"), "coordinates")
        self.press("1", "0", ",", "-", "2", "^", "5", "0", Keys.ENTER)
        self.until("app.camera.x === 10n && app.camera.y === -(2n ** 50n)")
        field = self.find("#coordinates")
        field.clear()
        field.send_keys("12" + Keys.ENTER)
        self.until("document.getElementById('coordinates').ariaInvalid === 'true'")
        self.assertEqual(self.js("return Number(app.camera.x)"), 10)

    def saved(self, what, kind):
        self.js("window.saved = null; document.querySelector('#export').open = true; "
                "document.querySelector('#export select').value = arguments[0]; "
                "document.querySelector(`#export [data-kind=${arguments[1]}]`).click()", what, kind)
        self.until("window.saved")
        name, data = self.js("return window.saved")
        return name, base64.b64decode(data)

    def test_patterns_are_saved_as_rle_macrocell_and_png(self):
        self.wire()
        self.js(SAVED)
        self.go(0, 30)
        self.js("app.selection.set({ x: -1n, y: 1n }, { x: 11n, y: 3n })")
        whole, part = self.shown(-2, -2, 28, 9), self.shown(-1, 1, 13, 3)
        empty = " ".join(["0"] * 28)
        for kind in ("rle", "mc"):
            name, data = self.saved("all", kind)
            self.assertEqual(name, f"branch-0-generation-30.{kind}")
            self.assertEqual(shown_by_program(kind, data.decode(), (-2, -2, 28, 9), self.rule), whole)
            name, data = self.saved("selection", kind)
            self.assertEqual(name, f"selection-of-branch-0-generation-30.{kind}")
            found = shown_by_program(kind, data.decode(), (-2, -2, 28, 9), self.rule)
            self.assertEqual([found[it] for it in (0, 1, 2, 6, 7, 8)], [empty] * 6)
            self.assertEqual([" ".join(it.split()[1:14]) for it in found[3:6]], part)
        for what, size, window in (("all", (24, 5), (0, 0, 24, 5)), ("selection", (13, 3), (-1, 1, 13, 3))):
            name, data = self.saved(what, "png")
            self.assertTrue(name.endswith("branch-0-generation-30.png"))
            colors = self.browser.execute_async_script("""
                const [data, w, h, done] = arguments;
                createImageBitmap(new Blob([Uint8Array.from(atob(data), (it) => it.charCodeAt(0))])).then((image) => {
                  const canvas = new OffscreenCanvas(image.width, image.height), found = [];
                  const context = canvas.getContext("2d"), side = image.width / w;
                  context.drawImage(image, 0, 0);
                  for (let y = 0; y < h; y++) for (let x = 0; x < w; x++) {
                    const { data } = context.getImageData((x + 0.5) * side, (y + 0.5) * side, 1, 1);
                    found.push([...data].slice(0, 3).join());
                  }
                  done([image.width / image.height, found]);
                });""", base64.b64encode(data).decode(), *size)
            self.assertAlmostEqual(colors[0], size[0] / size[1], 5)
            wanted = [",".join(map(str, WIRE[int(it)])) for row in self.shown(*window) for it in row.split()]
            self.assertEqual(colors[1], wanted)

    def test_population_box_and_counts_beside_the_picture(self):
        self.wire()
        census = "document.getElementById('census').textContent"
        self.until(f"{census} === 'population 35box 24 by 5 at (0, 0)state 1: head1state 2: tail1state 3: wire33'")
        self.js("app.ask('paint', { branch: 0, generation: '0', cells: [['30', '-9', 3]] })")
        self.until(f"{census}.startsWith('population 36box 31 by 14 at (0, -9)')")
        self.js("app.ask('paint', { branch: 0, generation: '0', cells: [['30', '-9', 0]] })")
        self.until(f"{census}.startsWith('population 35box 24 by 5 at (0, 0)')")
        self.js("app.player.play()")
        self.until("document.querySelectorAll('#census .hatched').length === 2")
        self.js("app.player.play(false); app.go({ generation: 60n })")
        script = self.script().encode() + b"mark 60 counts\nshow 1\n"
        run = subprocess.run([PROGRAM], input=script, capture_output=True, check=True, timeout=60)
        known = dict(map(int, it.split()) for it in run.stdout.decode().splitlines()[-3:])
        self.until(f"{census}.includes('state 1: head{known[1]}state 2: tail{known[2]}state 3: wire{known[3]}')")

    def test_drop_keeps_its_meaning_outside_the_shelf(self):
        self.wire()
        self.js(DROP, "two.rle", "x = 2, y = 1\n2A!\n")
        self.until("app.state.start === 'two.rle'")


if __name__ == "__main__":
    unittest.main()
