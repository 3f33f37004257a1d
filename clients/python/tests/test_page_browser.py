"""Tests of the page in a browser, headless Chromium. They run with the other tests, or alone by

    python3 -m unittest discover -s clients/python/tests -p test_page_browser.py
"""
import base64
import re
import struct
import subprocess
import time
import unittest
import zlib

from page_browser import DROP, WIRE, ActionChains, By, InBrowser, Keys, tests_in_browser
from places import EXAMPLES, PROGRAM
from test_page_with import BLINKER, slack

# The colors of all cells that a picture has in sight, row after row, each at its middle; and where they are.
CELLS = """
const pane = app.panes[arguments[0]], { x, y, columns, rows, side } = pane.area(), found = [];
for (let row = 0; row + 1 < rows; row++) for (let column = 0; column + 1 < columns; column++) {
  const at = [(column + 0.5) * side, (row + 0.5) * side];
  found.push([...pane.context.getImageData(...at, 1, 1).data].slice(0, 3).join());
}
return [Number(x), Number(y), columns - 1, rows - 1, found];
"""
# What is saved, in place of saving it: its name, its bytes, and how many frames the browser finds in it.
SAVED = """
const make = URL.createObjectURL;
URL.createObjectURL = (blob) => { window.kept = blob; return make.call(URL, blob); };
HTMLAnchorElement.prototype.click = async function () {
  const bytes = new Uint8Array(await window.kept.arrayBuffer());
  const decoder = new ImageDecoder({ data: bytes, type: "image/png" });
  await decoder.tracks.ready;
  window.saved = [this.download, btoa(String.fromCharCode(...bytes)), decoder.tracks.selectedTrack.frameCount];
};
"""
# How long each click takes until the page has its reply and has drawn again.
CLICKS = """
const done = arguments[0], times = [];
const drawn = () => new Promise((go) => requestAnimationFrame(() => setTimeout(go)));
(async () => {
  for (let it = 0; it < 12; it++) {
    const begun = performance.now();
    if (it % 3 === 0) await app.edits.mark({ branch: 0, generation: BigInt(150000 + it) });
    else if (it % 3 === 1) app.go({ branch: 0, generation: BigInt(100000 + it) });
    else await app.ask("undo");
    await drawn();
    times.push(performance.now() - begun);
  }
  done(times);
})();
"""


def windows(document, places, window, known=0):
    """The rows of states of a window at places, each a branch and a generation, as the program alone has them. The
    document has so many bookmarks already.
    """
    marks = [f"{f'on {branch} ' if branch else ''}mark {generation} window {window}" for branch, generation in places]
    shows = [f"show {it + 1}" for it in range(known, known + len(places))]
    script = document + "\n".join([*marks, "settle", *shows, ""]).encode()
    run = subprocess.run([PROGRAM], input=script, capture_output=True, check=True, timeout=120)
    lines, found = run.stdout.decode().splitlines(), []
    rows = int(window.split()[3])
    for place, line in enumerate(lines):
        if line.startswith("bookmark ") and " current " in line:
            found.append([list(map(int, row.split())) for row in lines[place + 1:place + 1 + rows]])
    return found


def frames_of(data):
    """The chunks of a PNG, whose sums are right, and the lines of pixels of each of its frames."""
    assert data[:8] == b"\x89PNG\r\n\x1a\n", data[:8]
    chunks, frames, at = [], [], 8
    while at < len(data):
        size, kind = struct.unpack(">I4s", data[at:at + 8])
        body = data[at + 8:at + 8 + size]
        assert struct.unpack(">I", data[at + 8 + size:at + 12 + size])[0] == zlib.crc32(kind + body), kind
        chunks.append((kind.decode(), body))
        at += 12 + size
    w, h = struct.unpack(">II", chunks[0][1][:8])
    for kind, body in chunks:
        if kind in ("IDAT", "fdAT"):
            lines = zlib.decompress(body[4 if kind == "fdAT" else 0:])
            assert len(lines) == (w + 1) * h and not any(lines[::w + 1])
            frames.append([lines[it * (w + 1) + 1:(it + 1) * (w + 1)] for it in range(h)])
    return chunks, frames


def load_tests(loader, tests, pattern):
    return tests_in_browser(tests, __file__)


class BrowserTest(InBrowser):
    def test_a_known_picture_cell_for_cell(self):
        self.wire()
        rows = [".1233333.", "3.......3", "3.......3333333333333333", "3.......3", ".3333333."]
        for y, row in enumerate(rows):
            for x, sign in enumerate(row):
                self.assertEqual(self.pixel(x, y), WIRE[0 if sign == "." else int(sign)], (x, y))
        self.go(0, 1)
        self.assertEqual([self.pixel(it, 0) for it in range(1, 4)], [WIRE[2], WIRE[3], WIRE[3]])
        self.assertEqual(self.pixel(0, 1), WIRE[1])
        self.js("app.camera.zoom = 0; app.changed()")
        self.until_known(0, 1)
        self.assertEqual(self.js("return app.pane.view()"), "mc")
        self.assertEqual([self.pixel(it, 2) for it in (-1, 0, 8, 23, 24)],
                         [WIRE[0], WIRE[3], WIRE[3], WIRE[3], WIRE[0]])
        self.js("app.camera.zoom = -60; app.camera.x = app.camera.y = 0n; app.changed()")
        self.until_known(0, 1)
        place = self.js("return [app.pane.size.w >> 1, app.pane.size.h >> 1]")
        read = "return [...app.pane.context.getImageData(arguments[0], arguments[1], 1, 1).data].slice(0, 3).join()"
        self.assertNotEqual(self.js(read, *place), "32,32,40")
        self.assertEqual(self.js(read, place[0] + 1, place[1]), "32,32,40")
        self.js("""
            const refused = { words: "too much to draw" }, { epoch } = app.state;
            app.frames.take({ branch: 0, generation: "1", view: "mc", epoch, refused });
            Object.assign(app.camera, { zoom: 0, x: 12n, y: 2n });
            app.changed()""")
        self.until("app.pane.view() === 'window -116 -126 256 256'")
        self.until_known(0, 1)
        self.assertEqual([self.pixel(it, 2) for it in (-1, 0, 8, 24)], [WIRE[0], WIRE[3], WIRE[3], WIRE[0]])

    def test_nothing_is_fetched_from_elsewhere(self):
        self.wire()
        names = self.js("return performance.getEntriesByType('resource').map((it) => it.name)")
        self.assertGreater(len(names), 8)
        self.assertTrue(all(it.startswith(self.address) for it in names), names)
        blocked = self.browser.execute_async_script(
            "fetch('http://127.0.0.1:9/').then(() => arguments[0]('no'), () => arguments[0]('yes'))")
        self.assertEqual(blocked, "yes")
        self.browser.get_log("browser")

    def test_paint_mark_branch_move_and_undo(self):
        self.wire()
        self.press("m")
        self.until("app.state.bookmarks.length === 1 && app.state.bookmarks[0].isCurrent")
        self.go(0, 40)
        self.press("b")
        self.until("app.state.branches.length === 1 && app.pane.branch === 1")
        self.until_known(1, 40)
        self.press("0")
        at = self.js(
            """
            const it = app.pane.pixelOf(10n, 2n), box = app.pane.canvas.getBoundingClientRect();
            return [it.x + it.side / 2 - box.width / 2, it.y + it.side / 2 - box.height / 2]""")
        chain = ActionChains(self.browser).move_to_element_with_offset(self.find(".pane canvas"), *map(int, at))
        chain.click_and_hold().move_by_offset(32, 0).release().perform()
        self.until("app.state.interventions.length === 1")
        self.until_known(1, 40)
        self.assertEqual([self.pixel(it, 2) for it in range(9, 14)], [WIRE[3], WIRE[0], WIRE[0], WIRE[0], WIRE[3]])
        self.assertEqual(self.js("return app.state.interventions[0].cells"), 3)
        self.go(1, 100)
        self.assertEqual(self.pixel(11, 2), WIRE[0])
        self.press("m")
        self.until("app.state.bookmarks.length === 2")
        self.drag("[data-key='bookmarks 2']", -60)
        self.until("app.state.bookmarks[1].generation !== '100'")
        moved = int(self.js("return app.state.bookmarks[1].generation"))
        self.assertLess(40, moved)
        self.assertLess(moved, 100)
        self.drag("[data-key='interventions 1']", 60)
        self.until("app.state.interventions[0].first !== '40'")
        self.assertGreater(int(self.js("return app.state.interventions[0].first")), 40)
        self.press("z", "z")
        self.until("app.state.interventions[0].first === '40' && app.state.bookmarks[1].generation === '100'")
        self.press("y")
        self.until(f"app.state.bookmarks[1].generation === '{moved}'")
        for _ in range(6):  # where the machine is busy, the two clicks may come too far apart
            self.over("[data-lane='0'] .hit", 300).double_click().perform()
            if self.comes("app.state.bookmarks.length === 3", 2):
                break
        self.until("app.state.bookmarks.length === 3")
        self.js("app.select('branches', 1)")
        self.js("app.edits.remove('branches', 1)")
        self.until("app.state.branches.length === 0 && app.pane.branch === 0 && app.state.interventions.length === 0")
        self.js("app.undo = app.ask('undo')")
        self.until("app.state.branches.length === 1 && app.state.interventions[0].cells === 3")

    def test_a_refusal_says_the_line_and_what_helps(self):
        self.wire()
        rule = (EXAMPLES / "wire.rule").read_text()
        self.js(DROP, "bad.rule", rule.replace("1,a,b,c,d,e,f,g,h,2", "1,a,b,c,d,e,f,g,h,7"))
        self.until("!document.getElementById('alert').hidden")
        words = self.find("#alert").text
        for it in ("9 StateTooHigh", "1,a,b,c,d,e,f,g,h,7", "bad.rule, line", "raise n_states"):
            self.assertIn(it, words)
        self.press(Keys.ESCAPE)
        self.until("document.getElementById('alert').hidden")
        self.js(DROP, "blinker.rle", BLINKER.decode())
        self.until("app.state.start === 'blinker.rle'")
        self.until_known(0, 0)
        self.assertEqual([self.pixel(it, 0) for it in (-2, -1, 0, 1, 2)], [WIRE[0], *[WIRE[1]] * 3, WIRE[0]])

    def test_a_long_settling_with_clicks_meanwhile(self):
        self.life(800)
        self.until_known(0, 0)
        self.js("app.go({ generation: 200000n })")
        self.press("m")
        self.until("app.state.pending > 0 && app.state.bookmarks.length === 1")
        times = sorted(self.browser.execute_async_script(CLICKS))
        self.assertLess(times[len(times) // 2], 100 * slack(), times)
        self.assertLess(times[-1], 1000 * slack(), times)
        self.assertTrue(self.js("return app.state.pending > 0 && app.state.bookmarks.every((it) => !it.isCurrent)"))
        self.assertIn("pending", self.find(".pane .due").text)
        self.assertEqual(self.js("return app.pane.node.dataset.known"), "")
        self.assertEqual(len(self.browser.find_elements(By.CSS_SELECTOR, ".bookmark.pending")),
                         self.js("return app.state.bookmarks.length"))
        self.assertTrue(self.find("#status").text.startswith("Computing"))

    def test_loaded_again_and_a_second_tab(self):
        self.wire()
        self.go(0, 12)
        self.press("m")
        self.until("app.state.bookmarks.length === 1")
        self.browser.refresh()
        self.until("window.app?.state.bookmarks.length === 1 && app.pane.generation === 12n")
        self.until_known(0, 12)
        first = self.browser.current_window_handle
        self.browser.switch_to.new_window("tab")
        self.browser.get(self.address)
        self.until("window.app?.state.bookmarks.length === 1")
        self.js("app.edits.mark({ branch: 0, generation: 3n })")
        self.until("app.state.bookmarks.length === 2")
        self.browser.close()
        self.browser.switch_to.window(first)
        self.until("app.state.bookmarks.length === 2")

    def test_the_picture_and_the_script_are_saved(self):
        self.wire()
        self.go(0, 7)
        name, size = self.browser.execute_async_script("""
            HTMLAnchorElement.prototype.click = async function () {
              const image = await createImageBitmap(await (await window.kept).valueOf());
              window.told([this.download, [image.width, image.height]]);
            };
            window.told = arguments[0];
            const make = URL.createObjectURL;
            URL.createObjectURL = (blob) => { window.kept = blob; return make.call(URL, blob); };
            app.files.png();""")
        self.assertEqual(name, "branch-0-generation-7.png")
        self.assertEqual(size, self.js("return [app.pane.size.w, app.pane.size.h]"))
        self.press("m")
        self.until("app.state.bookmarks.length === 1")
        script = self.script()
        self.assertTrue(script.startswith("rule\n@RULE Wire"))
        self.assertTrue(script.endswith("mark 7 counts\n"))
        self.js(DROP, "other.script", script.replace("mark 7", "mark 8"))
        self.until("app.state.bookmarks[0]?.generation === '8' && app.state.bookmarks[0].isCurrent")

    def test_a_wrong_token(self):
        self.wire()
        self.browser.get(self.address[:-4] + "xyz/")
        self.assertIn("another token", self.find("body").text)
        self.assertFalse(self.js("return Boolean(window.app)"))
        self.browser.get_log("browser")

    def test_counts_as_curves_and_two_places_side_by_side(self):
        self.wire()
        self.go(0, 103)
        self.press("m", "c")
        self.until("document.querySelectorAll('.curve-line').length === 3")
        self.until("!document.querySelector('#curve span').textContent.includes('pending')")
        linear = self.find(".curve-line[data-state='1']").get_attribute("d")
        self.press("l")
        self.until(f"document.querySelector(\".curve-line[data-state='1']\").getAttribute('d') !== '{linear}'")
        self.press("w")
        self.until("app.panes.length === 2")
        self.js("app.go({ generation: 0n })")
        self.until_known(0, 0, 1)
        self.until_known(0, 103, 0)
        self.assertEqual(self.pixel(1, 0, 1), WIRE[1])
        self.assertNotEqual([self.pixel(it, 0, 0) for it in range(1, 9)], [self.pixel(it, 0, 1) for it in range(1, 9)])
        self.press("w")
        self.until("app.panes.length === 1")

    def test_what_differs_between_two_branches(self):
        self.wire()
        self.press("d")
        self.until("document.getElementById('status').textContent.includes('press W first')")
        self.assertFalse(self.find("#differ").is_enabled())
        self.go(0, 24)
        self.press("b")
        self.until("app.pane.branch === 1")
        self.js("app.ask('paint', { branch: 1, generation: '24', cells: [['10', '2', 0], ['11', '2', 0]] })")
        self.js("app.ask('paint', { branch: 1, generation: '24', cells: [['17', '6', 1]] })")
        self.until("app.state.interventions[0]?.cells === 3")
        self.go(1, 24)
        self.press("w")
        self.js("app.choosePane(0); app.go({ branch: 0 })")
        self.until_known(0, 24, 0)
        self.click(self.find("#differ"))
        colors = self.browser.execute_async_script("import('./difference.js').then((it) => arguments[0](it.KINDS))")
        colors = [None, *(tuple(it["color"]) for it in colors)]
        dim = {state: tuple(round(28 + (it - 28) * 0.26) for it in color) for state, color in WIRE.items()}
        document, differed = self.script().encode(), set()
        for generation in (24, 60):
            self.js(f"for (const it of app.panes) it.generation = {generation}n; app.changed()")
            self.until_known(1, generation, 1)
            x, y, w, h, found = self.js(CELLS, 1)
            left, right = windows(document, [(0, generation), (1, generation)], f"{x} {y} {w} {h}")
            counts = [0, 0, 0, 0]
            for it, color in enumerate(found):
                one, two = left[it // w][it % w], right[it // w][it % w]
                kind = 0 if one == two else 1 if two == 0 else 2 if one == 0 else 3
                counts[kind] += 1
                wanted = colors[kind] or dim[two]
                self.assertEqual(color, ",".join(map(str, wanted)), (generation, it % w + x, it // w + y))
            self.assertEqual(self.js("return app.panes[1].node.dataset.differ"), ",".join(map(str, counts[1:])))
            self.assertTrue(self.find(".differ").text.startswith(f"{sum(counts[1:])} cells differ in sight"))
            differed |= {it for it in (1, 2, 3) if counts[it]}
        self.assertEqual(differed, {1, 2, 3})
        self.assertEqual(self.pixel(8, 2, 0), WIRE[3])
        label = self.js("return app.panes[1].canvas.getAttribute('aria-label')")
        self.assertIn("difference of branch 0, generation 60 and branch 1, generation 60", label)
        self.js(SAVED)
        self.press("x", "p")
        self.until("window.saved")
        name = "difference-of-branch-0-generation-60-and-branch-1-generation-60.png"
        self.assertEqual(self.js("return window.saved")[0], name)
        counts = self.js("return app.panes[1].node.dataset.differ")
        self.js("app.camera.zoom = 0; app.changed()")
        self.until("app.panes[1].view() === 'mc'")
        self.until_known(1, 60, 1)
        self.assertEqual(self.js("return app.panes[1].node.dataset.differ"), counts)
        self.js("app.camera.zoom = -1; app.changed()")
        self.until("document.querySelector('.differ').textContent.includes('at 1 : 1 and above only')")
        self.js("app.camera.zoom = 4; app.changed()")
        self.until_known(1, 60, 1)
        self.press("d")
        self.until("!document.querySelector('.differ')")
        self.assertEqual(self.pixel(8, 2, 1), WIRE[3])

    def test_an_animation_has_each_generation(self):
        self.wire()
        self.js(SAVED)
        self.go(0, 3)
        self.press("]")
        self.js("document.getElementById('frames').value = 12")
        for zoom, view in ((3, "window"), (0, "mc")):
            self.js(f"window.saved = null; app.camera.zoom = {zoom}; app.changed()")
            self.until_known(0, 3)
            self.assertTrue(self.js("return app.pane.view()").startswith(view))
            area = self.js("const { x, y, columns, rows, side } = app.pane.area(); "
                           "return [Number(x), Number(y), columns, rows, side]")
            self.press("a")
            self.until("window.saved")
            name, text, counted = self.js("return window.saved")
            self.assertEqual((name, counted), ("wire-branch-0-generations-3-to-25-by-2.png", 12))
            chunks, frames = frames_of(base64.b64decode(text))
            kinds = ["IHDR", "acTL", "PLTE", "fcTL", "IDAT", *["fcTL", "fdAT"] * 11, "IEND"]
            self.assertEqual([it[0] for it in chunks], kinds)
            self.assertEqual(chunks[1][1], struct.pack(">II", 12, 0))
            self.assertEqual(chunks[2][1], bytes(sum(WIRE.values(), ())))
            numbers = [struct.unpack(">I", body[:4])[0] for kind, body in chunks if kind in ("fcTL", "fdAT")]
            self.assertEqual(numbers, list(range(23)))
            size = self.js("return [app.pane.size.w, app.pane.size.h]")
            self.assertEqual((len(frames), len(frames[0][0]), len(frames[0])), (12, *size))
            x, y, side = *area[:2], area[4]
            known = windows(self.script().encode(), [(0, it) for it in range(3, 26, 2)], "-10 -10 50 25")
            for frame, rows in zip(frames, known):
                for row, states in enumerate(rows):
                    line = frame[(row - 10 - y) * side + side // 2]
                    self.assertEqual([line[(it - 10 - x) * side + side // 2] for it in range(50)], states)
            self.assertEqual({it for frame in frames for line in frame for it in line}, {0, 1, 2, 3})
            self.assertEqual(self.find("#film").text, "Animation")

    def test_an_animation_is_cancelled(self):
        self.life(800)
        self.until_known(0, 0)
        self.js("app.go({ generation: 200000n })")
        self.js("document.getElementById('frames').value = 300; app.film.toggle()")
        self.assertIn("1 to 256 frames", self.find(".wrong").text)
        self.js("document.getElementById('frames').value = 40")
        self.click(self.find("#film"))
        self.until("document.getElementById('film').textContent === '0 of 40: cancel'")
        self.until("JSON.parse(app.sent).filter((it) => it[1] > 200000).length === 7")
        self.click(self.find("#film"))
        self.until("document.getElementById('film').textContent === 'Animation'")
        self.until("!JSON.parse(app.sent).some((it) => it[1] > 200000)")
        self.press("a")
        self.until("document.getElementById('film').textContent === '0 of 40: cancel'")
        self.js("app.ask('paint', { branch: 0, generation: '9', cells: [['0', '0', 1]] })")
        self.until("document.getElementById('status').textContent.includes('has changed: the animation was cancelled')")
        self.assertEqual(self.find("#film").text, "Animation")
        self.assertIsNone(self.js("return app.film.run"))

    def test_what_is_being_computed_is_shown_so(self):
        self.life(800)
        self.until_known(0, 0)
        self.press("m")
        self.until("app.state.bookmarks[0]?.isCurrent")
        self.js("app.edits.mark({ branch: 0, generation: 200000n })")
        self.until("document.querySelector('.computing .bookmark.pending') && app.status.isComputing")
        moving = "return getComputedStyle(document.querySelector(arguments[0])).animationName"
        for it in (".bookmark.pending path", ".lane.due"):
            self.assertEqual(self.js(moving, it), "computing")
        self.assertEqual(self.js(moving, ".bookmark.current path"), "none")
        label = self.find(".bookmark.pending").get_attribute("aria-label")
        self.assertTrue(label.endswith("200,000, pending: being computed"), label)
        self.until("document.getElementById('details').textContent.includes('pending: being computed')")
        reduced = [{"name": "prefers-reduced-motion", "value": "reduce"}]
        self.browser.execute_cdp_cmd("Emulation.setEmulatedMedia", {"features": reduced})
        self.addCleanup(self.browser.execute_cdp_cmd, "Emulation.setEmulatedMedia", {"features": []})
        for it in (".bookmark.pending path", ".lane.due"):
            self.assertEqual(self.js(moving, it), "none")
        self.press("w")
        self.js("app.camera.zoom = 4; app.go({ generation: 200000n })")
        self.press("d")
        self.until("app.panes[1].due.textContent === \"pending: both pictures aren't known yet\"")
        self.assertEqual(self.js("return app.panes[1].node.dataset.differ"), "")

    def test_a_cause_is_told_in_words(self):
        self.life(200, "--squares", "1024")
        self.js("app.edits.mark({ branch: 0, generation: 1000n })")
        self.until("app.state.cause && document.querySelector('.stopped .bookmark.pending')")
        words = ("given up for now, 71 NoRoom. It means: a step from one mark to the next needs more squares than a "
                 "worker may keep. What to do: more --squares")
        moving = "return getComputedStyle(document.querySelector('.bookmark.pending path')).animationName"
        end = time.monotonic() + 3
        while time.monotonic() < end:  # it is tried again meanwhile, and neither the words nor the flag flicker
            self.assertIn(words, self.find("#status").text)
            self.assertEqual(self.js(moving), "none")
            self.assertIn(words, self.js("return document.querySelector('.bookmark.pending').ariaLabel"))
        self.until(f"document.getElementById('details').textContent.includes({words!r})")
        self.assertTrue(self.find("#details .retry").is_displayed())
        self.js("app.go({ generation: 900n })")
        self.until("app.pane.due.textContent === 'pending: given up for now, 71 NoRoom'")

    def test_play_keyboard_and_names_for_all_controls(self):
        self.wire()
        self.press("]", "]", " ")
        self.until("app.pane.generation >= 40n")
        self.press(" ")
        self.assertEqual(self.js("return Number(app.pane.generation % 4n)"), 0)
        self.js("app.go({ generation: 0n }); app.pane.canvas.focus(); app.pane.cursor = { x: 0n, y: 0n }")
        self.until_known(0, 0)
        self.press("2", Keys.ARROW_RIGHT, Keys.ENTER)
        self.until_known(0, 0)
        self.until("app.state.undo === 1")
        self.until_known(0, 0)
        self.assertEqual(self.pixel(1, 0), WIRE[2])
        self.js("document.activeElement.blur()")
        self.press("m")
        self.until("app.state.bookmarks.length === 1")
        self.find("[data-key='bookmarks 1']")
        self.js("document.querySelector(\"[data-key='bookmarks 1']\").focus()")
        self.press(Keys.ARROW_RIGHT)
        self.until("app.state.bookmarks[0].generation === '1'")
        self.press(Keys.DELETE)
        self.until("app.state.bookmarks.length === 0")
        unnamed = self.js(
            """return [...document.querySelectorAll("button, select, input, [role=button], canvas")]
            .filter((it) =>
            !(it.getAttribute("aria-label") || it.textContent.trim() || it.labels?.length || it.title))
            .map((it) => it.outerHTML)""")
        self.assertEqual(unnamed, [])

    def test_each_key_that_a_button_names_is_in_the_list_of_keys(self):
        self.wire()
        self.js("for (const it of document.querySelectorAll('details')) it.open = true; "
                "app.selection.set({ x: 0n, y: 0n }, { x: 1n, y: 1n })")
        named = ":is(button, a, summary)[title]"
        titles = self.js("return [...document.querySelectorAll(arguments[0])].map((it) => it.title)", named)
        named = [re.search(r"\(([^()]*)\)$", it) for it in titles]
        self.press("?")
        self.until("document.getElementById('keys').open")
        listed = self.js("return [...document.querySelectorAll('#keys kbd')].map((it) => it.textContent)")
        words = [word for it in listed for word in it.split()]
        keys = [key for it in named if it for key in it[1].split(":")[0].split(",")[0].split()]
        self.assertGreater(len(keys), 30)
        self.assertEqual([it for it in keys if it not in words and not it.isdigit()], [])
        self.press(Keys.ESCAPE)
        self.until("!document.getElementById('keys').open")


if __name__ == "__main__":
    unittest.main()
