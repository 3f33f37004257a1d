"""A page in a browser, headless Chromium, as its tests use it. It has no tests of its own."""
import os
import shutil
import signal
import subprocess
import sys
import tempfile
import time
import unittest
from pathlib import Path

from places import CLIENTS, EXAMPLES, PROGRAM
from test_page_with import LIFE, SETUP, here_or_elsewhere, slack, soup

try:
    import aiohttp  # noqa: F401
    from selenium import webdriver
    from selenium.webdriver.chrome.service import Service
    from selenium.webdriver.common.action_chains import ActionChains
    from selenium.webdriver.common.by import By
    from selenium.webdriver.common.keys import Keys
except ImportError:
    webdriver = ActionChains = By = Keys = None

BROWSER, DRIVER = shutil.which("chromium"), shutil.which("chromedriver")
PICTURES = os.environ.get("PICTURES")
OPTIONS = ("--headless=new", "--no-sandbox", "--disable-gpu", "--disable-dev-shm-usage", "--window-size=1200,860",
           "--force-device-scale-factor=1", "--no-first-run", "--disable-background-networking")
WIRE = {0: (32, 32, 40), 1: (80, 160, 255), 2: (255, 255, 255), 3: (255, 160, 0)}
PIXEL = """
const pane = app.panes[arguments[0]], at = pane.pixelOf(BigInt(arguments[1]), BigInt(arguments[2]));
return [...pane.context.getImageData(at.x + at.side / 2, at.y + at.side / 2, 1, 1).data].slice(0, 3).join();
"""
# What a browser reports of tests that end a server, or leave a page with unsaved work.
EXPECTED = "403", "WebSocket", "ERR_CONNECTION_REFUSED", "beforeunload"
# Files that are dropped together: pairs of a name and a text.
DROP = """
const data = new DataTransfer();
for (let it = 0; it < arguments.length; it += 2) data.items.add(new File([arguments[it + 1]], arguments[it]));
document.body.dispatchEvent(new DragEvent("drop", { dataTransfer: data, bubbles: true, cancelable: true }));
"""
# Where a cell's middle is, from the middle of its picture, both by the pixel that they are in. The picture is drawn
# from a whole pixel on.
CELL = """
const pane = app.panes[arguments[2]], at = pane.pixelOf(BigInt(arguments[0]), BigInt(arguments[1]));
const box = pane.canvas.getBoundingClientRect();
const from = (edge, size, place) => Math.round(edge) + place + Math.floor(at.side / 2) - Math.floor(edge + size / 2);
return [from(box.x, box.width, at.x), from(box.y, box.height, at.y)];
"""
# Whether something comes to rest in the window: for three frames it is in one place, and a click would reach it.
AT_REST = """
const [it, answer] = arguments, end = performance.now() + 8000;
let before = "", frames = 0;
const look = () => {
    it.scrollIntoView({ block: "nearest", behavior: "instant" });
    const box = it.getBoundingClientRect(), place = [box.x, box.y, box.width, box.height].join();
    const reached = document.elementFromPoint(box.x + box.width / 2, box.y + box.height / 2);
    frames = it.contains(reached) && place === before ? frames + 1 : 0;
    before = place;
    if (frames >= 3 || performance.now() > end) answer(frames >= 3);
    else requestAnimationFrame(look);
};
look();
"""
# Whether something is so. It isn't where it speaks of what isn't there yet.
IS_SO = """
try { return Boolean(%s); } catch (fault) { if (fault instanceof TypeError) return false; throw fault; }
"""
# Goes on once the page has drawn what it knows: its own frame, if one is due, comes before this one.
DRAWN = """
const done = arguments[0];
if (window.app?.isDue || window.app?.isDrawDue) requestAnimationFrame(() => done());
else done();
"""


def tests_in_browser(tests, path):
    """What `load_tests` of a file of such tests gives."""
    return here_or_elsewhere(tests, ["aiohttp", "selenium"], path)


@unittest.skipUnless(webdriver and BROWSER and DRIVER, f"there is no browser for the page's tests; {SETUP}")
class InBrowser(unittest.TestCase):
    """Tests that open a page, look at it and use it as a user does."""

    @classmethod
    def setUpClass(cls):
        options = webdriver.ChromeOptions()
        for it in OPTIONS:
            options.add_argument(it)
        options.binary_location = BROWSER
        options.set_capability("goog:loggingPrefs", {"browser": "ALL"})
        cls.browser = webdriver.Chrome(options=options, service=Service(DRIVER))
        cls.browser.set_script_timeout(30)
        cls.addClassCleanup(cls.browser.quit)

    def run(self, result=None):
        """Runs a test, and a second time where it failed: on a busy machine a browser may lose a click."""
        first = unittest.TestResult()
        super().run(first)
        if not first.wasSuccessful():
            return super().run(result)
        result.startTest(self)
        if first.skipped:
            result.addSkip(self, first.skipped[0][1])
        else:
            result.addSuccess(self)
        result.stopTest(self)
        return result

    def setUp(self):
        folder = tempfile.TemporaryDirectory()
        self.addCleanup(folder.cleanup)
        self.folder = Path(folder.name)

    def tearDown(self):
        severe = [it["message"] for it in self.browser.get_log("browser") if it["level"] == "SEVERE"]
        self.assertEqual([it for it in severe if not any(word in it for word in EXPECTED)], [])

    def serve(self, *files, options=()):
        """Starts the page's server, whose state folder is the test's, and gives its process."""
        words = [sys.executable, "-B", str(CLIENTS / "page.py"), *map(str, files), "--no-browser", "--desk", PROGRAM,
                 *options]
        state = {**os.environ, "XDG_STATE_HOME": str(self.folder / "state")}
        run = subprocess.Popen(words, stdout=subprocess.PIPE, stderr=subprocess.PIPE, text=True, env=state)
        self.addCleanup(run.stderr.close)
        self.addCleanup(run.stdout.close)
        self.addCleanup(run.wait, 20)
        self.addCleanup(run.send_signal, signal.SIGINT)
        self.address = run.stdout.readline().strip()
        return run

    def open(self, *files, options=()):
        found = self.serve(*files, options=options)
        self.browser.get(self.address)
        self.js("sessionStorage.clear()")
        self.until("window.app && app.state.epoch >= 0 && !app.wantsFit || app?.state.start === ''")
        return found

    def wire(self):
        found = self.open(EXAMPLES / "wire.rule", EXAMPLES / "wire.rle")
        self.until_known(0, 0)
        return found

    def life(self, side, *options):
        """A start in disorder of so many cells a side."""
        for name, data in (("life.rule", LIFE), ("soup.rle", soup(side))):
            (self.folder / name).write_bytes(data)
        return self.open(self.folder / "life.rule", self.folder / "soup.rle", options=options)

    def script(self):
        return self.browser.execute_async_script(
            "fetch(document.getElementById('save').href).then((it) => it.text()).then(arguments[0])")

    def js(self, words, *given):
        return self.browser.execute_script(words, *given)

    def comes(self, words, seconds):
        """Whether something becomes so within a time; then the page has drawn it too."""
        end = time.monotonic() + seconds * slack()
        while not self.js(IS_SO % words):
            if time.monotonic() > end:
                return False
            time.sleep(0.03)
        self.browser.execute_async_script(DRAWN)
        return True

    def until(self, words, seconds=15):
        self.assertTrue(self.comes(words, seconds), words)

    def until_known(self, branch, generation, pane=0):
        self.until(f"app.panes[{pane}].node.dataset.known === `{branch}|{generation}|${{app.state.epoch}}`")

    def until_text(self, selector, wanted, seconds=15):
        """Until something has a text."""
        try:
            self.until(f"document.querySelector({selector!r})?.textContent === {wanted!r}", seconds)
        except AssertionError:
            self.assertEqual(self.js(f"return document.querySelector({selector!r})?.textContent"), wanted)

    def in_window(self, width, height):
        """Shows the page in a window of this size until the test's end."""
        self.browser.execute_cdp_cmd("Emulation.setDeviceMetricsOverride", {
            "width": width, "height": height, "deviceScaleFactor": 1, "mobile": width < 500})
        self.addCleanup(self.browser.execute_cdp_cmd, "Emulation.clearDeviceMetricsOverride", {})
        self.until(f"innerWidth === {width}")

    def picture(self, name, is_all_known=True):
        """Keeps what is shown for the documents, where pictures are asked for."""
        if PICTURES:
            if is_all_known:
                self.until("!document.querySelector('.hatched, #status.pending')", 60)
            time.sleep(0.8)
            self.browser.save_screenshot(str(Path(PICTURES) / f"{name}.png"))

    def button(self, words):
        """A button of what is selected on the timeline."""
        [found] = [it for it in self.browser.find_elements(By.CSS_SELECTOR, "#details button") if it.text == words]
        return found

    def find(self, selector):
        return self.browser.find_element(By.CSS_SELECTOR, selector)

    def click(self, element):
        """Clicks something once it has come to rest, as a user would: what comes in beside it may shift it."""
        at_rest = self.browser.execute_async_script(AT_REST, element)
        self.assertTrue(at_rest, f"a click doesn't reach {element.get_attribute('outerHTML')}")
        element.click()

    def press(self, *keys):
        for it in keys:
            ActionChains(self.browser).send_keys(it).perform()

    def go(self, branch, generation):
        self.js(f"app.go({{ branch: {branch}, generation: {generation}n }})")
        self.until_known(branch, generation)

    def pixel(self, x, y, pane=0):
        return tuple(map(int, self.js(PIXEL, pane, str(x), str(y)).split(",")))

    def at(self, x, y, pane=0):
        """The pointer over a cell of a picture."""
        left, top = self.js(CELL, str(x), str(y), pane)
        return ActionChains(self.browser).move_to_element_with_offset(
            self.browser.find_elements(By.CSS_SELECTOR, ".pane canvas")[pane], left, top)

    def drag(self, selector, by):
        chain = self.over(selector).click_and_hold()
        chain.move_by_offset(by // 2, 0).move_by_offset(by - by // 2, 0).release().perform()

    def over(self, selector, x=None):
        """The pointer over something of the timeline, of which only the whole stays while it is drawn anew."""
        self.until(f"document.querySelector({selector!r})")
        at = self.js("""
            const svg = app.timeline.svg.getBoundingClientRect();
            const it = document.querySelector(arguments[0]).getBoundingClientRect();
            const x = it.x + it.width / 2 - svg.x - svg.width / 2, y = it.y + it.height / 2 - svg.y - svg.height / 2;
            return [x, y, svg.width / 2]""", selector)
        return ActionChains(self.browser).move_to_element_with_offset(
            self.find("#timeline svg"), int(at[0] if x is None else x - at[2]), int(at[1]))
