"""Tests that nothing is lost: the page saves by itself, warns, saves without its server, and mends its program."""
import os
import signal
import subprocess
import time
import unittest

from page_browser import InBrowser
from places import PROGRAM
from test_page_with import here_or_elsewhere, slack


def load_tests(loader, tests, pattern):
    return here_or_elsewhere(tests, ["aiohttp", "selenium"], __file__)


class KeptTest(InBrowser):
    def files(self):
        return sorted((self.folder / "state/desk/experiments").glob("*.script"))

    def until_files(self, count):
        end = time.monotonic() + 10 * slack()
        while len(self.files()) != count and time.monotonic() < end:
            time.sleep(0.05)
        self.assertEqual(len(self.files()), count)

    def edited(self):
        """A page with an experiment that isn't saved."""
        run = self.wire()
        self.js("app.ask('paint', { branch: 0, generation: '0', cells: [['5', '-3', 3]] })")
        self.until("app.state.undo === 1")
        return run

    def reopened(self):
        """A new page, in which the experiment that was left is opened."""
        self.open()
        self.until("document.querySelector('.banner')?.textContent.includes('Wire')")
        self.click(self.find(".banner button"))
        self.until("!document.querySelector('.banner') && app.state.rule")
        self.until_known(0, 0)
        self.assertEqual(self.js("return app.frames.stateAt(app.pane.place, { x: 5n, y: -3n })"), 3)

    def test_an_experiment_is_offered_again_after_an_interrupt(self):
        run = self.edited()
        run.send_signal(signal.SIGINT)
        self.assertEqual(run.wait(20), 0)
        self.assertEqual(len(self.files()), 1)
        self.reopened()
        self.until_files(1)  # the new page's own
        self.browser.refresh()
        self.until("window.app?.state.rule")
        self.assertFalse(self.js("return Boolean(document.querySelector('.banner'))"))

    def test_an_experiment_is_offered_again_after_the_server_was_killed(self):
        run = self.edited()
        self.until_files(1)
        before = self.files()[0].read_bytes()
        check = subprocess.run([PROGRAM], input=before, capture_output=True, check=True, timeout=60)
        self.assertNotIn(b"refused", check.stdout)
        run.kill()
        run.wait(20)
        self.reopened()

    def test_what_is_saved_or_was_not_changed_is_not_offered(self):
        run = self.wire()
        run.send_signal(signal.SIGTERM)
        self.assertEqual(run.wait(20), 0)
        self.assertEqual(self.files(), [])
        run = self.edited()
        self.until_files(1)
        self.script()  # as Save does
        self.until_files(0)
        run.send_signal(signal.SIGTERM)
        self.assertEqual(run.wait(20), 0)
        self.assertEqual(self.files(), [])

    def test_what_was_left_can_be_discarded_and_other_pages_keep_theirs(self):
        self.edited()
        self.until_files(1)
        self.open()  # while the first page is there
        self.until("app.state.epoch >= 0")
        self.assertIsNone(self.js("return app.state.left"))
        folder = self.folder / "state/desk/experiments"
        (folder / "old.script").write_bytes(b"mark 7 counts\n")
        self.open()
        self.until("document.querySelectorAll('.banner button').length === 2")
        self.click(self.browser.find_elements("css selector", ".banner button")[1])
        self.until("!document.querySelector('.banner')")
        self.assertEqual(len(self.files()), 1)
        self.assertFalse((folder / "old.script").exists())

    def test_a_folder_that_cannot_be_written_is_said(self):
        (self.folder / "state").mkdir()
        (self.folder / "state/desk").write_text("a file")
        self.wire()
        self.until("document.getElementById('alert').textContent.includes(\"isn't saved by itself\")")

    def test_leaving_with_unsaved_work_warns(self):
        leave = ("const event = new Event('beforeunload', { cancelable: true }); dispatchEvent(event); "
                 "return event.defaultPrevented")
        self.wire()
        self.assertFalse(self.js(leave))
        self.js("app.ask('paint', { branch: 0, generation: '0', cells: [['5', '-3', 3]] })")
        self.until("app.state.undo === 1")
        self.assertTrue(self.js(leave))
        self.script()
        self.until("app.state.isSaved")
        self.assertFalse(self.js(leave))

    def test_save_without_the_server(self):
        run = self.edited()
        self.until("app.saving.of === app.state.revision")
        wanted = self.script()
        self.assertIn("set 5 -3 3", wanted)
        run.kill()
        run.wait(20)
        self.until("!app.isOpen")
        text = self.browser.execute_async_script("""
            const done = arguments[0], make = URL.createObjectURL;
            URL.createObjectURL = (blob) => { blob.text().then((it) => done(it)); return make.call(URL, blob); };
            document.getElementById("save").click();""")
        self.assertEqual(text, wanted)
        self.until("document.getElementById('status').textContent.includes('Saved this tab')")

    def test_a_killed_program_is_noticed_restarted_and_said(self):
        run = self.edited()
        self.js("app.edits.mark({ branch: 0, generation: 9n })")
        self.until("app.state.bookmarks[0]?.isCurrent")
        [program] = subprocess.run(["pgrep", "-P", str(run.pid)], capture_output=True, text=True).stdout.split()
        begun = time.monotonic()
        os.kill(int(program), signal.SIGKILL)
        self.until("document.getElementById('alert').textContent.includes('started again from the saved script')", 1)
        self.assertLess(time.monotonic() - begun, 2 * slack())
        self.until("app.state.bookmarks[0]?.isCurrent")
        self.until_known(0, 0)
        self.assertEqual(self.js("return app.frames.stateAt(app.pane.place, { x: 5n, y: -3n })"), 3)


if __name__ == "__main__":
    unittest.main()
