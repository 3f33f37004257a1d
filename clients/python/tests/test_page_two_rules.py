"""Tests of one start under two rules: what is saved of it, both programs, and the two pictures."""
import asyncio
import os
import signal
import subprocess
import unittest

from desk.rules.lifelike import rule_text
from page_browser import DROP, By, InBrowser, Keys
from places import EXAMPLES, PROGRAM
from test_page_with import LIFE, here_or_elsewhere

try:
    from desk.errors import Refused, Trouble
    from desk.page.document import Bookmark, Document, File, Intervention, script_of
    from desk.page.fitting import emptied, lowered
    from desk.page.opening import open_script
    from desk.page.pair import Pair
    from desk.page.second_script import second_rule_in, whole_script_of
except ImportError:
    Pair = None

HIGH = rule_text("B36/S23").encode()
WIRE = (EXAMPLES / "wire.rule").read_bytes()
REPLICATOR = b"x = 5, y = 5\n2b3o$bo2bo$o3bo$o2bo$3o!\n"
WINDOW = "window -30 -20 60 40"


def load_tests(loader, tests, pattern):
    return here_or_elsewhere(tests, ["aiohttp", "selenium"], __file__)


def alone(rule, start, commands, *views):
    """The texts of bookmarks of an experiment under one rule, as a program of its own has them."""
    script = b"rule\n" + rule + b"end\nstart rle\n" + start + b"end\n" + commands
    marks = b"".join(b"mark %d %s\n" % (generation, view.encode()) for generation, view in views)
    shows = b"".join(b"show %d\n" % (it + 1) for it in range(len(views)))
    run = subprocess.run([PROGRAM], input=script + marks + b"settle\n" + shows, capture_output=True, check=True)
    found, rest = [], run.stdout
    while b" current " in rest:
        _, _, rest = rest.partition(b"bookmark ")
        head, _, rest = rest.partition(b"\n")
        if b" current " in head:
            size = int(head.split()[2])
            found.append(rest[:size].decode())
            rest = rest[size:]
    return found


class SavedTest(unittest.TestCase):
    def test_a_second_rule_comes_back_from_a_script(self):
        texts = [HIGH, b"@RULE x\n#second-rule y\n#| z\n\n", b"a\r\nb\rc\xff%41\n\n", b"end", b"\n"]
        for text in texts:
            for name in ("high.rule", "a b\n#", "\u00e4%"):
                for document in (Document(second=File("rule", name, text)),
                                 Document(rule=File("rule", "w", WIRE), second=File("rule", name, text))):
                    script = whole_script_of(document)
                    self.assertEqual(second_rule_in(script), document.second, text)
                    self.assertEqual(second_rule_in(script.replace(b"\n", b"\r\n")).name, name)
                    run = subprocess.run([PROGRAM], input=script + b"list\n", capture_output=True, check=True)
                    self.assertNotIn(b"refused", run.stdout)
                    self.assertTrue(run.stdout.endswith(b"listed 0\n"), run.stdout)

    def test_a_script_without_one(self):
        document = Document(rule=File("rule", "w", WIRE + b"#second-rule no\n#| x\n"))
        self.assertEqual(whole_script_of(document), script_of(document))
        for script in (b"", whole_script_of(document), b"list\n#second-rule a\nset 1 1 1\n", b"#| a\n"):
            self.assertIsNone(second_rule_in(script), script)

    def test_a_start_that_suits_both_rules(self):
        cells = ((0, 0, 1), (1, 0, 3))
        old = Document(File("rule", "w", WIRE), File("start rle", "a", b"x = 3, y = 1\nABC!\n"), (cells,), {},
                       {1: Intervention(0, 4, 0, 4, cells)}, second=File("rule", "h", HIGH))
        ones = ((0, 0, 1), (1, 0, 1))
        self.assertEqual(lowered(old), old._replace(
            start=File("start rle", "a", b"x = 3, y = 1\nAAA!\n"), cells=(ones,),
            interventions={1: Intervention(0, 4, 0, 4, ones)}))
        self.assertEqual(emptied(old), Document(old.rule, second=old.second))


class PairTest(unittest.IsolatedAsyncioTestCase):
    async def asyncSetUp(self):
        self.pair = Pair([PROGRAM])
        self.told = []
        self.pair.tell = self.pair.keeper._tell = self.pair.second._say_first = self.told.append
        asyncio.get_running_loop().set_debug(False)
        await self.pair.begin()
        watching = asyncio.create_task(self.pair.watch())
        self.addAsyncCleanup(asyncio.wait_for, watching, 20)
        self.addAsyncCleanup(self.pair.close)
        start = File("start rle", "replicator", REPLICATOR)
        self.document = Document(File("rule", "life", LIFE), start, second=File("rule", "high", HIGH))

    async def become(self, document):
        await self.pair.edit(lambda it: document)

    async def until(self, is_so):
        for _ in range(2000):
            if is_so():
                return
            await asyncio.sleep(0.01)
        self.fail("it doesn't become so")

    def check_alike(self):
        """Both programs have one document but for the rule."""
        first, second = self.pair.document, self.pair.second.document
        self.assertEqual(second, first._replace(rule=first.second, second=None))

    async def test_edits_and_undoing_go_to_both(self):
        await self.become(self.document)
        self.check_alike()
        marked = self.document._replace(bookmarks={1: Bookmark(0, 5, "counts")},
                                        interventions={1: Intervention(0, 3, 0, 3, ((9, 9, 1),))})
        await self.become(marked)
        self.check_alike()
        await self.until(lambda: all(it["isCurrent"] for it in self.pair.state()["bookmarks"]))
        lists = [(await it.keeper.ask(b"list\n")).lines for it in (self.pair, self.pair.second)]
        self.assertEqual(*lists)
        self.assertEqual(len(lists[0]), 2)
        await self.pair.undo()
        self.check_alike()
        self.assertEqual(self.pair.document, self.document)
        await self.pair.undo()
        self.assertEqual((self.pair.document, self.pair.second.keeper.program), (Document(), None))
        await self.pair.redo()
        await self.pair.redo()
        self.assertEqual(self.pair.document, marked)
        self.check_alike()

    async def test_what_the_second_rule_refuses_changes_nothing(self):
        wire = Document(File("rule", "wire", WIRE), File("start rle", "a", b"x = 1, y = 1\nA!\n"),
                        second=File("rule", "high", HIGH))
        await self.become(wire)
        with self.assertRaises(Refused) as raised:
            await self.become(wire._replace(cells=(((0, 0, 3),),)))
        self.assertIn("under the second rule high", str(raised.exception))
        self.assertEqual((raised.exception.number, self.pair.document), (42, wire))
        self.check_alike()
        bad = File("rule", "bad.rule", HIGH.replace(b"num_nodes", b"num_noses"))
        with self.assertRaises(Refused) as raised:
            await self.become(wire._replace(second=bad))
        self.assertEqual((raised.exception.of, self.pair.document), ("bad.rule", wire))
        self.check_alike()
        none = wire._replace(second=None)
        await self.become(none)
        with self.assertRaises(Refused):
            await self.become(wire._replace(second=bad))
        self.assertEqual((self.pair.document, self.pair.second.keeper.program), (none, None))
        for session in (self.pair, self.pair.second):
            self.assertFalse(session.keeper.is_lost)

    async def test_a_program_that_dies_is_started_again_under_either_rule(self):
        await self.become(self.document)
        for session, words in ((self.pair.second, "Under the second rule: "), (self.pair, "")):
            pid = session.keeper.program.pid
            self.told.clear()
            os.kill(pid, signal.SIGKILL)
            await self.until(lambda: self.told)
            self.assertTrue(self.told[0].startswith(f"{words}the program ended"), self.told)
            self.assertIn("started again", self.told[0])
            await self.until(lambda: session.keeper.program and session.keeper.program.pid != pid)
            self.check_alike()
            await self.become(self.pair.document._replace(cells=(((3, 3, 1),),) * len(words)))
            self.check_alike()

    async def test_a_script_is_opened_with_its_second_rule_or_without_where_it_is_refused(self):
        await self.become(self.document)
        script = self.pair.script()
        await self.become(Document())
        await open_script(self.pair, "a", script)
        self.assertEqual(self.pair.document.second.text, HIGH)
        self.check_alike()
        self.told.clear()
        await open_script(self.pair, "a", script.replace(b"#| num_nodes", b"#| num_noses"))
        self.assertIsNone(self.pair.document.second)
        self.assertIn("The second rule isn't taken", self.told[0])
        self.assertIsNone(self.pair.second.keeper.program)
        await self.pair.undo()
        self.assertEqual(self.pair.document.second.text, HIGH)
        self.check_alike()

    async def test_no_texts_of_before_are_shown_while_the_second_one_is_behind(self):
        await self.become(self.document)
        shown, follow = [], self.pair.second.follow

        async def slowly(document, is_back=False):
            shown.append(self.pair.state()["second"]["epoch"] - self.pair.second.views.epoch)
            if shown[1:]:
                raise Trouble("no")
            await follow(document, is_back)

        self.pair.second.follow = slowly
        epoch = self.pair.state()["second"]["epoch"]
        await self.become(self.document._replace(cells=(((1, 1, 1),),)))
        self.assertEqual((shown, self.pair.state()["second"]["epoch"]), ([1], epoch + 1))
        with self.assertRaises(Trouble):
            await self.become(self.document)
        self.assertEqual(self.pair.state()["second"]["epoch"], epoch + 2)


class TwoRulesTest(InBrowser):
    def replicator(self):
        for name, data in (("life.rule", LIFE), ("replicator.rle", REPLICATOR), ("high.rule", HIGH)):
            (self.folder / name).write_bytes(data)
        self.open(self.folder / "life.rule", self.folder / "replicator.rle")
        self.until_known(0, 0)

    def second(self, words="B36/S23"):
        """Takes a second rule as a user does."""
        self.press("q")
        self.until("document.activeElement.matches('#second textarea')")
        self.js("document.activeElement.value = arguments[0]", words)
        self.click(self.find("#second button"))
        self.until("app.state.second && app.panes.length === 2")
        self.js("document.activeElement.blur()")

    def until_both(self, generation, branch=0):
        self.until(f"app.panes.every((it) => it.node.dataset.known === `{branch}|{generation}|"
                   "${app.frames.epochOf(it.place)}`)")

    def states(self, pane):
        return self.js("""
            const [pane] = arguments, found = [];
            for (let y = -8n; y < 8n; y++) {
              const row = [];
              for (let x = -9n; x < 12n; x++) row.push(app.frames.stateAt(app.panes[pane].place, { x, y }));
              found.push(row.join(" "));
            }
            return found.join("\\n") + "\\n";""", pane)

    def check(self, generation, commands=b""):
        """Both pictures are what programs of their own have, and the difference is theirs."""
        self.js(f"app.go({{ generation: {generation}n }})")
        self.until_both(generation)
        view = "window -9 -8 21 16"
        wanted = [alone(rule, REPLICATOR, commands, (generation, view))[0] for rule in (LIFE, HIGH)]
        self.assertEqual([self.states(0), self.states(1)], wanted)
        return wanted

    def test_one_start_under_two_rules_with_the_difference(self):
        self.replicator()
        self.second()
        for generation in (1, 12, 13):
            self.check(generation)
        self.assertIn("B36/S23: branch 0, generation 13", self.js("return app.panes[1].tag.textContent"))
        self.assertIn("B3/S23: branch 0, generation 13", self.js("return app.panes[0].tag.textContent"))
        self.press("d")
        self.until("app.panes[1].node.dataset.differ")
        left, right = (alone(rule, REPLICATOR, b"", (13, WINDOW))[0].split() for rule in (LIFE, HIGH))
        pairs = list(zip(left, right))
        self.assertEqual(self.js("return app.panes[1].node.dataset.differ"),
                         f"{pairs.count(('1', '0'))},{pairs.count(('0', '1'))},0")
        self.press(".")
        self.until_both(14)
        self.press("d")
        self.assertEqual(self.js("return app.panes.map((it) => `${it.generation}`).join()"), "14,14")

    def test_edits_bookmarks_and_undoing_in_both(self):
        self.replicator()
        self.second()
        self.js("app.ask('paint', { branch: 0, generation: '4', cells: arguments[0] })",
                [["0", "-6", 1], ["1", "-6", 1], ["2", "-6", 1]])
        self.until("app.state.interventions.length === 1")
        act = b"at 4 set 0 -6 1 1 -6 1 2 -6 1\n"
        painted = self.check(6, act)
        self.press("z")
        self.until("app.state.interventions.length === 0")
        self.assertNotEqual(self.check(6), painted)
        self.press("m")
        self.until("app.state.bookmarks[0]?.isCurrent")
        self.js("app.choosePane(0); app.select('bookmarks', 1)")
        counts = [alone(rule, REPLICATOR, b"", (6, "counts"))[0] for rule in (LIFE, HIGH)]
        self.until_text("#details pre", counts[0])
        self.js("app.choosePane(1)")
        self.until_text("#details pre", counts[1])
        live = int(counts[1].split("1 ")[1].split()[0])
        self.until(f"document.querySelector('#census').textContent.startsWith('under B36/S23population {live}')")
        self.press("z", "z")
        self.until("app.state.second === null && app.secondRule.drop.disabled")
        self.until("app.panes[1].tag.textContent === 'branch 0, generation 6'")
        self.press("y")
        self.until("app.state.second?.ruleName === 'B36/S23'")
        self.check(6)
        self.click(self.find("#second button:nth-of-type(3)"))
        self.until("app.state.second === null && app.panes[1].rule === 0")

    def test_by_a_text_a_file_and_the_rule_in_use(self):
        self.replicator()
        self.second(HIGH.decode())
        self.check(12)
        self.press("z")
        self.until("app.state.second === null")
        self.find("#second input").send_keys(str(self.folder / "high.rule"))
        self.until("app.state.second?.rule === 'high.rule'")
        self.check(13)
        self.second("")
        self.until("app.state.second.ruleName === app.state.ruleName")
        self.until("app.panes[1].tag.textContent.startsWith('B3/S23 (second): branch 0')")
        self.js(DROP, "high.rule", HIGH.decode())  # what is in use changes, and the second one stays
        self.until("app.state.ruleName === 'B36/S23' && app.state.second.ruleName === 'B3/S23'")
        self.js("app.go({ generation: 12n })")
        self.until_both(12)
        view = "window -9 -8 21 16"
        wanted = [alone(rule, REPLICATOR, b"", (12, view))[0] for rule in (HIGH, LIFE)]
        self.assertEqual([self.states(0), self.states(1)], wanted)

    def test_what_it_refuses_is_said_with_what_helps(self):
        self.wire()
        self.press("q")
        self.js("document.activeElement.value = 'B3/S23'")
        self.press(Keys.ENTER)
        self.until("!document.getElementById('alert').hidden")
        words = self.find("#alert").text
        self.assertIn("42 CellStateTooHigh", words)
        self.assertIn("under the second rule B3/S23", words)
        self.assertIsNone(self.js("return app.state.second"))
        buttons = self.browser.find_elements(By.CSS_SELECTOR, "#alert .row button")
        self.click(next(it for it in buttons if "become 1" in it.text))
        self.until("app.state.second && document.getElementById('alert').hidden")
        self.js("app.ask('paint', { branch: 0, generation: '0', cells: [['3', '3', 2]] })")
        self.until("!document.getElementById('alert').hidden")
        self.assertIn("under the second rule B3/S23", self.find("#alert").text)
        self.assertEqual(self.js("return app.state.undo"), 1)

    def test_saved_opened_again_and_loaded_again(self):
        self.replicator()
        self.second()
        script = self.script()
        self.assertIn("#second-rule B36/S23\n#| @RULE B36/S23\n", script)
        self.js("app.ask('drop_second')")
        self.until("app.state.second === null")
        self.js(DROP, "both.script", script)
        self.until("app.state.second?.ruleName === 'B36/S23'")
        self.check(12)
        self.browser.refresh()
        self.until("window.app?.state.second && app.panes.length === 2")
        self.until_both(12)
        self.check(13)

    def test_why_a_cell_is_so_under_each_rule(self):
        self.replicator()
        self.second()
        self.check(1)
        for pane, name in ((0, "B3/S23"), (1, "B36/S23")):
            for x, y in ((1, 1), (2, 2), (3, 0), (0, 3), (-1, 2)):
                self.js(f"app.why.ask(app.panes[{pane}], {{ x: {x}n, y: {y}n }})")
                self.until(f"app.why.known()?.reason && document.querySelector('#why').innerText.startsWith("
                           f"'Why ({x}, {y})') && !document.querySelector('#why .hatched') && "
                           f"document.querySelector('#why').innerText.includes('under {name}, branch 0')")
                self.assertEqual(self.browser.find_elements(By.CSS_SELECTOR, ".mistake"), [])
            self.assertEqual(self.js("return app.ruleText.shown.length > 0"), pane == 0)

    def test_the_program_of_the_second_rule_is_killed(self):
        self.replicator()
        self.second()
        self.check(12)
        server = self.server_pid
        before = self.programs(server)
        self.assertEqual(len(before), 2)
        os.kill(max(before), signal.SIGKILL)
        self.until("document.getElementById('alert').textContent.includes('Under the second rule: the program ended')")
        self.check(13)
        self.assertEqual(len(self.programs(server)), 2)

    def serve(self, *files, options=()):
        run = super().serve(*files, options=options)
        self.server_pid = run.pid
        return run

    def programs(self, server):
        found = subprocess.run(["pgrep", "-P", str(server)], capture_output=True, text=True).stdout
        return list(map(int, found.split()))


if __name__ == "__main__":
    unittest.main()
