"""Tests of the page's server, without a browser. They run with the other tests, or alone by

    python3 -m unittest discover -s clients/python/tests -p test_page.py
"""
import asyncio
import gzip
import json
import os
import signal
import statistics
import subprocess
import sys
import time
import unittest

from places import CLIENTS, EXAMPLES, PACKAGE, PROGRAM, WITH_PACKAGE
from test_page_with import BLINKER, LIFE, SETUP, here_or_elsewhere, slack, soup

try:
    import aiohttp
    from desk.errors import Ended, Trouble
    from desk.page.document import (
        Bookmark, Branch, Document, File, Intervention, Names, Step, difference, script_of)
    from desk.page.edits import without_branch
    from desk.page.files import file_of, states_of
    from desk.page.painting import Place, painted
    from desk.page.script import commands_of, taken
    from desk.page.server import HOST, Page
    from desk.page.pair import Pair
    from desk.words import Window
except ImportError:
    aiohttp = None

LONG = 110


def load_tests(loader, tests, pattern):
    return here_or_elsewhere(tests, ["aiohttp"], __file__)


class Tab:
    """A tab without a browser: what it sends, and what it was told."""

    def __init__(self, socket):
        self.socket, self.asked = socket, 0
        self.state, self.looks, self.words = None, {}, []

    async def next(self, seconds=20):
        message = json.loads((await asyncio.wait_for(self.socket.receive(), seconds)).data)
        if message["type"] == "state":
            self.state = message
        elif message["type"] == "look":
            self.looks[message["branch"], message["generation"], message["view"]] = message
        elif message["type"] == "word":
            self.words.append(message["words"])
        return message

    async def ask(self, what, **more):
        self.asked += 1
        await self.socket.send_str(json.dumps({"ask": self.asked, "do": what, **more}))
        while True:
            message = await self.next()
            if message["type"] == "reply" and message["ask"] == self.asked:
                return message

    async def until(self, is_so, seconds=80):
        end = time.monotonic() + seconds
        while not is_so(self):
            await self.next(max(0.1, end - time.monotonic()))

    async def text(self, branch, generation, view):
        """The text of a look, of the present document."""
        key = branch, str(generation), view
        await self.ask("look", looks=[list(key)])
        await self.until(lambda it: it.looks.get(key, {}).get("epoch", -1) >= it.state["epoch"])
        return self.looks[key].get("text", self.looks[key].get("refused"))


class PageTest(unittest.IsolatedAsyncioTestCase):
    async def asyncSetUp(self):
        self.session = Pair([PROGRAM])
        asyncio.get_running_loop().set_debug(False)
        await self.session.begin()
        self.page = Page(self.session)
        await self.page.begin()
        self.http = aiohttp.ClientSession()
        self.origin = {"Origin": f"http://{HOST}:{self.page.port}"}
        self.addAsyncCleanup(self.page.end)
        self.addAsyncCleanup(self.http.close)

    async def tab(self):
        socket = await self.http.ws_connect(self.page.address + "socket", headers=self.origin, max_msg_size=1 << 26)
        self.addAsyncCleanup(socket.close)
        tab = Tab(socket)
        await tab.next()
        return tab

    async def files(self, *files, fit=""):
        """Gives files together, each a name and its bytes."""
        form = aiohttp.FormData({"fit": fit})
        for name, data in files:
            form.add_field("file", data, filename=name)
        async with self.http.post(f"{self.page.address}files", data=form, headers=self.origin) as answer:
            self.assertEqual(answer.status, 200)
            return await answer.json()

    async def file(self, name, data):
        return await self.files((name, data))

    async def status(self, address, headers=None, method="GET"):
        async with self.http.request(method, address, headers=headers) as answer:
            return answer.status, await answer.text(), answer.headers

    async def test_other_tokens_hosts_and_origins_are_refused(self):
        port, address = self.page.port, self.page.address
        status, text, headers = await self.status(address)
        self.assertEqual(status, 200)
        self.assertIn("default-src 'none'", headers["Content-Security-Policy"])
        self.assertIn("main.js", text)
        cases = [
            (f"http://{HOST}:{port}/", {}, "GET"), (f"http://{HOST}:{port}/wrong/", {}, "GET"),
            (f"http://{HOST}:{port}/{self.page.token[:-1]}/", {}, "GET"),
            (f"http://{HOST}:{port}/wrong/socket", self.origin, "GET"),
            (f"http://{HOST}:{port}/%C3%A4/", {}, "GET"),
            (address, {"Host": f"evil.example:{port}"}, "GET"), (address, {"Host": f"localhost:{port}"}, "GET"),
            (address, {"Origin": "http://evil.example"}, "GET"), (address, {"Origin": "null"}, "GET"),
            (address + "files", {}, "POST"), (address + "files", {"Origin": "http://evil.example"}, "POST"),
            (address + "socket", {"Upgrade": "websocket", "Connection": "Upgrade"}, "GET"),
        ]
        for place, headers, method in cases:
            with self.subTest(place=place, headers=headers):
                found = await self.status(place, headers, method)
                self.assertEqual(found[0], 403)
                self.assertNotIn(self.page.token, found[1])
        for headers in ({}, {"Origin": "http://evil.example"}, {"Origin": f"http://localhost:{port}"}):
            with self.assertRaises(aiohttp.WSServerHandshakeError) as raised:
                await self.http.ws_connect(address + "socket", headers=headers)
            self.assertEqual(raised.exception.status, 403)
        self.assertEqual(self.session.views.tabs, [])

    async def test_it_listens_on_this_machine_alone_and_serves_its_own_files_alone(self):
        self.assertEqual(self.page._runner.addresses[0][0], HOST)
        for name in ("main.js", "page.css", "timeline.js"):
            self.assertEqual((await self.status(self.page.address + name))[0], 200, name)
        for name in ("server.py", "..%2Fserver.py", "%2e%2e%2fserver.py", "nothing.js", "static"):
            self.assertIn((await self.status(self.page.address + name))[0], (404,), name)

    async def test_an_experiment_is_built_undone_and_redone(self):
        tab = await self.tab()
        self.assertEqual((await self.file("life.rule", LIFE))["ok"], {"kind": "rule"})
        self.assertEqual((await self.file("blinker.rle.gz", gzip.compress(BLINKER)))["ok"], {"kind": "start rle"})
        row = "window -2 0 5 1"
        self.assertEqual(await tab.text(0, 2, row), "0 1 1 1 0\n")
        branch = (await tab.ask("branch", parent=0, generation="2"))["id"]
        self.assertEqual(branch, 1)
        await tab.ask("paint", branch=1, generation="2", cells=[["0", "0", 0]])
        self.assertEqual(await tab.text(1, 2, row), "0 1 0 1 0\n")
        self.assertEqual(await tab.text(0, 2, row), "0 1 1 1 0\n")
        await tab.ask("paint", branch=1, generation="2", cells=[[0, 0, 1], [1, 0, 0]])
        self.assertEqual(await tab.text(1, 2, row), "0 1 1 0 0\n")
        self.assertEqual([it["cells"] for it in self.session.state()["interventions"]], [2])
        mark = (await tab.ask("mark", branch=1, generation=str(2 ** 60), view="counts"))["id"]
        await tab.ask("undo")
        await tab.ask("undo")
        self.assertEqual(await tab.text(1, 2, row), "0 1 0 1 0\n")
        self.assertEqual(self.session.state()["bookmarks"], [])
        await tab.ask("redo")
        await tab.ask("redo")
        self.assertEqual(await tab.text(1, 2, row), "0 1 1 0 0\n")
        self.assertEqual([it["id"] for it in self.session.state()["bookmarks"]], [mark])
        for it in range(6):
            self.assertNotIn("refused", await tab.ask("undo"), it)
        self.assertEqual(self.session.document, Document())
        self.assertIn("nothing to undo", (await tab.ask("undo"))["refused"]["words"])
        for it in range(6):
            self.assertNotIn("refused", await tab.ask("redo"), it)
        self.assertEqual(await tab.text(1, 2, row), "0 1 1 0 0\n")

    async def test_what_is_moved_changed_and_removed(self):
        tab = await self.tab()
        await self.file("life.rule", LIFE)
        await tab.ask("paint", branch=0, generation=0, cells=[[-1, 0, 1], [0, 0, 1], [1, 0, 1]])
        await tab.ask("paint", branch=0, generation=4, cells=[[9, 9, 1]])
        mark = (await tab.ask("mark", branch=0, generation=5, view="window 9 9 1 1"))["id"]
        self.assertEqual(await tab.text(0, 4, "window 9 9 1 1"), "1\n")
        await tab.ask("move", id=mark, generation="6")
        await tab.ask("change", id=1, first=6, distance=3, last=12)
        state = self.session.state()
        self.assertEqual(state["bookmarks"][0]["generation"], "6")
        self.assertEqual([state["interventions"][0][it] for it in ("first", "distance", "last")], ["6", "3", "12"])
        self.assertEqual([await tab.text(0, it, "window 9 9 1 1") for it in (4, 6, 8, 9, 12, 15)],
                         ["0\n", "1\n", "0\n", "1\n", "1\n", "0\n"])
        refused = (await tab.ask("change", id=1, first=6, distance=0, last=0))
        self.assertNotIn("refused", refused)
        await tab.ask("remove", kind="interventions", id=1)
        self.assertEqual(await tab.text(0, 6, "window 9 9 1 1"), "0\n")
        await tab.ask("branch", parent=0, generation=3)
        await tab.ask("branch", parent=1, generation=4)
        await tab.ask("mark", branch=2, generation=9, view="rle")
        self.assertEqual(await tab.text(2, 9, "counts"), "1 3\n")
        await tab.ask("remove", kind="branches", id=1)
        self.assertEqual(self.session.state()["branches"], [])
        await tab.ask("undo")
        await tab.until(lambda it: it.state["bookmarks"] and all(each["isCurrent"] for each in it.state["bookmarks"]))
        self.assertEqual([it["id"] for it in tab.state["branches"]], [1, 2])
        self.assertEqual(await tab.text(2, 9, "counts"), "1 3\n")

    async def test_of_two_interventions_the_last_wins_also_after_one_was_removed_and_came_back(self):
        tab = await self.tab()
        await self.file("wire.rule", (EXAMPLES / "wire.rule").read_bytes())
        await tab.ask("paint", branch=0, generation=3, cells=[[0, 0, 3]])
        await tab.ask("paint", branch=0, generation=4, cells=[[0, 0, 2]])
        await tab.ask("change", id=1, first=4, distance=0, last=0)
        self.assertEqual(await tab.text(0, 4, "window 0 0 1 1"), "2\n")
        await tab.ask("remove", kind="interventions", id=1)
        await tab.ask("undo")
        self.assertEqual(await tab.text(0, 4, "window 0 0 1 1"), "2\n")
        script = self.session.script() + b"mark 4 window 0 0 1 1\nshow 1\n"
        run = subprocess.run([PROGRAM], input=script, capture_output=True, check=True, timeout=120)
        self.assertTrue(run.stdout.endswith(b"current 2\n2\n"), run.stdout)

    async def test_refusals_say_the_line_and_what_helps(self):
        refused = (await self.file("bad.rule", LIFE.replace(b"num_states=2", b"num_states=x")))["refused"]
        self.assertEqual((refused["number"], refused["name"], refused["line"]), (12, "BadTree", "num_states=x"))
        self.assertIn("make the tree anew", refused["do"])
        refused = (await self.file("bad.rle", b"x = 3, y = 1\n3o$\n2oq!\n"))["refused"]
        self.assertEqual((refused["name"], refused["place"], refused["line"]), ("BadRun", 3, "2oq!"))
        tab = await self.tab()
        refused = (await tab.ask("mark", branch=0, generation=str(2 ** 60 + 1), view="counts"))["refused"]
        self.assertEqual((refused["number"], refused["name"]), (40, "GenerationTooFar"))
        self.assertEqual(await tab.text(0, 2 ** 60 + 1, "counts"), {
            **refused, "of": "the picture", "words": "the picture: refused 40 GenerationTooFar"})
        self.assertIn("end", (await self.file("a.rule", b"@RULE a\nend\n"))["refused"]["words"])
        self.assertIn("cut", (await self.file("a.rle.gz", gzip.compress(BLINKER)[:-9]))["refused"]["words"])
        self.assertEqual((self.session.document, self.session.past), (Document(), []))

    async def test_messages_that_no_page_sends(self):
        tab = await self.tab()
        cases = [
            {"do": "nothing"}, {"do": "mark"}, {"do": "mark", "branch": 0, "generation": -1},
            {"do": "paint", "branch": 0, "generation": 0},
            {"do": "mark", "branch": 0, "generation": True}, {"do": "mark", "branch": 7, "generation": 1},
            {"do": "mark", "branch": 0, "generation": 1, "view": "rle\nquit"},
            {"do": "mark", "branch": 0, "generation": 1, "view": "window 1"},
            {"do": "move", "id": 9, "generation": 1}, {"do": "remove", "kind": "__class__", "id": 1},
            {"do": "paint", "branch": 0, "generation": 0, "cells": []},
            {"do": "paint", "branch": 0, "generation": 0, "cells": [[0, 0, "1\nquit"]]}, {"do": "look", "looks": 3},
            {"do": "look", "looks": [[0, 1, "counts\nquit"]] * 2 + [[0]]},
            {"do": "look", "looks": [[0, 1, "counts"]] * 1000},
            {"do": "rule", "name": "B0/S"}, {"do": []}, {"do": "change", "id": 1},
        ]
        for case in cases:
            self.assertIn("refused", await tab.ask(**{"what": case.pop("do"), **case}), case)
        for text in ("", "[]", "{}", '"x"', "{", "[" * 5000):
            await tab.socket.send_str(text)
            while (await tab.next())["type"] != "reply":
                pass
        self.assertEqual(self.session.document, Document())
        self.assertNotIn("refused", await tab.ask("mark", branch=0, generation=3, view="counts"))

    async def test_a_saved_script_is_the_experiment(self):
        tab = await self.tab()
        await self.file("wire.rule", (EXAMPLES / "wire.rule").read_bytes())
        await self.file("wire.rle", (EXAMPLES / "wire.rle").read_bytes())
        await tab.ask("branch", parent=0, generation=9)
        await tab.ask("branch", parent=0, generation=10)
        await tab.ask("remove", kind="branches", id=1)
        await tab.ask("paint", branch=2, generation=12, cells=[[5, 0, 0]])
        await tab.ask("change", id=1, first=12, distance=4, last=24)
        await tab.ask("paint", branch=0, generation=0, cells=[[0, -1, 3]])
        await tab.ask("mark", branch=2, generation=30, view="window 0 0 9 5")
        await tab.ask("mark", branch=0, generation=30, view="rle")
        before = [await tab.text(it, 30, "window -2 -2 30 9") for it in (0, 2)]
        script = (await self.status(self.page.address + "experiment.script"))[1].encode()
        run = subprocess.run([PROGRAM], input=script + b"settle\n", capture_output=True, check=True, timeout=120)
        self.assertNotIn(b"refused", run.stdout)
        self.assertIn(b"settled", run.stdout)
        self.assertEqual((await self.file("experiment.script", script))["ok"], {"kind": "script", "refused": []})
        after = [await tab.text(it, 30, "window -2 -2 30 9") for it in (0, 1)]
        self.assertEqual(after, before)
        self.assertNotEqual(*after)
        found = (await self.file("more.script", script + b"mark 5 counts\ndrop 9\nquit\nmark 6 counts\n"))["ok"]
        self.assertEqual([(it["number"], it["of"]) for it in found["refused"]], [
                         (43, f"more.script, line {script.count(chr(10).encode()) + 2}")])
        self.assertEqual(len(self.session.document.bookmarks), 3)
        for name, data in (("a.zip", b"PK\x03\x04" + bytes(range(256)) * 90),
                           ("a.txt", b""), ("b.script", b"mark 1 counts\nrule\n@RULE a\n")):
            self.assertIn("refused", await self.file(name, data), name)
            self.assertEqual(len(self.session.document.bookmarks), 3)
        await tab.ask("undo")
        self.assertEqual([await tab.text(it, 30, "window -2 -2 30 9") for it in (0, 1)], before)

    async def test_a_long_settling_holds_nothing_up(self):
        tab = await self.tab()
        await self.file("life.rule", LIFE)
        await self.file("soup.rle", soup(LONG * 8))
        await tab.ask("mark", branch=0, generation=200000, view="counts")
        times, begun = [], time.monotonic()
        for it in range(12):
            asked = (
                ("mark", {"branch": 0, "generation": 150000 + it, "view": "counts"}),
                ("branch", {"parent": 0, "generation": 100000 + it}),
                ("paint", {"branch": 0, "generation": 180000 + it, "cells": [[it, 0, 1]]}),
                ("undo", {}),
            )
            for what, more in asked:
                before = time.monotonic()
                self.assertNotIn("refused", await tab.ask(what, **more))
                times.append(time.monotonic() - before)
            await asyncio.sleep(0.05)
        self.assertLess(statistics.median(times), 0.1 * slack(), times)
        self.assertLess(max(times), 1.0 * slack(), times)
        self.assertGreater(tab.state["pending"], 0)
        self.assertFalse(any(it["isCurrent"] for it in tab.state["bookmarks"]))
        await tab.ask("look", looks=[[0, "190000", "counts"]])
        await asyncio.sleep(0.3)
        await tab.ask("undo")
        self.assertEqual(tab.looks, {})
        self.assertLess(time.monotonic() - begun, 30 * slack())

    async def test_a_lost_program_is_started_again(self):
        tab = await self.tab()
        await self.file("life.rule", LIFE)
        await self.file("blinker.rle", BLINKER)
        await tab.ask("mark", branch=0, generation=7, view="counts")
        self.assertEqual(await tab.text(0, 7, "window -2 0 5 1"), "0 0 1 0 0\n")
        for it in range(2):
            os.kill(self.session.keeper.program.pid, signal.SIGKILL)
            if it:  # the edit under way is done too
                self.assertNotIn("refused", await tab.ask("mark", branch=0, generation=9, view="counts"))
            await tab.until(lambda tab, it=it: len(tab.words) == it + 1, 1.5 * slack())
            self.assertIn("started again from the saved script, with all edits", tab.words[-1])
            await tab.until(lambda tab: tab.state["bookmarks"][0]["isCurrent"])
            self.assertEqual(await tab.text(0, 7, "window -2 0 5 1"), "0 0 1 0 0\n")
        self.assertEqual([it.generation for it in self.session.document.bookmarks.values()], [7, 9])
        for it in range(2):
            os.kill(self.session.keeper.program.pid, signal.SIGKILL)
            await tab.until(lambda tab, it=it: len(tab.words) == it + 3)
        await tab.until(lambda tab: tab.state["isLost"])
        self.assertIn("Try again", tab.words[-1])
        await tab.ask("retry")
        await tab.until(lambda tab: not tab.state["isLost"] and tab.state["bookmarks"][0]["isCurrent"])

    async def test_nothing_of_a_lost_program_is_shown_as_known(self):
        tab = await self.tab()
        await tab.ask("mark", branch=0, generation=0, view="counts")
        await tab.until(lambda it: it.state["bookmarks"][0]["isCurrent"])
        async with self.session._turn:  # nothing is collected meanwhile
            os.kill(self.session.keeper.program.pid, signal.SIGKILL)
            await asyncio.sleep(0.1)
            await self.session.keeper.mend(Ended("it was lost"))
            self.assertFalse(self.session.state()["bookmarks"][0]["isCurrent"])
        await tab.until(lambda it: it.state["bookmarks"][0]["isCurrent"])

    async def test_what_was_closed_is_not_started_again(self):
        program = self.session.keeper.program
        await self.session.close()
        await asyncio.wait_for(self.session.watch(), 20)
        await self.session.keeper.mend(Ended("it ended"))
        with self.assertRaises(Trouble):
            await self.session.keeper.anew(Document())
        self.assertTrue(program.has_ended)
        self.assertIsNone(self.session.keeper.program)

    async def test_a_cause_stays_shown_until_it_is_none(self):
        self.session._is_given_up = False
        self.session.cause = 0
        self.session._take_cause(3, 71)
        self.assertEqual((self.session.cause, self.session._is_given_up), (71, True))
        self.session._take_cause(3, 0)  # it is tried again
        self.assertEqual((self.session.cause, self.session._is_given_up), (71, False))
        self.session._told_at -= 3.0
        self.session._take_cause(3, 0)
        self.assertEqual(self.session.cause, 0)
        self.session._take_cause(3, 72)
        self.session._take_cause(0, 0)
        self.assertEqual(self.session.cause, 0)
        tab = await self.tab()
        self.session._take_cause(3, 71)
        await tab.ask("mark", branch=0, generation=0, view="counts")
        self.assertIsNone(tab.state["cause"])

    async def test_tabs_share_the_experiment_and_take_their_views_away(self):
        one, two = await self.tab(), await self.tab()
        await self.file("life.rule", LIFE)
        await self.file("blinker.rle", BLINKER)
        self.assertEqual(await one.text(0, 1, "counts"), "1 3\n")
        self.assertEqual(await two.text(0, 1, "counts"), "1 3\n")
        self.assertEqual(len(self.session.views.held), 1)
        await one.ask("mark", branch=0, generation=3, view="counts")
        await two.until(lambda it: len(it.state["bookmarks"]) == 1)
        for tab in (one, two):
            await tab.socket.close()
        for _ in range(100):
            if not self.session.views.held:
                break
            await asyncio.sleep(0.02)
        self.assertEqual((self.session.views.held, self.session.views.tabs), ({}, []))
        lines = (await self.session.keeper.program.ask(b"list\n")).lines
        self.assertEqual([it[0] for it in lines], ["bookmark"])


@unittest.skipUnless(aiohttp, "there is no aiohttp")
class DocumentTest(unittest.TestCase):
    def test_steps_from_one_document_to_another(self):
        rule, start = File("rule", "a", b"@RULE a\n"), File("start rle", "b", b"x = 1, y = 1\no!")
        one = Document(
            rule, start, (((0, 0, 1),),),
            {1: Branch(0, 5), 2: Branch(1, 6)},
            {1: Intervention(1, 7, 0, 7, ((0, 0, 1),))},
            {1: Bookmark(2, 9, "counts"), 2: Bookmark(0, 1, Window(0, 0, 2, 2))})
        self.assertEqual(difference(one, one), [])
        self.assertEqual([it.what for it in difference(Document(), one)],
                         ["rule", "start", "set", "branch", "branch", "at", "mark", "mark"])
        two = without_branch(one, 1)._replace(bookmarks={2: Bookmark(0, 4, Window(0, 0, 2, 2))})
        self.assertEqual(difference(one, two), [
            Step("unmark", 1), Step("drop", 1), Step("unbranch", 2), Step("unbranch", 1),
            Step("move", 2, Bookmark(0, 4, Window(0, 0, 2, 2)))])
        other = one._replace(cells=(((1, 0, 1),),), bookmarks={**one.bookmarks, 2: Bookmark(0, 1, "mc")})
        self.assertEqual([it.what for it in difference(one, other)], ["unmark", "start", "set", "mark"])
        with self.assertRaises(Trouble):
            difference(one, Document())

    def test_a_script_is_read_back(self):
        cells = ((0, -3, 1), (2 ** 60, 5, 2))
        document = Document(
            File("rule", "a", b"@RULE a\n"), None, (cells,),
            {4: Branch(0, 5), 7: Branch(4, 6)},
            {3: Intervention(7, 7, 2, 11, cells), 8: Intervention(0, 0, 0, 0, cells)},
            {5: Bookmark(7, 2 ** 60, "mc")})
        found = Document()
        counted = {"branches": 0, "interventions": 0, "bookmarks": 0}
        kinds = {"branch": "branches", "at": "interventions", "every": "interventions", "mark": "bookmarks"}
        for command in commands_of(script_of(document)):
            what = command.words[2] if command.words[0] == "on" else command.words[0]
            if what in kinds:
                counted[kinds[what]] += 1
            found = taken(found, command, counted.get(kinds.get(what), 0))
        self.assertEqual(found, Document(
            document.rule, None, (cells,), {1: Branch(0, 5), 2: Branch(1, 6)},
            {1: Intervention(2, 7, 2, 11, cells), 2: Intervention(0, 0, 0, 0, cells)}, {1: Bookmark(2, 2 ** 60, "mc")}))

    def test_painting_takes_the_intervention_that_is_there(self):
        ids = iter(range(1, 9))
        one = painted(Document(), Place(0, 0), ((0, 0, 1),), lambda kind: next(ids))
        self.assertEqual((one.cells, one.interventions), ((((0, 0, 1),),), {}))
        two = painted(one, Place(0, 3), ((0, 0, 1), (1, 0, 1)), lambda kind: next(ids))
        three = painted(two, Place(0, 3), ((0, 0, 2),), lambda kind: next(ids))
        self.assertEqual(three.interventions, {1: Intervention(0, 3, 0, 3, ((0, 0, 2), (1, 0, 1)))})
        four = painted(painted(three, Place(1, 3), ((5, 5, 1),), lambda kind: next(ids)),
                       Place(0, 4), ((5, 5, 1),), lambda kind: next(ids))
        self.assertEqual(sorted(four.interventions), [1, 2, 3])

    def test_more_cells_than_a_command_may_have(self):
        cells, ids = [(it, it % 7, 1) for it in range(25_000)], iter(range(1, 9))
        start = painted(Document(), Place(0, 0), cells, lambda kind: next(ids))
        self.assertEqual([len(it) for it in start.cells], [10_000, 10_000, 5_000])
        one = painted(Document(), Place(0, 3), cells[:9_000], lambda kind: next(ids))
        two = painted(one, Place(0, 3), cells[8_000:], lambda kind: next(ids))
        self.assertEqual([len(it.cells) for it in two.interventions.values()], [10_000, 10_000, 5_000])
        found = [cell for it in two.interventions.values() for cell in it.cells]
        self.assertEqual(sorted(found), sorted(cells))

    def test_kinds_of_files(self):
        cases = (
            ("a.rule", b"", "rule"), ("a", b"\n@RULE x\n", "rule"),
            ("a.MC.GZ", gzip.compress(b"[M2]"), "start mc"), ("a.txt", b"[M2] (golly)", "start mc"),
            ("a.rle", b"\xef\xbb\xbf#C\nx = 1, y = 1", "start rle"), ("a", b"x=1", "start rle"))
        for name, data, kind in cases:
            self.assertEqual(file_of(name, data).kind, kind, name)
        self.assertIsNone(file_of("a.script", b"mark 1 counts\n"))
        self.assertIsNone(file_of("a.script", b"start rle\nx = 1, y = 1\no!\nend\n"))
        self.assertEqual([states_of(it and File("rule", "", it))
                         for it in (None, LIFE, b"n_states:29\n", b"")], [256, 2, 29, 2])

    def test_ids_of_the_program_are_learned(self):
        names = Names()
        names.learn(Step("branch", 5), 1)
        names.learn(Step("mark", 2), 7)
        self.assertEqual(names.sent(Step("mark", 3, Bookmark(5, 9, Window(-1, 2, 3, 4)))),
                         b"on 1 mark 9 window -1 2 3 4\n")
        self.assertEqual(names.sent(Step("move", 2, Bookmark(0, 9, "rle"))), b"move 7 9\n")
        self.assertEqual(names.sent(Step("unbranch", 5)), b"unbranch 1\n")

    def test_no_line_of_javascript_is_too_long(self):
        paths = sorted((PACKAGE / "desk/page/static").glob("*.js"))
        self.assertGreater(len(paths), 10)
        for path in paths:
            for number, line in enumerate(path.read_text(encoding="utf-8").splitlines(), 1):
                self.assertLessEqual(len(line), 120, f"{path.name}:{number}")


class ScriptTest(unittest.TestCase):
    def test_it_says_what_to_install(self):
        blocked = ("import sys; sys.modules['aiohttp'] = None; sys.argv = ['page.py']; "
                   "from desk.page.command import main; sys.exit(main())")
        run = subprocess.run([sys.executable, "-B", "-c", blocked],
                             env=WITH_PACKAGE, capture_output=True, text=True, timeout=120)
        self.assertEqual(run.returncode, 1)
        self.assertIn("apt-get install python3-aiohttp", run.stderr)

    @unittest.skipUnless(aiohttp, f"there is no aiohttp; {SETUP}")
    def test_page_py_finds_the_rule_beside_the_pattern(self):
        words = [sys.executable, "-B", str(CLIENTS / "page.py"), str(EXAMPLES / "wire.rle"), "--no-browser"]
        with subprocess.Popen([*words, "--desk", PROGRAM], stdout=subprocess.PIPE, stderr=subprocess.PIPE, text=True,
                              cwd="/") as run:
            self.assertRegex(run.stdout.readline(), "^http:")
            run.send_signal(signal.SIGINT)
            self.assertEqual(run.wait(20), 0, run.stderr.read())

    @unittest.skipUnless(aiohttp, f"there is no aiohttp; {SETUP}")
    def test_page_py_prints_its_address_and_ends_by_an_interrupt(self):
        files = (str(EXAMPLES / it) for it in ("wire.rule", "wire.rle"))
        words = [sys.executable, "-B", str(CLIENTS / "page.py"), *files, "--no-browser", "--desk", PROGRAM]
        with subprocess.Popen(words, stdout=subprocess.PIPE, stderr=subprocess.PIPE, text=True) as run:
            self.assertRegex(run.stdout.readline(), r"^http://127\.0\.0\.1:\d+/[\w-]{20,}/\n$")
            run.send_signal(signal.SIGINT)
            self.assertEqual(run.wait(20), 0, run.stderr.read())
        run = subprocess.run([*words[:3], "nothing.rule", "--desk", PROGRAM],
                             capture_output=True, text=True, timeout=120)
        self.assertEqual((run.returncode, run.stderr), (1, "page.py: nothing.rule: No such file or directory\n"))
        run = subprocess.run([*words[:3], "--desk", "/no/program"], capture_output=True, text=True, timeout=120)
        self.assertEqual(run.returncode, 1)
        self.assertIn("/no/program", run.stderr)
        run = subprocess.run([*words[:3], "--desk", PROGRAM, "--squares", "1"], capture_output=True, text=True,
                             timeout=120)
        why = "page.py: the program refused its options: invalid value '1' for '--squares <N>': "
        self.assertEqual((run.returncode, run.stdout, run.stderr[:len(why)]), (1, "", why))


if __name__ == "__main__":
    unittest.main()
