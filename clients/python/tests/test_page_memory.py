"""Tests that the page's program is started anew from its script where it takes too much memory, and nothing is lost."""
import asyncio
import time
import unittest
from unittest import mock

from desk.errors import Ended
from desk.page import keeper
from desk.page.document import Bookmark, Branch, Document, File, Intervention
from desk.page.looks import Tab
from desk.page.painting import Place, painted
from desk.page.session import Session
from desk.refusals import refusal
from places import PROGRAM
from test_page_with import LIFE, slack, soup

# The rule 30, of whose patterns little repeats.
THIRTY = (b"@RULE Thirty\n@TABLE\nn_states:2\nneighborhood:oneDimensional\nsymmetries:none\n"
          b"0,1,0,1\n0,0,1,1\n1,1,0,0\n1,1,1,0\n")


def experiment():
    """A document with something of each kind."""
    branches = {1: Branch(0, 5), 2: Branch(1, 9)}
    interventions = {1: Intervention(0, 4, 0, 4, ((3, 3, 1), (4, 4, 0))), 2: Intervention(2, 10, 7, 40, ((8, 8, 1),))}
    views = "counts", "rle", "mc", "counts"
    bookmarks = {it + 1: Bookmark(it % 3, 12 + 5 * it, view) for it, view in enumerate(views)}
    return Document(File("rule", "life", LIFE), File("start rle", "soup", soup(40)), (((1, 1, 1),),), branches,
                    interventions, bookmarks)


class MemoryTest(unittest.IsolatedAsyncioTestCase):
    async def begun(self, *words):
        """A session that goes on, and a tab that looks at it."""
        session, tab = Session([PROGRAM, *words]), Tab()
        await session.begin()
        self.addAsyncCleanup(session.close)
        watch = asyncio.create_task(session.watch())
        self.addCleanup(watch.cancel)
        session.views.tabs.append(tab)
        return session, tab

    async def test_a_program_that_has_grown_is_started_anew_with_all_edits(self):
        session, most = Session([PROGRAM]), 20 << 20
        await session.begin()
        self.addAsyncCleanup(session.close)
        watch = asyncio.create_task(session.watch())
        self.addCleanup(watch.cancel)
        start = File("rule", "life", LIFE), File("start rle", "soup", soup(300))
        marks = {it: Bookmark(0, 20 * it, "counts") for it in (1, 2, 3)}
        sizes, programs, tab = [], set(), Tab()
        with mock.patch.object(keeper, "MOST_MEMORY", most), mock.patch.object(keeper, "MOST_AT_WORK", 2 * most):
            await session.edit(lambda it: Document(*start, bookmarks=marks))
            for it in range(150):
                await session.edit(lambda old, it=it: painted(old, Place(0, 0), [(it, 0, it % 2)], session.new_id))
                while session.pending or not session.keeper.program:
                    await asyncio.sleep(0.005)
                sizes.append(session.keeper.size)
                programs.add(session.keeper.program.pid)
        self.assertGreater(sizes[0], 0)
        self.assertGreater(len(programs), 1)
        self.assertLess(max(sizes), 2 * most)
        tab.look_at([[0, 0, "window 0 0 150 1"]])
        session.views.tabs.append(tab)
        session.wake()
        while True:
            message = await asyncio.wait_for(tab.outbox.get(), 20)
            if message["type"] == "look":
                break
        self.assertEqual(message["text"].split(), ["0", "1"] * 75)

    async def test_starting_anew_is_unseen(self):
        session, tab = await self.begun()
        tab.look_at([[0, 3, "window 0 0 9 9"], [2, 30, "mc"]])
        await session.edit(lambda _: experiment())
        for it in range(6):  # ids of the program that are further on than those of the document
            await session.edit(lambda old, it=it: painted(old, Place(2, 12), [(it, 0, 1)], session.new_id))
        await session.undo()
        await session.edit(lambda old: old._replace(bookmarks={it: old.bookmarks[it] for it in (1, 4)}))
        await session.undo()
        await self.until_current(session)
        before, program = await self.seen(session), session.keeper.program
        epoch, looks = session.views.epoch, dict(tab.told)
        self.assertEqual(len(looks), 2)
        self.renew(session)
        self.assertNotIn("look", await self.told_until(tab, "said", lambda: self.assertEqual(
            session.script(), before[0])), "pictures that are known aren't sent again")
        await self.until_current(session)
        self.assertIsNot(session.keeper.program, program)
        self.assertEqual(await self.seen(session), before)
        self.assertEqual((session.views.epoch, tab.told), (epoch, looks))

    async def test_what_is_lost_while_it_is_started_anew_keeps_the_experiment(self):
        for fault in (Ended("lost", -9), refusal(["refused", "70", "NoMemory"], None, "the edit")):
            with self.subTest(fault):
                session, tab = await self.begun()
                await session.edit(lambda _: experiment())
                await self.until_current(session)
                before, do, steps = await self.seen(session), session.keeper._do, []

                async def fails_once(step):
                    steps.append(step)
                    if len(steps) == 4:
                        if isinstance(fault, Ended):
                            await session.keeper.program.end()
                        raise fault
                    await do(step)

                with mock.patch.object(session.keeper, "_do", fails_once):
                    self.renew(session)
                    await self.told_until(tab, "word", lambda: self.assertEqual(session.script(), before[0]))
                    await self.until_current(session)
                self.assertEqual(await self.seen(session), before)

    async def test_what_is_refused_again_and_again_keeps_the_experiment(self):
        session, tab = await self.begun()
        await session.edit(lambda _: experiment())
        await self.until_current(session)
        before = await self.seen(session)
        refused = refusal(["refused", "70", "NoMemory"], None, "the edit")
        with mock.patch.object(session.keeper, "_do", side_effect=refused):
            self.renew(session)
            await self.told_until(tab, "word", lambda: self.assertEqual(session.script(), before[0]))
        self.assertTrue(session.keeper.is_lost)
        await session.retry()
        await self.until_current(session)
        self.assertEqual(await self.seen(session), before)

    async def test_a_program_that_takes_far_too_much_is_started_anew_also_with_something_pending(self):
        session, tab = await self.begun("--workers", "2")
        thirty, endless = File("rule", "thirty", THIRTY), Bookmark(0, 10 ** 6, "counts")
        with mock.patch.object(keeper, "MOST_AT_ALL", 1 << 20):
            await session.edit(lambda it: it._replace(rule=thirty, cells=(((0, 0, 1),),), bookmarks={1: endless}))
            await self.told_until(tab, "said", lambda: None)
            tab.look_at([[0, 4, "counts"]])
            session.wake()
            await self.told_until(tab, "look", lambda: None)
        self.assertIn(session.keeper.started - 1, range(1, 6), "it takes twice as much each time before it is due")
        self.assertEqual((session.pending, session.document.rule), (1, thirty))

    def test_what_is_pending_may_take_twice_as_much_each_time(self):
        kept, sizes = keeper.Keeper([], lambda: None, lambda _: None), iter((2, 4, 4, 7, 9, 9))
        with mock.patch.object(keeper.Keeper, "size", mock.PropertyMock(side_effect=lambda: next(sizes) << 30)):
            due = [kept.is_due(is_current=False) for _ in range(4)]
        self.assertEqual(due, [False, True, False, True])

    def renew(self, session):
        """Lets a session find that its program has grown, once. Its tabs have taken what they were told."""
        for tab in session.views.tabs:
            while tab.outbox.qsize():
                tab.outbox.get_nowait()
        patch = mock.patch.object(session.keeper, "has_grown", side_effect=[True] + [False] * 100000)
        patch.start()
        self.addCleanup(patch.stop)
        session.wake()

    @staticmethod
    async def told_until(tab, kind, check):
        """The kinds of messages that a tab gets up to one of a kind, while something is checked again and again."""
        kinds, end = [], time.monotonic() + 60 * slack()
        while kind not in kinds and time.monotonic() < end:
            check()
            await asyncio.sleep(0)
            kinds += [tab.outbox.get_nowait()["type"] for _ in range(tab.outbox.qsize())]
        return kinds

    @staticmethod
    async def until_current(session):
        """Until all is known, and tabs were told of it."""
        end = time.monotonic() + 60 * slack()
        while session.pending or not session.keeper.program or set(session.views.current) != {
                *session.keeper.names.bookmarks.values(), *session.views.held.values()}:
            assert time.monotonic() < end, "it isn't current"
            await asyncio.sleep(0.005)
        await asyncio.sleep(0.1)

    async def seen(self, session):
        """All that can be seen of a session: its script, its state, each bookmark's text, and what undoing gives."""
        bookmarks = session.keeper.names.bookmarks
        texts = {it: (await session.keeper.ask(b"peek %d\n" % number)).text for it, number in bookmarks.items()}
        state = {it: value for it, value in session.state().items() if it not in ("epoch", "revision")}
        return session.script(), state, texts, list(session.past), list(session.future)


if __name__ == "__main__":
    unittest.main()
