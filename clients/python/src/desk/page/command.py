"""Shows an experiment in a browser: its history with branches and interventions, and the pattern at each place.

It serves a page on this machine alone, and asks the program `desk`. It is no part of what is proved.
"""
from __future__ import annotations

import argparse
import asyncio
import os
import signal
import sys
import webbrowser

from ..console import DESK_HELP, command_name, say
from ..errors import Trouble
from ..formats.files import text_of
from ..program import command_line

EXAMPLE = """\
example, in the repository's folder:
  %(prog)s examples/wire.rule examples/wire.rle

exit status:
  0  it was ended by Ctrl-C
  1  a file, the program or the port failed, or this Python has no aiohttp
  2  the words of the command line are refused
"""
LACKING = """\
there is no aiohttp for {python}. Debian has it for /usr/bin/python3:
    apt-get install python3-aiohttp
and pip has it for another one: {python} -m pip install aiohttp"""


def words() -> argparse.Namespace:
    form = argparse.RawDescriptionHelpFormatter
    found = argparse.ArgumentParser(command_name(), description=__doc__, epilog=EXAMPLE, formatter_class=form)
    found.add_argument("files", metavar="FILE", nargs="*", help="a .rule file, a pattern (.rle or .mc), or a script "
                       "that the page saved; each may be packed by gzip")
    found.add_argument("--port", metavar="N", type=int, default=0, help="the port; without it a free one is taken")
    found.add_argument("--no-browser", action="store_true", help="prints the address and opens no browser")
    found.add_argument("--squares", metavar="N", type=int, help="how many squares an engine may hold, up to 16777216")
    found.add_argument("--workers", metavar="N", type=int, default=4, help="how many threads compute, 1 to 8, 4 "
                       "without it: a picture waits where each is at a long step of a branch of its own")
    found.add_argument("--desk", metavar="PROGRAM", help=DESK_HELP)
    return found.parse_args()


async def serve(given: argparse.Namespace) -> None:
    """Starts the program and the page, and serves until it is broken off."""
    from .autosave import Autosave, state_folder
    from .opening import take
    from .pair import Pair
    from .server import Page
    from .stamps import Shelf

    words = command_line(given.desk, squares=given.squares, workers=given.workers)
    session = Pair(words, Autosave(state_folder()), Shelf(state_folder()))
    page = Page(session)
    task = asyncio.current_task()
    for it in (signal.SIGTERM, signal.SIGHUP):
        asyncio.get_running_loop().add_signal_handler(it, task.cancel if task else sys.exit)
    try:
        await session.begin()
        if given.files:
            files = [(os.path.basename(path), text_of(path)) for path in given.files]
            await take(session, files, beside=given.files[0])
        session.past.clear()
        session.now_saved()
        await page.begin(given.port)
        print(page.address, flush=True)
        if not given.no_browser:
            await asyncio.to_thread(webbrowser.open, page.address)
        await asyncio.Event().wait()
    finally:
        await page.end()


def main() -> int:
    given = words()
    try:
        import aiohttp  # noqa: F401
    except ImportError:
        say(LACKING.format(python=sys.executable))
        return 1
    try:
        asyncio.run(serve(given))
    except (Trouble, OSError) as fault:
        say(str(fault))
        return 1
    except (KeyboardInterrupt, asyncio.CancelledError):
        return 0
    return 0
