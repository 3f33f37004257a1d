"""The page's server: this machine alone, with a token in the address, over HTTP and a WebSocket."""
from __future__ import annotations

import asyncio
import hmac
import json
import secrets
import sys
import traceback
from pathlib import Path
from typing import IO, Awaitable, Callable, Dict, List, Optional

from aiohttp import WSMsgType, web

from ..errors import Malformed, Trouble

from .asks import OF_SESSIONS, OF_TABS
from .edits import natural, number
from .files import MOST_SENT
from .looks import Message, Tab
from .opening import offers, take
from .probe import Probe
from .refusals import explained
from .pair import Pair
from .static_files import file_named

HOST = "127.0.0.1"
KINDS = {".html": "text/html", ".css": "text/css", ".js": "text/javascript", ".svg": "image/svg+xml"}
MOST_MESSAGE = 4 << 20
Handler = Callable[[web.Request], Awaitable[web.StreamResponse]]


class Page:
    """The server of one experiment, at an address that only its own user knows."""

    def __init__(self, session: Pair, token: Optional[str] = None) -> None:
        self.session, self.token, self.port = session, token or secrets.token_urlsafe(18), 0
        self._runner: Optional[web.AppRunner] = None
        self._tasks: List[asyncio.Task[None]] = []

    @property
    def address(self) -> str:
        """Where the page is."""
        return f"http://{HOST}:{self.port}/{self.token}/"

    async def begin(self, port: int = 0) -> None:
        """Serves, at a free port where none is named."""
        app = web.Application(client_max_size=MOST_SENT, middlewares=[self._checked])
        app.add_routes([
            web.get("/{token}/", self._index), web.get("/{token}/socket", self._socket),
            web.get("/{token}/experiment.script", self._script), web.get("/{token}/pattern", self._pattern),
            web.post("/{token}/files", self._files),
            web.get("/{token}/{name}", self._static)])
        self._runner = web.AppRunner(app, access_log=None)
        await self._runner.setup()
        site = web.TCPSite(self._runner, HOST, port, shutdown_timeout=1)
        await site.start()
        self.port = self._runner.addresses[0][1]
        self._tasks = [asyncio.create_task(it) for it in (self.session.watch(), self.session.keep_saving())]
        for task in self._tasks:
            task.add_done_callback(_ended)

    async def end(self) -> None:
        """Ends the server and the program."""
        for tab in self.session.views.tabs:
            tab.say({"type": "end"})
        if self._runner:
            await self._runner.cleanup()
        await self.session.close()
        for task in self._tasks:
            task.cancel()
        await asyncio.gather(*self._tasks, return_exceptions=True)

    @web.middleware
    async def _checked(self, request: web.Request, handler: Handler) -> web.StreamResponse:
        """Refuses each other host, origin and token, and lets a page load nothing from elsewhere."""
        here, origin = f"{HOST}:{self.port}", request.headers.get("Origin")
        needs_origin = request.method != "GET" or "Upgrade" in request.headers
        if request.headers.get("Host") != here:
            raise web.HTTPForbidden(text="another host\n")
        if origin != f"http://{here}" and (origin is not None or needs_origin):
            raise web.HTTPForbidden(text="another origin\n")
        token = request.match_info.get("token", "")
        if not hmac.compare_digest(token.encode(), self.token.encode()):
            raise web.HTTPForbidden(text="another token: the page's address is where the command printed it\n")
        response = await handler(request)
        if not response.prepared:
            response.headers.update(self._headers(here))
        return response

    @staticmethod
    def _headers(here: str) -> Dict[str, str]:
        policy = (f"default-src 'none'; script-src 'self'; style-src 'self'; img-src 'self' blob: data:; "
                  f"connect-src 'self' ws://{here}; base-uri 'none'; form-action 'none'; frame-ancestors 'none'")
        return {"Content-Security-Policy": policy, "Cache-Control": "no-store", "Referrer-Policy": "no-referrer",
                "X-Content-Type-Options": "nosniff", "Cross-Origin-Resource-Policy": "same-origin"}

    async def _index(self, request: web.Request) -> web.Response:
        return self._sent("index.html")

    async def _static(self, request: web.Request) -> web.Response:
        return self._sent(request.match_info["name"])

    @staticmethod
    def _sent(name: str) -> web.Response:
        body = file_named(name)
        if body is None:
            raise web.HTTPNotFound(text="no such file\n")
        return web.Response(body=body, charset="utf-8", content_type=KINDS[Path(name).suffix])

    async def _script(self, request: web.Request) -> web.Response:
        """The script. A tab that keeps a copy, for when the server is gone, says so: that isn't saved yet."""
        if "copy" not in request.query:
            self.session.now_saved()
        headers = {"Content-Disposition": 'attachment; filename="experiment.script"'}
        return web.Response(body=self.session.script(), headers=headers, content_type="text/plain")

    async def _pattern(self, request: web.Request) -> web.Response:
        """A pattern as text, when it is known: RLE or macrocell, as the query says."""
        asked: Message = {it: request.query.get(it, "") for it in ("branch", "generation", "view", "rule")}
        try:
            place = number(asked, "branch"), natural(asked, "generation")
            if asked["view"] not in ("rle", "mc"):
                raise Malformed("a pattern is saved as rle or mc")
            with Probe(self.session.under(asked)) as probe:
                text = await probe.text(*place, asked["view"])
        except Trouble as trouble:
            raise web.HTTPConflict(text=f"{trouble}\n") from trouble
        name = f"branch-{place[0]}-generation-{place[1]}.{asked['view']}"
        headers = {"Content-Disposition": f'attachment; filename="{name}"'}
        return web.Response(body=text.encode("latin-1"), headers=headers, content_type="text/plain")

    async def _files(self, request: web.Request) -> web.Response:
        """Takes the files of a form together, made to suit the rule as its field `fit` says."""
        form = await request.post()
        files = [(it.filename, _read(it.file)) for it in form.getall("file", []) if isinstance(it, web.FileField)]
        try:
            return web.json_response({"ok": await take(self.session, files, str(form.get("fit", "")))})
        except Trouble as trouble:
            return web.json_response({"refused": explained(trouble), "offers": offers(trouble, files)})

    async def _socket(self, request: web.Request) -> web.WebSocketResponse:
        socket, tab = web.WebSocketResponse(max_msg_size=MOST_MESSAGE, heartbeat=30), Tab()
        await socket.prepare(request)
        tab.say(self.session.state())
        self.session.views.tabs.append(tab)
        sender = asyncio.create_task(_send(socket, tab))
        try:
            async for message in socket:
                if message.type == WSMsgType.TEXT:
                    await self._answer(tab, message.data)
        finally:
            sender.cancel()
            tab.close()
            self.session.leave(tab)
        return socket

    async def _answer(self, tab: Tab, text: str) -> None:
        """Answers one message of a tab."""
        asked: object = None
        try:
            message = json.loads(text)
            asked = message["ask"]
            if message["do"] in OF_TABS:
                answer: Message = OF_TABS[message["do"]](self.session, tab, message)
            else:
                answer = await OF_SESSIONS[message["do"]](self.session, message)
            tab.say({"type": "reply", "ask": asked, **answer})
        except (ValueError, KeyError, TypeError, RecursionError) as fault:
            trouble = fault if isinstance(fault, Trouble) else Malformed(f"that isn't understood: {fault!r}")
            tab.say({"type": "reply", "ask": asked, "refused": explained(trouble)})
        except Trouble as trouble:
            tab.say({"type": "reply", "ask": asked, "refused": explained(trouble)})


def _read(file: IO[bytes]) -> bytes:
    with file:
        return file.read()


def _ended(task: asyncio.Task[None]) -> None:
    """Says why the page shows nothing new any more, which nothing should bring about."""
    fault = None if task.cancelled() else task.exception()
    if fault:
        traceback.print_exception(type(fault), fault, fault.__traceback__, file=sys.stderr)


async def _send(socket: web.WebSocketResponse, tab: Tab) -> None:
    """The tab's own task: it sends what is in the outbox."""
    while True:
        message = await tab.outbox.get()
        if message["type"] == "end":
            await socket.close()
            return
        await socket.send_str(json.dumps(message, separators=(",", ":")))
