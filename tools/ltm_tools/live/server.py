"""The server of a live page: files that tell nothing of a case, a WebSocket for each browser, and what is kept."""
from __future__ import annotations

import asyncio
from collections.abc import Callable, Iterator
from dataclasses import dataclass, field
from functools import partial
from itertools import count
from typing import Any

import tornado.httpserver
import tornado.ioloop
import tornado.netutil
import tornado.web
import tornado.websocket

from ..errors import Fault
from .asks import Members
from .desk import Desk
from .guard import (
    ADDRESS,
    MOST_BROWSERS,
    MOST_CONNECTIONS,
    MOST_MESSAGE,
    MOST_PENDING,
    SECONDS_FOR_BODY,
    SECONDS_FOR_TOKEN,
    Guard,
)
from .kept import case_zip, script_bytes
from .messages import Make, Told, asked_boundary, asked_since, make_of, object_of, picked_of, text_of, whole_number_of
from .route import Route, route_of
from .scenario import Scenario
from .welcome import files, hello

READ_ONLY = "This address only shows the live map. Ask for the other one to change it."
TOO_MANY = "Too many changes are waiting. Try again when some are done."
FETCHING = "The base is still being fetched. Try again in a moment."
PAUSE = 20  # seconds between pings
MOST_WINDOWS, MOST_WINDOW_NAME = 1_000, 64  # whose names are kept, and signs of what a window calls itself


@dataclass(slots=True)
class Site:
    """What the handlers of a server have in common."""

    guard: Guard
    desk: Desk
    hello: Told
    sockets: int = 0
    names: dict[str, str] = field(default_factory=dict)
    numbers: Iterator[int] = field(default_factory=partial(count, 1))

    def name_of(self, window: object) -> str:
        """What a browser is called: one that says which window it is, as it was called before."""
        if not isinstance(window, str) or len(window) > MOST_WINDOW_NAME or len(self.names) >= MOST_WINDOWS:
            return f"browser {next(self.numbers)}"
        if window not in self.names:
            self.names[window] = f"browser {next(self.numbers)}"
        return self.names[window]


class Guarded(tornado.web.RequestHandler):
    """Answers whom the guard lets in, and no one else; a body is read of those alone who have the token."""

    site: Site

    def initialize(self, site: Site) -> None:
        self.site = site

    def prepare(self) -> None:
        if self.request.connection is not None and {"Content-Length", "Transfer-Encoding"} & set(self.request.headers):
            self.bound_body(self.request.connection)
        if not self.site.guard.is_for_us(self.request.host, self.request.headers):
            self.refuse()

    def bound_body(self, connection: Any) -> None:
        """Bounds what is read of a body, and for how long; without the token nothing of it is."""
        known = self.site.guard.knows(self.request.headers.get("X-Token"))
        connection.set_max_body_size(MOST_MESSAGE if known else 0)
        connection.set_body_timeout(SECONDS_FOR_BODY)

    def data_received(self, chunk: bytes) -> None:
        self.body = getattr(self, "body", b"") + chunk

    def refuse(self) -> None:
        self.set_status(403)
        self.finish()

    def set_default_headers(self) -> None:
        for name, value in self.application.settings["answer_headers"].items():
            self.set_header(name, value)


@tornado.web.stream_request_body
class File(Guarded):
    """A file of the page; none tells anything of the case."""

    def initialize(self, site: Site, text: str = "", kind: str = "") -> None:
        super().initialize(site)
        self.text, self.kind = text, kind

    def get(self) -> None:
        self.set_header("Content-Type", f"{self.kind}; charset=utf-8")
        self.finish(self.text)


@tornado.web.stream_request_body
class KeptFile(Guarded):
    """The scenario as a script, a case or a page, for a page of ours that has the token."""

    async def post(self, name: str) -> None:
        guard, desk = self.site.guard, self.site.desk
        headers = self.request.headers
        if not (guard.knows(headers.get("X-Token")) and guard.is_ours(headers.get("Origin"))):
            self.refuse()
            return
        try:
            if name == "page.html":
                made = await desk.page(object_of(getattr(self, "body", b"") or b"{}"))
            else:
                make: Callable[[Scenario], bytes] = case_zip if name == "case.zip" else script_bytes
                made = await desk.call(partial(make, desk.scenario))
        except (Fault, OSError) as fault:
            self.set_status(409)
            made = str(fault).encode("utf-8", "replace")
        self.set_header("Content-Type", "application/octet-stream")
        self.finish(made)


class Socket(Guarded, tornado.websocket.WebSocketHandler):
    """A browser that looks on. Until it has told the token it is told nothing."""

    name, boundary, wanted, pending = "", 0, False, 0
    since: int | None = None
    picked: tuple[str, str] | None = None
    shown: tuple[int, tuple[str, str] | None] = (-1, None)
    route: Route = ()
    routed: tuple[int, Route] = (-1, ())
    beside: str | None = None
    known, counted, may_change = False, False, False
    waits: object = None

    def check_origin(self, origin: str) -> bool:
        return self.site.guard.is_ours(origin)

    def prepare(self) -> None:
        super().prepare()
        if not self._finished and "Origin" not in self.request.headers:  # tornado asks only of one that is there
            self.refuse()

    def open(self, *_: str, **__: str) -> None:
        self.waits = tornado.ioloop.IOLoop.current().call_later(SECONDS_FOR_TOKEN, self.close, 1008, "no token")

    def send(self, told: Told | bytes) -> None:
        if self.ws_connection is not None and self.known:
            is_frame = isinstance(told, bytes)
            sent = self.write_message(told if is_frame else text_of(told), binary=is_frame)  # type: ignore[arg-type]
            sent.add_done_callback(lambda done: done.exception())

    def on_message(self, message: str | bytes) -> None:
        try:
            told = object_of(message)
        except Fault as fault:
            self.close(1003, str(fault))
            return
        if not self.known:
            self.begin(told)
        elif (make := make_of(told)) is not None:
            self.ask(make)
        elif "pick" in told:
            self.pick(told["pick"])
        elif "beside" in told:
            self.beside, self.wanted = told["beside"] if isinstance(told["beside"], str) else None, True
            self.site.desk.look()
        elif "route" in told:
            self.follow(told["route"])
        elif "stop" in told:
            self.site.desk.seekers.stop((self, whole_number_of(told["stop"])))
        elif (boundary := asked_boundary(told, self.site.desk.scenario.slots)) is not None:
            self.boundary, self.since, self.wanted = boundary, asked_since(told, boundary), True
            self.site.desk.look()

    def begin(self, told: Members) -> None:
        """Lets a browser in that has the token, and tells it the case and the list."""
        guard = self.site.guard
        if not guard.may_see(told.get("token")):
            self.close(1008, "wrong token")
            return
        self.may_change = guard.knows(told.get("token"))
        if self.site.sockets >= MOST_BROWSERS:
            self.close(1013, f"{MOST_BROWSERS} browsers are open already")
            return
        self.site.sockets += 1
        self.counted = True
        tornado.ioloop.IOLoop.current().remove_timeout(self.waits)
        self.known, self.name = True, self.site.name_of(told.get("window"))
        self.site.desk.browsers.add(self)
        you: Told = {"you": self.name, "shows": guard.shows if self.may_change else None}
        self.send({"hello": {**self.site.hello, **you}})
        for answer in self.site.desk.told(self):
            self.send(answer)

    def ask(self, make: Make) -> None:
        """Has a change of the list made, if the browser may, and has not too many that wait."""
        if not self.may_change:
            self.send({"refused": READ_ONLY, "at": make.at})
            return
        if not self.site.desk.ready or self.pending >= MOST_PENDING:
            self.send(
                {
                    "refused": TOO_MANY if self.site.desk.ready else FETCHING,
                    "at": make.at,
                }
            )
            return
        self.pending += 1
        self.site.desk.jobs.put_nowait((self, make))

    def pick(self, told: object) -> None:
        """Picks a link or an origin, to be shown its curves, or none."""
        self.picked, self.shown = picked_of(told, self.site.desk.scenario), (-1, None)
        self.site.desk.look()

    def follow(self, told: object) -> None:
        """Puts a route together, to be shown what it takes, or none."""
        try:
            self.route, self.routed = route_of(told, self.site.desk.scenario), (-1, ())
        except Fault as fault:
            self.send({"notice": str(fault)})
        self.site.desk.look()

    def on_close(self) -> None:
        if self.counted:
            self.site.sockets -= 1
        self.site.desk.browsers.discard(self)


def application_of(site: Site, texts: dict[str, tuple[str, str]]) -> tornado.web.Application:
    """The handlers of a server."""
    routes: list[Any] = [
        (path, File, {"site": site, "text": text, "kind": kind}) for path, (text, kind) in texts.items()
    ]
    routes += [(r"/(script\.jsonl|case\.zip|page\.html)", KeptFile, {"site": site}), ("/ws", Socket, {"site": site})]
    return tornado.web.Application(
        routes,
        websocket_max_message_size=MOST_MESSAGE,
        websocket_ping_interval=PAUSE,
        log_function=lambda handler: None,
        answer_headers=site.guard.headers(),
        default_handler_class=Missing,
        default_handler_args={"site": site},
    )


@tornado.web.stream_request_body
class Missing(Guarded):
    """Any other path."""

    def prepare(self) -> None:
        super().prepare()
        if self._finished:
            return
        self.set_status(404)
        self.finish()


class Bounded(tornado.httpserver.HTTPServer):
    """A server with so many connections at most; further ones are cut off at once."""

    def handle_stream(self, stream: Any, address: Any) -> None:
        if len(self._connections) >= MOST_CONNECTIONS:
            stream.close()
        else:
            super().handle_stream(stream, address)


@dataclass(slots=True)
class Live:
    """A server that answers: its address with the token, and what it shows."""

    address: str
    site: Site
    server: tornado.httpserver.HTTPServer

    async def close(self) -> None:
        """Ends the server, and the program behind it."""
        self.server.stop()
        for browser in list(self.site.desk.browsers):
            browser.close(1001, "the server ends")  # type: ignore[attr-defined]
        self.site.desk.close()
        await self.server.close_all_connections()


def begin(desk: Desk, port: int = 0, d3: str | None = None) -> Live:
    """A server on a port of this machine, any that is free where it is 0; a Fault where it is not to be had."""
    texts, told = files(d3), hello(desk.scenario)
    try:
        sockets = tornado.netutil.bind_sockets(port, ADDRESS)
    except OSError as error:
        raise Fault(f"port {port} of {ADDRESS}: {error.strerror or error}") from None
    site = Site(Guard(sockets[0].getsockname()[1]), desk, told)
    server = Bounded(
        application_of(site, texts), max_body_size=MOST_MESSAGE, max_header_size=16_384, idle_connection_timeout=30
    )
    server.add_sockets(sockets)
    port = sockets[0].getsockname()[1]
    return Live(f"http://{ADDRESS}:{port}/#{site.guard.token}", site, server)


async def serve(desk: Desk, port: int, d3: str | None, ready: Callable[[str], None], stop: asyncio.Event) -> None:
    """Serves a scenario until it is to stop; `ready` is told the address. A script is made before that, and else the
    base fetched while browsers come."""
    if desk.script is not None:
        await desk.begin()
    live = begin(desk, port, d3)
    ready(live.address)
    work = asyncio.ensure_future(desk.work())
    stopped = asyncio.ensure_future(stop.wait())
    await asyncio.wait({work, stopped}, return_when=asyncio.FIRST_COMPLETED)
    try:
        if work.done():
            work.result()
    finally:
        work.cancel()
        stopped.cancel()
        await live.close()
