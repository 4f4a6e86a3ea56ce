"""A live server within a test, and browsers that are none: they tell and hear what a page would."""
import asyncio
import json
import struct
import unittest
from collections.abc import Callable
from typing import Any

from support import BUILT, EXAMPLES, FolderTest, needs
from ltm_tools.case import Case, Limit

needs_live = needs("python3-tornado", "node-d3")


class Client:
    """A browser that hears: all that it was told, the last list, costs and curve, and frames as numbers."""

    def __init__(self, socket: Any, desk: Any) -> None:
        self.socket, self.desk = socket, desk
        self.told: list[dict[str, Any]] = []
        self.frames: list[tuple[float, ...]] = []
        self.costs: dict[str, Any] = {}
        self.list: list[dict[str, Any]] = []
        self.hello: dict[str, Any] = {}
        self.curve: dict[str, Any] = {}
        self.ready, self.open = False, True
        self.task = asyncio.ensure_future(self.hear())

    async def hear(self) -> None:
        while (got := await self.socket.read_message()) is not None:
            if isinstance(got, bytes):
                self.frames.append(struct.unpack(f"<{len(got) // 8}d", got))
                continue
            told = json.loads(got)
            self.told.append(told)
            self.list, self.ready = told.get("list", self.list), told.get("ready", self.ready)
            self.costs, self.hello = told.get("costs", self.costs), told.get("hello", self.hello)
            self.curve = told if "curve" in told else self.curve
        self.open = False

    async def send(self, told: object) -> None:
        await self.socket.write_message(told if isinstance(told, (str, bytes)) else json.dumps(told))

    async def until(self, holds: Callable[[], object], seconds: float = 60) -> None:
        """Waits until something holds."""
        for _ in range(int(seconds / 0.01)):
            if holds():
                return
            await asyncio.sleep(0.01)
        raise AssertionError("waited in vain")

    def all(self, member: str) -> list[Any]:
        """All that was told under a name."""
        return [told[member] for told in self.told if member in told]

    async def change(self, told: dict[str, object]) -> str:
        """Asks for a change, and waits for its costs: an empty text, or why it is refused."""
        refused, costs = len(self.all("refused")), len(self.all("costs"))
        await self.send(told)
        await self.until(lambda: (len(self.all("refused")) > refused or len(self.all("costs")) > costs) and self.idle())
        await self.see(len(self.told) % 100)
        return str(self.all("refused")[-1]) if len(self.all("refused")) > refused else ""

    def idle(self) -> bool:
        """Whether no change of any browser waits, or is being made."""
        return self.desk.jobs.empty() and not any(browser.pending for browser in self.desk.browsers)

    async def see(self, boundary: int) -> tuple[float, ...]:
        """The frame of a boundary as it is now, without its revision."""
        count = len(self.frames)
        await self.send({"see": boundary})
        await self.until(lambda: len(self.frames) > count and self.frames[-1][1] == boundary)
        return self.frames[-1][2:]


class LiveTest(unittest.IsolatedAsyncioTestCase, FolderTest):
    """A test with a server of a case with two ways, a signal and an entry limit, at 7:00."""

    most_lines = 100_000

    def setUp(self) -> None:
        super().setUp()
        self.where = self.folder / "closures"
        case = Case.read(EXAMPLES / "closures")
        case.setup.signals = case.setup.limits = True
        case.signals, case.limits = [Limit("south_east", 20, 50, 1000)], [Limit("west_south", 5, 30, 2000)]
        case.write(self.where)

    async def start(self, script: str = "", program: object = BUILT, where: object = None) -> None:
        """Begins to serve."""
        from ltm_tools.live.desk import Desk
        from ltm_tools.live.kept import Script
        from ltm_tools.live.scenario import Scenario
        from ltm_tools.live.server import begin

        self.scenario = Scenario(str(where or self.where), str(program), 7 * 3_600_000, self.most_lines)
        self.addCleanup(self.scenario.close)
        self.desk = Desk(self.scenario, Script(self.folder / script) if script else None)
        if script:
            await self.desk.begin()
        self.live = begin(self.desk)
        self.addAsyncCleanup(self.live.close)
        self.base, _, self.token = self.live.address.partition("#")
        self.origin = self.base.rstrip("/")
        self.work = asyncio.ensure_future(self.desk.work())
        self.addAsyncCleanup(self.end)

    async def end(self) -> None:
        self.work.cancel()
        await asyncio.gather(self.work, return_exceptions=True)

    async def socket(self, **headers: str) -> Any:
        """A WebSocket with these headers, those of our own page where none is named."""
        from tornado.httpclient import HTTPRequest
        from tornado.websocket import websocket_connect

        return await websocket_connect(
            HTTPRequest(self.base.replace("http", "ws") + "ws", headers={"Origin": self.origin, **headers})
        )

    async def client(self, token: object = None, window: str = "") -> Client:
        """A browser that has told its token, and which window it is; the right one waits until it may change
        something."""
        client = Client(await self.socket(), self.desk)
        told = {"token": self.token if token is None else token}
        await client.send({**told, "window": window} if window else told)
        if token is None:
            await client.until(lambda: client.ready and client.costs)
        return client

    async def fetch(self, path: str, method: str = "GET", **headers: str) -> Any:
        """The answer to a request."""
        from tornado.httpclient import AsyncHTTPClient

        body = {"body": b""} if method == "POST" else {}
        return await AsyncHTTPClient().fetch(
            self.base + path, method=method, headers=headers, raise_error=False, **body
        )  # type: ignore[arg-type]

    async def kept(self, name: str) -> bytes:
        """What is kept of the scenario under a name."""
        answer = await self.fetch(name, "POST", Origin=self.origin, **{"X-Token": self.token})
        self.assertEqual(answer.code, 200, answer.body)
        return bytes(answer.body)
