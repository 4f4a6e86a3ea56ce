"""Strangers, careless browsers and floods at the live page's server: who is answered, and what."""
import asyncio
import html
import json
import stat
import unittest
from unittest import mock

from made_live import Client, LiveTest, needs_live
from support import FolderTest, needs_program
from ltm_tools.live import opening

SHUT = {"kind": "close", "link": "north_east", "from": 60, "to": 90}


@needs_live
@needs_program
class Strangers(LiveTest):
    async def test_files(self) -> None:
        await self.start()
        page = await self.fetch("")
        self.assertEqual(page.code, 200)
        self.assertNotIn(b"north_east", page.body)
        self.assertNotIn(self.token.encode(), page.body)
        for name, value in (
            ("X-Content-Type-Options", "nosniff"),
            ("Cache-Control", "no-store"),
            ("Referrer-Policy", "no-referrer"),
            ("Cross-Origin-Resource-Policy", "same-origin"),
        ):
            self.assertEqual(page.headers[name], value)
        self.assertTrue(page.headers["Content-Security-Policy"].startswith("default-src 'none'; script-src 'self';"))
        self.assertEqual(
            [(await self.fetch(path)).code for path in ("%2e%2e/live.py", "web/live.js", "ws", "favicon")],
            [404, 404, 403, 404],
        )

    async def test_another_host_or_page(self) -> None:
        """A name of an attacker that leads to 127.0.0.1, and pages of other sites; a link to our page is followed."""
        await self.start()
        leads = {"Sec-Fetch-Site": "cross-site", "Sec-Fetch-Mode": "navigate", "Sec-Fetch-Dest": "document"}
        for headers, code in (
            ({"Host": "evil.example"}, 403),
            ({"Sec-Fetch-Site": "cross-site"}, 403),
            (leads, 200),
            ({**leads, "Sec-Fetch-Dest": "iframe"}, 403),
            ({"Host": self.live.address[7:-34]}, 200),
        ):
            self.assertEqual((await self.fetch("", **headers)).code, code, headers)

    async def test_kept_files(self) -> None:
        await self.start()
        right = {"X-Token": self.token, "Origin": self.origin}
        for name in ("script.jsonl", "case.zip", "page.html"):
            for headers in (
                {},
                {**right, "X-Token": "wrong"},
                {**right, "Origin": "http://evil.example"},
                {"X-Token": self.token},
            ):
                self.assertEqual((await self.fetch(name, "POST", **headers)).code, 403, headers)
            self.assertEqual((await self.fetch(name)).code, 405)

    async def test_sockets(self) -> None:
        """Of other origins, or of none, no WebSocket is taken; one of ours is told nothing without the token."""
        from tornado.httpclient import HTTPClientError, HTTPRequest
        from tornado.websocket import websocket_connect

        await self.start()
        port = int(self.origin.rpartition(":")[2])
        origins = (
            "http://evil.example",
            "null",
            f"{self.origin}.evil.example",
            f"http://127.0.0.1:{port + 1}",
            f"https://127.0.0.1:{port}",
        )
        for headers in ({}, *({"Origin": origin} for origin in origins)):
            with self.assertRaisesRegex(HTTPClientError, "403", msg=str(headers)):
                await websocket_connect(HTTPRequest(self.base.replace("http", "ws") + "ws", headers=headers))
        wrong = await self.client("wrong")
        await wrong.until(lambda: not wrong.open)
        self.assertEqual((wrong.told, wrong.frames, wrong.socket.close_code), ([], [], 1008))
        with mock.patch("ltm_tools.live.server.SECONDS_FOR_TOKEN", 0.2):
            silent = Client(await self.socket(), self.desk)
            await silent.until(lambda: not silent.open, 10)
        self.assertEqual((silent.told, silent.socket.close_reason), ([], "no token"))


@needs_live
@needs_program
class Careless(LiveTest):
    async def test_messages_that_are_none(self) -> None:
        """Whoever tells them is cut off, and the others go on."""
        await self.start()
        first = await self.client()
        for message, code in (
            ("x" * 70_000, 1009),
            (b"\xff\xfe", None),
            ("[]", 1003),
            ("[" * 60_000, 1003),
            ('{"edit":', 1003),
            ("7", 1003),
        ):
            client = await self.client()
            await client.send(message)
            await client.until(lambda: not client.open)
            self.assertEqual(client.socket.close_code, code, message[:9])
        self.assertEqual(await first.change({"edit": SHUT}), "")

    async def test_strange_values(self) -> None:
        """Each change that is none is refused and changes nothing; other messages that mean nothing are passed
        over."""
        await self.start()
        client = await self.client()
        for told in (
            {**SHUT, "link": {"a": 1}},
            {**SHUT, "from": 10**30},
            {**SHUT, "link": "<img src=x onerror=1>"},
            {},
            {"kind": "speed", "link": "north_east", "kmh": 900},
        ):
            self.assertNotEqual(await client.change({"edit": told}), "", told)
        self.assertIn("StepTooLong", client.all("refused")[-1])
        for told in (
            {"see": 10**9},
            {"see": -1},
            {"see": "x"},
            {"see": True},
            {"pick": 5},
            {"pick": {"link": ["a"]}},
            {"undo": "x"},
            {"undo": 1.0},
            {"switch": 1},
            {"token": "again"},
            {"nothing": 1},
            {"edit": 5},
        ):
            await client.send(told)
        self.assertIn("already", await client.change({"undo": 77}))
        self.assertEqual((client.list, client.open), ([], True))

    async def test_floods(self) -> None:
        """More browsers than may be are turned away, of which those without a token take no place, and more changes
        than may wait are refused."""
        await self.start()
        with mock.patch("ltm_tools.live.server.SECONDS_FOR_TOKEN", 600.0):  # which a slow machine takes long for
            idle = [Client(await self.socket(), self.desk) for _ in range(17)]
            first = await self.client()
            others = [Client(await self.socket(), self.desk) for _ in range(16)]
            for client in others:
                await client.send({"token": self.token})
        await others[-1].until(lambda: not others[-1].open)
        self.assertEqual((others[-1].socket.close_code, sum(client.open for client in others)), (1013, 15))
        self.assertEqual(sum(client.open for client in idle), 17)
        for number in range(60):
            await first.send({"edit": {**SHUT, "from": number % 20}})
        await first.until(lambda: len(first.list) + len(first.all("refused")) == 60)
        self.assertGreaterEqual(len(first.list), 32)
        self.assertEqual(
            set(first.all("refused")),
            {"Too many changes are waiting. Try again when some are done."} if first.all("refused") else set(),
        )

    async def test_an_address_that_only_shows(self) -> None:
        """It has a token of its own, by which all is seen and nothing is changed or kept; it does not lead to the
        other."""
        await self.start()
        first = await self.client()
        shows = first.hello["shows"]
        other = Client(await self.socket(), self.desk)
        await other.send({"token": shows})
        await other.until(lambda: other.ready and other.costs)
        self.assertEqual((other.hello["shows"], json.dumps(other.told).count(self.token)), (None, 0))
        for told in ({"edit": SHUT}, {"back": True}, {"keep": "A"}, {"undo": 1}):
            count = len(other.all("refused"))
            await other.send(told)
            await other.until(lambda: len(other.all("refused")) > count)
            self.assertIn("only shows", other.all("refused")[-1])
        await first.change({"edit": SHUT})
        self.assertEqual((await other.see(80), other.list), (await first.see(80), first.list))
        answer = await self.fetch("script.jsonl", "POST", Origin=self.origin, **{"X-Token": shows})
        self.assertNotEqual(answer.code, 200)

    async def test_a_text_that_turns_the_line(self) -> None:
        """A sign of a script's text that would turn what follows is shown as no letter."""
        script = self.folder / "turned.jsonl"
        edit = {"kind": "limit", "link": "north_east", "from": 0, "to": 9, "vehicles": "1"}
        change = {"text": "\u202edesolc\u2066", "by": "me"}
        script.write_text(json.dumps({"do": "edit", "edits": [edit], "change": change}) + "\n")
        await self.start(script.name)
        self.assertEqual((await self.client()).list[0]["text"], "\ufffddesolc\ufffd")

    async def test_bodies_and_connections(self) -> None:
        """A body that is announced without the token is not waited for; connections beyond the bound are cut off, and
        those within it are answered again once these have gone."""
        await self.start()
        port = int(self.origin.rpartition(":")[2])
        for line in ("POST /case.zip", "POST /", "POST /nothing", "GET /"):
            reader, writer = await asyncio.open_connection("127.0.0.1", port)
            writer.write(f"{line} HTTP/1.1\r\nHost: 127.0.0.1:{port}\r\nContent-Length: 60000\r\n\r\nx".encode())
            self.assertNotIn(b" 200 ", await asyncio.wait_for(reader.read(), 5), line)
            writer.close()
        asked = f"GET / HTTP/1.1\r\nHost: 127.0.0.1:{port}\r\n".encode()
        opened = [await asyncio.open_connection("127.0.0.1", port) for _ in range(140)]
        for _, writer in opened:
            writer.write(asked)
        self.assertEqual(await asyncio.wait_for(opened[-1][0].read(), 5), b"")
        for _, writer in opened:
            writer.close()
        await asyncio.sleep(0.1)
        self.assertEqual((await self.fetch("")).code, 200)

    async def test_a_browser_goes(self) -> None:
        """What it asked for stands, and another sees it."""
        await self.start()
        first, other = await self.client(), await self.client()
        await other.send({"edit": SHUT})
        other.socket.close()
        await first.until(lambda: len(first.list) == 1)
        await first.until(lambda: len(self.desk.browsers) == 1)
        self.assertEqual(first.list[0]["by"], "browser 2")

    async def test_a_fault_of_the_server(self) -> None:
        """It is told, and the list stands."""
        await self.start()
        client = await self.client()
        with mock.patch.object(self.scenario, "add", side_effect=ZeroDivisionError), self.assertLogs("ltm_tools.live"):
            self.assertIn("a fault of the server", await client.change({"edit": SHUT}))
        self.assertEqual(await client.change({"edit": SHUT}), "")
        await asyncio.sleep(0)


class Opening(FolderTest):
    def test_the_file_that_leads(self) -> None:
        """The address is in no words of a command: a file that this user alone can read has it."""
        with mock.patch.object(opening.webbrowser, "open", return_value=True) as opened, mock.patch.object(
            opening, "has_window", return_value=True
        ):
            self.assertTrue(opening.open_browser("http://127.0.0.1:1/#a<b", str(self.folder)))
        path = self.folder / "live.html"
        opened.assert_called_once_with(path.as_uri())
        self.assertEqual(stat.S_IMODE(path.stat().st_mode), 0o600)
        self.assertIn(html.escape("http://127.0.0.1:1/#a<b"), path.read_text())
        self.assertNotIn("a<b", path.read_text())


if __name__ == "__main__":
    unittest.main()
