"""A headless Firefox, driven over its own protocol (Marionette) as `browser` drives Chromium over WebDriver."""
from __future__ import annotations

import json
import shutil
import socket
import subprocess
import tempfile
import time
import unittest
from itertools import count
from pathlib import Path
from typing import Any

FIREFOX = shutil.which("firefox-esr") or shutil.which("firefox")
COMMANDS = {
    "url": "Navigate",
    "execute/sync": "ExecuteScript",
    "actions": "PerformActions",
    "element": "FindElement",
    "screenshot": "TakeScreenshot",
}
PREFERENCES = {
    "browser.aboutwelcome.enabled": False,
    "browser.download.folderList": 2,
    "browser.helperApps.neverAsk.saveToDisk": "application/octet-stream",
    "browser.shell.checkDefaultBrowser": False,
    "browser.startup.page": 0,
    "datareporting.policy.dataSubmissionEnabled": False,
}
ERRORS = (
    "const told = Services.console.getMessageArray().filter(one => one instanceof Ci.nsIScriptError"
    " && /^(http|file|content)/.test(one.sourceName + one.category) && !(one.flags & 1)).map(one => one.message);"
    " Services.console.reset(); return told"
)


class Firefox:
    """A window; `close` ends it. It has what the tests use of `browser.Browser`, which inherits the rest."""

    session = "/session"

    def __init__(self) -> None:
        with socket.socket() as free:
            free.bind(("127.0.0.1", 0))
            port = free.getsockname()[1]
        self.profile = tempfile.TemporaryDirectory(prefix="firefox-")
        wanted = {**PREFERENCES, "marionette.port": port}
        Path(self.profile.name, "user.js").write_text(
            "".join(f"user_pref({json.dumps(name)}, {json.dumps(value)});\n" for name, value in wanted.items())
        )
        self.process = subprocess.Popen(
            [
                str(FIREFOX),
                "--headless",
                "--marionette",
                "--remote-allow-system-access",
                "--no-remote",
                "--profile",
                self.profile.name,
            ],
            stdout=subprocess.DEVNULL,
            stderr=subprocess.DEVNULL,
        )
        self.numbers, self.socket = count(1), self.connected(port)
        try:
            self.told()
            self.ask("WebDriver:NewSession", {"capabilities": {"alwaysMatch": {"acceptInsecureCerts": True}}})
        except BaseException:
            self.close()
            raise

    def connected(self, port: int) -> socket.socket:
        for _ in range(1200):
            try:
                return socket.create_connection(("127.0.0.1", port), 300)
            except OSError:
                time.sleep(0.05)
        self.process.kill()
        raise AssertionError("Firefox does not answer")

    def told(self) -> Any:
        """A message: its length, a colon, and JSON."""
        length = b""
        while (sign := self.socket.recv(1)) != b":":
            assert sign, "Firefox is gone"
            length += sign
        data = b""
        while len(data) < int(length):
            data += self.socket.recv(int(length) - len(data))
        return json.loads(data)

    def ask(self, name: str, parameters: object = None) -> Any:
        number = next(self.numbers)
        data = json.dumps([0, number, name, parameters or {}]).encode()
        self.socket.sendall(b"%d:%b" % (len(data), data))
        _, answered, error, result = self.told()
        assert answered == number
        if error:
            raise AssertionError(error["message"])
        return result["value"] if isinstance(result, dict) and set(result) == {"value"} else result

    def call(self, method: str, path: str, body: object = None) -> Any:
        """A command of WebDriver by its path."""
        kept, _, last = path.removeprefix(self.session + "/").rpartition("/")
        if kept.startswith("element/"):
            return self.ask("WebDriver:ElementSendKeys", {"id": kept.partition("/")[2], **(body or {})})  # type: ignore
        return self.ask("WebDriver:" + COMMANDS[f"{kept}/{last}".strip("/")], body)

    def size(self, width: int, height: int) -> None:
        """Makes the inside of the window so large."""
        around = self.call(
            "POST",
            "/session/execute/sync",
            {"script": "return [outerWidth - innerWidth, outerHeight - innerHeight]", "args": []},
        )
        self.ask("WebDriver:SetWindowRect", {"width": width + around[0], "height": height + around[1]})

    def within(self, script: str, *args: object) -> Any:
        """What a script returns that may ask the browser itself."""
        self.ask("Marionette:SetContext", {"value": "chrome"})
        try:
            return self.ask("WebDriver:ExecuteScript", {"script": script, "args": args})
        finally:
            self.ask("Marionette:SetContext", {"value": "content"})

    def console(self) -> list[str]:
        """The faults of pages."""
        return list(self.within(ERRORS))

    def command(self, name: str, **parameters: object) -> Any:
        """What Chromium's developer tools are asked."""
        if name != "Page.setDownloadBehavior":
            raise unittest.SkipTest(f"Firefox has no {name}")
        return self.within(
            "Services.prefs.setStringPref('browser.download.dir', arguments[0])", parameters["downloadPath"]
        )

    def close(self) -> None:
        self.socket.close()
        self.process.terminate()
        self.process.wait()
        self.profile.cleanup()
