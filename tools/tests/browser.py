"""A headless Chromium, driven over the WebDriver protocol by Python's own library; LTM_BROWSER=firefox has the tests
run in Firefox."""
import base64
import json
import os
import shutil
import socket
import subprocess
import time
import unittest
import urllib.error
import urllib.request
from typing import Any

from clicks import Clicks
from firefox import FIREFOX, Firefox
from once_more import OnceMore
from support import FolderTest, needs

CHROMIUM, DRIVER = shutil.which("chromium"), shutil.which("chromedriver")
NULL, SHIFT, CTRL, TAB, ENTER = "\ue000", "\ue008", "\ue009", "\ue004", "\ue007"  # in WebDriver
LEFT, RIGHT = "\ue012", "\ue014"
HELD = (SHIFT, CTRL)
IN_FIREFOX = os.environ.get("LTM_BROWSER") == "firefox"
needs_browser = (
    unittest.skipUnless(FIREFOX, "not installed: firefox-esr") if IN_FIREFOX else needs("chromium", "chromium-driver")
)


class Browser(Clicks):
    """A window of 1400 by 900; `close` ends it."""

    def __init__(self) -> None:
        with socket.socket() as free:
            free.bind(("127.0.0.1", 0))
            port = free.getsockname()[1]
        self.process = subprocess.Popen(
            [str(DRIVER), f"--port={port}"], stdout=subprocess.DEVNULL, stderr=subprocess.DEVNULL
        )
        self.base, self.session = f"http://127.0.0.1:{port}", ""
        try:
            self.begin()
        except BaseException:
            self.close()
            raise

    def begin(self) -> None:
        for _ in range(200):
            try:
                self.call("GET", "/status")
                break
            except OSError:
                time.sleep(0.05)
        chrome = {
            "binary": CHROMIUM,
            "args": ["--headless=new", "--no-sandbox", "--disable-gpu", "--window-size=1400,900"],
        }
        wanted = {"browserName": "chrome", "goog:loggingPrefs": {"browser": "ALL"}, "goog:chromeOptions": chrome}
        self.session = (
            "/session/" + self.call("POST", "/session", {"capabilities": {"alwaysMatch": wanted}})["sessionId"]
        )

    def call(self, method: str, path: str, body: object = None) -> Any:
        data = None if body is None else json.dumps(body).encode()
        request = urllib.request.Request(self.base + path, data, {"Content-Type": "application/json"}, method=method)
        try:
            with urllib.request.urlopen(request, timeout=300) as answer:
                return json.load(answer)["value"]
        except urllib.error.HTTPError as error:
            raise AssertionError(json.load(error)["value"]["message"]) from None

    def open(self, path: object) -> None:
        self.visit(f"file://{path}")

    def visit(self, address: str) -> None:
        self.call("POST", self.session + "/url", {"url": address})

    def size(self, width: int, height: int) -> None:
        """Makes the window so large."""
        self.command(
            "Emulation.setDeviceMetricsOverride", width=width, height=height, deviceScaleFactor=1, mobile=False
        )

    def until(self, script: str, *args: object) -> None:
        """Waits until a script returns what is true."""
        for _ in range(2_000):
            if self.run(script, *args):
                return
            time.sleep(0.02)
        raise AssertionError(f"waited in vain: {script} {args}; {self.told_state()}")

    def type(self, keys: str) -> None:
        """Keys for whatever has the focus, one after the other; Shift or Ctrl holds until the key NULL."""
        steps, held = [], []
        for key in keys:
            if key == NULL:
                steps += [{"type": "keyUp", "value": one} for one in held]
                held = []
            elif key in HELD:
                steps.append({"type": "keyDown", "value": key})
                held.append(key)
            else:
                steps += [{"type": "keyDown", "value": key}, {"type": "keyUp", "value": key}]
        self.call("POST", self.session + "/actions", {"actions": [{"type": "key", "id": "keys", "actions": steps}]})

    def run(self, script: str, *args: object) -> Any:
        """What a script returns."""
        return self.call("POST", self.session + "/execute/sync", {"script": script, "args": args})

    def click(self, x: float, y: float) -> None:
        """A click of the mouse at a point of the window."""
        steps = [
            {"type": "pointerMove", "duration": 0, "x": round(x), "y": round(y)},
            {"type": "pointerDown", "button": 0},
            {"type": "pointerUp", "button": 0},
        ]
        self.call(
            "POST",
            self.session + "/actions",
            {"actions": [{"type": "pointer", "id": "mouse", "parameters": {"pointerType": "mouse"}, "actions": steps}]},
        )

    def press(self, selector: str, keys: str) -> None:
        """Keys into an element."""
        element = next(
            iter(self.call("POST", self.session + "/element", {"using": "css selector", "value": selector}).values())
        )
        self.call("POST", f"{self.session}/element/{element}/value", {"text": keys})

    def command(self, name: str, **parameters: object) -> Any:
        """A command of the browser's developer tools."""
        return self.call("POST", self.session + "/goog/cdp/execute", {"cmd": name, "params": parameters})

    def console(self) -> list[str]:
        """What stands on the console."""
        return [line["message"] for line in self.call("POST", self.session + "/se/log", {"type": "browser"})]

    def picture(self, path: str) -> None:
        with open(path, "wb") as file:
            file.write(base64.b64decode(self.call("GET", self.session + "/screenshot")))

    def close(self) -> None:
        try:
            if self.session:
                self.call("DELETE", self.session)
        finally:
            self.process.terminate()
            self.process.wait()


class InFirefox(Firefox, Browser):
    """A window of Firefox."""


@needs_browser
class BrowserTest(OnceMore, FolderTest):
    """A folder of its own for each test, and one browser for all of the class."""

    browser: Browser

    @classmethod
    def setUpClass(cls) -> None:
        cls.browser = InFirefox() if IN_FIREFOX else Browser()

    def anew(self) -> None:
        self.tearDownClass()
        self.setUpClass()

    @classmethod
    def tearDownClass(cls) -> None:
        cls.browser.close()
