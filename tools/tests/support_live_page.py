"""A page of the live map in a browser."""
import json
import signal
import subprocess
import sys
import time
from browser import BrowserTest
from pathlib import Path

from support import BUILT, CLONE, EXAMPLES
from ltm_tools.case import Case, Limit
from ltm_tools.formats import told_time
from ltm_tools.listing import HOURS


class LivePage(BrowserTest):
    """A live server, and its page in a browser."""

    def serve(self, name: str = "closures", case: Case | None = None, beside: dict[str, str] | None = None) -> str:
        """Serves a case with files beside it, else one with a signal, under a name, and opens its page: the address."""
        self.where = self.folder / name
        if case is None:
            case = Case.read(EXAMPLES / "closures")
            case.setup.signals, case.signals = True, [Limit("south_east", 20, 50, 1000)]
        case.write(self.where)
        for file, text in (beside or {}).items():
            (self.where / file).write_text(text)
        words = [
            "live",
            str(self.where),
            "--program",
            str(BUILT),
            "--start",
            "7:00",
            "--no-open",
            "--script",
            str(self.folder / "script.jsonl"),
        ]
        self.server = subprocess.Popen(
            [sys.executable, str(CLONE / "tools" / "ltm-tools"), *words],
            stdout=subprocess.PIPE,
            stderr=subprocess.PIPE,
            text=True,
        )
        self.addCleanup(self.end)
        assert self.server.stdout is not None
        address = self.server.stdout.readline().strip()
        self.browser.size(1280, 720)
        self.browser.console()
        self.browser.visit(address)
        self.opened()
        return address

    def end(self) -> None:
        """Leaves the page, and ends its server."""
        self.browser.visit("about:blank")
        self.stop()

    def stop(self) -> None:
        self.server.send_signal(signal.SIGINT)
        self.server.communicate(timeout=60)

    def opened(self) -> None:
        self.browser.until("return window.live && live.state.ready && live.state.costs && live.state.frame")

    def text(self, selector: str) -> str:
        return str(self.browser.run("return document.querySelector(arguments[0]).innerText", selector))

    def texts(self, selector: str) -> list[str]:
        return list(
            self.browser.run(
                "return [...document.querySelectorAll(arguments[0])].map(each => each.textContent)", selector
            )
        )

    def press(self, selector: str, number: int = 0) -> None:
        """A click of the mouse on an element."""
        self.browser.click_on(selector, number)

    def click(self, name: str) -> None:
        """A click of the mouse on a road of the map."""
        self.browser.click_map("live.middle(args[0])", name)

    def wait(self, count: int) -> None:
        """Waits until so many changes stand, and all is shown that comes of them."""
        self.browser.until(
            "const one = live.times[live.times.length - 1], {state} = live; return state.list.length === arguments[0]"
            " && one.counted && one.painted && [state.frame, state.costs, state.strip]"
            ".every(each => each && each.revision === state.revision)",
            count,
        )

    def see(self, boundary: int) -> None:
        self.browser.run(
            "const time = document.getElementById('time'); time.value = arguments[0];"
            " time.dispatchEvent(new Event('input'))",
            boundary,
        )
        self.browser.until(
            "return live.state.frame && live.state.frame.k === arguments[0] &&"
            " live.state.frame.revision === live.state.revision",
            boundary,
        )

    def shut(self, name: str, count: int) -> None:
        """Shuts a road by two clicks: on the map, and on the button."""
        self.click(name)
        self.assertEqual(self.text("#edit h2").split()[:2], ["Road", name])
        self.press("#edit form button")
        self.wait(count)

    def saved(self, name: str) -> Path:
        """Waits until the browser has saved a file of this name."""
        path = self.folder / name
        for _ in range(500):
            if path.exists() and path.stat().st_size:
                return path
            time.sleep(0.02)
        raise AssertionError(f"{name} is not saved")

    def program(self, *questions: dict[str, object]) -> list[str]:
        """What the program answers after the script that the server keeps."""
        script = self.folder / "script.jsonl"
        lines = (script.read_bytes() if script.exists() else b"") + b'{"do":"settle"}\n'
        asked = b"".join(json.dumps(one).encode() + b"\n" for one in questions)
        return (
            subprocess.run(
                [BUILT, "session", "0"], cwd=self.where, input=lines + asked, stdout=subprocess.PIPE, check=True
            )
            .stdout.decode()
            .splitlines()[-len(questions) :]
        )

    def check(self) -> None:
        """Every number on the page beside the program's."""
        slots = (0, 33, 60, 91, 120)
        *states, delays, totals = self.program(
            *({"do": "state", "slot": slot} for slot in slots), {"do": "delays"}, {"do": "totals"}
        )
        for slot, line in zip(slots, states):
            self.see(slot)
            queue = [int(word) for word in line.partition(" queue ")[2].partition(" waiting ")[0].split()]
            waiting = [int(word) for word in line.partition(" waiting ")[2].split()]
            self.assertEqual(
                self.browser.run("const {now} = live.state.frame; return [[...now.queue], [...now.waiting]]"),
                [queue, waiting],
            )
        words = delays.split()
        rest = int(totals.split()[7].replace(".", "")) + int(totals.split()[9].replace(".", ""))
        hours = [f"{HOURS.show(told_time(words[at])):f}" for at in (3, 5, 7)]
        mean = (told_time(words[5]) + told_time(words[7])) / int(totals.split()[3].replace(".", "")) / 1000
        self.assertEqual(self.texts("#sums dd"), [hours[0], f"{mean:.1f}", *hours[1:], f"{rest / 1000:.3f}"])
        names = [link.name for link in Case.read(self.where).links]
        queued = {name: f"{HOURS.show(told_time(words[9 + 4 * at + 1])):f}" for at, name in enumerate(names)}
        shown = dict(zip(self.texts("#roads td:nth-child(1)"), self.texts("#roads td:nth-child(5)")))
        self.assertEqual(
            {name: text for name, text in shown.items() if name in queued},
            {name: text for name, text in queued.items() if name in shown},
        )
        self.assertEqual([text for name, text in queued.items() if name not in shown and text != "0.00"], [])
