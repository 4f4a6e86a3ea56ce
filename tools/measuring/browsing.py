"""The live map in a headless Chromium: how long from a change until it is drawn, by the clock."""
from __future__ import annotations

import signal
import statistics
import subprocess
import sys
from collections.abc import Sequence
from pathlib import Path
from typing import Any

from ltm_tools.program import CLONE

from .room import TOOLS

TESTS = CLONE / "tools" / "tests"
FIRST = "return window.live && live.state.frame ? performance.now() : 0"
READY = "return live.state.ready && live.state.costs ? 1 : 0"
CLOSE = "live.app.change({edit: {kind: 'close', link: arguments[0], from: arguments[1], to: arguments[2]}})"
UNDO = "live.app.change({back: true})"
SHOWN = """\
const one = live.times[live.times.length - 1];
return one.counted && one.painted && live.state.list.length === arguments[0] ?
  [one.drawn - one.asked, one.painted - one.asked, one.counted - one.asked] : null"""


def has_browser() -> bool:
    """Whether Chromium and its driver are there."""
    return browser_module().CHROMIUM is not None and browser_module().DRIVER is not None


def browser_module() -> Any:
    """The tests' browser."""
    if str(TESTS) not in sys.path:
        sys.path.insert(0, str(TESTS))
    import browser

    return browser


def drawn(case: Path, program: Path, links: Sequence[str], at: int, wide: int) -> list[float]:
    """By the clock of a browser, in ms: the first map after the page was asked for; and of links that are closed one
    by one, in the median, from the click until the map is drawn, until it is painted, and until totals and table
    are."""
    words = [sys.executable, str(TOOLS), "live", str(case), "--program", str(program), "--no-open"]
    server = subprocess.Popen(words, stdout=subprocess.PIPE, stderr=subprocess.DEVNULL, text=True)
    window = browser_module().Browser()
    try:
        assert server.stdout is not None
        window.size(1280, 720)
        window.visit(server.stdout.readline().strip())
        first = until(window, FIRST)
        until(window, READY)
        times = [closed(window, link, at, wide) for link in links]
        return [float(first), *(statistics.median(column) for column in zip(*times))]
    finally:
        window.close()
        server.send_signal(signal.SIGINT)
        server.wait()


def closed(window: Any, link: str, at: int, wide: int) -> list[float]:
    """From the click until the map is drawn, painted, and totals are there; the link is opened again."""
    window.run(CLOSE, link, at, at + wide)
    times = until(window, SHOWN, 1)
    window.run(UNDO)
    until(window, SHOWN, 0)
    return [float(time) for time in times]


def until(window: Any, script: str, *args: object) -> Any:
    """What a script returns once it returns anything."""
    window.until(script, *args)
    return window.run(script, *args)
