"""The live map while it is panned and played in a headless Chromium: frames per second, and how long it takes to
open."""
from __future__ import annotations

import signal
import subprocess
import sys
from pathlib import Path
from typing import Any

from ltm_tools.errors import Fault

from .answers import of_process
from .browsing import FIRST, READY, browser_module, has_browser, until
from .made import Made, name
from .room import TOOLS, Room
from .tables import Table, figure

CITIES = (
    Made("grid", 23, 23, 8, 270),
    Made("grid", 63, 64, 16, 270),  # some 16,000 links
)
LASTS = 4000  # ms of panning and of playing
# Calls something in each frame of the browser for so long, and gives the number of frames in a second, and how many ms
# the longest of them took.
FRAMES = """\
const each = %s, [lasts] = arguments, times = [];
return new Promise(done => requestAnimationFrame(function step(now) {
  times.push(now);
  if (now - times[0] < lasts) {
    each(now - times[0], times.length);
    requestAnimationFrame(step);
    return;
  }
  %s
  const apart = times.slice(1).map((time, at) => time - times[at]);
  done([1000 * apart.length / (now - times[0]), Math.max(...apart)]);
}));"""
PAN = FRAMES % ("(_, at) => live.app.map.moveBy(at % 40 < 20 ? 6 : -6, at % 20 < 10 ? 3 : -3)", "")
PLAY = FRAMES % ("(_, at) => { if (at === 1) live.app.player.play(); }", "live.app.player.stop();")
SHOWN = "return live.state.frame.k === live.app.player.here() ? 1 : 0"
ZOOMED = "live.app.map.zoomBy(4); return 1"


def panning(room: Room) -> Table:
    """Frames per second and opening, for networks that grow."""
    return table_of(room, CITIES)


def table_of(room: Room, cities: tuple[Made, ...]) -> Table:
    """The same for these networks."""
    if not has_browser():
        raise Fault("not installed: chromium, chromium-driver")
    table = Table(
        (
            "links, slots",
            "first map",
            "base there",
            "server",
            "program",
            "panned",
            "longest",
            "panned, all in sight",
            "longest",
            "played",
            "longest",
        ),
        remarks=[
            "The first map and the base, which all changes wait for, are in ms by the clock of the browser since the "
            "page was asked for; server and program have the seconds of processor time that they took until then. The "
            f"others are frames per second, with the longest frame in ms: {LASTS // 1000} s of panning at four times "
            "the size and with all of the network in sight, and of playing. Headless Chromium paints by the processor."
        ],
    )
    for number, made in enumerate(cities):
        folder = room.folder / f"city{number}"
        case = made.write(folder)
        (folder / "nodes.csv").write_text(places(made))
        cells = [figure(value) for value in watched(folder, room.program)]
        table.rows.append((f"{len(case.links):,}, {made.slots:,}", *cells))
    return table


def places(made: Made) -> str:
    """Where the nodes of a grid lie."""
    rows = [f"{name(node)},{node[1] * 300},{node[0] * 300}\n" for node in made.nodes]
    return "name,x,y\n" + "".join(rows)


def watched(case: Path, program: Path) -> list[float]:
    """The columns of a case."""
    words = [sys.executable, str(TOOLS), "live", str(case), "--program", str(program), "--no-open"]
    server = subprocess.Popen(words, stdout=subprocess.PIPE, stderr=subprocess.DEVNULL, text=True)
    window = browser_module().Browser()
    try:
        assert server.stdout is not None
        window.size(1280, 720)
        window.visit(server.stdout.readline().strip())
        first = until(window, FIRST)
        until(window, READY)
        there = window.run("return performance.now()")
        server_s, program_s = (sum(map(of_process, numbers)) / 1000 for numbers in ([server.pid], children(server.pid)))
        return [float(first), float(there), server_s, program_s, *moving(window)]
    finally:
        window.close()
        server.send_signal(signal.SIGINT)
        server.wait()


def children(number: int) -> list[int]:
    """The processes that a process has started and that run."""
    return [int(one) for one in Path(f"/proc/{number}/task/{number}/children").read_text().split()]


def moving(window: Any) -> list[float]:
    """Frames per second and the longest frame while the map is panned near, panned far, and played."""
    far = window.run(PAN, LASTS)
    window.run(ZOOMED)
    near = window.run(PAN, LASTS)
    window.run("live.app.map.zoomBy(); return 1")
    until(window, SHOWN)
    return [*near, *far, *window.run(PLAY, LASTS)]
