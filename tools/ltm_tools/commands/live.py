"""`ltm-tools live`: a case in one running session, looked at and edited in browsers on this machine."""
from __future__ import annotations

import argparse
import asyncio
import signal
import tempfile
from collections.abc import Sequence
from typing import TYPE_CHECKING

from ..case.clock import start_of
from ..errors import Fault
from .arguments import add_program_argument, add_start_argument, whole

if TYPE_CHECKING:
    from ..live.desk import Desk

NAME = "live"
SUMMARY = "open a live map: close roads, change signals and demand, and see the effect on queues and travel time"
EXAMPLES = """\
    ltm-tools live examples/corridor --start 7:00
    ltm-tools live examples/corridor --script /tmp/changes.jsonl --port 8123 --no-open

The map is for this machine alone: anybody who has the address with its token sees and edits the scenario, in as many
windows as they like. With --script the list of changes begins as the file says, and each change is in the file before
it is shown. Ctrl-C ends the server and the program behind it. Needs python3-tornado and node-d3.
"""
MOST_PORT = 65_535


def needs(args: argparse.Namespace) -> Sequence[str]:
    """The libraries beside Python's own that it cannot do without."""
    return ("tornado", "d3") if args.d3 is None else ("tornado",)


def add_arguments(parser: argparse.ArgumentParser) -> None:
    parser.add_argument("case", metavar="CASE", help="the folder of a case")
    add_start_argument(parser)
    parser.add_argument(
        "--script",
        metavar="FILE",
        help="a script of changes to begin with, which each change is"
        " written to (else the list ends with the server)",
    )
    parser.add_argument(
        "--port", metavar="N", type=whole, default=0, help="the port of 127.0.0.1 (default: a free one)"
    )
    parser.add_argument("--no-open", action="store_true", help="print the address, and open no browser")
    parser.add_argument(
        "--d3", metavar="FILE", help="the library d3 (else $LTM_D3, or that of Debian's package node-d3)"
    )
    add_program_argument(parser)


def run(args: argparse.Namespace) -> int:
    from ..live.desk import Desk
    from ..live.kept import Script
    from ..live.scenario import Scenario

    if not 0 <= args.port <= MOST_PORT:
        raise Fault(f"there is no port {args.port}: it is a number from 0 to {MOST_PORT}")
    scenario = Scenario(args.case, args.program, start_of(args.start, args.case))
    try:
        asyncio.run(served(Desk(scenario, Script(args.script) if args.script else None), args))
    finally:
        scenario.close()
    return 0


async def served(desk: Desk, args: argparse.Namespace) -> None:
    """Serves until a signal ends it."""
    from ..live.opening import open_browser
    from ..live.server import serve

    stop, loop = asyncio.Event(), asyncio.get_running_loop()
    for number in (signal.SIGINT, signal.SIGTERM, signal.SIGHUP):
        loop.add_signal_handler(number, stop.set)
    with tempfile.TemporaryDirectory(prefix="ltm-live-") as folder:

        def ready(address: str) -> None:
            print(address, flush=True)
            if not args.no_open:
                open_browser(address, folder)

        await serve(desk, args.port, args.d3, ready, stop)
