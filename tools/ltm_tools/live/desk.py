"""The one task that talks to a scenario: what browsers ask for is done in the order in which it came, and all that
waits comes before one settle. Each browser is then shown the boundary that it sees, its curves, and what it all costs.

Where the program ends it is opened anew, and the list made again. A change at which it ends twice is taken back.
"""
from __future__ import annotations

import asyncio
import logging
import time
from collections.abc import Callable, Iterable, Sequence
from concurrent.futures import ThreadPoolExecutor
from dataclasses import replace
from functools import partial
from typing import Protocol, TypeVar

from ..errors import Fault
from ..scenario.session import Ended
from .asks import Members
from .changing import Changing
from .entries import Entry
from .hearing import Question, Seekers, question_of
from .kept import Script, kept_of, page_of
from .messages import Make, Told, told_curve, told_delays, told_list, told_totals
from .route import Route, told_route
from .scenario import Scenario
from .strip import Strip

Done = TypeVar("Done")
TRIED_AGAIN = 1.0  # seconds
OURS = "The change was not made because of a fault of the server, which is on its standard error."
LOG = logging.getLogger(__name__)


class Browser(Protocol):
    """A browser that looks on."""

    name: str
    boundary: int
    since: int | None  # the boundary from which on it is shown what has left links
    wanted: bool  # whether it is to be shown its boundary
    picked: tuple[str, str] | None  # what it has picked: a `link`, a `node` or an `approach`, and its name
    shown: tuple[int, tuple[str, str] | None]  # the revision and the pick of the curves that it has
    pending: int
    beside: str | None  # the scenario that it is shown beside the list
    route: Route  # the links that it has put together
    routed: tuple[int, Route]  # the revision and the links of the route that it has

    def send(self, told: Told | bytes) -> None:
        """Tells it something."""


class Desk:
    """A scenario, the browsers that look at it, and what they ask for."""

    def __init__(self, scenario: Scenario, script: Script | None = None) -> None:
        self.scenario, self.script = scenario, script
        self.jobs: asyncio.Queue[tuple[Browser, Make] | None] = asyncio.Queue()
        self.browsers: set[Browser] = set()
        self.thread, self.beside = ThreadPoolExecutor(1, "scenario"), ThreadPoolExecutor(1, "pages")
        self.seekers = Seekers(scenario)
        self.tasks: set[asyncio.Task[None]] = set()  # for which shares are sought
        self.changing, self.strip = Changing(scenario, script), Strip(scenario)
        self.costs: Told = {}
        self.base: Told = {}
        self.ready, self.stale = False, False  # whether the base is there; whether the list is not settled yet

    async def call(self, work: Callable[[], Done]) -> Done:
        """Has the one thread do something with the scenario."""
        return await asyncio.get_running_loop().run_in_executor(self.thread, work)

    async def page(self, told: Members) -> bytes:
        """The scenario as a page, made beside all else, so that no map stands still meanwhile."""
        costs = self.costs.get("costs")
        kept = await self.call(partial(kept_of, self.scenario, costs if isinstance(costs, dict) else {}, told))
        return await asyncio.get_running_loop().run_in_executor(self.beside, partial(page_of, kept))

    def tell(self, told: Told) -> None:
        """Tells all browsers something."""
        for browser in self.browsers:
            browser.send(told)

    def tell_once(self, told: Told | None) -> None:
        """Tells all browsers something, where there is anything."""
        if told is not None:
            self.tell(told)

    def look(self) -> None:
        """Has the browsers shown what they want, once all is done that came before."""
        if self.jobs.empty():
            self.jobs.put_nowait(None)

    def told(self, browser: Browser) -> list[Told]:
        """What a browser is told that has just come: the list, and its effect."""
        self.tell_list([browser])
        return [told for told in (self.costs, self.strip.told, self.changing.scenes.told()) if told]

    def tell_list(self, browsers: Iterable[Browser], **more: object) -> None:
        """Tells browsers the list, and whether each may undo and redo."""
        scenario = self.scenario
        told: Told = {
            "list": told_list(scenario.entries, scenario.slots),
            "ready": self.ready,
            "revision": scenario.revision,
            **more,
        }
        for browser in browsers:
            undo, redo = self.changing.history.can(browser.name)
            browser.send({**told, "undo": undo, "redo": redo})

    async def begin(self) -> None:
        """Fetches the base, then makes what the script has."""
        scenario = self.scenario
        while not scenario.ready:
            await self.call(scenario.fill_base)
            await self.show()
        if self.script is not None:
            await self.call(partial(self.script.read, scenario))
        self.ready = True
        if scenario.entries:
            await self.call(scenario.settle)
        await self.count()
        for browser in self.browsers:
            browser.wanted = True
        self.tell_list(self.browsers)
        await self.show()

    async def work(self) -> None:
        """Does what browsers ask for, for ever, once the base is there."""
        if not self.ready:
            await self.begin()
        while True:
            try:
                if self.jobs.empty() and not self.stale and self.strip.is_due:
                    self.tell_once(await self.call(self.strip.more))
                    continue
                jobs = [await self.jobs.get()]
                while not self.jobs.empty():
                    jobs.append(self.jobs.get_nowait())
                await self.do([job for job in jobs if job is not None])
            except Ended as ended:
                await self.reopen(ended)
                self.look()
            except Fault as fault:
                self.tell({"notice": str(fault)})

    async def do(self, jobs: Sequence[tuple[Browser, Make]]) -> None:
        """Makes changes of the list, settles them, and shows what comes of it."""
        before, changed = self.scenario.entries, False
        try:
            for browser, make in jobs:
                if make.what in ("keep", "drop"):
                    continue
                if make.is_sought:
                    await self.seek(browser, make)
                else:
                    changed = await self.make(browser, make) or changed
            anew = changed or self.stale
            if anew:
                await self.settle(before, sum(make.found.seconds for _, make in jobs if make.found is not None))
            await self.show()
            if anew:
                await self.count()
            for browser, make in jobs:
                await self.keep(browser, make)
            await self.call(self.scenario.renew)
        finally:
            for browser, _ in jobs:
                browser.pending -= 1

    async def keep(self, browser: Browser, make: Make) -> None:
        """Keeps what is shown under a name, or removes what was kept, where that is asked for."""
        costs = self.costs.get("costs")
        while make.what == "keep" and self.strip.is_due:
            self.tell_once(await self.call(self.strip.more))
        try:
            if self.changing.keep(make, costs if isinstance(costs, dict) else {}, self.strip):
                self.tell(self.changing.scenes.told())
        except Fault as fault:
            self.refuse(browser, make, fault)

    async def make(self, browser: Browser, make: Make) -> bool:
        """Makes one change of the list, and has the script written: whether it was made."""
        before = self.scenario.entries
        for last in (False, True):
            try:
                await self.call(partial(self.changing.change, browser.name, make))
                return True
            except Ended as ended:
                await self.reopen(ended)
                if last:
                    browser.send(
                        {"refused": "The program ended twice at this change, which was not made.", "at": make.at}
                    )
            except Fault as fault:
                if self.scenario.entries is not before:  # it was made, and could not be written
                    await self.call(partial(self.scenario.change, before))
                self.refuse(browser, make, fault)
                return False
            except Exception as error:
                self.refuse(browser, make, error)
                return False
        return False

    async def seek(self, browser: Browser, make: Make) -> None:
        """Has the shares sought of those who hear of a closure, which is made once they are found."""
        try:
            question = await self.call(partial(question_of, self.scenario, make.edit))
        except Exception as error:
            self.refuse(browser, make, error)
            return
        browser.pending += 1
        task = asyncio.ensure_future(self.found(browser, make, question))
        self.tasks.add(task)
        task.add_done_callback(self.tasks.discard)

    async def found(self, browser: Browser, make: Make, question: Question) -> None:
        """Has a closure made once the shares are found of those who hear of it."""
        try:
            found = await self.seekers.found(
                (browser, make.at), question, lambda told: browser.send({**told, "at": make.at})
            )
        except Exception as error:
            browser.pending -= 1
            self.refuse(browser, make, error)
        else:
            self.jobs.put_nowait((browser, replace(make, found=found)))

    def refuse(self, browser: Browser, make: Make, error: Exception) -> None:
        """Tells a browser why a change is not made; a fault of this server is no reason to lose the scenario."""
        is_ours = not isinstance(error, (Fault, OSError))
        if is_ours:
            LOG.error("a change was not made", exc_info=error)
        browser.send({"refused": OURS if is_ours else str(error), "at": make.at})

    def close(self) -> None:
        """Ends the program, and all that is sought."""
        self.seekers.close()
        self.scenario.close()

    async def settle(self, before: list[Entry], sought: float = 0.0) -> None:
        """Settles, and tells the list, and for how many seconds shares were sought; where the program ends at it twice,
        the list becomes that of before."""
        began = time.perf_counter()
        for tries in range(3):
            try:
                settled = await self.call(self.scenario.settle)
                self.stale = False
                break
            except Ended as ended:
                if tries == 1:
                    self.scenario.entries = before
                    self.tell({"refused": "The program ended twice at the last change, which was removed."})
                    await self.call(self.changing.write)
                elif tries == 2:
                    raise
                await self.reopen(ended)
        for browser in self.browsers:
            browser.wanted = True
        took = round(1e3 * (time.perf_counter() - began), 2)
        more: Told = {"sought": round(sought, 1)} if sought else {}
        self.tell_list(self.browsers, recomputed=settled.recomputed, ms=took, **more)

    async def reopen(self, ended: Ended) -> None:
        """Opens the program anew, and makes the list again, which is to be settled; tries that until it can."""
        self.tell({"notice": "The program ended. It is being started again with the same list."})
        LOG.warning("%s", ended)
        told, self.stale = "", True
        while True:
            try:
                return await self.call(self.scenario.recover)
            except (Fault, OSError) as fault:
                if str(fault) != told:
                    told = str(fault)
                    self.tell({"notice": f"There is no loading: {told}. You can still save the list as a script."})
                await asyncio.sleep(TRIED_AGAIN)

    async def count(self) -> None:
        """Asks what it all costs, and tells it."""
        scenario = self.scenario
        delays, totals = await self.call(lambda: (scenario.delays(), scenario.totals()))
        self.base = self.base or told_delays(scenario.base_delays)
        costs: Told = {"base": self.base, "now": told_delays(delays)}
        self.costs = {"costs": {**costs, **told_totals(scenario.base_totals, totals)}, "revision": scenario.revision}
        self.tell(self.costs)

    async def show(self) -> None:
        """Shows each browser its boundary, then its curves and its route."""
        for browser in list(self.browsers):
            if browser.wanted:
                browser.wanted = False
                if (scene := self.changing.scenes.beside(browser.beside)) is not None:
                    browser.send(await self.call(partial(scene.frame, browser.boundary, self.scenario.base.at)))
                browser.send(await self.call(partial(self.scenario.frame, browser.boundary, browser.since)))
        for browser in list(self.browsers):
            wanted = (self.scenario.revision, browser.picked)
            if self.ready and browser.picked is not None and browser.shown != wanted:
                browser.shown = wanted
                browser.send(await self.call(partial(told_curve, self.scenario, *browser.picked)))
        for browser in list(self.browsers):
            asked = (self.scenario.revision, browser.route)
            if self.ready and browser.route and browser.routed != asked:
                browser.routed = asked
                browser.send(await self.call(partial(told_route, self.scenario, browser.route)))
