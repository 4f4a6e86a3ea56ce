"""Who hears of a closure: the shares of those who do are sought in a session of their own, while the scenario goes
on."""
from __future__ import annotations

import asyncio
import threading
import time
from collections.abc import Callable
from concurrent.futures import ThreadPoolExecutor
from dataclasses import dataclass
from functools import partial

from ..errors import Fault
from ..libraries import PACKAGES, missing
from ..scenario.batches import Batch
from ..scenario.edits import Edit
from ..scenario.versions import case_at
from .asks import Ask, Members, ask_of
from .entries import Effect
from .scenario import Before, Scenario

NEEDS = ("numpy",)
ROUNDS = 8  # of loadings, of which that is taken with which those who hear of it lose least
STOPPED = "Stopped: nothing was changed."


@dataclass(frozen=True, slots=True)
class Question:
    """A closure of which some hear, and the scenario in which it comes: its batches, and its entries."""

    ask: Ask
    batches: list[Batch]
    before: Before


@dataclass(frozen=True, slots=True)
class Found:
    """The shares of those who hear of a closure, as edits, and their effect; the entries for which they were found, and
    the seconds that it took."""

    edits: list[Edit]
    effect: Effect
    before: Before
    seconds: float


def lacking() -> str:
    """The package that is wanted to seek shares, where it is not there."""
    return " ".join(PACKAGES[name] for name in missing(NEEDS))


def question_of(scenario: Scenario, told: Members) -> Question:
    """What is to be found for a closure that a browser asks for; a Fault where it is refused."""
    if lacking():
        raise Fault(f"Other routes are sought with {lacking()}, which is not installed.")
    return Question(ask_of(told, scenario.case, scenario.known), scenario.batches(), scenario.standing())


def sought(scenario: Scenario, question: Question, done: Callable[[int], object]) -> tuple[list[Edit], Effect]:
    """The edits of shares by which informed drivers go, and their effect. `done` is called before each round with how
    many are done."""
    from ..assign.assigning import AssignOptions
    from ..assign.closing import Closure, respond

    ask, options = question.ask, AssignOptions(iterations=ROUNDS)
    scenario.unchanged()
    case, closure = case_at(scenario.folder, question.batches), Closure(ask.link, ask.first, ask.end)
    found = respond(case, closure, ask.informed, options, scenario.program, done)
    return found.edits, Effect(found.open, found.cost.alone, found.cost.spent)


class Seekers:
    """What is sought for closures, one after the other."""

    def __init__(self, scenario: Scenario) -> None:
        self.scenario, self.thread = scenario, ThreadPoolExecutor(1, "seeker")
        self.stops: dict[object, threading.Event] = {}

    async def found(self, key: object, question: Question, tell: Callable[[dict[str, object]], object]) -> Found:
        """What is found for a closure; how far it is, is told before each round."""
        loop, began = asyncio.get_running_loop(), time.perf_counter()
        stop = self.stops[key] = threading.Event()
        text = question.ask.text(self.scenario.start, self.scenario.step)

        def done(rounds: int) -> None:
            if stop.is_set():
                raise Fault(STOPPED)
            seconds = round(time.perf_counter() - began, 2)
            loop.call_soon_threadsafe(tell, {"seeking": text, "rounds": rounds, "most": ROUNDS, "seconds": seconds})

        done(0)
        try:
            edits, effect = await loop.run_in_executor(self.thread, partial(sought, self.scenario, question, done))
            return Found(edits, effect, question.before, time.perf_counter() - began)
        finally:
            self.stops.pop(key, None)

    def stop(self, key: object) -> None:
        """Ends what is sought, once the round ends that is on."""
        if (stop := self.stops.get(key)) is not None:
            stop.set()

    def close(self) -> None:
        """Ends all that is sought."""
        for stop in self.stops.values():
            stop.set()
