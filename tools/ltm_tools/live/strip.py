"""The strip of time: all queues over the horizon, now and in the base, and how much they differ. It is asked for in
pieces while nobody waits for anything else."""
from __future__ import annotations

from collections.abc import Sequence

from .frames import Boundary
from .messages import Told
from .scenario import Scenario

MOST = 120  # boundaries that are asked for
PIECE = 10  # of them at a time


class Strip:
    """What the strip of a scenario shows, as far as it is known."""

    def __init__(self, scenario: Scenario) -> None:
        self.scenario, self.revision = scenario, -1
        self.stride = -(-scenario.slots // MOST)
        self.places = [*range(0, scenario.slots, self.stride), scenario.slots]
        self.now: list[int] = []
        self.differs: list[int] = []
        self.moments: list[Boundary] = []
        self.told: Told = {}

    @property
    def is_due(self) -> bool:
        """Whether something of it is still to be asked for."""
        scenario = self.scenario
        return scenario.ready and (self.revision != scenario.revision or len(self.now) < len(self.places))

    def more(self) -> Told | None:
        """Asks for a piece of it; what browsers are told once it is whole."""
        scenario = self.scenario
        if self.revision != scenario.revision:
            self.revision, self.now, self.differs, self.moments = scenario.revision, [], [], []
        scenario.renew()
        for place in self.places[len(self.now) : len(self.now) + PIECE]:
            here, base = scenario.boundary(place), scenario.base.at[place]
            self.moments.append(here)
            self.now.append(queued_in(here))
            self.differs.append(apart(here.queue, base.queue) + apart(here.waiting, base.waiting))
        if len(self.now) < len(self.places):
            return None
        base_queues = [queued_in(scenario.base.at[place]) for place in self.places]
        strip: Told = {"at": self.places, "base": base_queues, "now": self.now, "differs": self.differs}
        self.told = {"strip": strip, "of": self.revision}
        return self.told


def queued_in(boundary: Boundary) -> int:
    """All vehicles in queues and waiting to enter, in thousandths."""
    return sum(boundary.queue) + sum(boundary.waiting)


def apart(one: Sequence[int], other: Sequence[int]) -> int:
    """By how much counts differ, taken together."""
    return sum(abs(here - there) for here, there in zip(one, other))
