"""Two loadings side by side."""
from __future__ import annotations

from collections.abc import Mapping

from .approaches import Approaches, grouped
from .remaining import Remaining
from .sides import Side

Pairs = dict[str, tuple[int | None, int | None]]


class Comparison:
    """Two loadings side by side: pairs of numbers by name, None where a case does not have it."""

    def __init__(self, one: Side, other: Side) -> None:
        self.both = (one, other)

    def times(self) -> Pairs:
        """Vehicle times of all, in units times ms; the least and the gap where these were asked for."""
        one, other = (of.report for of in self.both)
        found = {name: (getattr(one, name), getattr(other, name)) for name in ("spent", "delay", "queued", "waited")}
        return {**found, **self.of_gaps("least", "gap")}

    def amounts(self) -> Pairs:
        """Totals at the end of the horizon, in units; who is late where the gap was asked for."""
        return {**paired(*(of.ends for of in self.both)), **self.of_gaps("late")}

    def of_gaps(self, *names: str) -> Pairs:
        """What the gaps say by these names; nothing where they were not asked for."""
        one, other = (of.gap for of in self.both)
        return {name: (getattr(one, name), getattr(other, name)) for name in names} if one and other else {}

    def remaining(self) -> tuple[Remaining, Remaining]:
        """Who is not there by the end, in each."""
        generated, not_there = (self.amounts()[name] for name in ("generated", "not_there"))
        one, other = (Remaining(whole or 0, rest or 0) for whole, rest in zip(generated, not_there))
        return one, other

    def comparable(self) -> bool:
        """Whether vehicle times can be compared, by who is not there by the end."""
        one, other = self.remaining()
        return one.comparable(other)

    def links(self, approaches: Approaches | None = None) -> Pairs:
        """The delay of each link, in units times ms; that of an approach as one."""
        return paired(
            *(
                {
                    name: sum(links[one].queued for one in names)
                    for name, names in grouped(links, approaches or {}).items()
                }
                for links in (of.report.links for of in self.both)
            )
        )

    def origins(self) -> Pairs:
        """What was waited at each origin, in units times ms."""
        return paired(*({name: node.waited for name, node in of.report.origins.items()} for of in self.both))

    def arrivals(self, every_ms: int) -> dict[int, tuple[int | None, int | None]]:
        """What has arrived by each moment, in units."""
        end = max(of.case.setup.horizon_ms for of in self.both)
        one, other = self.both
        return {
            moment: (one.arrived_by(moment), other.arrived_by(moment)) for moment in (*range(0, end, every_ms), end)
        }


def paired(one: Mapping[str, int], other: Mapping[str, int]) -> Pairs:
    """The numbers of both by name, those of the first in its order, and then those that only the second has."""
    return {name: (one.get(name), other.get(name)) for name in dict.fromkeys((*one, *other))}


def change(pair: tuple[int | None, int | None]) -> int:
    """The second number less the first, where 0 stands for what is not there."""
    return (pair[1] or 0) - (pair[0] or 0)


def most_changed(pairs: Pairs, count: int | None = None) -> Pairs:
    """Those that changed, the greatest change first."""
    changed = sorted((name for name in pairs if change(pairs[name])), key=lambda name: -abs(change(pairs[name])))
    return {name: pairs[name] for name in changed[:count]}
