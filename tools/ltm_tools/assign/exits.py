"""When one leaves a link who enters it at a boundary, first in, first out, by the counts at its two ends.

The time from a boundary to that moment is what the program tells as `time`, where neither the entry nor the exit is
shut then. Who comes to an entry that is shut, by a limit of 0, enters when it opens; who would leave by an exit that is
shut leaves when it opens. For those who have not left by the end of the horizon a moment behind it is taken: what is
before them goes on at the link's capacity.
"""
from __future__ import annotations

import numpy

from .net import Net, Whole

PACE = 10  # thousandths of a vehicle a ms that leave an origin after the end


def first_moments(counts: Whole, wanted: Whole, step: int) -> Whole:
    """For each wanted count the first whole ms at which a curve that never falls has it, and the first ms after its
    last boundary where it never has."""
    last = len(counts) - 1
    after = numpy.searchsorted(counts, wanted, side="left")
    place = numpy.clip(after, 1, last)
    below, above = counts[place - 1], counts[place]
    moment = (place - 1) * step - (-(wanted - below) * step) // numpy.maximum(above - below, 1)
    return numpy.where(after == 0, 0, numpy.where(after > last, last * step + 1, moment))


def exit_moments(entered: Whole, left: Whole, free: int, capacity: int, step: int, boundaries: Whole) -> Whole:
    """When those leave a link who enter it at these boundaries, its ends being open; `capacity` is what passes in a
    slot after the end."""
    end = (len(left) - 1) * step
    before = entered[boundaries]
    moments = first_moments(left, before, step)
    late = end - (-(before - left[-1]) * step) // capacity
    moments = numpy.where(moments > end, numpy.maximum(late, end + 1), moments)
    return numpy.asarray(numpy.maximum(moments, boundaries * step + free))


def next_open(limits: Whole) -> Whole:
    """Of each slot, and the end, the first slot from it on in which the limit of a link is above 0; the number of slots
    where there is none. `[slots + 1, L]`"""
    slots, links = limits.shape
    found = numpy.full((slots + 1, links), slots, dtype=numpy.int64)
    for slot in range(slots - 1, -1, -1):
        found[slot] = numpy.where(limits[slot] > 0, slot, found[slot + 1])
    return found


class Gates:
    """When the entries and exits of links are open."""

    def __init__(self, entry: Whole, exit_: Whole) -> None:
        """By the entry and the exit limits, `[slots, L]`."""
        self.entry, self.exit = next_open(entry), next_open(exit_)
        self.entry_shuts, self.exit_shuts = (entry == 0).any(axis=0), (exit_ == 0).any(axis=0)


def leaving(net: Net, gates: Gates, entered: Whole, left: Whole) -> Whole:
    """When one leaves each link who comes to its entry at each boundary, in ms, `[slots + 1, L]`. Counts are by
    boundary and link."""
    found = numpy.empty_like(entered)
    boundaries = numpy.arange(net.slots + 1)
    for link in range(len(net.names)):
        at = boundaries
        if gates.entry_shuts[link]:
            at = gates.entry[:, link]
        moments = exit_moments(
            entered[:, link], left[:, link], int(net.free[link]), int(net.capacity[link]), net.step, at
        )
        if gates.exit_shuts[link]:
            slot = numpy.clip((moments - 1) // net.step, 0, net.slots)
            opens = gates.exit[slot, link]
            moments = numpy.where(opens > slot, numpy.maximum(moments, opens * net.step + 1), moments)
        found[:, link] = moments
    return found


def setting_out(net: Net, made: Whole, left: Whole) -> Whole:
    """When those have left an origin's queue who set out at each boundary, by what it has produced and what has left
    it."""
    end = net.slots * net.step
    moments = first_moments(left, made, net.step)
    late = end + (made - left[-1]) // PACE
    return numpy.asarray(
        numpy.maximum(numpy.where(moments > end, late, moments), numpy.arange(net.slots + 1) * net.step)
    )
