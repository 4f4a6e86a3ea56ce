"""Vehicles of a source that do not come into the case: how many, why, and what to do."""
from __future__ import annotations

from collections.abc import Mapping
from fractions import Fraction

from ..errors import Fault
from ..formats import short_vehicles
from ..network.crossings.never_green import MOST_LOST
from .inputs import Inputs
from .options import SumoOptions

ASKED = ("that set out before --begin", "that set out after --end")
"""What is left out because it was asked for."""
TO_DO = {
    "over edges": "look at --vehicle-class, or give routes over edges that cars may use",
    "without a route": "look at the connections of the net, or at the ends of these trips",
    "that take a turn": "give routes over turns that the net allows",
    "that end where": "their last edge leads to the node where their first begins; give a route that ends before",
    "that wait for": "give them a time to depart",
    "persons": "only vehicles are loaded",
    "of class": "they do not drive on roads",
    "without a way to a destination": "keep more --destinations",
    "that set out before": "give an earlier --begin, or none",
    "that set out after": "give a later --end, or none",
}


def check_losses(inputs: Inputs, options: SumoOptions) -> None:
    """A Fault where more vehicles are lost than may be, or all; with a word that allows it only where none is left."""
    lost, whole = lost_of(inputs)
    kept, asked = whole - sum(lost.values()), inputs.found.left_out
    if not kept and asked:
        raise Fault(f"no vehicle is left: {reasons(asked, sum(asked.values()))}")
    if sum(lost.values()) > MOST_LOST * whole and not options.allow_losses:
        raise Fault(
            f"{short_vehicles(sum(lost.values()))} of {short_vehicles(whole)} vehicles would be lost, more than"
            f" {float(100 * MOST_LOST):g} %: {reasons(lost, whole)}; --allow-losses leaves them out all the same"
        )


def lost_of(inputs: Inputs) -> tuple[dict[str, int], int]:
    """Why how many thousandths of vehicles are lost, and of how many in all."""
    lost = {why: units for why, units in inputs.found.left_out.items() if why not in ASKED and is_lost(why)}
    return lost, sum(route.units for route in inputs.routes) + sum(lost.values())


def losses_told(inputs: Inputs) -> list[str]:
    """How many vehicles are left out and why; of those that are lost the part of all, and what to do."""
    lost, whole = lost_of(inputs)
    told = []
    for why, units in inputs.found.left_out.items():
        line = f"{short_vehicles(units)} vehicles are left out: {why}"
        if why in lost:
            advice = advice_of(why)
            line += f", {float(100 * Fraction(units, whole)):.2g} % of all{f' ({advice})' if advice else ''}"
        told.append(line)
    return told


def advice_of(why: str) -> str:
    """What to do about vehicles that are left out for this."""
    return next((words for begin, words in TO_DO.items() if why.startswith(begin)), "")


def is_lost(why: str) -> bool:
    """Whether a vehicle that is left out for this would have been on the roads of the case."""
    return not why.startswith(("persons", "of class"))


def reasons(left_out: Mapping[str, int], whole: int) -> str:
    """Why vehicles are left out, most first: how many, what part of all, and what to do."""
    told = []
    for why, units in sorted(left_out.items(), key=lambda item: -item[1]):
        advice = advice_of(why)
        part = f"{short_vehicles(units)} ({float(100 * Fraction(units, whole)):.1f} %) {why}"
        told.append(f"{part} ({advice})" if advice else part)
    return "; ".join(told)
