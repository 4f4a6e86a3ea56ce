"""The programs of a net's signals by the edges that they hold."""
from __future__ import annotations

from collections.abc import Sequence
from pathlib import Path

from ..errors import Fault
from ..files import existing
from .net import Program, read_net, read_programs
from .options import SumoOptions
from .routes import SPACING


def programs_of(files: Sequence[Path]) -> dict[str, Program]:
    """The program of each edge that ends at a signal, as a net and further files have it; a Fault where one is not of
    fixed times."""
    options = SumoOptions()
    net = read_net(
        existing(files[0]),
        vehicle_class=options.vehicle_class,
        headway=options.headway,
        spacing=SPACING,
    )
    for path in files[1:]:
        read_programs(net, existing(path))
    found = {way.edge: net.programs[way.signal] for way in net.connections if way.signal in net.programs}
    for program in found.values():
        if program.signal in net.not_fixed:
            raise Fault(
                f"signal {program.signal} has a program of kind {net.not_fixed[program.signal]}: give the files with"
                " those of fixed times that the case was made with"
            )
    return found
