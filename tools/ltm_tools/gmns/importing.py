"""Makes a case of a network in the General Modeling Network Specification (GMNS)."""
from __future__ import annotations

import os
from dataclasses import dataclass, field
from fractions import Fraction
from pathlib import Path
from typing import Literal

from ..case.places import CRS, DEGREES
from ..case.sizes import ask_for_sizes
from ..formats import MINUTE_MS, UNITS
from ..network.changes import changes_told
from ..network.crossings.sizes import links_told
from ..network.crossings.sources import with_turns
from ..network.crossings.yielding import Yielding, limit_yields
from ..demand.matrices import Amounts, read_amounts
from ..demand.volumes import Volumes
from ..files import existing
from ..network.entries import without
from ..network.imported import Imported
from ..network.early import check_links
from ..network.importing import NotCarried, carried
from ..network.least_routes import least_routes
from ..network.network import Network
from ..network.bad_option import BadOption
from ..network.od_case import OdOptions, case_of, check_times, inner_told, departure_parts, size_told
from ..network.od_entries import enter_zones
from ..network.od_nodes import check_pairs, check_volumes, kept_by_node
from ..network.placing import Map, places_of
from ..network.steps import steps_table
from ..network.street_names import street_names
from .crossings import TurnedNetwork, turn, turns_of_case
from .net import Read, FieldUnits, file_of, read_gmns
from .zones import place_zones


@dataclass(frozen=True, kw_only=True)
class GmnsOptions(OdOptions):
    """What the fields of a network mean, and its demand. None stands for what the files say."""

    jam: Fraction = Fraction(150)
    """The jam density of a lane, in vehicles/km."""
    length_unit: str | None = None
    speed_unit: str | None = None
    places: str | None = None
    """The unit of places, for links without a length."""
    crs: str | None = None
    """The projection of places as an EPSG code, as `EPSG:25832`; without it that of `config.csv`, or degrees where they
    are such."""
    capacity: Literal["lane", "link"] = "lane"
    demand: str | os.PathLike[str] | None = None
    """The table of origins and destinations; without it the `demand.csv` of the network."""
    zone_nodes: Literal["first", "even"] = "first"

    def __post_init__(self) -> None:
        OdOptions.__post_init__(self)
        if self.crs is not None and CRS.fullmatch(self.crs) is None:
            raise BadOption("crs", "is an EPSG code, as EPSG:25832")


@dataclass
class Asked:
    """A network with its demand by nodes, before it is fitted."""

    read: Read
    amounts: Amounts
    volumes: Volumes
    turned: TurnedNetwork | None = None
    entries: frozenset[str] = frozenset()
    """The links by which trips come to nodes that others drive over."""
    yields: list[Yielding] = field(default_factory=list)
    """The approaches of junctions without lights that yield as a whole."""

    @property
    def raw(self) -> Network:
        """The network as it was read."""
        return self.read.network


def import_gmns(folder: str | os.PathLike[str], options: GmnsOptions = GmnsOptions()) -> Imported:
    """The case of the network in a folder; NotCarried with all that a case cannot have."""
    asked = read_all(Path(folder), options, options.crossings.turns != "none")
    read, raw = asked.read, asked.raw
    check_volumes(asked.volumes, options)
    try:
        made = carried(raw, options, lambda: least_routes(raw, asked.volumes.units("demand")))
    except NotCarried as fault:
        fault.advice += fewer_turns(asked, len(raw.roads), True)
        raise
    parts, clock = departure_parts(options, made.step, read.notes)
    case, last = case_of(made, asked.volumes, options, parts)
    limit_yields(case, made.source, asked.yields, options.crossings.slice_minutes)
    turns = None if asked.turned is None else turns_of_case(made, asked.turned, case, options.crossings, read)
    sizes = ask_for_sizes(case, options.moves, options.history, options.routes)
    sizes += fewer_turns(asked, len(case.links), False)
    places, lost = places_of(made, Map(crs=read.units.crs or (DEGREES if read.units.places == "degrees" else None)))
    told = [
        *read.guesses,
        *size_told(made, case, last),
        *inner_told(asked.amounts.inner),
        *read.told(),
        *asked.amounts.notes,
        *changes_told(made, made.routes, streets=read.streets),
        *lost,
        *sizes,
    ]
    source = without(made.source, raw=raw, links=asked.entries)
    source = source if asked.turned is None else with_turns(source, asked.turned.expanded)
    return Imported(
        case,
        places,
        source,
        tuple(made.fit.changes) if made.fit is not None else None,
        tuple(told),
        clock,
        turns,
        street_names(source, read.streets, turns),
    )


def fewer_turns(asked: Asked, links: int, whole: bool) -> list[str]:
    """Which crossings may have turns, where all have too many: those of most trips, which begin or end there."""
    vehicles: dict[str, int] = {}
    for ends, volume in asked.volumes.items():
        for node in ends:
            vehicles[node] = vehicles.get(node, 0) + int(volume * UNITS)
    return [] if asked.turned is None else links_told(asked.turned.expanded, links, vehicles, whole)


def steps_of_gmns(folder: str | os.PathLike[str], options: GmnsOptions = GmnsOptions()) -> list[str]:
    """What a fit of the network in a folder to each of some steps would change, a line each."""
    asked = read_all(Path(folder), options)
    return steps_table(asked.raw, horizon_ms=options.horizon * MINUTE_MS, ends=set(asked.volumes.end_names()))


def read_all(folder: Path, options: GmnsOptions, turning: bool = False) -> Asked:
    """The network and its demand; with `turning` its crossings have turns where that is asked for."""
    check_times(options)
    read = read_gmns(
        folder,
        FieldUnits(
            options.length_unit,
            options.speed_unit,
            options.places,
            options.capacity,
            options.jam,
            options.reading,
            options.rename,
            options.crs,
            turning,
        ),
    )
    if read.faults:
        raise NotCarried(read.faults)
    check_links(read.network, options, folder)
    place_zones(read, options.zone_nodes)
    amounts = amounts_of(folder, options)
    check_pairs(read.network, amounts, options, not turning)
    ends = trip_ends(read.network, amounts)
    turned, yields = turn(folder, read, *ends, amounts, options) if turning else (None, [])
    entries = enter_zones(read.network, amounts, options, read.notes) if options.entries else frozenset()
    volumes = kept_by_node(read.network, amounts, options, read.notes)
    return Asked(read, amounts, volumes, turned, entries, yields)


def trip_ends(network: Network, amounts: Amounts) -> tuple[set[str], set[str]]:
    """The nodes where trips begin, and those where they end."""
    return (
        {node for zone, _ in amounts.volumes for node in network.origins.get(zone, ())},
        {node for _, zone in amounts.volumes for node in network.destinations.get(zone, ())},
    )


def amounts_of(folder: Path, options: GmnsOptions) -> Amounts:
    """The table of demand; an empty one where there is none."""
    path = file_of(folder, "demand.csv")
    if options.demand is not None:
        path = existing(options.demand)
    elif not path.exists():
        return Amounts(
            Volumes(),
            Fraction(0),
            ("there is no demand.csv: demand.csv of the case has no rows; ltm-tools demand gives it some",),
        )
    return read_amounts(path, options.reading)
