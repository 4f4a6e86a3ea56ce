"""A case: its rows, read from the files of a folder and written into one."""
import os
from collections.abc import Mapping, Sequence
from copy import copy
from dataclasses import fields, replace
from typing import Protocol

from ..errors import Fault
from .geojson import geojson
from .places import FILE, Places, read_places
from .reading import read_case, read_network
from .rows import Rows
from .streets import read_streets
from .writing import write_rows


class TellsLinks(Protocol):
    """What a case asks of the curves of its loading."""

    def told_of_links(self, case: "Case", boundary: int | None) -> Mapping[str, Mapping[str, object]]:
        """What they tell of each link, and of what stands on it at a boundary."""


class Case(Rows):
    """A case, its rows as they stand in its files and in their order. `splits` is None where there is no
    `splits.csv`."""

    __slots__ = ()

    @classmethod
    def read(cls, folder: str | os.PathLike[str], *, splits: bool | None = None, routes: bool = True) -> "Case":
        """The valid case of a folder, or a Fault with what the program would refuse first. With `splits` True a
        `splits.csv` is wanted, as by `load`; with False it is not looked at, and routes are asked for, as by `routes`;
        with None it may be missing. With `routes` False its splits are the records of `splits.csv` alone, also where
        its nodes take their free-flow routes: of a city these are millions of rows."""
        return cls.of(read_case(folder, splits=splits, routes=routes))

    @classmethod
    def read_network(cls, folder: str | os.PathLike[str]) -> "Case":
        """The setup and the links of a folder, whatever its other files say."""
        return cls.of(read_network(folder))

    @classmethod
    def of(cls, rows: Rows) -> "Case":
        """The case of these rows."""
        return cls(*(getattr(rows, field.name) for field in fields(rows)))

    def copied(self) -> "Case":
        """The same case in rows of its own."""
        splits = None if self.splits is None else [replace(row, weights=dict(row.weights)) for row in self.splits]
        return Case(
            copy(self.setup),
            [copy(row) for row in self.links],
            [copy(row) for row in self.demand],
            splits,
            [copy(row) for row in self.signals],
            [copy(row) for row in self.limits],
        )

    def write(self, folder: str | os.PathLike[str]) -> None:
        """Writes the files of the case into a folder, which is made where it is not there. Without splits no
        `splits.csv` is written."""
        write_rows(self, folder)

    def places(self, folder: str | os.PathLike[str]) -> Places | None:
        """Where its nodes lie and its links run, as the `nodes.csv` and the `shapes.csv` of a folder say; None where
        there is no `nodes.csv`."""
        return read_places(folder, self)

    def streets(self, folder: str | os.PathLike[str]) -> dict[str, str]:
        """The names of streets by link, as the `street_names.csv` of a folder has them, of links that have one."""
        streets = read_streets(folder)
        return {link.name: streets[link.name] for link in self.links if streets.get(link.name)}

    def to_geojson(
        self,
        folder: str | os.PathLike[str],
        curves: TellsLinks | None = None,
        boundary: int | None = None,
        rows: Mapping[str, Sequence[Mapping[str, object]]] | None = None,
    ) -> str:
        """The links as GeoJSON, with the places that the `nodes.csv` of a folder has, along the shapes of its
        `shapes.csv` and with the names of its streets; with the curves of the case's loading also what these tell of
        each link, and what stands on it at a boundary; with rows by link a feature for each."""
        places = self.places(folder)
        if places is None:
            raise Fault(f"{os.fspath(folder)} has no {FILE}, which says where its nodes lie")
        told = {} if curves is None else curves.told_of_links(self, boundary)
        return geojson(self, places, told, rows, self.streets(folder))
