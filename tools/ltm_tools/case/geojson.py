"""The links of a case as GeoJSON, for a map."""
from __future__ import annotations

import json
from collections.abc import Mapping, Sequence

from .places import DEGREES, Places
from .rows import Rows


Told = Mapping[str, object]


def geojson(
    case: Rows,
    places: Places,
    more: Mapping[str, Told],
    rows: Mapping[str, Sequence[Told]] | None = None,
    streets: Mapping[str, str] | None = None,
) -> str:
    """The links as GeoJSON, along their shapes, with the numbers of their diagrams, the names of their streets and
    `more` by link; with `rows` a feature for each of them instead, of the links that have some. Places in degrees are
    as the standard asks; others have a member `crs` that names their projection, which QGIS and GDAL read."""
    features = []
    for link in case.links:
        line = [list(point) for point in places.line(link)]
        told = {
            "link": link.name,
            "from": link.tail,
            "to": link.head,
            "length_m": link.length_m,
            "free_kmh": link.free_kmh,
            "wave_kmh": link.wave_kmh,
            "jam_per_km": link.jam_per_km,
            **({"street": streets[link.name]} if streets and link.name in streets else {}),
            **more.get(link.name, {}),
        }
        for row in ({},) if rows is None else rows.get(link.name, ()):
            features.append(
                {
                    "type": "Feature",
                    "properties": {**told, **row},
                    "geometry": {"type": "LineString", "coordinates": line},
                }
            )
    top: dict[str, object] = {"type": "FeatureCollection"}
    if places.crs is not None and places.crs != DEGREES:
        top["crs"] = {"type": "name", "properties": {"name": f"urn:ogc:def:crs:EPSG::{places.crs.partition(':')[2]}"}}
    lines = ",\n".join(json.dumps(feature) for feature in features)
    return json.dumps(top)[:-1] + ', "features": [\n' + lines + "\n]}\n"
