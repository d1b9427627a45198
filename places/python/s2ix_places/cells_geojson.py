"""The cells of a dump as GeoJSON, without S2."""
from __future__ import annotations

import math
from typing import Any, Iterable, Iterator, Mapping, NamedTuple, Optional

from s2ix import degrees
from s2ix.refusals import NoDump
from s2ix.tokens import cell_of, token_of

# A side of a cell of this level, or of a finer one, is drawn as one line: it bends by less than a hundredth of its length.
_STRAIGHT = 6


class CellName(NamedTuple):
    """What a label is called: the id of its zone, and whether its cells lie within the zone."""

    zone: str
    is_inner: bool


def cells_geojson(pairs: Iterable[tuple[int, int]], names: Optional[Mapping[int, CellName]] = None) -> dict[str, Any]:
    """Cells with their labels as a FeatureCollection, with a feature for each: it has the cell's token and level, the label, and what that
    is called. A cell lies on one side of the date line, and what goes over it is cut there, as RFC 7946 wants it. Raises NoCell."""
    features = []
    for cell, label in pairs:
        properties: dict[str, Any] = {"cell": token_of(cell), "level": _level(cell), "label": label}
        if names is not None and label in names:
            properties["zone"], properties["inner"] = names[label]
        features.append({"type": "Feature", "geometry": geometry_of(cell), "properties": properties})
    return {"type": "FeatureCollection", "features": features}


def geometry_of(cell: int) -> dict[str, Any]:
    """A cell as a Polygon of GeoJSON, or the face on the date line as a MultiPolygon."""
    rings = [_ring(cell)] if cell & -cell < 1 << 60 else _rings_of_face(cell)
    if len(rings) == 1:
        return {"type": "Polygon", "coordinates": rings}
    return {"type": "MultiPolygon", "coordinates": [[ring] for ring in rings]}


def pairs_in(dump: str) -> Iterator[tuple[int, int]]:
    """The cells of a dump with their labels. Raises NoDump at the first line with a fault that shows, and NoCell: `Index.load` looks at
    more."""
    head, *lines = dump.split("\n")
    if head != "s2ix 2" or len(lines) < 2 or lines[-1] or not lines[-2].startswith("end "):
        raise NoDump(1 if head != "s2ix 2" else len(lines) + 1)
    for place, line in enumerate(lines[:-2], 2):
        parts = line.split(" ")
        if len(parts) != 3 or not (parts[1].isascii() and parts[1].isdecimal()):
            raise NoDump(place)
        yield cell_of(parts[0]), int(parts[1])


def _level(cell: int) -> int:
    return 30 - ((cell & -cell).bit_length() - 1) // 2


def _ring(cell: int) -> list[list[float]]:
    """The ring around a cell that is no whole face. The sides of a great cell are cut. A corner at a pole is there twice, at the longitudes
    beside it, since on a map the pole is a line."""
    corners = degrees.corners(cell, 1 << max(0, _STRAIGHT - _level(cell)))
    ring = []
    for place, (latitude, longitude) in enumerate(corners):
        if abs(latitude) == 90:
            beside = corners[place - 1], corners[(place + 1) % len(corners)]
            ring += [[other, latitude] for _, other in beside]
        else:
            ring.append([longitude, latitude])
    return [*ring, ring[0]]


def _rings_of_face(cell: int) -> list[list[list[float]]]:
    """The rings around a whole face, cut at the date line. That of a face with a pole goes along the rim of the map."""
    corners = degrees.corners(cell, 1 << _STRAIGHT)
    cuts = [place for place, (_, longitude) in enumerate(corners) if abs(longitude) == 180]
    if not cuts:
        return [_ring(cell)]
    turned, rings = corners + corners, []
    for start, end in zip(cuts, [*cuts[1:], cuts[0] + len(corners)]):
        ring = [[longitude, latitude] for latitude, longitude in turned[start : end + 1]]
        for place, beside in (0, 1), (-1, -2):
            ring[place][0] = math.copysign(180, ring[beside][0])
        if ring[0][0] != ring[-1][0]:
            pole = math.copysign(90, ring[0][1])
            ring += [[ring[-1][0], pole], [ring[0][0], pole]]
        rings.append([*ring, ring[0]])
    return rings
