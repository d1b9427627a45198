"""Polygons of GeoJSON as flat arrays, and back."""
from __future__ import annotations

from array import array
from typing import Any, Iterator, NamedTuple, Sequence

from s2ix_places.library import Rings, RingsRoom
from s2ix_places.refusals import NoPolygon

#: The most corners of a shape.
MOST_CORNERS = 5_000_000


class Flat(NamedTuple):
    """The corners of some polygons, where each ring ends among these, and where each polygon ends among the rings."""

    latitudes: array[float]
    longitudes: array[float]
    ring_ends: array[int]
    polygon_ends: array[int]

    def packed(self) -> Rings:
        """The same for a call of the library. It points into these arrays."""
        latitudes, longitudes, ring_ends, polygon_ends = self.addresses()
        corners, rings, polygons = len(self.latitudes), len(self.ring_ends), len(self.polygon_ends)
        return Rings(latitudes, longitudes, corners, ring_ends, rings, polygon_ends, polygons)

    def addresses(self) -> tuple[int, int, int, int]:
        """Where the arrays lie."""
        places = self.latitudes.buffer_info(), self.longitudes.buffer_info(), self.ring_ends.buffer_info(), self.polygon_ends.buffer_info()
        return places[0][0], places[1][0], places[2][0], places[3][0]

    def polygons(self) -> list[Any]:
        """The coordinates of a MultiPolygon: of each polygon its rings, of each ring its corners, each a longitude and a latitude."""
        corners = [list(corner) for corner in zip(self.longitudes, self.latitudes)]
        rings = _cut(corners, self.ring_ends)
        return _cut(rings, self.polygon_ends)

    def geometry(self) -> dict[str, Any]:
        """A geometry of GeoJSON: a Polygon, or a MultiPolygon for any other number of polygons."""
        polygons = self.polygons()
        if len(polygons) == 1:
            return {"type": "Polygon", "coordinates": polygons[0]}
        return {"type": "MultiPolygon", "coordinates": polygons}


def _cut(items: list[Any], ends: Sequence[int]) -> list[Any]:
    return [items[start:end] for start, end in zip([0, *ends], ends)]


def room_for(corners: int, rings: int, polygons: int) -> tuple[Flat, RingsRoom]:
    """Room for so many, and the same for a call of the library."""
    latitudes, longitudes = array("d", bytes(8 * corners)), array("d", bytes(8 * corners))
    flat = Flat(latitudes, longitudes, array("Q", bytes(8 * rings)), array("Q", bytes(8 * polygons)))
    wide, long, ring_ends, polygon_ends = flat.addresses()
    return flat, RingsRoom(wide, long, corners, 0, ring_ends, rings, 0, polygon_ends, polygons, 0)


def flat_of(geometry: Any) -> Flat:
    """The polygons of a Polygon or MultiPolygon of GeoJSON. A third number of a position is left out. Raises NoPolygon for all else, with
    what is wrong and where: a polygon, a ring and a corner are counted from 0."""
    flat, rings, corners = Flat(array("d"), array("d"), array("Q"), array("Q")), [], 0
    for name, polygon in _polygons_of(geometry):
        for place, ring in enumerate(_list_of(polygon, f"{name}, which should be a list of rings,")):
            rings.append((f"{name}, ring {place}", _list_of(ring, f"{name}, ring {place}, which should be a list of corners,")))
            corners += len(rings[-1][1])
        flat.polygon_ends.append(len(rings))
    if corners > MOST_CORNERS:
        raise NoPolygon(f"it has {corners:,} corners, of at most {MOST_CORNERS:,}")
    for name, ring in rings:
        _add_ring(flat, ring, name)
    return flat


def _polygons_of(geometry: Any) -> Iterator[tuple[str, Any]]:
    """Each polygon, with the words that name it."""
    if not isinstance(geometry, dict):
        raise NoPolygon("it has no geometry" if geometry is None else f"its geometry is no object, but of type {type(geometry).__name__}")
    kind, coordinates = geometry.get("type"), geometry.get("coordinates")
    if kind == "Polygon":
        yield "polygon 0", coordinates
    elif kind == "MultiPolygon":
        for place, polygon in enumerate(_list_of(coordinates, "its list of polygons")):
            yield f"polygon {place}", polygon
    else:
        raise NoPolygon(f"its geometry is a {kind}, no Polygon or MultiPolygon" if isinstance(kind, str) else "its geometry has no type")


def _list_of(given: Any, name: str) -> Sequence[Any]:
    if not isinstance(given, (list, tuple)):
        raise NoPolygon(f"{name} is {'missing' if given is None else f'of type {type(given).__name__}'}")
    return given


def _add_ring(flat: Flat, corners: Sequence[Any], name: str) -> None:
    try:
        flat.longitudes.extend([corner[0] for corner in corners])
        flat.latitudes.extend([corner[1] for corner in corners])
    except (TypeError, IndexError, KeyError, OverflowError):
        raise NoPolygon(_wrong_corner(corners, name)) from None
    flat.ring_ends.append(len(flat.latitudes))


def _wrong_corner(corners: Sequence[Any], name: str) -> str:
    """What is wrong with the first corner that is no position."""
    for place, corner in enumerate(corners):
        if not isinstance(corner, (list, tuple)) or len(corner) < 2:
            return f"{name}, corner {place} is no list of a longitude and a latitude"
        try:
            array("d", corner[:2])
        except (TypeError, OverflowError):
            return f"{name}, corner {place} has a longitude or latitude that is no number"
    return f"{name} has a corner that is no list of a longitude and a latitude"

