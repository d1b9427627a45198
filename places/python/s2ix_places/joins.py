"""Frames of pandas joined with zones: which zones each point is in. pandas is imported when something is joined."""
from __future__ import annotations

import importlib
from typing import TYPE_CHECKING, Any, Hashable, Optional

from s2ix.frames import column_of, counts_of, labelled

if TYPE_CHECKING:
    from s2ix_places.zones import Zones

#: The column of latitudes and that of longitudes.
Columns = tuple[Hashable, Hashable]


def joined(points: Any, zones: Zones, columns: Optional[Columns], zone: Hashable, how: str, exact: bool, threads: int) -> Any:
    """The points of a frame with the zones that they are in: see `Zones.join`."""
    numpy, pandas = importlib.import_module("numpy"), importlib.import_module("pandas")
    if how not in ("inner", "left"):
        raise ValueError(f"how is 'inner' or 'left', not {how!r}")
    if zone in points.columns:
        raise ValueError(f"cannot insert {zone}, already exists")
    latitudes, longitudes = (numpy.asarray(each, dtype=numpy.float64) for each in _degrees_of(points, columns))
    places = numpy.flatnonzero(~(numpy.isnan(latitudes) | numpy.isnan(longitudes)))
    ends, labels = zones.at_each(latitudes[places], longitudes[places], exact, threads)
    numbers, found = numpy.unique(labels, return_inverse=True)
    names = pandas.Series(zones.ids(numbers), dtype=object)
    return labelled(points, counts_of(len(points), places, ends), found.astype(numpy.uint32), zone, how, names)


def _degrees_of(points: Any, columns: Optional[Columns]) -> tuple[Any, Any]:
    """The latitudes and the longitudes of points: two columns, or what the points of a frame of geopandas have."""
    if columns is None and "latitude" not in points.columns and hasattr(points, "geometry"):
        crs = getattr(points, "crs", None)
        shapes = points.geometry if crs is None or crs.to_epsg() == 4326 else points.geometry.to_crs(4326)
        return shapes.y, shapes.x
    latitude, longitude = ("latitude", "longitude") if columns is None else columns
    for name in (latitude, longitude):
        if name not in points.columns:
            raise KeyError(name)
    return column_of(points, latitude), column_of(points, longitude)
