"""Versions of zones: what a zone was from one change of it to the next. Each has labels of its own in the index, so what cells stand says
which versions stand."""
from __future__ import annotations

import json
from array import array
from typing import Any, Iterator, NamedTuple, Optional

from s2ix_places.features import text_of
from s2ix_places.refusals import NoGeoJson, NoPolygon
from s2ix_places.shapes import Cover, Shape


class Zone(NamedTuple):
    """A zone as it stands: its id, its label, its shape as a geometry of GeoJSON, and its properties. They are copies: to change a zone,
    put it again."""

    id: str
    label: int
    shape: dict[str, Any]
    properties: dict[str, Any]

    @property
    def __geo_interface__(self) -> dict[str, Any]:
        return {"type": "Feature", "id": self.id, "geometry": self.shape, "properties": self.properties}


class Version(NamedTuple):
    """A version of a zone. Its rim cells lie under its label, which is even, and its inner cells under the next one. Geometry and
    properties are texts of JSON, as they were given. `is_mended` says whether faults of the shape may be mended, also if it has none."""

    label: int
    id: str
    geometry: str
    properties: str
    is_mended: bool
    rim: array[int]
    inner: array[int]

    def pairs(self) -> Iterator[tuple[int, int]]:
        """Its cells with their labels."""
        yield from ((cell, self.label) for cell in self.rim)
        yield from ((cell, self.label + 1) for cell in self.inner)

    def cells(self) -> array[int]:
        """All its cells."""
        return self.rim + self.inner

    def a_pair(self) -> tuple[int, int]:
        """One of its cells with its label. All its pairs stand, or none."""
        return next(self.pairs())

    def shape(self) -> Shape:
        """Its shape, read again."""
        return Shape(json.loads(self.geometry), self.is_mended)

    def zone(self) -> Zone:
        """The zone, if this version stands."""
        return Zone(self.id, self.label, json.loads(self.geometry), json.loads(self.properties))

    def feature(self, id_name: Optional[str]) -> dict[str, Any]:
        """The zone as a feature of GeoJSON, whose id is in a property, or else the feature's own."""
        feature: dict[str, Any] = {"type": "Feature"} if id_name is not None else {"type": "Feature", "id": self.id}
        properties = json.loads(self.properties)
        if id_name is not None:
            properties[id_name] = self.id
        return {**feature, "geometry": json.loads(self.geometry), "properties": properties}

    def is_as(self, other: Version) -> bool:
        """Whether all but the label is the same."""
        return self[1:] == other[1:]

    def looks_as(self, other: Version) -> bool:
        """Whether geometry and properties are the same."""
        return (self.geometry, self.properties) == (other.geometry, other.properties)


def drafted(id: str, geometry: Any, properties: Any, cover: Cover, mend: bool) -> tuple[Version, Shape]:
    """A version without a label, and its shape. Raises NoPolygon, and NoGeoJson for properties that aren't a dict which JSON can spell."""
    if not isinstance(properties, dict):
        raise NoGeoJson(f"its properties are no object, but of type {type(properties).__name__}")
    shape = Shape(geometry, mend)
    cells = shape.cells(cover)
    inside = shape.has_each(cells)
    rim, inner = (array("Q", (cell for cell, is_in in zip(cells, inside) if is_in is wanted)) for wanted in (False, True))
    if not cells:
        raise NoPolygon("it has no cell")
    texts = text_of(geometry, "its member 'geometry'"), text_of(properties, "its member 'properties'")
    return Version(-2, id, *texts, mend, rim, inner), shape
