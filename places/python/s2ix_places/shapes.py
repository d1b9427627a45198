"""Shapes: polygons that the library of places has read, and their cells."""
from __future__ import annotations

import ctypes
import weakref
from array import array
from ctypes import addressof
from typing import Any, NamedTuple, Sequence

from s2ix.refusals import NoCell, NoLimits, OutOfMemory, named

from s2ix_places.library import (
    DONE, FAULTY, NO_CELL, NO_LIMITS, NO_ROOM, OUT_OF_MEMORY, TOO_FINE, WHOLE, PackedFault, Rings, RingsRoom, load, words_of,
)
from s2ix_places.refusals import NoPolygon, PlacesError
from s2ix_places.rings import Flat, flat_of, room_for

# The kinds of faults that have a second place, and how many faults are told in words.
_TWO_PLACES, _LISTED = range(8, 12), 5


class Cover(NamedTuple):
    """How zones are covered: by at most `max_cells` cells (1 to 1,000,000) each, if S2 doesn't need more, of levels from `min_level` to
    `max_level` (0 to 30)."""

    max_cells: int = 32
    min_level: int = 0
    max_level: int = 30

    def check(self) -> Cover:
        """The same, or NoLimits."""
        cells, first, last = (int(each.__index__()) for each in self)
        if not (1 <= cells <= 1_000_000 and 0 <= first <= last <= 30):
            raise NoLimits(f"a cover has 1 to 1,000,000 cells and levels that rise within 0 to 30, not {tuple(self)}")
        return Cover(cells, first, last)


class Shape:
    """A polygon, or several that don't overlap. It never changes, so threads may share it."""

    __slots__ = ("address", "__weakref__")

    def __init__(self, geometry: Any, mend: bool = False) -> None:
        """Reads a Polygon or MultiPolygon of GeoJSON, as s2ix_shape_read does; `mend` mends what can be mended. Raises NoPolygon, which
        says what is wrong with which ring, and OutOfMemory."""
        flat, made, fault = flat_of(geometry), ctypes.c_void_p(), PackedFault()
        rings = flat.packed()
        status = load().s2ix_shape_read(addressof(rings), mend, addressof(made), addressof(fault))
        if status == FAULTY:
            raise NoPolygon(_told(flat, [fault] if mend else _faults_of(rings)))
        expect(status)
        self.address = made.value or 0
        weakref.finalize(self, load().s2ix_shape_free, made.value)

    def cells(self, cover: Cover = Cover()) -> array[int]:
        """The outer covering: rising cells that have each leaf which the shape meets. Raises NoPolygon if they would be more than
        1,000,000."""
        room, many = cover.max_cells + 6, ctypes.c_size_t()
        while True:
            found = array("Q", bytes(8 * room))
            status = load().s2ix_shape_cover(self.address, *cover, found.buffer_info()[0], room, addressof(many))
            if status != NO_ROOM:
                expect(status)
                return found[: many.value]
            room = many.value

    def has_each(self, cells: array[int]) -> list[bool]:
        """Whether each of some cells lies within the shape, so that a point of it needs no second test."""
        inside, wrong = (ctypes.c_bool * len(cells))(), ctypes.c_size_t()
        status = load().s2ix_shape_has_each(self.address, cells.buffer_info()[0], len(cells), addressof(inside), addressof(wrong))
        expect(status)
        return list(inside)


def outline_of(cells: array[int]) -> dict[str, Any]:
    """The outline of a union of cells as a geometry of GeoJSON, cut at the date line. Raises NoCell, and PlacesError if it is the whole
    sphere."""
    wrong, (flat, room) = ctypes.c_size_t(), room_for(1024, 16, 16)
    while True:
        status = load().s2ix_cells_outline_cut(cells.buffer_info()[0], len(cells), addressof(room), addressof(wrong))
        if status == NO_CELL:
            raise named(NoCell, f"place {wrong.value}: {cells[wrong.value]:#x} is no number of a cell", cells[wrong.value])
        if status != NO_ROOM:
            expect(status)
            return _used(flat, room).geometry()
        flat, room = room_for(room.corners, room.rings, room.polygons)


def _used(flat: Flat, room: RingsRoom) -> Flat:
    """The front of room, which was written to."""
    corners, rings, polygons = room.corners, room.rings, room.polygons
    return Flat(flat.latitudes[:corners], flat.longitudes[:corners], flat.ring_ends[:rings], flat.polygon_ends[:polygons])


def _faults_of(rings: Rings) -> list[PackedFault]:
    """All faults of polygons."""
    room, many = 16, ctypes.c_size_t()
    while True:
        faults = (PackedFault * room)()
        status = load().s2ix_rings_faults(addressof(rings), addressof(faults), room, addressof(many))
        if status != NO_ROOM:
            expect(status)
            return list(faults[: many.value])
        room = many.value


def _told(flat: Flat, faults: Sequence[PackedFault]) -> str:
    """Faults in words, with the places of their corners."""
    words = []
    for fault in faults[:_LISTED]:
        words.append(f"{words_of('s2ix_fault_text', fault.kind)}: {_at(flat, fault.ring, fault.corner)}")
        if fault.kind in _TWO_PLACES and (fault.ring, fault.corner) != (fault.other_ring, fault.other_corner):
            words[-1] += f", and {_at(flat, fault.other_ring, fault.other_corner)}"
    more = len(faults) - len(words)
    return "; ".join(words) + (f"; and {more} faults more" if more else "")


def _at(flat: Flat, ring: int, corner: int) -> str:
    start = flat.ring_ends[ring - 1] if ring else 0
    place = start + corner
    if ring >= len(flat.ring_ends) or place >= flat.ring_ends[ring]:
        return f"ring {ring}"
    return f"ring {ring}, corner {corner} at longitude {flat.longitudes[place]!r} and latitude {flat.latitudes[place]!r}"


def expect(status: int) -> None:
    """Raises what a status of the library means, unless the call is done."""
    if status != DONE:
        kinds: dict[int, type[Exception]] = {OUT_OF_MEMORY: OutOfMemory, NO_LIMITS: NoLimits, TOO_FINE: NoPolygon, WHOLE: PlacesError}
        raise kinds.get(status, PlacesError)(words_of("s2ix_places_status_text", status))
