"""What is refused of zones. Besides these, a step may raise what the index does: a class of s2ix.S2ixError."""
from __future__ import annotations

from typing import NamedTuple, Optional, Sequence

# How many faults the words of a refusal list.
_LISTED = 20


class PlacesError(Exception):
    """What each refusal of zones is. A refused call changes nothing."""


class NoPolygon(PlacesError, ValueError):
    """a geometry is no sound polygon"""


class NoGeoJson(PlacesError, ValueError):
    """what is read is no GeoJSON of zones"""


class NoZone(PlacesError, LookupError):
    """no zone has the id"""


class Clash(PlacesError):
    """a step would make two zones of one id"""


class Fault(NamedTuple):
    """Why a feature is refused: its place among the features, counted from 0; its id, if it has one; and the reason."""

    place: int
    id: Optional[str]
    reason: str

    def __str__(self) -> str:
        return f"feature {self.place}{'' if self.id is None else f', {self.id!r}'}: {self.reason}"


class Faulty(PlacesError, ValueError):
    """Some features can't become zones. `faults` has all of them, and the words the first twenty."""

    def __init__(self, faults: Sequence[Fault] = (), many: int = 0) -> None:
        self.faults, self.many = list(faults), many
        lines = [str(fault) for fault in self.faults[:_LISTED]]
        if len(self.faults) > _LISTED:
            lines.append(f"and {len(self.faults) - _LISTED} more, which `faults` lists")
        super().__init__("\n  ".join([f"{len(self.faults)} of {many} features can't become zones, so none did:", *lines]))

    def __reduce__(self) -> tuple[type[Faulty], tuple[list[Fault], int]]:
        return Faulty, (self.faults, self.many)
