"""Zones as people have them: in polygons, under ids, with properties, and with answers that are exact. They stand over the index of s2ix.

`Zones` reads them from GeoJSON, says which zones points are in, changes them, and takes changes back. It needs libs2ix and libs2ix_places,
and S2's library below that. `python3 -m s2ix_places` has words for the shell.
"""
from __future__ import annotations

from s2ix_places.history import ZoneStep
from s2ix_places.refusals import Clash, Fault, Faulty, NoGeoJson, NoPolygon, NoZone, PlacesError
from s2ix_places.versions import Zone
from s2ix_places.zones import Zones

__version__ = "1.1.0"

__all__ = ["Clash", "Fault", "Faulty", "NoGeoJson", "NoPolygon", "NoZone", "PlacesError", "Zone", "ZoneStep", "Zones"]
