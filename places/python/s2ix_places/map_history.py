"""Reads the history of zones as map_page.page_of takes it, into the short form that the page has: each version of each zone once."""
import json
import math
from datetime import datetime
from typing import Any, Dict, Iterable, List, Mapping, Tuple

_KINDS = ("added", "changed", "removed")


def read(history: Iterable[Mapping[str, Any]], name: str, units: int) -> Dict[str, Any]:
    """Gives `zones`, the ids; `versions`, each with the number of its zone, its name, its properties as texts and its polygons; and
    `steps`, each with its words and, for each zone that it changes, three numbers: the zone, and its versions before and after, -1 if none.
    A polygon is a list of rings; a ring is a longitude, a latitude, and from there on differences, in parts of a degree, of which there are
    so many `units`. Raises ValueError for what page_of says."""
    folded, ids = _Folded(name, units), set()
    for number, step in enumerate(history, 1):
        _expect(isinstance(step, Mapping), f"step {number} is no dict, but {type(step).__name__}")
        known = step.get("id")
        _expect(type(known) in (int, str), f"step {number} has the id {known!r}, no text and no whole number")
        _expect(known not in ids, f"step {number} has the id {known!r}, as a step before it")
        ids.add(known)
        folded.take(step, f"step {known!r}")
    return {"zones": folded.zones, "versions": folded.versions, "steps": folded.steps}


def _expect(is_so: bool, words: str) -> None:
    if not is_so:
        raise ValueError(words)


class _Folded:
    """What the steps so far come to."""

    def __init__(self, name: str, units: int) -> None:
        self.zones: List[str] = []
        self.versions: List[List[Any]] = []
        self.steps: List[Dict[str, Any]] = []
        self._name, self._units = name, units
        self._zone_of: Dict[str, int] = {}
        self._version_of: Dict[str, int] = {}
        self._held: Dict[int, int] = {}

    def take(self, step: Mapping[str, Any], where: str) -> None:
        """Goes one step on."""
        entries: Dict[int, Tuple[int, int]] = {}
        for kind in _KINDS:
            for feature in _features(step.get(kind), f"{where}, {kind}"):
                zone, place = self._zone(feature, where)
                before = self._held.get(zone, -1)
                _expect(zone not in entries, f"{place} is named twice")
                _expect((before == -1) == (kind == "added"), f"{place} is {kind}, but it is {'not ' if before == -1 else ''}there")
                entries[zone] = (before, -1 if kind == "removed" else self._version(zone, feature, place))
        for zone, (_, after) in entries.items():
            self._held[zone] = after
        time = step.get("time")
        words = {key: "" if step.get(key) is None else str(step[key]) for key in ("note", "who")}
        told = time.isoformat() if isinstance(time, datetime) else "" if time is None else str(time)
        flat = [number for zone, (before, after) in entries.items() for number in (zone, before, after)]
        self.steps.append({"id": step["id"], "time": told, **words, "entries": flat})

    def _zone(self, feature: Any, where: str) -> Tuple[int, str]:
        """The number of a feature's zone, and words that say where it stands."""
        _expect(isinstance(feature, Mapping) and feature.get("type") == "Feature", f"{where} has something that is no GeoJSON feature")
        known = feature.get("id")
        _expect(isinstance(known, str), f"{where} has a zone with the id {known!r}, which is no text")
        if known not in self._zone_of:
            self._zone_of[known] = len(self.zones)
            self.zones.append(known)
        return self._zone_of[known], f"{where}: zone {known!r}"

    def _version(self, zone: int, feature: Mapping[str, Any], place: str) -> int:
        """The number of what a feature says of its zone."""
        properties = feature.get("properties") or {}
        _expect(isinstance(properties, Mapping), f"{place} has properties that are no dict")
        given = properties.get(self._name)
        texts = [[str(key), _told(value)] for key, value in properties.items() if key != self._name]
        version = [zone, "" if given is None else _told(given), texts, _polygons(feature.get("geometry"), self._units, place)]
        text = json.dumps(version)
        if text not in self._version_of:
            self._version_of[text] = len(self.versions)
            self.versions.append(version)
        return self._version_of[text]


def _features(given: Any, where: str) -> Iterable[Any]:
    if isinstance(given, Mapping):
        _expect(given.get("type") == "FeatureCollection", f"{where} is no list and no FeatureCollection")
        given = given.get("features")
    features: Iterable[Any] = () if given is None else given
    return features


def _told(value: Any) -> str:
    return value if isinstance(value, str) else json.dumps(value, ensure_ascii=False, default=str)


def _polygons(geometry: Any, units: int, place: str) -> List[List[List[int]]]:
    """The polygons of a geometry."""
    kind = geometry.get("type") if isinstance(geometry, Mapping) else None
    _expect(kind in ("Polygon", "MultiPolygon"), f"{place} has no Polygon and no MultiPolygon, but {kind or type(geometry).__name__}")
    polygons = geometry.get("coordinates")
    try:
        listed = [[_ring(ring, units) for ring in rings] for rings in ([polygons] if kind == "Polygon" else polygons)]
        _expect(bool(listed) and all(listed), "it has no ring")
        return listed
    except (TypeError, IndexError, ValueError) as fault:
        raise ValueError(f"{place} has a shape that can't be drawn: {fault}") from fault


def _ring(corners: Any, units: int) -> List[int]:
    """A ring without its last corner, if that is the first again, and without corners that lie where the one before them does. One that is
    smaller than a unit keeps them."""
    places, given = [], set()
    for corner in corners:
        longitude, latitude = float(corner[0]), float(corner[1])
        _expect(math.isfinite(longitude) and math.isfinite(latitude), "a coordinate is not finite")
        _expect(abs(latitude) <= 90, f"the latitude {latitude} is beyond 90" + " (are the two swapped?)" * (abs(longitude) <= 90))
        _expect(abs(longitude) <= 540, f"the longitude {longitude} is beyond 540")
        given.add((longitude, latitude))
        places.append((round(longitude * units), round(latitude * units)))
    _expect(len(given) > 2, "a ring has fewer than three corners")
    kept = [here for here, before in zip(places, [None, *places]) if here != before]
    if len(kept) > 1 and kept[0] == kept[-1]:
        kept.pop()
    before, numbers = (0, 0), []
    for here in kept if len(kept) > 2 else places:
        numbers += [here[0] - before[0], here[1] - before[1]]
        before = here
    return numbers
