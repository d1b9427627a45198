"""Features of GeoJSON, read from files, objects and what has a `__geo_interface__`."""
from __future__ import annotations

import json
import os
from typing import Any, Callable, Iterable, NamedTuple, Optional, Union

from s2ix_places.refusals import Fault, NoGeoJson

#: What zones are read from: the path of a file of GeoJSON, an object of GeoJSON as Python has it, what has a `__geo_interface__` (as
#: frames of geopandas and shapes of shapely), or many of these.
Source = Union[str, "os.PathLike[str]", dict[str, Any], Iterable[Any], Any]
#: What has the id of a feature: the name of a property; what finds it in a feature; or None for the feature's own `id`.
IdOf = Union[str, Callable[[dict[str, Any]], object], None]

# What names the coordinates that zones are in.
_DEGREES = ("CRS84", "4326")
# So many keys are told at most of what JSON can't spell.
_DEEP = 20


class Read(NamedTuple):
    """A feature that was read: its place, its id, its geometry and its properties."""

    place: int
    id: str
    geometry: Any
    properties: dict[str, Any]


def read(source: Source, id_of: IdOf) -> tuple[list[Read], list[Fault], int]:
    """The features that have an id of their own, the faults of the others, and how many there are of both. Raises NoGeoJson and OSError."""
    features = _features_of(_read(source))
    found: list[Read] = []
    faults: list[Fault] = []
    places: dict[str, int] = {}
    for place, feature in enumerate(features):
        each = _plain(feature)
        id, reason = _id_in(each, id_of)
        if reason is None and id in places:
            reason = f"feature {places[id]} has the same id"
        properties = each.get("properties") if isinstance(each, dict) else None
        if reason is None and not isinstance(properties, (dict, type(None))):
            reason = f"its properties are no object, but of type {type(properties).__name__}"
        if reason is not None:
            faults.append(Fault(place, id, reason))
            continue
        assert id is not None
        places[id] = place
        found.append(Read(place, id, each.get("geometry"), dict(properties or {})))
    return found, faults, len(features)


def geometry_in(shape: Any) -> tuple[Any, Optional[dict[str, Any]]]:
    """The geometry of what is given for a shape: a geometry, a feature with its properties, or what has a `__geo_interface__`."""
    plain = _plain(shape)
    if isinstance(plain, dict) and plain.get("type") == "Feature":
        return plain.get("geometry"), plain.get("properties")
    return plain, None


def text_of(value: Any, name: str) -> str:
    """A value as JSON in ASCII, without spaces. Numbers of NumPy and times become those of JSON. Raises NoGeoJson, whose words are the name
    of the value, what in it JSON can't spell, and at which keys."""
    try:
        return _spelt(value)
    except (TypeError, ValueError, RecursionError) as raised:
        raise NoGeoJson(f"{name} has {_unspelt(value) or f'what JSON cannot spell: {raised}'}") from None


def _spelt(value: Any) -> str:
    return json.dumps(value, separators=(",", ":"), default=_of_json, allow_nan=False)


def _unspelt(value: Any) -> str:
    """The part of a value that JSON can't spell, and its keys; or nothing if it isn't in a part of it."""
    keys: list[Any] = []
    while len(keys) < _DEEP and (found := next(filter(_is_unspelt, _parts_of(value)), None)) is not None:
        key, value = found
        keys.append(key)
    kind = f"the number {value}" if isinstance(value, float) else f"an object of type {type(value).__name__}"
    return f"{kind} at {''.join(f'[{key!r}]' for key in keys)}, which JSON cannot spell" if keys else ""


def _parts_of(value: Any) -> Iterable[tuple[Any, Any]]:
    return value.items() if isinstance(value, dict) else enumerate(value) if isinstance(value, (list, tuple)) else ()


def _is_unspelt(part: tuple[Any, Any]) -> bool:
    try:
        _spelt(part[1])
    except (TypeError, ValueError, RecursionError):
        return True
    return False


def _of_json(value: Any) -> Any:
    for name in ("item", "isoformat"):
        if hasattr(value, name):
            return getattr(value, name)()
    raise TypeError(f"JSON has no {type(value).__name__}")


def _read(source: Any) -> Any:
    if isinstance(source, (str, os.PathLike)):
        return read_json(source)
    if hasattr(source, "crs") and getattr(source.crs, "to_epsg", None) and source.crs.to_epsg() != 4326:
        # (a frame of geopandas in other coordinates)
        source = source.to_crs(4326)
    return _plain(source)


def read_json(path: Union[str, "os.PathLike[str]"]) -> Any:
    """What a file of JSON has. Raises NoGeoJson, which says at which line it is none, and OSError."""
    with open(path, "rb") as file:
        text = file.read()
    try:
        return json.loads(text.decode("utf-8-sig"))
    except RecursionError:
        raise NoGeoJson(f"{os.fspath(path)} is nested too deep") from None
    except ValueError as raised:
        raise NoGeoJson(f"{os.fspath(path)} is no JSON: {raised}") from None


def _plain(given: Any) -> Any:
    """What a `__geo_interface__` has, or what is given itself."""
    return getattr(given, "__geo_interface__", given)


def _features_of(given: Any) -> list[Any]:
    if isinstance(given, dict):
        _expect_degrees(given.get("crs"))
        kind = given.get("type")
        if kind == "FeatureCollection":
            features = given.get("features")
            if not isinstance(features, (list, tuple)):
                raise NoGeoJson("the FeatureCollection has no list of features")
            return list(features)
        if kind in ("Feature", "Polygon", "MultiPolygon"):
            return [given]
        raise NoGeoJson(f"the object is no FeatureCollection: its type is {kind!r}")
    if isinstance(given, (str, bytes, int, float, type(None))):
        raise NoGeoJson(f"a {type(given).__name__} is no FeatureCollection")
    return list(given)


def _expect_degrees(crs: Any) -> None:
    """Raises NoGeoJson for coordinates that aren't degrees, as older files of GeoJSON may name them."""
    if crs is None:
        return
    properties = crs.get("properties") if isinstance(crs, dict) else None
    name = str(properties.get("name") if isinstance(properties, dict) else crs)
    if not name.endswith(_DEGREES):
        raise NoGeoJson(f"its coordinates are those of {name!r}, not longitudes and latitudes of WGS 84: project it first")


def _id_in(feature: Any, id_of: IdOf) -> tuple[Optional[str], Optional[str]]:
    """The id of a feature, or the reason why it has none."""
    if not isinstance(feature, dict):
        return None, f"it is no object, but of type {type(feature).__name__}"
    if feature.get("type") != "Feature":
        return None, f"it is no Feature: its type is {feature.get('type')!r}"
    if callable(id_of):
        try:
            found, where = id_of(feature), "the function for ids finds"
        except (LookupError, TypeError, ValueError, AttributeError) as raised:
            return None, f"the function for ids raises {type(raised).__name__}: {raised}"
    elif id_of is None:
        found, where = feature.get("id"), "its id is"
    else:
        properties = feature.get("properties")
        found, where = properties.get(id_of) if isinstance(properties, dict) else None, f"its property {id_of!r} is"
    if found is None:
        return None, f"{where} {'no id' if callable(id_of) else 'missing'}"
    return id_with_reason(found, where)


def id_with_reason(found: Any, where: str = "its id is") -> tuple[Optional[str], Optional[str]]:
    """An id, or the reason why it is none."""
    if not isinstance(found, str):
        return None, f"{where} {found!r}, which is no text"
    id = str.__str__(found)
    try:
        id.encode()
    except UnicodeEncodeError:
        return None, f"{where} {id!r}, which UTF-8 can't spell"
    return id, None
