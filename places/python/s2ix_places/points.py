"""Which zones points are in, exactly: the index tells it for points in inner cells, and polygons are asked for those in rim cells."""
from __future__ import annotations

import importlib
from array import array
from functools import partial
from typing import Any, Callable, Sequence

from s2ix import Index, degrees
from s2ix.beside import side_by_side

from s2ix_places.shape_set import ShapeSet

#: What gives the set of shapes, after it has put those of some labels into it.
SetOf = Callable[[Sequence[int]], ShapeSet]

# So many pairs of a point and a rim cell are worth a thread.
_SHARE = 4096


def labels_at(index: Index, set_of: SetOf, latitude: float, longitude: float) -> list[int]:
    """The labels of the zones that a point is in, those of the innermost cells first."""
    check_longitude(longitude)
    labels = [row.label for row in index.at(_leaf(latitude, longitude))]
    rim = [label for label in labels if not label & 1]
    if not rim:
        return [label - 1 for label in labels]
    held = _held(set_of, rim, latitude, longitude)
    return [label & ~1 for label in labels if held.get(label, True)]


def labels_at_each(
    index: Index, set_of: SetOf, latitudes: Any, longitudes: Any, is_exact: bool, threads: int
) -> tuple[Any, Any]:
    """The same for many points: how many labels there are up to each, and all labels. Without `is_exact` they are those of the
    coverings."""
    numpy = _numpy()
    if numpy is None:
        return _plainly(index, set_of, latitudes, longitudes, is_exact, threads)
    latitudes, longitudes = (_doubles(numpy, each, name) for each, name in ((latitudes, "latitudes"), (longitudes, "longitudes")))
    if latitudes.shape != longitudes.shape:
        raise ValueError(f"{len(latitudes)} latitudes, but {len(longitudes)} longitudes")
    if len(longitudes) and not (longitudes.min() >= -180 and longitudes.max() <= 180):
        place = int(numpy.argmin(numpy.abs(longitudes) <= 180))
        check_longitude(float(longitudes[place]), f"place {place}: ")
    ends, labels = index.labels_at_each(_leaf(latitudes, longitudes), threads)
    if is_exact:
        ends, labels = _without_outer(numpy, set_of, latitudes, longitudes, ends, labels, threads)
    return ends, labels & ~labels.dtype.type(1)


def check_longitude(longitude: float, before: str = "") -> None:
    """Raises ValueError for what is no longitude from -180 to 180."""
    if not -180 <= longitude <= 180:
        raise ValueError(f"{before}{longitude!r} is no longitude, which is -180 to 180")


def _leaf(latitude: Any, longitude: Any) -> Any:
    try:
        return degrees.leaf(latitude, longitude)
    except ValueError as raised:
        if "is no latitude" not in str(raised) or "nan is" in str(raised):
            raise
        raise ValueError(f"{raised}: are latitude and longitude swapped?") from None


def _numpy() -> Any:
    try:
        return importlib.import_module("numpy")
    except ImportError:
        return None


def _doubles(numpy: Any, given: Any, name: str) -> Any:
    """An array of doubles in one row, which is not copied if it is one already. A masked or missing item is no number."""
    if isinstance(given, numpy.ma.MaskedArray):
        given = given.astype(numpy.float64).filled(numpy.nan)
    doubles = numpy.ascontiguousarray(given, dtype=numpy.float64)
    if doubles.ndim != 1 or getattr(given, "ndim", 1) != 1:
        raise TypeError(f"{name} lie in one row, not in an array of {getattr(given, 'ndim', doubles.ndim)} dimensions")
    return doubles


def _held(set_of: SetOf, labels: Sequence[int], latitude: float, longitude: float) -> dict[int, bool]:
    """For each of some labels whether its shape holds a point."""
    while True:
        held = set_of(labels).hold(labels, latitude, longitude)
        # (another thread may have dropped a zone meanwhile)
        if held is not None:
            return dict(zip(labels, held))


def _without_outer(
    numpy: Any, set_of: SetOf, latitudes: Any, longitudes: Any, ends: Any, labels: Any, threads: int
) -> tuple[Any, Any]:
    """Leaves out the labels of rim cells whose shapes don't hold the point."""
    rim = numpy.flatnonzero(labels & labels.dtype.type(1) == 0)
    if not len(rim):
        return ends, labels
    of_rim = labels[rim]
    points_of = numpy.repeat(numpy.arange(len(ends), dtype=numpy.uint32), numpy.diff(ends, prepend=0))[rim]
    is_kept = numpy.ones(len(labels), bool)
    is_kept[rim] = _inside(numpy, set_of, latitudes, longitudes, points_of, of_rim, threads)
    kept = numpy.concatenate([numpy.zeros(1, numpy.int64), numpy.cumsum(is_kept, dtype=numpy.int64)])
    return kept[ends], labels[is_kept]


def _inside(numpy: Any, set_of: SetOf, latitudes: Any, longitudes: Any, points_of: Any, labels: Any, threads: int) -> Any:
    """Whether the point of each pair lies in the shape of its label. At most so many threads share the pairs."""
    is_met = numpy.zeros(int(labels.max()) + 1, bool)
    is_met[labels] = True
    met, inside = numpy.flatnonzero(is_met).tolist(), numpy.empty(len(labels), bool)
    step = max(-(-len(labels) // threads), _SHARE)
    spans = [(start, min(start + step, len(labels))) for start in range(0, len(labels), step)]

    def ask(shapes: ShapeSet, start: int, stop: int) -> bool:
        points, numbers, answers = (each[start:stop].ctypes.data for each in (points_of, labels, inside))
        return shapes.hold_each(latitudes.ctypes.data, longitudes.ctypes.data, len(latitudes), points, numbers, stop - start, answers)

    while True:
        asked = partial(ask, set_of(met))
        # (another thread may have dropped a zone meanwhile)
        if all([asked(*spans[0])] if len(spans) == 1 else side_by_side(asked, spans, lambda: None)):
            return inside


def _plainly(
    index: Index, set_of: SetOf, latitudes: Any, longitudes: Any, is_exact: bool, threads: int
) -> tuple[array[int], array[int]]:
    """The same without NumPy."""
    wide, long = array("d", latitudes), array("d", longitudes)
    if len(wide) != len(long):
        raise ValueError(f"{len(wide)} latitudes, but {len(long)} longitudes")
    leaves = array("Q")
    for place, (latitude, longitude) in enumerate(zip(wide, long)):
        check_longitude(longitude, f"place {place}: ")
        try:
            leaves.append(_leaf(latitude, longitude))
        except ValueError as raised:
            raise ValueError(f"place {place}: {raised}") from None
    ends, labels = index.labels_at_each(leaves, threads)
    kept, places, start = array("I"), array("q"), 0
    for latitude, longitude, end in zip(wide, long, ends):
        of_point = labels[start:end]
        rim = [label for label in of_point if is_exact and not label & 1]
        held = _held(set_of, rim, latitude, longitude) if rim else {}
        kept.extend(label & ~1 for label in of_point if held.get(label, True))
        places.append(len(kept))
        start = end
    return places, kept


