"""Dask's frames joined with an index, by the processes of a cluster: which labels each of very many points is in. Dask and pandas are
imported when something is joined.

Both joins keep the partitions of the points, their order and their divisions, and return a frame that is computed when it is asked for. A
worker that dies is Dask's to replace; the new one opens what it needs again."""
from __future__ import annotations

import functools
import hashlib
import importlib
import operator
import os
import pickle
import threading
from collections import OrderedDict
from typing import Any, Hashable, Optional, Union

from s2ix import frames
from s2ix.frames import Names
from s2ix.given import MOST_LABEL, Text, bytes_of
from s2ix.index import Index
from s2ix.refusals import NoCell, NoLabel, TooManyPairs

# How many indexes a process keeps open, and how many points there are for one that the ranges are cut by.
_KEPT, _SHARE = 4, 64

_lock = threading.Lock()
_opened: OrderedDict[str, Index] = OrderedDict()


def join(
    points: Any, dump: Union[Text, os.PathLike[str], frames.Zones], leaf: Hashable = "leaf", label: Hashable = "label", how: str = "inner",
    names: Optional[Names] = None, threads: int = 1,
) -> Any:
    """`frames.join` of each partition of a dask.dataframe with the index of a dump, which is its text, or a path that each process can
    open. A process opens the index once, and keeps it for later joins with the same dump. The join raises ValueError if the file has
    changed since it was made. The `threads` are those of `Index.at_each`, for each partition: they work beside Dask's processes. ::

        points = dask.dataframe.read_parquet("points")
        clusters.join(points, "zones.dump").groupby("label").size().compute()

    Zones of `s2ix_places` in place of a dump join each partition by their own `join`, and give ids in a column `zone`: each worker gets
    them once, as they stand when the join is made.
    """
    if isinstance(dump, frames.Zones):
        return _joined_by_zones(points, dump, "zone" if label == "label" else label, how, threads)
    frames.expect_columns(points, leaf, label, how)
    path, text = _place_of(dump)
    key = hashlib.sha256(text).hexdigest()
    delayed = importlib.import_module("dask").delayed
    with Index() as empty:
        meta = frames.join(points._meta, empty, leaf, label, how, names)
    # (the text goes into the graph once, and from there once to each worker)
    source = delayed(text, name=f"s2ix-dump-{key}") if path is None else path
    # (map_partitions would cut a Series of names as it cuts the points, if it saw it)
    asked = functools.partial(_joined, key=key, leaf=leaf, label=label, how=how, names=names, threads=threads)
    return points.map_partitions(asked, source, meta=meta)


def _joined_by_zones(points: Any, zones: frames.Zones, zone: Hashable, how: str, threads: int) -> Any:
    joined, delayed = functools.partial(_each_by_zones, zone=zone, how=how, threads=threads), importlib.import_module("dask").delayed
    # (their pickle goes into the graph once, and from there once to each worker)
    source = delayed(pickle.loads)(delayed(pickle.dumps(zones), traverse=False))
    return points.map_partitions(joined, source, meta=joined(points._meta, zones))


def _each_by_zones(points: Any, zones: frames.Zones, zone: Hashable, how: str, threads: int) -> Any:
    return zones.join(points, zone=zone, how=how, threads=threads)


def _place_of(dump: Union[Text, os.PathLike[str]]) -> tuple[Optional[str], bytes]:
    """The path of a dump, if it is given by one, and its text. A text has a line feed; no path that is given as a str has."""
    if isinstance(dump, Index):
        raise TypeError("zones are a dump, not an Index: its dump() is one")
    if isinstance(dump, os.PathLike) or isinstance(dump, str) and "\n" not in dump:
        path = os.path.abspath(dump)
        return path, _read(path)
    return None, bytes_of(dump)


def _read(path: str) -> bytes:
    with open(path, "rb") as file:
        return file.read()


def _joined(
    points: Any, source: Union[bytes, str], key: str, leaf: Hashable, label: Hashable, how: str, names: Optional[Names], threads: int
) -> Any:
    return frames.join(points, _index_of(source, key), leaf, label, how, names, threads)


def _index_of(source: Union[bytes, str], key: str) -> Index:
    """The index of a dump with a key, which this process opens if it hasn't."""
    with _lock:
        if key not in _opened:
            text = _read(source) if isinstance(source, str) else source
            if hashlib.sha256(text).hexdigest() != key:
                raise ValueError(f"{source!r} has changed since the join was made")
            _opened[key] = Index.load(text)
        _opened.move_to_end(key)
        # (one that is no longer kept may still be asked elsewhere, so it is not closed)
        while len(_opened) > _KEPT:
            _opened.popitem(last=False)
        return _opened[key]


def join_parts(
    points: Any, zones: Any, parts: int = 16, leaf: Hashable = "leaf", label: Hashable = "label", how: str = "inner",
    names: Optional[Names] = None, threads: int = 1, cell: Hashable = "cell", pairs: int = 1_000_000,
) -> Any:
    """As `join`, with zones that may be too many for one index: a DataFrame of pandas with a column of cells, numbers or tokens, and one of
    labels, integers of any size, which has the name that the labels get in the answer. Equal pairs count once.

    The call reads a sample of the points at once, and cuts the leaves at its quantiles into `parts` ranges. It cuts a range further if more
    than `pairs` pairs meet it. Each range has an index of its own, with the zones that have a leaf of it, in some process. The leaves of
    the points go there, and their labels come back; the other columns stay where they are. With p partitions and r ranges there are some
    2 p r small tasks.

    Raises what `frames.join` does, ValueError for parts below 1, NoLimits for pairs that an index can't hold, NoCell or NoLabel with the
    first row of `zones` that is wrong, and TooManyPairs if more than `pairs` pairs are over one leaf. ::

        clusters.join_parts(points, zones).to_parquet("answers")
    """
    frames.expect_columns(points, leaf, label, how)
    parts = operator.index(parts)
    if parts < 1:
        raise ValueError(f"parts below 1: {parts}")
    dask, dataframe = importlib.import_module("dask"), importlib.import_module("dask.dataframe")
    with Index(pairs) as empty:
        meta = frames.join(points._meta, empty, leaf, label, how, names)
    rows, blocks, columns = _rows_of(zones, cell, label), points.to_delayed(), points[leaf].to_delayed()
    sampled = dask.compute(*[dask.delayed(_sample)(column, place) for place, column in enumerate(columns)])
    bounds = _cut(rows["cell"], _quantiles(sampled, parts), pairs)
    leaves = [dask.delayed(_leaves_by_range)(column, bounds) for column in columns]
    # (each part is a value of its own in the graph, since Dask warns of tasks with much in them)
    parted = [dask.delayed(part, traverse=False) for part in _rows_by_range(rows, bounds)]
    found = [dask.delayed(_found)(part, [each[place] for each in leaves], threads) for place, part in enumerate(parted)]
    kept = dask.delayed(names, traverse=False)
    joined = [
        dask.delayed(_put_together)(block, leaf, bounds, [each[place] for each in found], label, how, kept)
        for place, block in enumerate(blocks)
    ]
    return dataframe.from_delayed(joined, meta=meta, divisions=points.divisions)


def _rows_of(zones: Any, cell: Hashable, label: Hashable) -> Any:
    """The pairs of zones as packed rows, each once."""
    numpy, pandas = importlib.import_module("numpy"), importlib.import_module("pandas")
    places, of_cells, of_labels = numpy.arange(len(zones)), frames.column_of(zones, cell), frames.column_of(zones, label)
    # (a nullable column gives objects, if not asked)
    dtype = getattr(of_labels.dtype, "numpy_dtype", None)
    labels = of_labels.to_numpy() if dtype is None else of_labels.to_numpy(dtype, na_value=0)
    if labels.dtype.kind not in "iu" and len(labels):
        raise TypeError(f"the column {label!r} is of {of_labels.dtype}: a label is an integer")
    frames.expect_all(of_cells.notna().to_numpy(), of_cells, places, NoCell, "cell")
    cells = frames.numbers_of(of_cells, places, "cell") if len(zones) else numpy.empty(0, numpy.uint64)
    are_cells = (_lows(cells) & numpy.uint64(0x1555_5555_5555_5555) != 0) & (cells < numpy.uint64(6 << 61))
    frames.expect_all(are_cells, of_cells, places, NoCell, "cell")
    frames.expect_all(of_labels.notna().to_numpy() & (labels >= 0) & (labels <= MOST_LABEL), of_labels, places, NoLabel, "label")
    pairs = pandas.DataFrame({"cell": cells, "label": labels}).drop_duplicates()
    rows = numpy.ones(len(pairs), [("cell", "<u8"), ("label", "<u4"), ("count", "<u4")])
    rows["cell"], rows["label"] = pairs["cell"], pairs["label"]
    return rows


def _lows(cells: Any) -> Any:
    """The lowest bit of each cell."""
    return cells & (~cells + cells.dtype.type(1))


def _sample(column: Any, seed: int) -> Any:
    """Some leaves of a partition, the same each time."""
    numpy = importlib.import_module("numpy")
    leaves, _ = frames.leaves_of(column)
    return leaves[numpy.random.default_rng(seed).random(len(leaves)) < 1 / _SHARE]


def _quantiles(sampled: Any, parts: int) -> Any:
    """The first leaves of all ranges but the first, so that about as many points are in each."""
    numpy = importlib.import_module("numpy")
    leaves = numpy.sort(numpy.concatenate([*sampled, numpy.empty(0, numpy.uint64)]))
    return numpy.unique(leaves[numpy.arange(1, parts) * len(leaves) // parts] if len(leaves) else leaves)


def _cut(cells: Any, bounds: Any, pairs: int) -> Any:
    """These bounds, and more where too many pairs meet a range: each is the middle one of the leaves where cells begin or end there."""
    numpy = importlib.import_module("numpy")
    begins = cells - _lows(cells) + numpy.uint64(1)
    edges = numpy.unique(numpy.concatenate([begins, cells + _lows(cells) + numpy.uint64(1)]))
    while True:
        first, last = _ranges_of(cells, bounds)
        met = numpy.cumsum(numpy.bincount(first, minlength=len(bounds) + 2) - numpy.bincount(last + 1, minlength=len(bounds) + 2))
        # (the places of the edges within each range, of which its bounds are none)
        starts = numpy.append(0, numpy.searchsorted(edges, bounds, side="right"))
        limits = numpy.append(numpy.searchsorted(edges, bounds), len(edges))
        full = numpy.flatnonzero(met[:-1] > pairs)
        if not len(full):
            return bounds
        if (starts[full] >= limits[full]).any():
            raise TooManyPairs(f"more than {pairs} pairs are over one leaf")
        bounds = numpy.sort(numpy.append(bounds, edges[(starts[full] + limits[full]) // 2]))


def _ranges_of(cells: Any, bounds: Any) -> tuple[Any, Any]:
    """The places of the first range and of the last that each cell meets."""
    numpy = importlib.import_module("numpy")
    low = _lows(cells) - numpy.uint64(1)
    return numpy.searchsorted(bounds, cells - low, side="right"), numpy.searchsorted(bounds, cells + low, side="right")


def _rows_by_range(rows: Any, bounds: Any) -> list[Any]:
    """The rows that meet each range."""
    numpy = importlib.import_module("numpy")
    first, last = _ranges_of(rows["cell"], bounds)
    many = last - first + 1
    places = numpy.repeat(numpy.arange(len(rows)), many)
    ranges = numpy.repeat(first - numpy.cumsum(many) + many, many) + numpy.arange(len(places))
    order = numpy.argsort(ranges, kind="stable")
    return _split(rows[places[order]], ranges, len(bounds) + 1)


def _split(ordered: Any, ranges: Any, many: int) -> list[Any]:
    """What is ordered by ranges, cut into as many parts as there are ranges."""
    numpy = importlib.import_module("numpy")
    found: list[Any] = numpy.split(ordered, numpy.cumsum(numpy.bincount(ranges, minlength=many))[:-1])
    return found


def _ordered(column: Any, bounds: Any) -> tuple[Any, Any, Any]:
    """The leaves of a partition in the order of their ranges, their places in it, and the ranges of the leaves as they come."""
    numpy = importlib.import_module("numpy")
    leaves, places = frames.leaves_of(column)
    ranges = numpy.searchsorted(bounds, leaves, side="right")
    order = numpy.argsort(ranges, kind="stable")
    return leaves[order], places[order], ranges


def _leaves_by_range(column: Any, bounds: Any) -> list[Any]:
    """The leaves of a partition in each range."""
    leaves, _, ranges = _ordered(column, bounds)
    return _split(leaves, ranges, len(bounds) + 1)


def _found(rows: Any, leaves: list[Any], threads: int) -> list[Any]:
    """How many labels each leaf of a range has, and which, for the leaves of each partition."""
    numpy = importlib.import_module("numpy")
    with Index() as index:
        if len(rows):
            index.add_all(memoryview(rows))
        ends, labels = index.labels_at_each(numpy.concatenate(leaves), threads)
    ends = numpy.append(0, ends)
    limits = numpy.cumsum([len(each) for each in leaves])
    return [
        (numpy.diff(ends[limit - len(each) : limit + 1]), labels[ends[limit - len(each)] : ends[limit]])
        for each, limit in zip(leaves, limits)
    ]


def _put_together(
    points: Any, leaf: Hashable, bounds: Any, found: list[Any], label: Hashable, how: str, names: Optional[Names]
) -> Any:
    """A partition with the labels that each range found for it."""
    numpy = importlib.import_module("numpy")
    _, places, _ = _ordered(points[leaf], bounds)
    many, by_range = (numpy.concatenate(each) for each in zip(*found))
    counts = numpy.zeros(len(points), numpy.intp)
    counts[places] = many
    # (the labels of each point go from the place that they have in the order of ranges to where the point has its first)
    starts = (numpy.cumsum(counts) - counts)[places] - numpy.cumsum(many) + many
    labels = numpy.empty_like(by_range)
    labels[numpy.repeat(starts, many) + numpy.arange(len(by_range))] = by_range
    return frames.labelled(points, counts, labels, label, how, names)
