"""Frames of pandas joined with an index: which labels each point is in. pandas is imported when something is joined."""
from __future__ import annotations

import importlib
from typing import Any, Hashable, Mapping, Optional, Protocol, Union, runtime_checkable

from s2ix.given import cells_copied
from s2ix.index import Index
from s2ix.refusals import NoCell, S2ixError, named, placed

#: The names of labels: a mapping, or a Series of pandas whose index has the labels.
Names = Union[Mapping[int, Any], Any]


@runtime_checkable
class Zones(Protocol):
    """What joins points by itself, and has ids for its labels, as zones of `s2ix_places` do."""

    def ids(self, labels: Any) -> list[str]: ...

    def join(self, points: Any, *, zone: Hashable, how: str, threads: int) -> Any: ...


def join(
    points: Any, index: Union[Index, Zones], leaf: Hashable = "leaf", label: Hashable = "label", how: str = "inner",
    names: Optional[Names] = None, threads: int = 1,
) -> Any:
    """The points of a DataFrame with the labels over them: a row for each point and each pair over it, in the order of the points, and for
    one point as `Index.at` has them, the innermost cell first. The labels are a new last column. A label comes twice if the point is in two
    of its cells: `Index.add_union` lays a zone without a cell within another.

    It is a merge of the column `leaf` with a frame whose index has the leaves, `points.merge(answers, left_on=leaf, right_index=True)`: all
    columns are kept, and so is the index, with each value as often as its point comes. `how="inner"` drops the points without a label,
    `how="left"` keeps them, with a label that is missing. So the column of labels is of the dtype "uint32", or, if `how` is "left", of the
    nullable "UInt32". With `names` it has the names of labels; a label without one gets a missing value, as by `Series.map`. Zones of
    `s2ix_places` in place of an index need no leaves, and give ids in a column `zone`: this is their `join`.

    Leaves are 64-bit integers with or without sign, nullable ones of pandas, categories of these, or Python's ints and tokens in a column
    of objects. A missing leaf is in no zone; if all are missing, the column may have any dtype. Floats are a TypeError, since they don't
    hold 64 bits: pandas makes floats of integers if some are missing, unless it reads them as "UInt64". So are all other values, as True.

    Raises KeyError if there is no column `leaf`, ValueError if it is there twice or there is a column `label`, TypeError if `leaf` names
    several columns, under a MultiIndex, NoCell with the row of the first number that is no leaf's, and what `Index.labels_at_each` does.
    At most `threads` threads look for the labels, as there; then one makes the frame. ::

        points = pandas.DataFrame({"parcel": [1, 2], "leaf": [0x0400000000000001, 0x0C00000000000001]})
        frames.join(points, zones, names={3: "Alfama", 9: "Baixa"})
        #    parcel                leaf   label
        # 0       1  288230376151711745   Baixa
        # 0       1  288230376151711745  Alfama
        # 1       2  864691128455135233  Alfama
    """
    if isinstance(index, Zones):
        return index.join(points, zone="zone" if label == "label" else label, how=how, threads=threads)
    if not isinstance(index, Index):
        raise TypeError(f"points are joined with an Index, not {type(index).__name__}: clusters.join takes dumps")
    expect_columns(points, leaf, label, how)
    leaves, places = leaves_of(points[leaf])
    ends, labels = index.labels_at_each(leaves, threads)
    return labelled(points, counts_of(len(points), places, ends), labels, label, how, names)


def expect_columns(points: Any, leaf: Hashable, label: Hashable, how: str) -> None:
    """Raises what pandas would for columns that are not there, or there already."""
    if how not in ("inner", "left"):
        raise ValueError(f"how is 'inner' or 'left', not {how!r}")
    if leaf not in points.columns:
        raise KeyError(leaf)
    if label in points.columns:
        raise ValueError(f"cannot insert {label}, already exists")
    column_of(points, leaf)


def column_of(frame: Any, name: Hashable) -> Any:
    """The one column that has a name. Raises KeyError for none, ValueError if it is there twice, TypeError if it names several."""
    if list(frame.columns).count(name) > 1:
        raise ValueError(f"the column {name!r} is not unique")
    column = frame[name]
    if column.ndim != 1:
        raise TypeError(f"the column {name!r} is {column.shape[1]} columns, under a MultiIndex: name one of them")
    return column


def leaves_of(column: Any) -> tuple[Any, Any]:
    """The leaves of a column, without those that are missing, as numbers without sign; and their places in the column."""
    numpy = importlib.import_module("numpy")
    places = numpy.flatnonzero(column.notna().to_numpy())
    present = column if len(places) == len(column) else column.iloc[places]
    leaves = numbers_of(present, places, "leaf") if len(places) else numpy.empty(0, numpy.uint64)
    # (the lowest bit of a leaf is 1, and its face at most 5)
    expect_all((leaves & numpy.uint64(1) == 1) & (leaves < numpy.uint64(6 << 61)), present, places, NoCell, "leaf")
    return leaves, places


def numbers_of(column: Any, places: Any, kind: str) -> Any:
    """Cells of a column without missing values as numbers of 64 bits without sign. They have these places where they come from."""
    numpy, dtype = importlib.import_module("numpy"), column.dtype
    if hasattr(dtype, "categories"):
        column, dtype = column.astype(dtype.categories.dtype), dtype.categories.dtype
    if dtype.kind == "O":
        wrong = {each for each in set(map(type, column)) if not issubclass(each, (int, str, numpy.integer)) or issubclass(each, bool)}
        if wrong:
            raise TypeError(f"the column {column.name!r} has a {min(each.__name__ for each in wrong)}: a {kind} is an integer or a token")
        try:
            return numpy.asarray(cells_copied(list(column)))
        except NoCell as refusal:
            raise _in_row(NoCell, refusal.value, places[refusal.place], kind) from None
    # (a sparse column has no size of its items)
    if dtype.kind not in "iu" or getattr(dtype, "itemsize", None) != 8:
        raise TypeError(f"the column {column.name!r} is of {dtype}: a {kind} is a 64-bit integer")
    return column.to_numpy(dtype=f"{dtype.kind}8").view(numpy.uint64)


def expect_all(are_right: Any, column: Any, places: Any, refusal: type[S2ixError], kind: str) -> None:
    """Raises a refusal of the first value that is wrong, with its row."""
    if not are_right.all():
        place = int(are_right.argmin())
        raise _in_row(refusal, column.iloc[place], places[place], kind)


def _in_row(refusal: type[S2ixError], value: Any, row: Any, kind: str) -> S2ixError:
    return placed(named(refusal, f"{value!r} is no {kind}", value), "row", int(row))


def counts_of(many: int, places: Any, ends: Any) -> Any:
    """How many labels each of so many points has, if those at some places have them up to these ends."""
    numpy = importlib.import_module("numpy")
    counts = numpy.zeros(many, numpy.intp)
    counts[places] = numpy.diff(ends, prepend=0)
    return counts


def labelled(points: Any, counts: Any, labels: Any, label: Hashable, how: str, names: Optional[Names]) -> Any:
    """Points with their labels, of which each point has as many as its count says."""
    numpy, pandas = importlib.import_module("numpy"), importlib.import_module("pandas")
    repeats = numpy.maximum(counts, 1) if how == "left" else counts
    column = labels if names is None else _names_of(pandas, labels, names)
    if how == "left":
        # (the place of each row's label, or -1 for none)
        is_in = numpy.repeat(counts > 0, repeats)
        places = numpy.where(is_in, numpy.cumsum(is_in) - 1, -1)
        if names is None:
            column = pandas.arrays.IntegerArray(numpy.append(labels, numpy.uint32(0))[places], ~is_in)
        else:
            column = column.reindex(places)
    joined = points.take(numpy.repeat(numpy.arange(len(points)), repeats))
    joined.insert(joined.shape[1], label, column if names is None else column.array)
    return joined


def _names_of(pandas: Any, labels: Any, names: Names) -> Any:
    """A Series with the name of each label, by places."""
    given = names if isinstance(names, pandas.Series) else pandas.Series(dict(names), dtype=None if len(names) else object)
    if not given.index.is_unique:
        raise ValueError("a label has two names")
    return given.reindex(labels.astype("int64")).reset_index(drop=True)
