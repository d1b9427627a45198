"""What an index lists, and how it is read from the memory that a call wrote it to."""
from __future__ import annotations

import functools
import struct
from array import array
from typing import Callable, NamedTuple

from s2ix import library

# How many bytes a packed row has, a packed entry, a cell, a label, a packed label with its pairs and copies, and a packed range.
PACKED, ENTRY, WORD, HALF, HELD, RANGE = 16, 24, 8, 4, 16, 24


class Row(NamedTuple):
    """A pair of a cell and a label that is held, with its count."""

    cell: int
    label: int
    count: int  # type: ignore[assignment]


class Entry(NamedTuple):
    """A pair in a change, with its count before and after; 0 is the count of a pair that is not held."""

    cell: int
    label: int
    before: int
    after: int


class HeldLabel(NamedTuple):
    """A label that is held: how many pairs have it, and the sum of their counts."""

    label: int
    pairs: int
    copies: int


class Range(NamedTuple):
    """Neighbouring leaves over which the same pairs lie: the range's place, counted from 0, the number of its first leaf, the first leaf
    number after it, and whether no pair lies over it."""

    place: int
    start: int
    limit: int
    is_empty: bool


row_in, _rows_in = struct.Struct("=QII").unpack_from, struct.Struct("=QII").iter_unpack
new_row: Callable[[type[Row], tuple[int, ...]], Row] = tuple.__new__
_row_of: Callable[[tuple[int, ...]], Row] = functools.partial(new_row, Row)
_entries_in, _held_in, _ranges_in = (struct.Struct(each).iter_unpack for each in ("=QIII4x", "=IIQ", "=QQ?7x"))


def rows_of(packed: memoryview) -> list[Row]:
    """Packed rows as tuples with names."""
    return list(map(_row_of, _rows_in(packed)))


def view_of(rows: memoryview) -> memoryview:
    """A copy of packed rows, whose items are rows."""
    return memoryview((library.PackedRow * (len(rows) // PACKED)).from_buffer_copy(rows))


def entries_of(packed: memoryview) -> list[Entry]:
    return list(map(Entry._make, _entries_in(packed)))


def held_of(packed: memoryview) -> list[HeldLabel]:
    return list(map(HeldLabel._make, _held_in(packed)))


def ranges_of(packed: memoryview) -> list[tuple[int, int, bool]]:
    """The start and the limit of each packed range, and whether it is empty."""
    return [(start, limit, is_empty) for start, limit, is_empty in _ranges_in(packed)]


def labels_of(packed: memoryview) -> list[int]:
    return packed.cast("I").tolist()


def numbers_of(packed: memoryview) -> list[int]:
    return packed.cast("Q").tolist()


def words_of(packed: memoryview) -> memoryview:
    """A copy of packed cells, whose items are numbers."""
    words = array("Q")
    words.frombytes(packed)
    return memoryview(words)


def text_of(packed: memoryview) -> str:
    return str(packed, "ascii")
