"""What callers pass: texts, cells and rows in each form, and numbers that may be too great for the library."""
from __future__ import annotations

import ctypes
import operator
import re
import struct
import sys
from array import array
from functools import partial
from itertools import chain, starmap
from typing import Any, Callable, Iterable, Optional, Union

from s2ix.refusals import Mismatch, NoCell, NoLabel, NotHeld, S2ixError, TooManyCopies, named, placed
from s2ix.tokens import Cell, cell_of, is_cell, no_cell

#: A text: what it says, or its bytes.
Text = Union[str, bytes, bytearray, memoryview]
#: One cell, or many: of any order, and repeated or not. A memoryview or array of 64-bit numbers is passed on as it lies.
Cells = Union[Cell, Iterable[Cell], memoryview, "array[int]"]
#: Targets, each a cell or many. In a memoryview or array of 64-bit numbers each cell is a target.
Targets = Union[Iterable[Cells], memoryview, "array[int]"]
#: From one of these places up to the next the cells of each target lie, if those of all targets lie in one row.
Bounds = Union[Iterable[int], memoryview, "array[int]"]
#: Rows to add or to remove, each a cell, a label and copies. A writable memoryview of packed rows is passed on as it lies. An array of
#: NumPy may have the fields cell, label and count in any order, and others.
Rows = Union[Iterable["tuple[Cell, int, int]"], memoryview]
#: The entries of a change, each a cell, a label and the counts before and after: by rising cell, then label.
Entries = Iterable["tuple[Cell, int, int, int]"]

MOST_U8, MOST_U32, MOST_U63, MOST_U64 = 255, 4_294_967_295, 9_223_372_036_854_775_807, 18_446_744_073_709_551_615
MOST_LABEL = 2_147_483_647
_WORD = 8
_row, _entry = struct.Struct("=QII"), struct.Struct("=QIII4x")
_TEXTS = (str, bytes, bytearray, memoryview)
# What the fields of a row are called, what NumPy calls fields without names, and the signs of this machine's order of bytes in a format.
_FIELDS, _NAMELESS, _NATIVE = ("cell", "label", "count"), ("f0", "f1", "f2"), "@=^" + ("<" if sys.byteorder == "little" else ">")
_FORMAT = re.compile(r"(?:T\{)?" + 3 * rf"([{_NATIVE}]?)([a-zA-Z])(?::(\w+):)?" + r"\}?")
# Where no cells lie. It is never written to.
NO_WORD = ctypes.c_uint64()


def bytes_of(text: Text) -> bytes:
    """The bytes of a text. All else is a TypeError, a number too, since bytes(3) would be three zeros."""
    if isinstance(text, str):
        return text.encode("utf-8", "surrogatepass")
    if isinstance(text, bytes):
        return text
    view = _view_of(text)
    if view is None or view.itemsize != 1 or view.ndim != 1:
        raise TypeError(f"a text is a str or like bytes, not {type(text).__name__}")
    return view.tobytes()


def cells_in(cells: Cells, after: int = 0) -> tuple[int, int, object]:
    """Where cells lie, how many there are, and what keeps them there. `after` cells come before these, and a refusal's place counts them
    too."""
    words: Any = cells
    if cells.__class__ is int and 0 <= cells <= MOST_U64:  # type: ignore[operator]
        words = array("Q", (cells,))
    elif isinstance(cells, array):
        if cells.typecode not in "QL" or cells.itemsize != _WORD:
            raise TypeError(f"cells are 64-bit numbers without sign, not an array of {cells.typecode!r}")
        if cells:
            # (while `first` lives, the array can't be resized, by another thread or by what an argument's __index__ does)
            first = ctypes.c_char.from_buffer(cells)
            return ctypes.addressof(first), len(cells), first
    elif isinstance(cells, (int, str)) and not isinstance(cells, bool):
        words = array("Q", (_number_at(after, cells),))
    else:
        expect_plain(cells, "cells")
        view = _view_of(cells)
        if view is None and (isinstance(cells, bool) or not hasattr(cells, "__index__")):
            words = _array_of(cells, after)
        elif view is None or view.ndim == 0 and view.format != "?":
            # (one number that is no int, as those of numpy)
            words = array("Q", (_number_at(after, words),))
        elif view.itemsize not in (_WORD, 0) or view.format.lstrip("@=<") not in ("Q", "L") or view.ndim != 1:
            raise TypeError(f"cells are 64-bit numbers without sign in one row, not memory of {view.format!r}")
        elif view.readonly or not view.c_contiguous or not len(view):
            words = array("Q", view.tobytes())
        else:
            first = ctypes.c_char.from_buffer(view)
            return ctypes.addressof(first), len(view), first
    start, many = words.buffer_info()
    return (start, many, words) if many else (ctypes.addressof(NO_WORD), 0, words)


def cells_copied(cells: Cells) -> array[int]:
    """The numbers of cells in memory that no one else changes."""
    start, many, kept = cells_in(cells)
    return kept if isinstance(kept, array) and kept is not cells else array("Q", ctypes.string_at(start, many * _WORD))


def expect_plain(given: Any, kind: str) -> None:
    """Raises TypeError for an array with a mask, since its memory has what is masked too."""
    if hasattr(given, "filled"):
        raise TypeError(f"{kind} are in a plain array, not in a masked one")


def _view_of(given: Any) -> Optional[memoryview]:
    """The memory of an object, if it has some that Python can show: that of some arrays of NumPy it can't. In Python 3.9 the items of an
    empty array of ctypes have 0 bytes."""
    try:
        return memoryview(given)
    except (TypeError, ValueError):
        return None


def _array_of(cells: Any, after: int) -> array[int]:
    kept = list(cells)
    try:
        return array("Q", kept)
    except (TypeError, OverflowError):
        return array("Q", starmap(_number_at, enumerate(kept, after)))


def _number_at(place: int, cell: Cell) -> int:
    """The number of a cell at a place of a list. A refusal has the place."""
    try:
        return number_of(cell)
    except NoCell as refusal:
        raise placed(refusal, "place", place) from None


def wrong_cell(*lists: tuple[int, int]) -> S2ixError:
    """The refusal of the first number in some lists that is no cell's. Each list is an address and a length; places count on from one to
    the next."""
    numbers = chain.from_iterable((ctypes.c_uint64 * many).from_address(start) for start, many in lists)
    for place, number in enumerate(numbers):
        if not is_cell(number):
            return placed(no_cell(number), "place", place)
    return NoCell()


def rows_in(rows: Rows, too_many: type[S2ixError] = TooManyCopies) -> tuple[int, int, object]:
    """Where packed rows lie, how many there are, and what keeps them there. Too many copies have a refusal of the call's own."""
    expect_plain(rows, "rows")
    view = _view_of(rows)
    if view is not None and _has_packed_rows(view):
        if not view.readonly and view.c_contiguous and len(view):
            first = ctypes.c_char.from_buffer(view)
            if ctypes.addressof(first) % _WORD == 0:
                return ctypes.addressof(first), len(view), first
        words = array("Q", view.tobytes())
    else:
        items: Any = _rows_by_name(rows) if getattr(getattr(rows, "dtype", None), "names", None) else rows
        if items is rows and view is not None:
            raise TypeError(f"rows in memory have each a cell of 8 bytes, a label of 4 and a count of 4, in one row, not {view.format!r}")
        packed_alone = partial(_packed_row, too_many)
        words = array("Q", _packed(items, _row, packed_alone, "row", 3, "rows are each a cell, a label and copies"))
    start, many = words.buffer_info()
    return (start, many // 2, words) if many else (ctypes.addressof(NO_WORD), 0, words)


def _has_packed_rows(view: memoryview) -> bool:
    """Whether memory lies as the library reads rows: by its format each item has a cell, a label and a count, so named or without names."""
    fields = _FORMAT.fullmatch(view.format)
    if fields is None or view.ndim != 1 or view.itemsize not in (2 * _WORD, 0):
        return False
    orders, codes, names = (fields.groups()[first::3] for first in range(3))
    order, sizes = "@", []
    for own, code in zip(orders, codes):
        # (a field without an order has that of the field before it; struct has another sign for the sizes of C)
        order = own or order
        sizes.append(struct.calcsize(code if order in "@^" else order + code) if code in "QqLlNnI" else 0)
    # (a cell has all 64 bits, so a sign changes nothing)
    return sizes == [8, 4, 4] and codes[1] in "IL" and codes[2] in "IL" and names in (_FIELDS, _NAMELESS, (None,) * 3)


def _rows_by_name(rows: Any) -> Iterable[tuple[Cell, int, int]]:
    """The rows of an array of NumPy that has their fields in any order, and maybe others."""
    dtype = rows.dtype
    if rows.ndim != 1:
        raise TypeError(f"rows lie in one row, not in an array of {rows.ndim} dimensions")
    if not set(_FIELDS) <= set(dtype.names):
        raise TypeError(f"rows have the fields cell, label and count, not {', '.join(dtype.names)}")
    for name in _FIELDS:
        if dtype[name].kind not in "iuO" or name == "cell" and dtype[name].itemsize != _WORD:
            raise TypeError(f"the field {name} of rows has integers{' of 64 bits' if name == 'cell' else ''}, not {dtype[name]}")
    cells, *others = (rows[name] for name in _FIELDS)
    return zip((cells.astype("u8") if dtype["cell"].kind == "i" else cells).tolist(), *(each.tolist() for each in others))


def _packed(items: Any, layout: struct.Struct, packed_alone: Callable[..., bytes], kind: str, size: int, words: str) -> bytes:
    """Items of so many numbers in a layout; if some don't fit, each by itself."""
    kept = list(items)
    # (a text has items too: three bytes would be a row)
    if isinstance(items, str) or any(issubclass(each, _TEXTS) for each in set(map(type, kept))):
        raise TypeError(f"{words}, not a text")
    try:
        return b"".join(starmap(layout.pack, kept))
    except struct.error:
        return b"".join(packed_alone(place, *_expect_size(item, size, f"{kind} {place}")) for place, item in enumerate(kept))


def _expect_size(item: Any, size: int, name: str) -> tuple[Any, ...]:
    """The numbers of an item, if it has as many."""
    numbers = tuple(item)
    if len(numbers) != size:
        raise TypeError(f"{name} has {len(numbers)} items, not {size}")
    return numbers


def _packed_row(too_many: type[S2ixError], place: int, cell: Cell, label: int, copies: int) -> bytes:
    """A row by itself, which is refused by its place if it doesn't fit."""
    refused: object = cell
    try:
        number = number_of(cell)
        refused = label
        check(label, MOST_U32, NoLabel)
        refused = copies
        check_natural(copies, MOST_U32, too_many, "copies")
    except S2ixError as refusal:
        raise placed(named(type(refusal), str(refusal), refused), "row", place) from None
    return _row.pack(number, operator.index(label), operator.index(copies))


def wrong_row(refusal: type[S2ixError], start: int, place: int) -> S2ixError:
    """The refusal of a row's cell, label or copies, by the row's place in rows that lie packed at an address."""
    number, label, copies = _row.unpack(ctypes.string_at(start + place * _row.size, _row.size))
    return placed(named(refusal, str(refusal()), copies) if refusal is NotHeld else _wrong_pair(refusal, number, label), "row", place)


def _wrong_pair(refusal: type[S2ixError], number: int, label: int) -> S2ixError:
    return no_cell(number) if refusal is NoCell else named(refusal, f"{label} is no label", label)


def entries_in(entries: Entries) -> tuple[int, int, object]:
    """Where packed entries lie, how many there are, and what keeps them there."""
    words = array("Q", _packed(entries, _entry, _packed_entry, "entry", 4, "entries are each a cell, a label and two counts"))
    start, many = words.buffer_info()
    return (start, many // 3, words) if many else (ctypes.addressof(NO_WORD), 0, words)


def _packed_entry(place: int, cell: Cell, label: int, before: int, after: int) -> bytes:
    """An entry by itself, which is refused by its place if it doesn't fit."""
    refused: object = cell
    try:
        number = number_of(cell)
        refused = label
        check(label, MOST_U32, NoLabel)
        refused = after
        check_natural(after, MOST_U32, TooManyCopies, "a count")
    except S2ixError as refusal:
        raise placed(named(type(refusal), str(refusal), refused), "entry", place) from None
    if check_natural(before, MOST_U64, Mismatch, "a count") > MOST_U32:
        raise Mismatch(1, place + 1, place)
    return _entry.pack(number, operator.index(label), operator.index(before), operator.index(after))


def wrong_entry(refusal: type[S2ixError], start: int, place: int) -> S2ixError:
    """The refusal of an entry by its place in entries that lie packed at an address."""
    number, label, *_ = _entry.unpack(ctypes.string_at(start + place * _entry.size, _entry.size))
    if refusal is Mismatch:
        return Mismatch(1, place + 1, place)
    return placed(_wrong_pair(refusal, number, label) if refusal in (NoCell, NoLabel) else refusal(), "entry", place)


def number_of(cell: Cell) -> int:
    """The number of a cell, which the library checks further."""
    if isinstance(cell, str):
        return cell_of(cell)
    number = operator.index(cell)
    if number >> 64:
        raise named(NoCell, f"{number} is no 64-bit number", number)
    return number


def check(number: int, most: int, refusal: type[S2ixError]) -> int:
    """A number as an int, from what has an `__index__` too. Refuses what would come to the library as another number."""
    whole = operator.index(number)
    if not 0 <= whole <= most:
        raise refusal
    return whole


def check_natural(number: int, most: int, refusal: type[S2ixError], name: str) -> int:
    """The same, where a number below 0 has no refusal."""
    whole = operator.index(number)
    if whole < 0:
        raise ValueError(f"{name} below 0: {whole}")
    if whole > most:
        raise refusal
    return whole
