"""Answers many leaves or targets by one call: how many answers there are up to each, and all answers in one list."""
from __future__ import annotations

import ctypes
import operator
from array import array
from ctypes import addressof
from itertools import accumulate
from typing import TYPE_CHECKING, Any, Callable, Iterable, NamedTuple, Optional, Protocol, TypeVar

from s2ix import library
from s2ix.beside import side_by_side
from s2ix.given import MOST_U64, Bounds, Cells, Targets, cells_copied, expect_plain, wrong_cell
from s2ix.memory import Room, address_of
from s2ix.memory import installed_numpy as _numpy
from s2ix.refusals import REFUSALS, NoCell, NoRoom, NoSpan, S2ixError, named, placed
from s2ix.rows import HALF, PACKED, WORD
from s2ix.tokens import no_cell

if TYPE_CHECKING:
    from s2ix.index import Index

_Made = TypeVar("_Made")

# The first call has room for so many answers a leaf or target, but at most for so many; and each call for at least so many.
_EACH, _MOST, _LEAST = 4, 1 << 22, 256
# A call is given at most so many leaves or targets, so that an interrupt waits some tenths of a second.
_STEP = 1 << 20


class _Asked(Protocol):
    """Leaves or targets, one after the other."""

    #: How many are worth a thread.
    share: int

    def __len__(self) -> int: ...

    def given(self, start: int, stop: int) -> tuple[int, ...]:
        """What a call takes of those from one place up to another."""

    def refusal(self, status: int, place: int) -> S2ixError:
        """Why the one at a place is refused."""


class _Kind(NamedTuple):
    """What is asked for: how many bytes an answer has, its dtype in NumPy, and what makes the whole of parts without NumPy."""

    size: int
    dtype: Any
    whole: Callable[[list[memoryview]], Any]


def rows_of_each(index: Index, leaves: Cells, threads: int) -> tuple[Any, Any]:
    """The rows over each leaf, packed as those of `meet_view`."""
    return _Batch("s2ix_at_each", _Leaves(words_in(leaves, "leaves")), _ROWS).found(index, threads)


def labels_of_each(index: Index, leaves: Cells, threads: int) -> tuple[Any, Any]:
    """The labels over each leaf."""
    return _Batch("s2ix_labels_at_each", _Leaves(words_in(leaves, "leaves")), _LABELS).found(index, threads)


def rows_met_by_each(index: Index, targets: Targets, threads: int, bounds: Optional[Bounds]) -> tuple[Any, Any]:
    """The rows that meet each target."""
    return _Batch("s2ix_meet_each", _targets_in(targets, bounds), _ROWS).found(index, threads)


def labels_met_by_each(index: Index, targets: Targets, threads: int, bounds: Optional[Bounds]) -> tuple[Any, Any]:
    """The labels that meet each target."""
    return _Batch("s2ix_labels_each", _targets_in(targets, bounds), _LABELS).found(index, threads)


# What is given.


def words_in(given: Any, kind: str) -> memoryview:
    """Cells of some kind as 64-bit numbers without sign: as they lie, if they lie in one row."""
    view = _memory_of(given, kind)
    if view is None or view.ndim == 0 and view.format != "?":
        return memoryview(cells_copied(given))
    return _words_of(view, kind)


def _memory_of(given: Any, kind: str) -> Optional[memoryview]:
    """The memory of an array, if it has some."""
    expect_plain(given, kind)
    # (a column of pandas has no memory to look at, but the array that it gives has some; a nullable one gives objects, if not asked)
    dtype = getattr(getattr(given, "dtype", None), "numpy_dtype", None)
    try:
        return memoryview(given if not hasattr(given, "__array__") else given.__array__() if dtype is None else given.__array__(dtype))
    except ValueError:
        if dtype is not None:
            raise TypeError(f"{kind} have no missing values: drop them, or use frames.join") from None
        raise TypeError(f"{kind} are 64-bit integers, not {getattr(given, 'dtype', type(given).__name__)}") from None
    except TypeError:
        return None


def _words_of(view: memoryview, kind: str) -> memoryview:
    """Memory as 64-bit numbers without sign. It is copied only if the numbers lie apart, or where the library can't read them."""
    if view.ndim == 1 and not len(view):
        return memoryview(array("Q"))
    if view.itemsize != WORD or view.format.lstrip("@=<") not in ("Q", "L", "q", "l"):
        raise TypeError(f"{kind} are 64-bit integers, not {getattr(view.obj, 'dtype', view.format)}")
    if view.ndim != 1:
        raise TypeError(f"{kind} lie in one row, not in an array of {view.ndim} dimensions")
    if view.c_contiguous:
        words = view.cast("B").cast("Q")
        if (not view.readonly or _numpy() is not None) and address_of(words) % WORD == 0:
            return words
    return memoryview(array("Q", view.tobytes()))


class _Leaves:
    """Leaves, each to be asked for by itself."""

    share = 4096

    def __init__(self, words: memoryview) -> None:
        self._words, self._start = words, address_of(words)

    def __len__(self) -> int:
        return len(self._words)

    def given(self, start: int, stop: int) -> tuple[int, ...]:
        return self._start + WORD * start, stop - start

    def refusal(self, status: int, place: int) -> S2ixError:
        if status == NoCell.status:
            return placed(no_cell(self._words[place], "leaf"), "place", place)
        return REFUSALS.get(status, S2ixError)()


class _Targets:
    """Targets, each a union of cells: all their cells one after the other, and from one bound up to the next those of each."""

    share = 64

    def __init__(self, cells: memoryview, bounds: memoryview) -> None:
        self._cells, self._start = cells, address_of(cells)
        self._bounds, self._first = bounds, address_of(bounds)

    def __len__(self) -> int:
        return max(len(self._bounds) - 1, 0)

    def given(self, start: int, stop: int) -> tuple[int, ...]:
        return self._start, len(self._cells), self._first + WORD * start, stop - start + 1

    def refusal(self, status: int, place: int) -> S2ixError:
        start, end = self._bounds[place : place + 2]
        if status == NoSpan.status:
            words = f"its cells end at {end}, which is not from {start} to {len(self._cells)}"
            return placed(named(NoSpan, words, end), "target", place)
        if status == NoCell.status:
            return placed(wrong_cell((self._start + WORD * start, end - start)), "target", place)
        return REFUSALS.get(status, S2ixError)()


def _targets_in(targets: Any, bounds: Any) -> _Targets:
    """Targets as they lie, if bounds tell where the cells of each lie, or each cell is one; else copied into one row."""
    if bounds is not None:
        return _Targets(words_in(targets, "cells"), _bounds_in(bounds))
    if isinstance(targets, (int, str, bytes, bytearray)):
        raise TypeError(f"targets are a list of cells or of unions, not {type(targets).__name__}")
    view = _memory_of(targets, "cells")
    # (an array of several rows has a target in each)
    if view is not None and view.format != "O" and (view.ndim < 2 or not hasattr(targets, "__array__")):
        words, numpy = _words_of(view, "cells"), _numpy()
        bounds = array("Q", range(len(words) + 1)) if numpy is None else numpy.arange(len(words) + 1, dtype=numpy.uint64)
        return _Targets(words, memoryview(bounds))
    cells, bounds = array("Q"), array("Q", [0])
    for place, target in enumerate(targets):
        try:
            cells.frombytes(words_in(target, "cells").cast("B"))
        except NoCell as refusal:
            raise placed(refusal, "target", place) from None
        bounds.append(len(cells))
    return _Targets(memoryview(cells), memoryview(bounds))


def _bounds_in(bounds: Any) -> memoryview:
    view = _memory_of(bounds, "bounds")
    if view is not None and view.format != "O":
        return _words_of(view, "bounds")
    # (a number that no memory holds is above all cells, as one below 0 is)
    numbers = map(operator.index, bounds)
    return memoryview(array("Q", [bound if 0 <= bound <= MOST_U64 else MOST_U64 for bound in numbers]))


# What is found.


class _Batch:
    """What is asked by a call of the library, and what is found: how many answers there are after each leaf or target, and all answers."""

    def __init__(self, call: str, asked: _Asked, kind: _Kind) -> None:
        self._call, self._asked, self._kind = call, asked, kind
        numpy, self._many = _numpy(), len(asked)
        self._ends: Any = array("q", bytes(WORD * self._many)) if numpy is None else numpy.empty(self._many, numpy.int64)
        self._is_over = False

    def found(self, index: Index, threads: int) -> tuple[Any, Any]:
        """All are cut among at most so many threads, which see the index as it is now: each asks a copy of its own."""
        threads = operator.index(threads)
        if threads < 1:
            raise ValueError(f"threads below 1: {threads}")
        step = max(-(-self._many // threads), self._asked.share)
        spans = [(start, min(start + step, self._many)) for start in range(0, self._many, step)] or [(0, 0)]
        still = index.copy()
        if len(spans) == 1:
            return self._ends, self._whole([self._part(still, *spans[0])])
        copies = [still, *(still.copy() for _ in spans[1:])]
        return self._joined(spans, self._beside(self._part, copies, *zip(*spans)))

    def _beside(self, work: Callable[..., _Made], *given: Iterable[object]) -> list[_Made]:
        """As `map`, but with a thread for each. If one is refused, those that are left end."""
        return side_by_side(work, list(zip(*given)), self._leave)

    def _leave(self) -> None:
        self._is_over = True

    def _part(self, index: Index, start: int, stop: int) -> tuple[Room, int]:
        """What is found for those from one place up to another, and how many answers that is. Their ends are counted from `start` on.

        The index is a copy that no other thread uses, and this one closes it: an interrupt may end the other threads' work first."""
        room, size, before, place, wanted = Room(), self._kind.size, 0, start, min(_EACH * (stop - start), _MOST)
        with index:
            while place < stop and not self._is_over:
                ends = memoryview(self._ends)[place : min(stop, place + _STEP)]
                items = room.behind(before * size, max(wanted, _LEAST) * size)
                many = self._ask(index, place, ends, items)
                used = ends[many - 1] if many else 0
                _add(ends[:many], before)
                before, place = before + used, place + many
                # (an eighth more than as many each as there are so far; or the next one alone has more than there was room for)
                wanted = (stop - place) * before * 9 // (8 * (place - start)) if many else 4 * len(items) // size
        return room, before

    def _joined(self, spans: list[tuple[int, int]], found: list[tuple[Room, int]]) -> tuple[Any, Any]:
        """The answers of some spans as those of the whole. What is copied or counted anew is so by as many threads."""
        starts, size = [0, *accumulate(number for _, number in found)], self._kind.size
        whole = None if _numpy() is None else Room(starts[-1] * size)

        def put(span: tuple[int, int], start: int, part: tuple[Room, int]) -> None:
            _add(memoryview(self._ends)[slice(*span)], start)
            if whole is not None:
                whole.put(start * size, part[0], part[1] * size)

        self._beside(put, spans, starts, found)
        return self._ends, self._whole(found if whole is None else [(whole, starts[-1])])

    def _whole(self, found: list[tuple[Room, int]]) -> Any:
        """All answers, as they are returned. With NumPy they lie in one room."""
        if _numpy() is None:
            return self._kind.whole([room.view(number * self._kind.size) for room, number in found])
        [(room, number)] = found
        return room.cut(number * self._kind.size).view(self._kind.dtype)

    def _ask(self, index: Index, place: int, ends: memoryview, items: memoryview) -> int:
        """Makes one call, from a place on, that puts its answers into memory; returns for how many leaves or targets."""
        answered, call = ctypes.c_size_t(), getattr(library.load_unlocked(), self._call)
        given = self._asked.given(place, place + len(ends))
        rooms = address_of(ends), len(ends), address_of(items), len(items) // self._kind.size
        status = call(index._at_handle, *given, *rooms, addressof(answered))
        if status not in (0, NoRoom.status):
            raise self._asked.refusal(status, place + answered.value)
        return answered.value


def _add(ends: memoryview, before: int) -> None:
    """Adds to each of some ends."""
    numpy = _numpy()
    if not before:
        return
    if numpy is not None:
        numpy.asarray(ends)[:] += before
    else:
        ends[:] = array("q", [end + before for end in ends])


def _rows_in(parts: list[memoryview]) -> memoryview:
    """A memoryview whose items are rows. One part stays as it lies, if most of its memory isn't free."""
    packed: Any = parts[0] if len(parts) == 1 and 2 * len(parts[0]) >= memoryview(parts[0].obj).nbytes else bytearray().join(parts)
    return memoryview((library.PackedRow * (len(packed) // PACKED)).from_buffer(packed))


def _labels_in(parts: list[memoryview]) -> array[int]:
    labels = array("I")
    for part in parts:
        labels.frombytes(part)
    return labels


_ROWS = _Kind(PACKED, [("cell", "<u8"), ("label", "<u4"), ("count", "<u4")], _rows_in)
_LABELS = _Kind(HALF, "<u4", _labels_in)
