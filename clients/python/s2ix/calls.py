"""How an index makes its calls: its handle, the memory that they write to, and which edit came last."""
from __future__ import annotations

import atexit
import ctypes
import weakref
from array import array
from ctypes import addressof
from functools import partial
from itertools import chain
from typing import Any, Callable, Iterator, Optional, Tuple, TypeVar, Union

from s2ix import library
from s2ix.given import wrong_cell
from s2ix.groups import OpenGroup
from s2ix.refusals import NoCell, NoRoom, expect
from s2ix.rows import PACKED, WORD, Row, rows_of

_Read = TypeVar("_Read")

# How many bytes a buffer has at first.
_FIRST = 4096
# The memory that one call at a time writes to: the length of a list goes into the first word, the list after the second. The parts are its
# words, the list's bytes, the arguments of s2ix_at, and the addresses of the length and of the list.
_Buffer = Tuple[memoryview, memoryview, Tuple[Any, ...], int, int]


class _Dropped(weakref.ref):  # type: ignore[type-arg]
    """Frees a store when its index is dropped: what is called then, with this, is the library's call itself. So no line of Python runs,
    before which an interrupt might come, be swallowed and leave the store."""

    __slots__ = ("_as_parameter_",)
    _as_parameter_: Any


# For the address of each handle what waits until its index is dropped.
_DROPPED: dict[int, tuple[object, object]] = {}
# (when the process ends, other threads may still be in a call)
atexit.register(_DROPPED.clear)


class Calls:
    """A handle of the library, and calls over it."""

    __slots__ = ("_calls", "_handle", "_at_handle", "_asker", "_ask_at", "_buffers", "_edit", "_running", "_groups")

    def _prepare(self) -> None:
        """Makes a closed handle, and what its calls want beside it."""
        self._calls: Any = library.of_a_handle()
        self._handle = library.Handle()
        self._at_handle = addressof(self._handle)
        # What asks single questions without ctypes, if there is something. If it answers None, ctypes is asked.
        self._asker = library.asker_of(self._handle, Row)
        # A second s2ix_at, which takes objects of ctypes as they are: to look at their types takes a third of a call's time.
        self._ask_at: Callable[..., int] = self._calls["s2ix_at"]
        dropped = _Dropped(self, library.load().s2ix_close)
        dropped._as_parameter_ = ctypes.byref(self._handle)
        _DROPPED[self._at_handle] = dropped, weakref.ref(self, partial(_DROPPED.pop, self._at_handle))
        # The buffers that no call uses. A call takes the last one by pop, so that no other call has it, and puts it back.
        self._buffers: list[_Buffer] = []
        # An object for the last edit, and one for each edit that runs, so that an iterator sees whether another came.
        self._edit, self._running = object(), set[object]()
        # The groups that are open, the innermost one last.
        self._groups: list[OpenGroup] = []

    def _listed(self, call: Callable[..., int], size: int, read: Callable[[memoryview], _Read], *given: Union[int, bytes]) -> _Read:
        """Makes a call that lists items of so many bytes, and reads them. If the buffer has too little room, it makes the call again with
        enough."""
        try:
            buffer = self._buffers.pop()
        except IndexError:
            buffer = self._new_buffer()
        while True:
            words, room, _, at_number, start = buffer
            status = call(self._at_handle, *given, start, len(room) // size, at_number)
            if status != NoRoom.status:
                break
            buffer = self._new_buffer(max(2 * len(room), words[0] * size))
        if status:
            self._buffers.append(buffer)
            expect(status)
        found = read(room[: words[0] * size])
        self._buffers.append(buffer)
        return found

    def _paged(self, call: Callable[..., int], cells: Optional[array[int]] = None) -> Iterator[Row]:
        """All pairs, or those that meet cells, read page by page: each page is twice as long as the one before."""
        place, room, edit = 0, _FIRST // PACKED, self._last_edit()
        lists = [] if cells is None else [cells.buffer_info()]
        while True:
            try:
                rows = self._page(call, PACKED, rows_of, room, *chain.from_iterable(lists), place)
            except NoCell:
                raise wrong_cell(*lists) from None
            if place:
                self._expect_still(edit)
            yield from rows
            if len(rows) < room:
                return
            place, room = place + room, 2 * room

    def _page(self, call: Callable[..., int], size: int, read: Callable[[memoryview], _Read], room: int, *given: int) -> _Read:
        """One page of a list of items of so many bytes: as many as there is room for, or as are left."""
        try:
            buffer = self._buffers.pop()
        except IndexError:
            buffer = self._new_buffer()
        if len(buffer[1]) < room * size:
            buffer = self._new_buffer(room * size)
        words, found, _, at_number, start = buffer
        expect(call(self._at_handle, *given, start, room, at_number))
        items = read(found[: words[0] * size])
        self._buffers.append(buffer)
        return items

    def _new_buffer(self, size: int = _FIRST) -> _Buffer:
        """A buffer with room for a list of so many bytes."""
        words = (ctypes.c_uint64 * (2 + -(-size // WORD)))()
        view, many = memoryview(words).cast("B"), ctypes.c_size_t(size // PACKED)
        leaf = ctypes.c_uint64.from_buffer(words, WORD)
        asked = ctypes.byref(self._handle), leaf, ctypes.byref(words, 2 * WORD), many, ctypes.byref(words)
        return view.cast("Q"), view[2 * WORD :], asked, addressof(words), addressof(words) + 2 * WORD

    def _edited(self, make: Callable[..., _Read], *given: Any) -> _Read:
        """Makes a call that edits. Iterators see the edit from before the call, and as one that runs until the call has returned."""
        edit = object()
        try:
            self._running.add(edit)
            self._edit = edit
            return make(*given)
        finally:
            self._running.discard(edit)

    def _last_edit(self) -> object:
        """The object of the last edit. While an edit runs it is a new one, since that edit may come before or after what is read next."""
        edit = self._edit
        return object() if self._running else edit

    def _expect_still(self, edit: object) -> None:
        """Raises RuntimeError if another edit followed this one."""
        if self._edit is not edit:
            raise RuntimeError("the index was edited while an iterator went along it")

    def _number_of(self, call: Callable[..., int], *given: int) -> int:
        """Makes a call that answers one number."""
        try:
            buffer = self._buffers.pop()
        except IndexError:
            buffer = self._new_buffer()
        words, _, _, at_number, _ = buffer
        status, number = call(self._at_handle, *given, at_number), words[0]
        self._buffers.append(buffer)
        if status:
            expect(status)
        return number
