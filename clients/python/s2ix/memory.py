"""Memory for what the library finds: it grows behind what is in it, and in the end is as long as that."""
from __future__ import annotations

import ctypes
import functools
import importlib
from ctypes import addressof
from typing import Any

from s2ix.given import NO_WORD


@functools.lru_cache(maxsize=None)
def installed_numpy() -> Any:
    """NumPy, or None if it isn't installed."""
    try:
        return importlib.import_module("numpy")
    except ImportError:
        return None


def address_of(memory: memoryview) -> int:
    """Where memory lies. Of what can't be written, only NumPy tells it."""
    if not len(memory):
        return addressof(NO_WORD)
    if memory.readonly:
        address: int = installed_numpy().asarray(memory).ctypes.data
        return address
    return addressof(ctypes.c_char.from_buffer(memory))


class Room:
    """Bytes of any value. From NumPy they take no memory of the system's, and no time, until they are written to, and then less time than
    zeros do: it asks the system for large pages. So with NumPy bytes that aren't used cost nothing."""

    def __init__(self, size: int = 0) -> None:
        numpy = installed_numpy()
        self._bytes: Any = bytearray(size) if numpy is None else numpy.empty(size, "u1")

    def __len__(self) -> int:
        return len(self._bytes)

    def behind(self, used: int, wanted: int) -> memoryview:
        """All bytes behind so many, at least as many as are wanted. If there are too few, there will be more, and those that are used are
        copied."""
        if len(self) < used + wanted:
            self.lengthen(used, max(used + wanted, len(self) + len(self) // 4))
        return memoryview(self._bytes)[used:]

    def lengthen(self, used: int, size: int) -> None:
        """Has so many bytes from now on, with copies of those that are used."""
        longer = Room(size)
        longer.put(0, self, used)
        self._bytes = longer._bytes

    def put(self, start: int, source: Room, size: int) -> None:
        """Copies so many bytes of a source to a place. Python's lock is released meanwhile."""
        if size:
            ctypes.memmove(address_of(memoryview(self._bytes)) + start, address_of(memoryview(source._bytes)), size)

    def view(self, size: int) -> memoryview:
        """The first bytes, as they lie."""
        return memoryview(self._bytes)[:size]

    def cut(self, size: int) -> Any:
        """An array of NumPy with the first bytes, which takes no memory but for them. After that nothing may be asked of this."""
        # (it only becomes shorter, and its views are used no more: so NumPy needn't look for them)
        self._bytes.resize(size, refcheck=False)
        return self._bytes
