"""The library of places for C, as places/include/s2ix_places.h declares it: where it lies, and how the calls that are used are typed."""
from __future__ import annotations

import ctypes
import ctypes.util
import functools
import os
from ctypes import c_bool as boolean
from ctypes import c_size_t as size
from ctypes import c_uint32 as u32
from ctypes import c_void_p as address


class Rings(ctypes.Structure):
    """Polygons as flat arrays: the corners of all rings, where each ring ends, and where each polygon does."""

    _fields_ = [
        ("latitudes", address), ("longitudes", address), ("corners", size), ("ring_ends", address), ("rings", size),
        ("polygon_ends", address), ("polygons", size),
    ]


class RingsRoom(ctypes.Structure):
    """Room for polygons in the same form."""

    _fields_ = [
        ("latitudes", address), ("longitudes", address), ("corner_room", size), ("corners", size), ("ring_ends", address),
        ("ring_room", size), ("rings", size), ("polygon_ends", address), ("polygon_room", size), ("polygons", size),
    ]


class PackedFault(ctypes.Structure):
    """What is wrong with a ring."""

    _fields_ = [("kind", u32), ("ring", size), ("corner", size), ("other_ring", size), ("other_corner", size)]


#: What each call takes. All answer a status but those of ANSWERS.
CALLS = {
    "s2ix_places_status_text": [u32, address, size, address],
    "s2ix_fault_text": [u32, address, size, address],
    "s2ix_shape_read": [address, boolean, address, address],
    "s2ix_shape_free": [address],
    "s2ix_rings_faults": [address, address, size, address],
    "s2ix_shape_cover": [address, u32, u32, u32, address, size, address],
    "s2ix_shape_has_each": [address, address, size, address, address],
    "s2ix_cells_outline_cut": [address, size, address, address],
    "s2ix_shape_set_new": [u32, address],
    "s2ix_shape_set_free": [address],
    "s2ix_shape_set_put": [address, address, address, size],
    "s2ix_shape_set_hold_each": [address, address, address, size, address, address, size, address, address],
}
#: What those calls answer that answer no status.
ANSWERS = {"s2ix_shape_free": None, "s2ix_shape_set_free": None}

#: Statuses of s2ix_places.h.
DONE, OUT_OF_MEMORY, NO_CELL, NO_LIMITS, NO_ROOM, FAULTY, NO_SHAPE, TOO_FINE, WHOLE = 0, 2, 3, 5, 8, 64, 69, 70, 71


def places() -> list[str]:
    """Where the library may lie: as S2IX_PLACES_LIBRARY says; else in the package, beside it, or where the system looks."""
    named = os.environ.get("S2IX_PLACES_LIBRARY")
    if named:
        return [named]
    package = os.path.dirname(os.path.abspath(__file__))
    near = [os.path.join(folder, "libs2ix_places.so") for folder in (package, os.path.dirname(package))]
    return [path for path in near if os.path.exists(path)] or [path for path in [ctypes.util.find_library("s2ix_places")] if path]


@functools.lru_cache(maxsize=None)
def load() -> ctypes.CDLL:
    """The library, with each call typed. Python's lock, the GIL, is released during a call.

    Raises OSError, which says what to install, if the library is nowhere, or the library of S2 that it needs."""
    found = places()
    if not found:
        raise OSError("there is no libs2ix_places.so: the wheel s2ix_places and Debian's package s2ix-places have it, tools/build_places makes it, "
                      "and S2IX_PLACES_LIBRARY may name it")
    try:
        library = ctypes.CDLL(found[0])
    except OSError as raised:
        if "libs2.so" not in str(raised):
            raise
        raise OSError(f"{found[0]} needs S2's library, which is not installed: apt-get install libs2-0 ({raised})") from raised
    for name, takes in CALLS.items():
        call = getattr(library, name)
        call.argtypes, call.restype = takes, ANSWERS.get(name, u32)
    return library


def words_of(call: str, number: int) -> str:
    """What a status or a kind of fault means, by the call that tells it."""
    text, many = ctypes.create_string_buffer(128), size()
    getattr(load(), call)(number, ctypes.addressof(text), len(text), ctypes.addressof(many))
    return text.raw[: many.value].decode()
