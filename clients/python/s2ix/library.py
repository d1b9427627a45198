"""The library for C, as include/s2ix.h declares it: where it lies, and how its calls are typed."""
from __future__ import annotations

import ctypes
import ctypes.util
import functools
import importlib
import os
import sysconfig
import threading
from ctypes import c_size_t as size
from ctypes import c_uint8 as u8
from ctypes import c_uint32 as u32
from ctypes import c_uint64 as u64
from ctypes import c_void_p as address
from typing import TYPE_CHECKING, Any, Callable, Optional

if TYPE_CHECKING:
    from s2ix._quick import Asker


class Handle(ctypes.Structure):
    """A store, or none: it starts closed."""

    _fields_ = [("address", address), ("is_open", ctypes.c_bool)]


class PackedRow(ctypes.Structure):
    """A pair with its count, as it lies in a buffer."""

    _fields_ = [("cell", u64), ("label", u32), ("count", u32)]


class PackedEntry(ctypes.Structure):
    """A pair in a change, with its counts before and after, as it lies in a buffer."""

    _fields_ = [("cell", u64), ("label", u32), ("before", u32), ("after", u32)]


class PackedLabel(ctypes.Structure):
    """A label that is held, with its pairs and copies, as it lies in a buffer."""

    _fields_ = [("label", u32), ("pairs", u32), ("copies", u64)]


class PackedRange(ctypes.Structure):
    """A range of leaves, as it lies in a buffer."""

    _fields_ = [("start", u64), ("limit", u64), ("is_empty", ctypes.c_bool)]


class Square(ctypes.Structure):
    """A cell as a square of the grid of its level on its face."""

    _fields_ = [("i", u32), ("j", u32), ("face", u8), ("level", u8), ("orientation", u8)]


#: What each call takes. All answer a status but those of ANSWERS.
CALLS = {
    "s2ix_status_text": [u32, address, size, address],
    "s2ix_version": [address, size, address],
    "s2ix_open": [address, u32, u32, u32],
    "s2ix_load": [address, address, size, u32, u32, u32, address],
    "s2ix_replay": [address, address, size, address, size, u32, u32, u32, address, address],
    "s2ix_rewind": [address, address, size, address, size, u32, u32, u32, address, address],
    "s2ix_resume": [address, address, size, address, size, u32, u32, u32, address, address],
    "s2ix_copy": [address, address],
    "s2ix_close": [address],
    "s2ix_add": [address, u64, u32, u32, address],
    "s2ix_add_all": [address, address, size, address],
    "s2ix_remove": [address, u64, u32, u32, address],
    "s2ix_remove_all": [address, address, size, address],
    "s2ix_add_union": [address, address, size, u32, address],
    "s2ix_drop_label": [address, u32, address],
    "s2ix_relabel": [address, u32, u32, address],
    "s2ix_grow": [address, u32, u8, address],
    "s2ix_normalise_label": [address, u32, address],
    "s2ix_revert": [address, u32, address],
    "s2ix_record": [address, address, size, address],
    "s2ix_undo": [address, address],
    "s2ix_redo": [address, address],
    "s2ix_apply": [address, address, size, address, address, address],
    "s2ix_join": [address, size, address],
    "s2ix_forget": [address],
    "s2ix_forget_older": [address, size],
    "s2ix_clear": [address],
    "s2ix_at": [address, u64, address, size, address],
    "s2ix_at_each": [address, address, size, address, size, address, size, address],
    "s2ix_labels_at_each": [address, address, size, address, size, address, size, address],
    "s2ix_meet": [address, address, size, address, size, address],
    "s2ix_meet_from": [address, address, size, size, address, size, address],
    "s2ix_labels": [address, address, size, address, size, address],
    "s2ix_meet_each": [address, address, size, address, size, address, size, address, size, address],
    "s2ix_labels_each": [address, address, size, address, size, address, size, address, size, address],
    "s2ix_region": [address, u32, address, size, address],
    "s2ix_of_label": [address, u32, address, size, address],
    "s2ix_held_labels": [address, address, size, address],
    "s2ix_pairs": [address, size, address, size, address],
    "s2ix_count": [address, u64, u32, address],
    "s2ix_len": [address, address],
    "s2ix_copies": [address, address],
    "s2ix_done_count": [address, address],
    "s2ix_undone_count": [address, address],
    "s2ix_change": [address, u32, address, size, address],
    "s2ix_difference": [address, address, address, size, address],
    "s2ix_faces_rebuilt": [address, address],
    "s2ix_range_count": [address, address],
    "s2ix_find": [address, u64, address, address, address],
    "s2ix_range": [address, size, address, address, address],
    "s2ix_ranges": [address, size, address, size, address],
    "s2ix_contents": [address, size, u64, address, size, address],
    "s2ix_next_full": [address, size, address],
    "s2ix_previous_full": [address, size, address],
    "s2ix_dump": [address, address, size, address],
    "s2ix_journal": [address, address, size, address],
    "s2ix_journal_from": [address, u32, address, size, address],
    "s2ix_export": [address, address, size, address],
    "s2ix_line": [address, address, size, address, size, address],
    "s2ix_line_kind": [address, size, address],
    "s2ix_cell_is_valid": [u64],
    "s2ix_cell_from_token": [address, size, address],
    "s2ix_cell_to_token": [u64, address, address],
    "s2ix_cell_path": [u64, address, address],
    "s2ix_cell_parent": [u64, u8, address],
    "s2ix_cell_child": [u64, u8, address],
    "s2ix_cell_level": [u64, address],
    "s2ix_cell_face": [u64, address],
    "s2ix_cell_is_leaf": [u64],
    "s2ix_cell_range_min": [u64, address],
    "s2ix_cell_range_max": [u64, address],
    "s2ix_cell_contains": [u64, u64],
    "s2ix_cell_intersects": [u64, u64],
    "s2ix_cell_common_level": [u64, u64, address],
    "s2ix_cell_next": [u64, address],
    "s2ix_cell_edge_neighbors": [u64, address],
    "s2ix_cell_border": [u64, u8, address, size, address],
    "s2ix_cell_to_face_ij": [u64, address],
    "s2ix_cell_from_face_ij": [u8, u32, u32, u8, address],
    "s2ix_union_normalise": [address, size, address, size, address],
    "s2ix_union_from_leaves": [u64, u64, address, size, address],
    "s2ix_union_union": [address, size, address, size, address, size, address],
    "s2ix_union_intersection": [address, size, address, size, address, size, address],
    "s2ix_union_difference": [address, size, address, size, address, size, address],
    "s2ix_union_contains": [address, size, u64, address],
    "s2ix_union_intersects": [address, size, u64, address],
    "s2ix_union_leaf_count": [address, size, address],
}
#: What those calls answer that answer no status.
ANSWERS = {
    "s2ix_close": None,
    "s2ix_cell_is_valid": ctypes.c_bool,
    "s2ix_cell_is_leaf": ctypes.c_bool,
    "s2ix_cell_contains": ctypes.c_bool,
    "s2ix_cell_intersects": ctypes.c_bool,
}
#: The calls for many leaves or targets, which may take long.
LONG = ("s2ix_at_each", "s2ix_labels_at_each", "s2ix_meet_each", "s2ix_labels_each")
#: The calls of single questions, in the order in which an Asker takes them.
SINGLE = ("s2ix_at", "s2ix_meet", "s2ix_labels", "s2ix_count")


def places() -> list[str]:
    """Where the library may lie: as S2IX_LIBRARY says; else in the package, beside it, or where the system looks."""
    named = os.environ.get("S2IX_LIBRARY")
    if named:
        return [named]
    package = os.path.dirname(os.path.abspath(__file__))
    near = [os.path.join(folder, "libs2ix.so") for folder in (package, os.path.dirname(package))]
    return [path for path in near if os.path.exists(path)] or [path for path in [ctypes.util.find_library("s2ix")] if path]


@functools.lru_cache(maxsize=None)
def load() -> ctypes.PyDLL:
    """The library, with each call typed.

    Python's lock, the GIL, is kept during a call, unless this Python has none. If the library is nowhere, OSError is raised.
    """
    found = places()
    if not found:
        raise OSError("there is no libs2ix.so: S2IX_LIBRARY may name it")
    library = ctypes.PyDLL(found[0])
    for name, takes in CALLS.items():
        call = getattr(library, name)
        call.argtypes, call.restype = takes, ANSWERS.get(name, u32)
    return library


@functools.lru_cache(maxsize=None)
def load_unlocked() -> Any:
    """The long calls of the same library. During these Python's lock is released, so other threads of Python run. So no other call may take
    the handle that one is given."""
    library = ctypes.CDLL(load()._name, handle=load()._handle)
    for name in LONG:
        call = getattr(library, name)
        call.argtypes, call.restype = CALLS[name], u32
    return library


def is_quick() -> bool:
    """Whether indexes that are opened now ask single questions by the module `_quick`, which takes a quarter to a half of the time of `ctypes`.
    They do if the package has it, S2IX_NO_QUICK isn't set, and this Python has a GIL."""
    return _quick() is not None and has_gil()


@functools.lru_cache(maxsize=None)
def _quick() -> Any:
    """The module, or None."""
    try:
        return None if os.environ.get("S2IX_NO_QUICK") else importlib.import_module("s2ix._quick")
    except ImportError:
        return None


def asker_of(handle: Handle, row: type[tuple[int, ...]]) -> Optional[Asker]:
    """What asks single questions about a handle, and makes rows of a class; None if `ctypes` asks them."""
    if not is_quick():
        return None
    asker: Asker = _quick().Asker(handle, ctypes.addressof(handle), row, *_addresses())
    return asker


@functools.lru_cache(maxsize=None)
def _addresses() -> list[int]:
    """Where the calls of single questions lie."""
    return [ctypes.cast(load()[name], address).value or 0 for name in SINGLE]


def of_a_handle() -> Any:
    """The calls for one handle: only one of them runs at a time. If this Python has a GIL, each call keeps it, which is enough."""
    return load() if has_gil() else InTurn(load())


@functools.lru_cache(maxsize=None)
def has_gil() -> bool:
    """Whether this Python always has a GIL. A Python that was built to run without one may still switch it on, as it does for some
    imports."""
    return not sysconfig.get_config_var("Py_GIL_DISABLED")


class InTurn:
    """The calls of the library for one handle, where there may be no GIL: each waits until no other runs.

    A signal handler or a finalizer may run on a thread that has the lock, just before or after a call. It may call too, since a thread that
    has the lock may take it again."""

    def __init__(self, library: ctypes.PyDLL) -> None:
        self._library, self._lock = library, threading.RLock()

    def __getattr__(self, name: str) -> Callable[..., Any]:
        call = self._in_turn(getattr(self._library, name))
        setattr(self, name, call)
        return call

    def __getitem__(self, name: str) -> Callable[..., Any]:
        """A call that doesn't check the types of its arguments."""
        return self._in_turn(self._library[name])

    def _in_turn(self, call: Callable[..., Any]) -> Callable[..., Any]:
        lock = self._lock

        def made(*given: Any) -> Any:
            with lock:
                return call(*given)

        return made
