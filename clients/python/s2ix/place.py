"""Where the file of an index lies: which file and log are at its path, and which connections SQLite may never close."""
from __future__ import annotations

import ctypes
import os
import sqlite3
import time
from typing import Optional

from s2ix.form import Spoilt

# How many nanoseconds may pass before a system gives a change of a folder another time, and more.
_TICK = 50_000_000


class Place:
    """A path, and which file is there, with which log beside it."""

    def __init__(self, path: str) -> None:
        # (`abspath` would take `link/..` for where the link is)
        self.given = os.path.join(os.getcwd(), path)
        self.real = os.path.realpath(path)
        # What SQLite keeps beside the file: the log, and the memory in which processes share their locks on it.
        self.log = f"{self.real}-wal"
        self._beside = {"log": self.log, "shared memory": f"{self.real}-shm"}
        self.file: Optional[tuple[int, ...]] = None
        self._kept: dict[str, Optional[tuple[int, ...]]] = {}
        self._is_fixed = False
        # The folder, if the path has no link, and how it was when it had been still for a while.
        self._folder = os.path.dirname(self.real) if self.real == os.path.normpath(self.given) else ""
        self._settled: Optional[tuple[int, int, int]] = None

    def address(self, mode: str) -> str:
        """How SQLite is told the file, to open it in a mode."""
        quoted = self.real.replace("%", "%25").replace("?", "%3f").replace("#", "%23")
        return f"file://{quoted}?mode={mode}"

    def expect_openable(self) -> None:
        """Raises Spoilt where SQLite would see an empty file, and would delete the log; and sqlite3.OperationalError where this process may
        not open it."""
        # (the log first: another process may be making the file)
        log, size = _size(self.log), _size(self.real)
        if size == 1:
            raise Spoilt(0, "it is one byte")
        if log and not size:
            raise Spoilt(0, f"it is gone or empty, but its log is there, {self.log}: put the file back, or delete the log")
        file = _identity(self.real)
        why = file and _LEAKED.get(file)
        if why:
            # (a new connection would share memory and locks with the old one)
            raise sqlite3.OperationalError(why)

    def wait_for_file(self, seconds: float) -> None:
        """Waits until another process has made the file, but no longer."""
        until = time.monotonic() + seconds
        while not _size(self.real) and time.monotonic() < until:
            time.sleep(0.005)

    def is_read_only(self) -> bool:
        """Whether nobody can write to the file, nor has left a log."""
        try:
            return bool(os.statvfs(self.real).f_flag & os.ST_RDONLY) and not _size(self.log)
        except OSError:
            return False

    def see(self, is_fixed: bool = False) -> None:
        """Notes which file is there, and what SQLite keeps beside it, and whether the file is to stay as it is."""
        self._is_fixed = is_fixed
        self.file, self._kept = self._look()

    def _look(self) -> tuple[Optional[tuple[int, ...]], dict[str, Optional[tuple[int, ...]]]]:
        return _identity(self.given, self._is_fixed), {name: _identity(path) for name, path in self._beside.items()}

    def fault(self) -> str:
        """What differs from what was seen, or nothing. While no entry of the folder changes nothing can, and one look is cheaper than
        three."""
        folder = _entries(self._folder)
        if folder is not None and folder == self._settled:
            return ""
        now, (file, kept) = time.time_ns(), self._look()
        if self.file is None:
            return ""
        if file != self.file:
            return "another file is at its path: open the index again" if file else "no file is at its path any more"
        for name, seen in self._kept.items():
            # (both come with the first who reads or writes)
            if seen is not None and kept[name] != seen:
                was = "replaced" if kept[name] else "deleted"
                return f"its {name} {self._beside[name]} was {was}: open the index in another process"
        self._kept = kept
        if folder is not None and None not in kept.values() and not self._is_fixed and all(_is_still(changed, now) for changed in folder[1:]):
            self._settled = folder
        return ""


def _size(path: str) -> int:
    try:
        return os.stat(path).st_size
    except OSError:
        return 0


def _entries(folder: str) -> Optional[tuple[int, int, int]]:
    """What tells whether an entry of a folder has changed; None without a folder. (Anybody can set the first time back, as `cp -a` and
    `rsync -a` do, and nobody the second.)"""
    try:
        found = os.stat(folder)
    except OSError:
        return None
    return found.st_ino, found.st_mtime_ns, found.st_ctime_ns


def _is_still(changed: int, now: int) -> bool:
    """Whether a folder that changed at a time would show another time if it changed now. (Some file systems only have whole seconds.)"""
    return changed % 1_000_000_000 != 0 and now - changed > _TICK


def _identity(path: str, is_fixed: bool = False) -> Optional[tuple[int, ...]]:
    """What tells a file from another one at its path, or from itself after a change; None without a file."""
    try:
        found = os.stat(path)
    except OSError:
        return None
    return (*found[1:3], found.st_size, found.st_mtime_ns, found.st_ctime_ns) if is_fixed else found[1:3]


# For the file of each connection that SQLite never closes, why this process can't open it again.
_LEAKED: dict[Optional[tuple[int, ...]], str] = {}


def leak(connection: sqlite3.Connection, place: Place, process: int) -> None:
    """Keeps a connection for ever, so that SQLite never closes it."""
    if process == os.getpid():
        why = "another file or log came to its path while this process had it open, so only another process can open it"
    else:
        why = "the process that this one was forked from had it open: start this process by spawn, or fork before the file is opened"
    _LEAKED[place.file or _identity(place.real)] = why
    ctypes.pythonapi.Py_IncRef(ctypes.py_object(connection))


def is_connected(connection: sqlite3.Connection) -> bool:
    try:
        return connection.total_changes >= 0
    except sqlite3.ProgrammingError:
        return False


def shut(connection: sqlite3.Connection, cursor: sqlite3.Cursor, place: Place, process: int) -> None:
    """Closes a connection, unless SQLite would then put an old log into the file, or delete another connection's log."""
    # (one that is closed has deleted its log)
    if is_connected(connection) and (process != os.getpid() or place.fault()):
        leak(connection, place, process)
    else:
        # (SQLite waits for a cursor that is open)
        if is_connected(connection):
            cursor.close()
        connection.close()
