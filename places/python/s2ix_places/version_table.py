"""The versions of zones in a file of SQLite, and the calls that put them or took them away, beside the index that it keeps: they are
written in the transaction of their step.

`places_version` has a row for each version: its label, the id of its zone, its geometry and its properties as texts of JSON, whether it
is read with `mend`, its rim cells and its inner cells, each as 8 bytes with the lowest first, and a seal. `places_step` has a row for each
step of the log that edited zones: its id, what was called, the ids of the zones as a text of JSON, and a seal. Rows are only added, until
the log is shortened. `places_setting` has one row, a text of JSON. A seal is the CRC-32 of the other values of its row, in their order:
texts in UTF-8, numbers in decimal digits, cells as they lie there, each followed by a byte 31."""
from __future__ import annotations

import json
import os
import sqlite3
import sys
import zlib
from array import array
from typing import Any, Container, Iterable, Optional

from s2ix import Spoilt

from s2ix_places.history import Call
from s2ix_places.versions import Version

_TABLES = (
    "CREATE TABLE places_version (label INTEGER PRIMARY KEY, id TEXT, geometry TEXT, properties TEXT, mended INTEGER, rim BLOB, "
    "inner BLOB, seal INTEGER)",
    "CREATE INDEX places_version_id ON places_version (id)",
    "CREATE TABLE places_step (step INTEGER PRIMARY KEY, kind TEXT, ids TEXT, seal INTEGER)",
    "CREATE TABLE places_setting (settings TEXT, seal INTEGER)",
)
_INSERT = "INSERT INTO places_version VALUES (?, ?, ?, ?, ?, ?, ?, ?)"
_SELECT = "SELECT label, id, geometry, properties, mended, rim, inner, seal FROM places_version WHERE label = ?"


class VersionTable:
    """The tables, which are read by a connection of their own. It finds what was committed."""

    def __init__(self, path: str) -> None:
        quoted = os.path.realpath(path).replace("%", "%25").replace("?", "%3f").replace("#", "%23")
        self._connection = sqlite3.connect(f"file://{quoted}?mode=ro", uri=True, check_same_thread=False)

    def close(self) -> None:
        """Closes the connection."""
        self._connection.close()

    def is_there(self) -> bool:
        """Whether the file has the tables."""
        return bool(self._asked("SELECT count(*) FROM sqlite_master WHERE name = 'places_version'"))

    def settings(self) -> dict[str, Any]:
        """What was kept when the tables were made. Raises Spoilt."""
        text, seal = self._connection.execute("SELECT settings, seal FROM places_setting").fetchone() or ("", None)
        if seal != _seal_of((text,)):
            raise Spoilt(0, "the settings of its zones are not as they were written")
        found: dict[str, Any] = json.loads(text)
        return found

    def last_label(self) -> int:
        """The last label, or -2 if there is none."""
        last: Optional[int] = self._asked("SELECT max(label) FROM places_version")
        return -2 if last is None else last

    def version(self, label: int) -> Version:
        """The version with a label. Raises Spoilt if there is none, or it is not as it was written."""
        row = self._connection.execute(_SELECT, (label,)).fetchone()
        if row is None or row[-1] != _seal_of(row[:-1]):
            raise Spoilt(0, f"the zone with label {label} is {'missing' if row is None else 'not as it was written'}")
        label, id, geometry, properties, is_mended, rim, inner, _ = row
        return Version(label, id, geometry, properties, bool(is_mended), _cells_in(rim), _cells_in(inner))

    def labels_of(self, id: str) -> list[int]:
        """The labels of all versions of a zone, each that of one of its cells."""
        rows = self._connection.execute("SELECT label, length(rim) FROM places_version WHERE id = ?", (id,))
        return [label if rim else label + 1 for label, rim in rows]

    def call(self, step: int) -> Optional[Call]:
        """What a step was, if it edited zones. Raises Spoilt if that is not as it was written."""
        row = self._connection.execute("SELECT step, kind, ids, seal FROM places_step WHERE step = ?", (step,)).fetchone()
        if row is None:
            return None
        if row[-1] != _seal_of(row[:-1]):
            raise Spoilt(step, "what was called is not as it was written")
        return Call(row[1], json.loads(row[2]))

    def _asked(self, question: str) -> Any:
        return self._connection.execute(question).fetchone()[0]


def make_tables(connection: sqlite3.Connection, settings: dict[str, Any]) -> None:
    """Makes the tables, in the transaction of a step."""
    for table in _TABLES:
        connection.execute(table)
    text = json.dumps(settings)
    connection.execute("INSERT INTO places_setting VALUES (?, ?)", (text, _seal_of((text,))))


def put_versions(connection: sqlite3.Connection, versions: Iterable[Version]) -> None:
    """Puts versions, in the transaction of a step."""
    rows = (
        (each.label, each.id, each.geometry, each.properties, int(each.is_mended), _bytes_of(each.rim), _bytes_of(each.inner))
        for each in versions
    )
    connection.executemany(_INSERT, ((*row, _seal_of(row)) for row in rows))


def put_call(connection: sqlite3.Connection, call: Call) -> None:
    """Puts what the step is that the transaction makes. It has the id after the last one."""
    (last,) = connection.execute("SELECT last FROM s2ix_state").fetchone()
    row = last + 1, call.kind, json.dumps(call.ids)
    connection.execute("INSERT INTO places_step VALUES (?, ?, ?, ?)", (*row, _seal_of(row)))


def drop_unreached(connection: sqlite3.Connection, first: int, reached: Container[int]) -> int:
    """Drops what the log, which begins with a step, leads to no more, in the transaction of a step: calls, and all versions that it doesn't
    name and that aren't reached otherwise. Returns how many versions these were."""
    logged = {label & ~1 for (label,) in connection.execute("SELECT label FROM s2ix_label")}
    gone = [row for row in connection.execute("SELECT label FROM places_version") if row[0] not in logged and row[0] not in reached]
    connection.executemany("DELETE FROM places_version WHERE label = ?", gone)
    connection.execute("DELETE FROM places_step WHERE step < ?", (first,))
    return len(gone)


def _bytes_of(cells: array[int]) -> bytes:
    return _swapped(cells).tobytes()


def _cells_in(packed: bytes) -> array[int]:
    return _swapped(array("Q", packed))


def _swapped(cells: array[int]) -> array[int]:
    """The numbers so that their lowest byte is first, or back from that."""
    if sys.byteorder == "big":
        cells = array("Q", cells)
        cells.byteswap()
    return cells


def _seal_of(values: Iterable[Any]) -> int:
    seal = 0
    for value in values:
        seal = zlib.crc32(value if isinstance(value, bytes) else str(value).encode(), seal)
        seal = zlib.crc32(b"\x1f", seal)
    return seal
