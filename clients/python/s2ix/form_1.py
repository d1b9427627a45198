"""Files as s2ix 1.1 wrote them, of form 1: how they are read, and what they are in today's form.

Form 1 has three tables. `state` has one row, `dump` one with the text that the changes start from, and `change` one for each change that
can be undone or redone: those that are undone have the last ids. The seal of a row is the CRC-32 of its other values, as `ascii` shows
them."""
from __future__ import annotations

import sqlite3
import zlib
from datetime import datetime, timedelta, timezone
from typing import Any, NamedTuple

from s2ix.form import (
    FORM, HEAD, INDEXES, MARK, PUT_SAVED, PUT_STEP, TABLES, Saved, Spoilt, State, Step, inverse_of, listing_of, new_version,
    step_after,
)

SCHEMA = [
    (b"table", b"change", b"change",
     b"CREATE TABLE change (id INTEGER PRIMARY KEY, time TEXT, note TEXT, journal TEXT, seal INTEGER, undone INTEGER)"),
    (b"table", b"dump", b"dump", b"CREATE TABLE dump (text TEXT, seal INTEGER)"),
    (b"table", b"state", b"state", b"CREATE TABLE state (version, start, last, many, standing, pairs, copies, changes, seal)"),
]
_EPOCH = datetime(1970, 1, 1, tzinfo=timezone.utc)


class _State(NamedTuple):
    """The row of `state`."""

    version: int
    start: int
    last: int
    many: int
    standing: int
    pairs: int
    copies: int
    changes: int
    seal: int


def _seal_of(given: tuple[object, ...]) -> int:
    return zlib.crc32(ascii(given).encode("ascii"))


def read_state(connection: sqlite3.Connection) -> _State:
    row, *more = connection.execute("SELECT * FROM state LIMIT 2").fetchall() or [()]
    if not more and row and all(type(each) is int for each in row) and row[-1] == _seal_of(row[:-1]):
        return _State(*row)
    raise Spoilt(0, "its state is not as it was written")


def _read_dump(connection: sqlite3.Connection) -> str:
    (text, seal), *more = connection.execute("SELECT text, seal FROM dump LIMIT 2").fetchall() or [(b"", 0)]
    if more or not isinstance(text, bytes) or _seal_of((text.decode("ascii", "replace"),)) != seal:
        raise Spoilt(0, "its dump is not as it was written")
    return text.decode("ascii", "replace")


def _read_steps(connection: sqlite3.Connection, state: _State) -> list[Step]:
    """The changes as steps, and the undos of those that are undone, the last one first."""
    steps: list[Step] = []
    undone: list[Step] = []
    for number, made, note, journal, seal, is_undone in connection.execute("SELECT * FROM change ORDER BY id"):
        step = _step_of(number, made, note, journal, seal)
        if is_undone not in (0, 1) or undone and not is_undone:
            raise Spoilt(number, "it stands after one that is undone")
        steps.append(step)
        undone += [step] if is_undone else []
    if len(steps) != state.many or len(steps) - len(undone) != state.standing:
        raise Spoilt(0, f"it has {len(steps)} changes in place of {state.many}, or others stand")
    if steps and state.last < steps[-1].id:
        raise Spoilt(0, f"it has a change with an id above the last one, {state.last}")
    undos = (step._replace(id=state.last + place, note=None, kind="undo", of_step=step.id, change=inverse_of(step.change or ""))
             for place, step in enumerate(reversed(undone), 1))
    return [*steps, *undos]


def _step_of(number: int, made: Any, note: Any, journal: Any, seal: object) -> Step:
    """A change as a step."""
    try:
        texts = made.decode(), None if note is None else note.decode(), journal.decode()
        time = datetime.fromisoformat(texts[0]) - _EPOCH
    except (AttributeError, TypeError, ValueError) as wrong:
        raise Spoilt(number, "it has no text or time") from wrong
    change = texts[2][len(HEAD) : -len("end 1\n")]
    if _seal_of((number, *texts)) != seal:
        raise Spoilt(number, "it is not as it was written")
    if texts[2] != f"{HEAD}{change}end 1\n" or not change.startswith("change ") or change.count("change ") != 1:
        raise Spoilt(number, "it is no journal of one change")
    return Step(number, time // timedelta(microseconds=1), None, texts[1], "change", None, change)


def take_over(old: sqlite3.Connection, new: sqlite3.Connection) -> None:
    """Puts what a file of form 1 has into another of today's form, which may be the same file: then its tables go. The caller makes it one
    transaction. Raises Spoilt."""
    given = read_state(old)
    dump, steps = _read_dump(old), _read_steps(old, given)
    if old is new:
        for _, name, *_ in SCHEMA:
            new.execute(f"DROP TABLE {name.decode()}")
    for words in (*TABLES.values(), *INDEXES.values()):
        new.execute(words)
    saved = Saved(steps[0].id - 1 if steps else given.last, 0, "", "", 0, dump).sealed()
    made, tip = _in_order(steps, saved.tip)
    listed, listed_sum = listing_of(made)
    for statement, rows in ((PUT_STEP, made), *listed):
        new.executemany(statement, rows)
    last = max(given.last, steps[-1].id if steps else 0)
    # (who reads both forms sees by the version that all is new)
    version = new_version() if old is new else given.version
    put(new, State(version, last, tip, saved.seal, last, listed_sum, given.pairs, given.copies, given.changes), saved)


def _in_order(steps: list[Step], tip: int) -> tuple[list[Step], int]:
    """Steps with their seals, the first of which goes on from another, and the last seal. None is earlier than the one before it."""
    made, time = [], 0
    for step in steps:
        time = max(time, step.time)
        made.append(step_after(tip, *step._replace(time=time)[:-1]))
        tip = made[-1].seal
    return made, tip


def put(connection: sqlite3.Connection, state: State, saved: Saved) -> None:
    """Puts a first state into its tables, and says what they are."""
    connection.execute(PUT_SAVED, saved)
    connection.execute(f"INSERT INTO s2ix_state VALUES ({', '.join('?' * len(State._fields))}, ?)", state.sealed())
    connection.execute(f"PRAGMA application_id = {MARK}")
    connection.execute(f"PRAGMA user_version = {FORM}")
