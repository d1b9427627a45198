"""The log in a file: its steps and saved states, read and checked by their seals."""
from __future__ import annotations

import sqlite3
import zlib
from itertools import chain, islice
from typing import Any, Iterator, NamedTuple, Optional

from s2ix.form import LAST, LISTED_SUM, Saved, Spoilt, State, Step, ids_in, seal_of, touched
from s2ix.given import MOST_LABEL, MOST_U63
from s2ix.refusals import NoSuchChange

_COLUMNS = "id, time, who, note, kind, of_step, change, seal"
# How many unwanted steps are read rather than asking once more.
_GAP = 50
# Whether the change of a step is undone: its last undo or redo says so.
_IS_UNDONE = (
    "(SELECT kind = 'undo' FROM s2ix_step AS move WHERE move.of_step = step.id AND move.kind IN ('undo', 'redo') "
    "ORDER BY move.id DESC LIMIT 1)"
)
_SEAL_BEFORE = "(SELECT seal FROM s2ix_step AS other WHERE other.id < step.id ORDER BY other.id DESC LIMIT 1)"
# Whether a row lists what is no label or cell, or no integer: its sum may be right, since SQL takes 'x' for 0 there, 1.5 for 1, and -1 for 1.
_MISLISTED = (
    "EXISTS (SELECT 1 FROM s2ix_label WHERE label < 0) OR EXISTS (SELECT 1 FROM s2ix_label WHERE label > ?1) "
    "OR EXISTS (SELECT 1 FROM s2ix_label WHERE label <> label | 0 OR step <> step | 0) "
    "OR EXISTS (SELECT 1 FROM s2ix_cell WHERE cell <> cell | 0 OR step <> step | 0)"
)


class Start(NamedTuple):
    """A saved state, with its steps whose changes can be undone and redone, and these changes, one after the other."""

    saved: Saved
    standing: list[int]
    undone: list[int]
    done: list[str]
    redoable: list[str]


class Asked(NamedTuple):
    """Which steps are asked for: those of a label, of cells in spans of their numbers, and of a person, from an id on and before
    another."""

    label: Optional[int]
    spans: Optional[list[tuple[int, int]]]
    who: Optional[str]
    first: int
    limit: int
    is_newest_first: bool
    most: int


class _Part(NamedTuple):
    """Where steps are looked for: tables, the column of their ids, and what holds there, with values for it."""

    tables: str
    id: str
    wheres: list[str]
    values: list[object]


class Book:
    """The log that a connection of SQLite has, in tables of today's form. The caller makes each call within a transaction."""

    def __init__(self, connection: sqlite3.Connection) -> None:
        self._run = connection.execute

    def asked(self, question: str, *given: object) -> Any:
        """The first value that is answered, or None."""
        row = self._run(question, given).fetchone()
        return row and row[0]

    # States.

    def state(self) -> State:
        """The row of `s2ix_state`. Raises Spoilt."""
        row, *more = self._run("SELECT * FROM s2ix_state LIMIT 2").fetchall() or [()]
        if not more and row and all(type(each) is int for each in row) and row[-1] == seal_of(row[:-1]):
            return State(*row[:-1])
        raise Spoilt(0, "its state is not as it was written")

    def first(self) -> int:
        """The id of the step after which the log goes on, which is 0 in a new file. Raises Spoilt."""
        found = self.asked("SELECT min(step) FROM s2ix_saved")
        if type(found) is not int:
            raise Spoilt(0, "it has no saved state")
        return found

    def is_between(self, state: State) -> bool:
        """Whether the first step in the table is one of the log, and the last that of a state: else a page of another state is there."""
        oldest = self.asked("SELECT min(id) FROM s2ix_step")
        return (oldest is None or oldest > self.first()) and self._seal_before(MOST_U63) == state.tip

    def listed_sum(self, after: int = 0) -> int:
        """The sum of the numbers of the rows that list what steps after one changed. O(k) for all k such rows."""
        return int(self.asked(f"SELECT {LISTED_SUM}", after))

    def is_listed(self, state: State) -> bool:
        """Whether the rows that list labels and cells are those of a state, as far as their sum and their values tell. O(k) for k rows."""
        return not self.asked(f"SELECT {_MISLISTED}", MOST_LABEL) and self.listed_sum() == state.listed_sum

    def last_time(self) -> int:
        """When the last step in the log was made; 0 if there is none. Raises Spoilt."""
        number = self.asked("SELECT max(id) FROM s2ix_step")
        return 0 if number is None else self.step(number).time

    def saved(self, most: int) -> Saved:
        """The last saved state that is at most that after a step. Raises Spoilt, and NoSuchChange if there is none."""
        row = self._run("SELECT * FROM s2ix_saved WHERE step <= ? ORDER BY step DESC LIMIT 1", (most,)).fetchone()
        if row is None:
            raise NoSuchChange(f"the log begins after step {self.first()}")
        try:
            step, tip, standing, undone, changes, dump, seal = row
            saved = Saved(step, tip, standing.decode(), undone.decode(), changes, dump.decode(), seal)
        except (AttributeError, ValueError) as wrong:
            raise Spoilt(0, "a saved state is no text") from wrong
        if saved.sealed() != saved:
            raise Spoilt(0, "a saved state is not as it was written")
        return saved

    def start(self, state: State) -> Start:
        """The last saved state, and what it can undo and redo. Raises Spoilt."""
        try:
            saved = self.saved(state.last)
            standing, undone = ids_in(saved.standing, state.changes), ids_in(saved.undone, state.changes)
        except (NoSuchChange, ValueError) as wrong:
            raise Spoilt(0, wrong) from wrong
        if saved.seal != state.saved:
            raise Spoilt(0, "its saved state is that of another state")
        ids = sorted({*standing, *undone})
        changes = self._changes(ids)
        # (to look at the seals of all these steps takes several times as long)
        try:
            done, redoable = ([changes[each] for each in some] for some in (standing, undone))
            is_same = zlib.crc32(b"".join(chain(done, redoable))) == saved.changes
        except (KeyError, TypeError):
            is_same = False
        if not is_same:
            self._expect_changes(ids)
            raise Spoilt(0, "its changes are those of another state")
        return Start(saved, standing, undone, *([change.decode() for change in some] for some in (done, redoable)))

    def _changes(self, ids: list[int]) -> dict[int, Any]:
        """What the rows of some steps have for a change, with some of others."""
        changes: dict[int, Any] = {}
        for span in _spans(ids):
            changes.update(self._run("SELECT id, change FROM s2ix_step WHERE id BETWEEN ? AND ?", span))
        return changes

    def _expect_changes(self, ids: list[int]) -> None:
        """Raises Spoilt for the first of some steps that is not as it was written, or is gone, or has no change."""
        found = set()
        for first, last in _spans(ids):
            tip = self._seal_before(first)
            for row in self._run(f"SELECT {_COLUMNS} FROM s2ix_step WHERE id BETWEEN ? AND ? ORDER BY id", (first, last)):
                tip = _seal_after(row, tip)
                found.update([row[0]] if row[6] is not None else [])
        missing = {*ids} - found
        if missing:
            raise Spoilt(min(missing), "it is gone, or has no change")

    # Steps.

    def steps(self, after: int, tip: int, last: int) -> list[Step]:
        """The steps whose ids are above `after`, which has the seal `tip`, up to `last`, by rising ids. Raises Spoilt."""
        rows = self._run(f"SELECT {_COLUMNS} FROM s2ix_step WHERE id > ? AND id <= ? ORDER BY id", (after, last))
        steps = []
        for row in rows:
            steps.append(_step(row, tip))
            tip = steps[-1].seal
        return steps

    def expect_whole(self, last: int, tip: int) -> None:
        """Raises Spoilt if a step is gone before the first one above `last`, which goes on from the seal `tip`. (Ids may have gaps, in a
        file that was of form 1, but each seal goes on from that of the step before.)"""
        row = self._run(f"SELECT {_COLUMNS} FROM s2ix_step WHERE id > ? ORDER BY id LIMIT 1", (last,)).fetchone()
        if row is not None:
            _seal_after(row, tip)
        elif tip != self.state().tip:
            raise Spoilt(0, "its last steps are gone")

    def step(self, number: int) -> Step:
        """The step with an id. Raises Spoilt, and NoSuchChange if the log hasn't got it."""
        row = self._run(f"SELECT {_COLUMNS} FROM s2ix_step WHERE id = ?", (number,)).fetchone()
        if number <= self.first():
            raise NoSuchChange(f"the log has no step {number}")
        before = self._seal_before(number)
        if row is None:
            self.expect_whole(number, before)
            raise NoSuchChange(f"the log has no step {number}")
        return _step(row, before)

    def tip_at(self, number: int) -> int:
        """The seal of a step, or of the last one before it."""
        return self._seal_before(number + 1)

    def _seal_before(self, number: int) -> int:
        """The seal that a step goes on from."""
        found = self._run("SELECT id, seal FROM s2ix_step WHERE id < ? ORDER BY id DESC LIMIT 1", (number,)).fetchone()
        first = self.first()
        if found is None or found[0] <= first:
            return self.saved(first).tip
        if type(found[1]) is not int:
            raise Spoilt(found[0], "its seal is no number")
        return int(found[1])

    def listed(self, asked: Asked) -> Iterator[tuple[Step, bool]]:
        """The steps that are asked for, and for each whether its change is undone. Raises Spoilt."""
        if asked.label is None and asked.spans is None:
            if asked.first < asked.limit and not self.asked("SELECT count(*) FROM s2ix_step WHERE id = ?", asked.limit - 1):
                self.expect_whole(asked.limit - 1, self._seal_before(asked.limit))
            parts = [self._found(asked, _Part("s2ix_step AS step", "step.id", [], []), asked.first, asked.limit)]
        else:
            last = self.state().listed
            parts = [
                self._found_listed(asked, min(last + 1, asked.limit)),
                self._found(asked, self._unlisted_part(asked, last), max(last + 1, asked.first), asked.limit),
            ]
        yield from islice(chain.from_iterable(reversed(parts) if asked.is_newest_first else parts), asked.most)

    def _found_listed(self, asked: Asked, limit: int) -> Iterator[tuple[Step, bool]]:
        """The steps that are asked for and listed before one."""
        if asked.label is None and asked.spans is not None:
            tables, spans = _listed_under(asked.spans)
            missing = self.asked(
                f"SELECT min(step) FROM ({tables}) WHERE step >= ? AND step < ? AND NOT EXISTS (SELECT 1 FROM s2ix_step WHERE id = step)",
                *spans, max(asked.first, self.first() + 1), limit
            )
            if missing is not None:
                raise _gone(missing)
        yield from self._found(asked, _listed_part(asked), asked.first, limit)

    def _unlisted_part(self, asked: Asked, last: int) -> _Part:
        """Where the steps are that are asked for and come after the last one that is listed. Those few are looked through."""
        rows = self._run(
            "SELECT id, change FROM s2ix_step WHERE id > max(?1, ?2 - 1) AND id < ?3 AND kind <> 'join' AND instr(change, ?4)",
            (last, asked.first, asked.limit, "" if asked.label is None else f" {asked.label} "),
        )
        ids = [str(number) for number, change in rows if _has_changed(asked, *_touched(number, change))]
        return _Part("s2ix_step AS step", "step.id", [f"step.id IN ({', '.join(ids)})"], [])

    def _found(self, asked: Asked, part: _Part, first: int, limit: int) -> Iterator[tuple[Step, bool]]:
        """The steps of a part of the log that are asked for, from an id on and before another."""
        if first >= limit:
            return
        wheres, values = [*part.wheres, f"{part.id} >= ?", f"{part.id} < ?"], [*part.values, first, limit]
        if asked.who is not None:
            # (a label may lead to a step that is gone)
            wheres.append("step.who = ?" if part.id == "step.id" else "(step.who = ? OR step.id IS NULL)")
            values.append(asked.who)
        columns = ", ".join(f"step.{name}" for name in _COLUMNS.split(", "))
        rows = self._run(
            f"SELECT {part.id}, {columns}, {_SEAL_BEFORE}, {_IS_UNDONE} FROM {part.tables} WHERE {' AND '.join(wheres)} "
            f"ORDER BY {part.id} {'DESC' if asked.is_newest_first else 'ASC'} LIMIT ?", (*values, asked.most)
        )
        begin = self.first()
        start = self.saved(begin).tip
        for number, *row, before, is_undone in rows:
            if number <= begin:
                continue
            if row[0] is None:
                raise _gone(number)
            step = _step(tuple(row), start if before is None or number == begin + 1 else before)
            _expect_asked(step, asked)
            yield step, bool(is_undone)

    def at_time(self, time: int, last: int) -> int:
        """The id of the last step that was made at a time, in microseconds since 1970, or before it. O(log n) for n steps: it halves the
        log, whose times mostly rise. Raises Spoilt, also if a step is gone after that one."""
        low = self.first()
        while low < last:
            middle = (low + last + 1) // 2
            found = self._run("SELECT id, time FROM s2ix_step WHERE id >= ? ORDER BY id LIMIT 1", (middle,)).fetchone()
            if found is not None and type(found[1]) is not int:
                raise Spoilt(found[0], "it has no time")
            if found is None or found[1] > time:
                last = middle - 1
            else:
                low = int(found[0])
        self.expect_whole(low, self.tip_at(low))
        return low


def _step(row: tuple[Any, ...], before: int) -> Step:
    """The step of a row, whose seal goes on from another one. Raises Spoilt."""
    seal = _seal_after(row, before)
    number, time, who, note, kind, of_step, change, _ = row
    return Step(number, time, _text_in(number, who), _text_in(number, note), _text_in(number, kind) or "", of_step, _text_in(number, change), seal)


def _text_in(number: int, text: Optional[bytes]) -> Optional[str]:
    """A text of a step. Raises Spoilt."""
    try:
        return None if text is None else text.decode()
    except ValueError as wrong:
        raise Spoilt(number, "it has no text") from wrong


def _seal_after(row: tuple[Any, ...], before: int) -> int:
    """The seal of a row of a step, which goes on from another one. Raises Spoilt unless the row is as it was written."""
    number, time, who, note, kind, of_step, change, seal = row
    try:
        text = b"%d\x1f%d\x1f%b\x1f%b\x1f=%b\x1f%b\x1f%b\x1f" % (
            number, time, b"" if who is None else b"=" + who, b"" if note is None else b"=" + note, kind,
            b"" if of_step is None else b"%d" % of_step, b"" if change is None else b"=" + change,
        )
    except TypeError as wrong:
        raise Spoilt(number, "it has no text or time") from wrong
    if type(before) is not int:
        raise Spoilt(number, "the seal that it goes on from is no number")
    if type(time) is not int or type(of_step) not in (int, type(None)) or type(seal) is not int or zlib.crc32(text, before) != seal:
        raise Spoilt(number, "it is not as it was written")
    return int(seal)


def _expect_asked(step: Step, asked: Asked) -> None:
    """Raises Spoilt unless a step that was found by its label or cells has changed them. (A step without a change has a note about a
    label.)"""
    if step.change is None or asked.label is None and asked.spans is None:
        return
    if not _has_changed(asked, *touched(step.change)):
        raise Spoilt(step.id, "it is listed under a label or cell that it has not changed")


def _has_changed(asked: Asked, labels: set[int], cells: set[int]) -> bool:
    """Whether what a step changed has the label and cells that are asked for."""
    if asked.label is not None and asked.label not in labels:
        return False
    return asked.spans is None or any(first <= cell <= last for cell in cells for first, last in asked.spans)


def _touched(number: int, change: object) -> tuple[set[int], set[int]]:
    """The labels and cells of the change of a step. Raises Spoilt."""
    try:
        if isinstance(change, bytes):
            return touched(change.decode())
    except (IndexError, ValueError) as wrong:
        raise Spoilt(number, "its change is none") from wrong
    raise Spoilt(number, "it has no text")


def _listed_part(asked: Asked) -> _Part:
    """Where the steps are that are listed under a label or cells."""
    part = _Part("s2ix_step AS step", "step.id", [], [])
    if asked.label is not None:
        # (a label has its steps in their order, so few of them are read for few)
        tables = "s2ix_label AS label LEFT JOIN s2ix_step AS step ON step.id = label.step"
        part = _Part(tables, "label.step", ["label.label = ?"], [asked.label])
    if asked.spans is not None:
        tables, spans = _listed_under(asked.spans)
        part.wheres.append(f"{part.id} IN ({tables})")
        part.values.extend(spans)
    return part


def _listed_under(spans: list[tuple[int, int]]) -> tuple[str, list[int]]:
    """What asks for the steps that are listed under cells, with values for it."""
    question = " UNION ".join(["SELECT step FROM s2ix_cell WHERE cell BETWEEN ? AND ?"] * len(spans))
    return question, [each for span in spans for each in span]


def _gone(number: float) -> Spoilt:
    return Spoilt(int(number), "it is listed under a label or cell, but it is gone")


def _spans(ids: list[int]) -> Iterator[tuple[int, int]]:
    """Where rising ids lie, without the wide gaps between them."""
    first = last = None
    for each in ids:
        if last is not None and first is not None and each - last > _GAP:
            yield first, last
            first = each
        first, last = each if first is None else first, each
    if first is not None and last is not None:
        yield first, last


def is_change(kind: str) -> bool:
    """Whether a step of a kind made a change that could be undone."""
    return kind not in LAST
