"""What the log of an index in a file tells: its steps, what each changed, and what was held at any moment."""
from __future__ import annotations

import operator
import re
from datetime import datetime, timedelta, timezone
from typing import Callable, NamedTuple, Optional, TypeVar, Union

from s2ix.book import Asked, Book
from s2ix.form import HEAD, QUIET, STALE, NotKept, Saved, Spoilt, Step
from s2ix.given import MOST_LABEL, check, number_of
from s2ix.index import Index
from s2ix.kept import Kept
from s2ix.refusals import NoLabel, NoSuchChange
from s2ix.rows import Entry
from s2ix.tokens import Cell, cell_of, is_cell, no_cell

#: A step by its id, or a moment: a datetime with its zone.
Moment = Union[int, datetime]
_Made = TypeVar("_Made")

_EPOCH = datetime(1970, 1, 1, tzinfo=timezone.utc)
_MOST = (1 << 63) - 1


class Logged(NamedTuple):
    """A step in the log: its id, which no other ever has; when it was made, in UTC; its note; whether its change is undone; who made it;
    its kind, as `add`, `undo` or `group`; and the step that it took back, brought again, joined from on, or went back to."""

    id: int
    time: datetime
    note: Optional[str]
    is_undone: bool
    who: Optional[str]
    kind: str
    of: Optional[int]


class Log(Kept):
    """An index in a file with what its log tells. These calls read what the file has: so in a group, the state before it."""

    __slots__ = ()

    def log(
        self, *, label: Optional[int] = None, cell: Optional[Cell] = None, who: Optional[str] = None, since: Optional[Moment] = None,
        before: Optional[Moment] = None, newest_first: bool = False, most: Optional[int] = None,
    ) -> list[Logged]:
        """The steps in the log, the oldest first: all, or those that changed counts of a label, or of cells that overlap a cell, or that
        somebody made, from a step or time on, and before another; at most so many. A step is its id, a time a datetime with its zone. No
        step is earlier than the one before it: if the clock was set back, it has the time of that one until the clock has caught up. The
        next page of the newest first is `before=page[-1].id`. O(log n + k) for k steps, but with `cell` O(log n + c) for c steps of such
        cells. Raises Closed, NoLabel, NoCell, sqlite3.Error, Spoilt, and RuntimeError within a step."""
        number = None if label is None else check(label, MOST_LABEL, NoLabel)
        spans, first, limit = None if cell is None else _spans_of(cell), asked_for(since), asked_for(before)
        many = _MOST if most is None else min(operator.index(most), _MOST)
        if many < 0:
            raise ValueError(f"most below 0: {many}")

        def ask(book: Book) -> list[Logged]:
            asked = Asked(number, spans, who, place_of(book, first, 0), place_of(book, limit, _MOST), newest_first, many)
            return [_logged(*found) for found in book.listed(asked)]

        return self._read_log(ask)

    def entries(self, id: int) -> list[Entry]:
        """What a step changed, by its id: by rising cell, then label, with the counts before and after it. A step that changed no count has
        none. Raises Closed, NoSuchChange if the log hasn't got it, sqlite3.Error, Spoilt, and RuntimeError within a step."""
        number = max(0, min(operator.index(id), _MOST))
        return self._read_log(lambda book: _entries_of(book.step(number)))

    def as_of(self, moment: Moment) -> Index:
        """An index of what was held after a step, by its id (0: before the first), or at a time, by a datetime with its zone: a copy, under
        the same limits, with nothing to undo or redo. O(n + m) for n pairs and the m entries of the steps since the state that was saved last
        before. Raises Closed, NoSuchChange if the log doesn't reach to it, sqlite3.Error, Spoilt, OutOfMemory, and RuntimeError within a
        step."""
        asked = asked_for(moment)
        return self._read_log(lambda book: _index_at(book, asked))

    def _read_log(self, ask: Callable[[Book], _Made]) -> _Made:
        work: Callable[[], _Made] = lambda: self._ask_log(ask)
        return self._in_turn(work, is_of_a_task=False, waits=False)

    def _ask_log(self, ask: Callable[[Book], _Made]) -> _Made:
        self._done()
        return self._file.reading(ask)

    def _label_before(self, book: Book, label: int, before: int) -> dict[int, int]:
        """The counts of a label's cells before a step."""
        if book.state().version != self._file.noted.state.version:
            raise NotKept(STALE)
        book.step(before)
        saved, word = book.saved(before - 1), f" {label} "
        held = {cell_of(token): int(count) for token, count in re.findall(f"^([0-9a-f]+){word}([0-9]+)$", saved.dump, re.M)}
        for step in book.steps(saved.step, saved.tip, before - 1):
            if step.change is not None and word in step.change:
                for each in _entries_of(step):
                    if each.label == label:
                        if held.get(each.cell, 0) != each.before:
                            raise Spoilt(step.id, "another count was held then")
                        held[each.cell] = each.after
        return held


def asked_for(moment: Optional[Moment]) -> Union[int, datetime, None]:
    """A step or a time as it is looked for."""
    if moment is None:
        return None
    if isinstance(moment, datetime):
        if moment.tzinfo is None:
            raise ValueError("a moment has its zone, as datetime.now(timezone.utc) has")
        return moment
    return max(0, min(operator.index(moment), _MOST))


def place_of(book: Book, moment: Union[int, datetime, None], other: int) -> int:
    """The first step from a moment on, or another number without one."""
    if moment is None:
        return other
    if isinstance(moment, int):
        return moment
    # (a step at the time itself comes from it on)
    return book.at_time(_micros(moment) - 1, book.state().last) + 1


def _micros(moment: datetime) -> int:
    return (moment - _EPOCH) // timedelta(microseconds=1)


def _logged(step: Step, is_undone: bool) -> Logged:
    return Logged(step.id, _EPOCH + timedelta(microseconds=step.time), step.note, is_undone, step.who, step.kind, step.of_step)


def _spans_of(cell: Cell) -> list[tuple[int, int]]:
    """Where the numbers lie, as the file has them, of cells that overlap one: those within it, and each that it is in."""
    number = number_of(cell)
    if not is_cell(number):
        raise no_cell(number)
    size = number & -number
    spans = [(number - size + 1, number + size - 1)]
    while size < 1 << 60:
        size <<= 2
        number = number & -size | size
        spans.append((number, number))
    return [(first - (first >> 63 << 64), last - (last >> 63 << 64)) for first, last in spans]


def _entries_of(step: Step) -> list[Entry]:
    if step.change is None or step.kind in QUIET:
        return []
    parts = (line.split(" ") for line in step.change.splitlines()[1:])
    return [Entry(cell_of(token), int(label), int(before), int(after)) for token, label, before, after in parts]


def _index_at(book: Book, asked: Union[int, datetime, None]) -> Index:
    """An index of what was held at a moment."""
    state = book.state()
    last = book.at_time(_micros(asked), state.last) if isinstance(asked, datetime) else asked or 0
    if last > state.last:
        raise NoSuchChange(f"the log ends with step {state.last}")
    saved = book.saved(last)
    if isinstance(asked, datetime) and last == book.first() and last:
        raise NoSuchChange("the log begins later")
    steps = book.steps(saved.step, saved.tip, last)
    found, tip = (steps[-1].id, steps[-1].seal) if steps else (saved.step, saved.tip)
    if found != last:
        book.expect_whole(last, tip)
    return Index.replay(saved.dump, _net(steps), *state.limits())


def _net(steps: list[Step]) -> str:
    """The journal of one change that does what some steps did."""
    net: dict[tuple[str, str], list[str]] = {}
    for step in steps:
        if step.change is None or step.kind in QUIET:
            continue
        for line in step.change.splitlines()[1:]:
            token, label, before, after = line.split(" ")
            counts = net.setdefault((token, label), [before, before])
            if counts[1] != before:
                raise Spoilt(step.id, "another count was held then")
            counts[1] = after
    lines = sorted((token, int(label), counts) for (token, label), counts in net.items() if counts[0] != counts[1])
    if not lines:
        return f"{HEAD}end 0\n"
    changes = [f"{token} {label} {first} {last}\n" for token, label, (first, last) in lines]
    return "".join([HEAD, f"change {len(lines)}\n", *changes, "end 1\n"])


def cut_at(book: Book, before: Union[int, datetime]) -> Optional[Saved]:
    """The state after the last step before a moment, from which the log may go on; None if there is no such step."""
    state = book.state()
    last = min(place_of(book, before, 0) - 1, state.last)
    if last <= book.first():
        return None
    with _index_at(book, last) as index:
        tip = book.tip_at(last)
        # (the next step goes on from this state)
        book.expect_whole(last, tip)
        return Saved(last, tip, "", "", 0, index.dump()).sealed()
