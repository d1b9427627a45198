"""An index in a file: each accepted edit, undo and redo is in the file when its call returns."""
from __future__ import annotations

import operator
import os
import sqlite3
from datetime import datetime
from functools import partial
from typing import Any, Callable, Optional, TypeVar, Union

from s2ix.form import EMPTY, Limits, Noted, Undone, inverse_of
from s2ix.given import MOST_LABEL, MOST_U32, MOST_U63, Cells, Entries, Rows, Text, bytes_of, check, check_natural
from s2ix.groups import Block, Group, OpenGroup
from s2ix.index import Index
from s2ix.index_file import IndexFile, naming
from s2ix.kept import Cut, Edit, Words, text_of, undone_after
from s2ix.logged import Log, Logged, Moment, asked_for, cut_at
from s2ix.refusals import BelowZero, NoLabel, NoLimits, NoSuchChange, NothingToRedo, NothingToUndo, TooFewChanges
from s2ix.tokens import Cell

_Made = TypeVar("_Made")

__all__ = ["Durable", "Logged", "Transaction"]

# What Unicode calls white space, which may stand round a word of a script.
_SPACES = "\t\n\v\f\r \x85\xa0\u1680\u2000\u2001\u2002\u2003\u2004\u2005\u2006\u2007\u2008\u2009\u200a\u2028\u2029\u202f\u205f\u3000"
# The kinds of steps that have another word in a script, and those that have the same.
_KINDS = {"addunion": "add_union", "drop": "drop_label", "normal": "normalise_label"}
_KINDS.update((kind, kind) for kind in ("add", "remove", "relabel", "grow", "revert"))


class Transaction(Block):
    """A group whose `with` gives SQLite's connection, for tables of a caller's own: see `Durable.transaction`."""

    _is_lent = True

    def __enter__(self) -> sqlite3.Connection:
        self._enter()
        index = self._index
        assert isinstance(index, Durable)
        return index._connection()


class Durable(Log):
    """An index in a file. What its calls did is there when they return, and comes back when the file is opened again, after a crash too:
    the pairs, all changes that can be undone or redone, and a log of all steps.

    Each step may have a `note`, and `who` makes it. `log` lists the steps, and `entries` what one changed; `as_of` is the index of any
    moment. No step leaves the log, what can be undone or not, unless `compact(before=..)` shortens it. `revert(id=7)` takes a change back,
    and `restore` gives a label what it had.

    If the file refuses a step, as on a full disk, the step is taken back in memory, and NotKept is raised, with the file's own error as its
    cause. A step that is in SQLite's log, although its COMMIT failed, is also written over: it might come back after a crash. So memory and
    file never differ. The index is closed if memory is wanted to take a step back, or if the file can't even say whether it has the step,
    or can't write over it: then its own error is raised, and what is opened next is as before or after the step. An interrupt, as by
    Ctrl-C, may come anywhere: then the step is done or taken back, or the index is closed. In a group nothing is written until its end.

    One process writes to a file; others follow it by `read_only=True` and `refresh`. If another process has written to the file, each step
    that would write to it raises NotKept until `refresh` has brought the index up to date. Threads may share it: an edit waits for another
    thread's edit or group; a thread that only asks doesn't wait, and sees what was held before the group, as followers do. A finalizer or a
    signal handler may ask, and may make a step, but not within a step of its own thread: then an edit, `refresh`, `log` and `close` raise
    RuntimeError, and nothing has changed. In a forked child each step raises Closed, and the child can't open the file anew: open it after
    the fork, or start the child by `spawn`.

    The file and its log beside it, `zones.db-wal`, belong together: copy them by `backup` alone, and don't open, move, replace or delete
    them while the index is open. A process that opens and closes its own file in another way drops the locks that keep others from deleting
    the log. If another file or log comes to the path, or none is there, each step raises NotKept, `refresh` raises
    sqlite3.OperationalError, and what is in memory can still be read. If a byte of the log goes wrong on the disk, SQLite drops the steps
    from there on. That shows on opening if pages of later steps are in the file; else the file opens at an earlier step.

    After 100,000 changes, or as many as the limits say, an edit raises JournalFull: `forget_older` makes room, or `keep="newest"` does by
    itself. A dump comes into an open index by one change, `zones.record(zones.difference(Index.load(dump)))`.

    >>> import os, tempfile
    >>> path = os.path.join(tempfile.mkdtemp(), "zones.db")
    >>> with Durable(path) as zones:
    ...     zones.add("04", 9, note="match day"), zones.add("0c", 9)
    (1, 1)
    >>> with Durable(path) as zones:
    ...     [(each.id, each.note) for each in zones.log()], zones.revert(id=1), len(zones), zones.undo()
    ([(1, 'match day'), (2, None)], 1, 1, 1)
    """

    __slots__ = ("_has_edited", "_redoable", "_keeps_newest")

    def __init__(
        self, path: Union[str, os.PathLike[str]], pairs: Optional[int] = None, copies: Optional[int] = None,
        changes: Optional[int] = None, *, read_only: bool = False, synchronous: str = "FULL", timeout: float = 5.0,
        who: Optional[str] = None, keep: str = "all",
    ) -> None:
        """Opens the index in a file, or makes a file of an empty one, under limits as those of `Index`. A file that is there has its own
        limits. O(n + m log n) for n pairs and m entries of the changes that can be undone and of the steps since the last saved state.

        `synchronous` is FULL, by which no step is lost if the power fails, or NORMAL, which is faster, and may lose the last steps then; if
        only the process is killed, no step is lost. `timeout` is how many seconds a step waits while another process writes, and a reader
        until another has made the file. `who` makes each step that doesn't say so itself. With `keep="newest"` an edit that finds as many
        changes as the limit allows forgets the oldest fourth of them, as `forget_older` does, and a group begins with room for a fourth. They
        stay forgotten if the file then refuses the edit.

        A file of 0 bytes is a new one. A file as s2ix 1.1 wrote it is taken over into today's form, which 1.1 can't read; with `read_only`
        it stays as it is. Raises Spoilt if it is no file of an index, or not as it was written, or if its log is there without it;
        LaterForm if a later version wrote it; NoLimits if it has other limits than those that are given; OutOfMemory; and sqlite3.Error if
        it can't be opened. The words begin with the path."""
        _expect_one_of("synchronous", synchronous, "FULL", "NORMAL")
        _expect_one_of("keep", keep, "all", "newest")
        asked = pairs, copies, changes
        limits = _limits_of(asked)
        super().__init__(*limits)
        self._who, self._keeps_newest = text_of(who, "who"), keep == "newest"
        self._is_in_doubt = False
        # In a group: whether it has edited, and how many of its changes are undone.
        self._has_edited, self._redoable = False, 0
        name = os.fsdecode(path)
        with naming(name):
            self._file = IndexFile(name, limits, read_only=read_only, synchronous=synchronous, timeout=timeout)
            try:
                self.refresh()
                _expect_limits(asked, self._file.noted.state.limits())
                if self._file.take_over():
                    self.refresh()
            except BaseException:
                self.close()
                raise

    def __enter__(self) -> Durable:
        return self

    # How edits are kept.

    def _step(
        self, kind: str, said: tuple[Optional[str], Optional[str]], make: Callable[..., _Made], *given: Any, of: Optional[int] = None,
        room: int = 1, noted: Optional[int] = None,
    ) -> _Made:
        """Makes an edit of a kind, and keeps its change. It wants room for so many changes. If it changes nothing, its note is kept for a
        label that is noted."""
        answer: _Made = self._in_turn(self._make_edit, Edit(kind, self._whose(*said), of, room, noted), make, given)
        return answer

    def _make_edit(self, edit: Edit, make: Callable[..., Any], given: tuple[Any, ...]) -> Any:
        self._file.expect_writer()
        if self._groups:
            return self._edit_in_group(make, given)
        if self._keeps_newest:
            self._make_room(edit.room, edit.words)
        return self._whole(partial(self._edit_and_keep, edit, make, given), self._restore)

    def _edit_and_keep(self, edit: Edit, make: Callable[..., Any], given: tuple[Any, ...]) -> Any:
        answer = make(*given)
        self._keep(edit)
        return answer

    def _edit_in_group(self, make: Callable[..., _Made], given: tuple[Any, ...]) -> _Made:
        """Makes an edit, and notes whether it dropped what could be redone. If an interrupt keeps that from being known, it did."""
        before, noted = self._done(), (self._has_edited, self._redoable)
        self._has_edited, self._redoable = True, 0
        try:
            return make(*given)
        finally:
            if self._done() == before:
                self._has_edited, self._redoable = noted

    def _keep(self, edit: Edit, is_over: bool = False, is_lent: bool = False) -> None:
        """Keeps the changes that the file hasn't, and drops what can be redone, if there is one or it is over. Without either it keeps what
        is noted of a label, and what a caller wrote."""
        noted = self._file.noted
        many = noted.many
        changes = self._changes_after(many)
        if changes:
            first = noted.state.last + 1
            noted.standing[many:] = range(first, first + len(changes))
            self._put(edit.kind, edit.words, changes, noted.standing, many + len(changes), [], of=edit.of)
        elif is_over and noted.undone:
            self._put(edit.kind, edit.words, [None], noted.standing, many, [])
        elif is_lent or edit.label is not None and edit.words.note is not None:
            self._put(edit.kind, edit.words, [] if is_lent else [None], noted.standing, many, noted.undone, label=edit.label)

    def _make_room(self, many: int, words: Words) -> None:
        """Forgets the oldest changes, if there is no room for so many more."""
        noted = self._file.noted
        most = noted.state.changes
        if noted.many + many > most:
            self._forget_but(max(0, min(most * 3 // 4, most - many)), Words(None, words.who))

    # Edits, each with a note.

    def add(self, cell: Cell, label: int, copies: int = 1, *, note: Optional[str] = None, who: Optional[str] = None) -> int:
        """As `Index.add`. Each edit may raise NotKept too."""
        return self._step("add", (note, who), super().add, cell, label, copies)

    def add_all(self, rows: Rows, *, note: Optional[str] = None, who: Optional[str] = None) -> int:
        """As `Index.add_all`."""
        return self._step("add_all", (note, who), super().add_all, rows)

    def remove(self, cell: Cell, label: int, copies: int = 1, *, note: Optional[str] = None, who: Optional[str] = None) -> int:
        """As `Index.remove`."""
        return self._step("remove", (note, who), super().remove, cell, label, copies)

    def remove_all(self, rows: Rows, *, note: Optional[str] = None, who: Optional[str] = None) -> int:
        """As `Index.remove_all`."""
        return self._step("remove_all", (note, who), super().remove_all, rows)

    def add_union(self, cells: Cells, label: int, *, note: Optional[str] = None, who: Optional[str] = None) -> int:
        """As `Index.add_union`."""
        return self._step("add_union", (note, who), super().add_union, cells, label)

    def drop_label(self, label: int, *, same_ok: bool = False, note: Optional[str] = None, who: Optional[str] = None) -> int:
        """As `Index.drop_label`. With `same_ok` and a note the log has that note, though nothing changes."""
        make = partial(super().drop_label, same_ok=same_ok)
        return self._step("drop_label", (note, who), make, label, noted=_label_of(label))

    def set_label(
        self, label: int, cells: Cells, *, same_ok: bool = False, note: Optional[str] = None, who: Optional[str] = None
    ) -> int:
        """As `Index.set_label`. With `same_ok` and a note the log has that note, though nothing changes."""
        make = partial(super().set_label, same_ok=same_ok)
        return self._step("set_label", (note, who), make, label, cells, noted=_label_of(label))

    def relabel(self, source: int, target: int, *, note: Optional[str] = None, who: Optional[str] = None) -> int:
        """As `Index.relabel`."""
        return self._step("relabel", (note, who), super().relabel, source, target)

    def grow(self, label: int, level: int, *, note: Optional[str] = None, who: Optional[str] = None) -> int:
        """As `Index.grow`."""
        return self._step("grow", (note, who), super().grow, label, level)

    def normalise_label(self, label: int, *, note: Optional[str] = None, who: Optional[str] = None) -> int:
        """As `Index.normalise_label`."""
        return self._step("normalise_label", (note, who), super().normalise_label, label)

    def revert(
        self, change: Optional[int] = None, *, id: Optional[int] = None, note: Optional[str] = None, who: Optional[str] = None
    ) -> int:
        """Takes back a change, by its number or by the id of its step, and leaves those that followed it. Else as `Index.revert`. `step` of
        BelowZero is the id of the later step that took copies."""
        if (change is None) == (id is None):
            raise TypeError("revert takes the number of a change, or its id")
        return self._in_turn(self._revert, change, id, self._whose(note, who))

    def _revert(self, change: Optional[int], id: Optional[int], words: Words) -> int:
        place = operator.index((id if change is None else change) or 0)
        if not self._groups:
            # (to make room moves the numbers of changes, and not their ids)
            id = place if change is None else self._id_at(place)
            self._file.expect_writer()
            if self._keeps_newest:
                self._make_room(1, words)
            place = self._place_of(id)
        elif change is None:
            place = self._place_of(place)
        answer: int = self._make_edit(Edit("revert", words, self._id_at(place), 1, None), super().revert, (place,))
        return answer

    def _id_at(self, place: int) -> Optional[int]:
        """The id of the change of a number, or None if the file has none."""
        noted = self._file.noted
        return noted.standing[place - 1] if 0 < place <= noted.many else None

    def _place_of(self, id: Optional[int]) -> int:
        """The number of the change of an id, or 0, which no change has."""
        standing = self._file.noted.standing[: self._file.noted.many]
        return standing.index(id) + 1 if id is not None and id in standing else 0

    def _below_zero(self, change: int) -> BelowZero:
        found, noted = super()._below_zero(change), self._file.noted
        if found.cell is None or found.label is None or found.later is None or found.later > noted.many:
            return found
        steps = noted.standing[change - 1], noted.standing[found.later - 1]
        return BelowZero(found.cell, found.label, change, found.later, steps)

    def restore(self, label: int, before: int, *, note: Optional[str] = None, who: Optional[str] = None) -> int:
        """Gives a label the cells and counts that it had before a step in the log, by its id, as one new change, whatever came later;
        returns how many pairs changed. O(n + m) for n pairs and the m entries of the steps between that one and the state that was saved
        last before it. Raises NoLabel, NoSuchChange if the log hasn't got the step, Spoilt, and what each edit may, as NoChange if the label
        is as it was."""
        return self._step("restore", (note, who), self._restore_label, label, before, of=operator.index(before))

    def _restore_label(self, label: int, before: int) -> int:
        label, before = check(label, MOST_LABEL, NoLabel), check(before, MOST_U63, NoSuchChange)
        wanted = self._file.reading(lambda book: self._label_before(book, label, before))
        return self._give_label(label, self._counts_of(label), wanted)

    def record(self, entries: Entries, *, note: Optional[str] = None, who: Optional[str] = None) -> int:
        """As `Index.record`."""
        return self._step("record", (note, who), super().record, entries)

    def apply(self, journal: Text, *, note: Optional[str] = None, who: Optional[str] = None) -> int:
        """As `Index.apply`: each change has a step of its own."""
        given = bytes_of(journal)
        return self._step("apply", (note, who), super().apply, given, room=max(1, given.count(b"change")))

    def line(self, text: Text, *, note: Optional[str] = None, who: Optional[str] = None) -> str:
        """As `Index.line`, but in a group a line "undo" takes back what was done in it, and raises no RuntimeError. Raises NotKept too."""
        given = bytes_of(text)
        words = given.decode("utf-8", "surrogateescape").strip(_SPACES)
        steps: dict[str, Callable[..., Optional[int]]] = {"undo": self.undo, "redo": self.redo, "forget": self.forget}
        step = steps.get(words)
        if step is None:
            found = self._still_line(given)
            if found is not None:
                return found
            kind, *rest = words.split() or ["line"]
            of = self._reverted(kind, rest)
            return self._step(_KINDS.get(kind, "line"), (note, who), partial(self._line, of), given, of=of)
        try:
            return f"ok {step(note=note, who=who) or 0}\n"
        except (NothingToUndo, NothingToRedo) as refusal:
            return f"no {type(refusal).__name__}\n"

    def _reverted(self, kind: str, rest: list[str]) -> Optional[int]:
        """The step whose change a line takes back."""
        return self._id_at(int(rest[0])) if kind == "revert" and len(rest) == 1 and rest[0].isdecimal() else None

    def _line(self, of: Optional[int], given: bytes) -> str:
        """Carries out a line. If it takes back the change of a step, that may have another number by now, or none."""
        return super().line(given if of is None else b"revert %d" % (self._place_of(of) or MOST_U32))

    # Steps.

    def group(self, *, note: Optional[str] = None, who: Optional[str] = None) -> Group:
        """As `Index.group`: the file keeps it as one step, with this note and no other, or not at all. Other threads' steps wait until it
        ends; until then they and other tasks of asyncio see what was held before it, of which it makes a `copy`. Steps of another task on
        the same thread can't wait, so they raise RuntimeError, unless the group began in no task. In it `redo` does again only what was
        undone in it. Raises NotKept and OutOfMemory too; then all is undone. What a group did that failed can't be redone, unlike in
        `Index.group`; what could be redone before it still can."""
        return Group(self, note, who)

    def transaction(self, *, note: Optional[str] = None, who: Optional[str] = None) -> Transaction:
        """A group whose `with` gives SQLite's connection, for tables of your own: what you write to them and the group's step are both in
        the file, or neither. Nobody else writes to the file until it ends. The connection refuses to end the transaction, to attach files,
        and to change tables whose names begin with `s2ix_`. Give it up when the `with` ends, and each cursor with rows that you haven't
        read: as long as one is there, SQLite shows nothing new of the file and may keep others from writing. If the `with` ends with an exception, the
        file refuses it, or a statement of yours rolls it back, as INSERT OR ROLLBACK may, what you wrote is gone too, and nothing more is
        written. It begins in no group, and costs and raises what `group` does.

        >>> import os, tempfile
        >>> with Durable(os.path.join(tempfile.mkdtemp(), "zones.db")) as zones:
        ...     with zones.transaction(note="opened", who="ann") as connection:
        ...         connection.execute("CREATE TABLE shop (label INTEGER, name TEXT)") and None
        ...         connection.execute("INSERT INTO shop VALUES (9, 'Baker')") and None
        ...         zones.add("04", 9)
        ...     [(each.kind, each.who) for each in zones.log()]
        1
        [('group', 'ann')]
        """
        return Transaction(self, note, who)

    def _connection(self) -> sqlite3.Connection:
        return self._file.lent()

    def _begin(self, group: OpenGroup) -> None:
        words = self._whose(group.note, group.who)
        group.note, group.who = words
        self._file.expect_writer()
        if not self._groups:
            self._has_edited, self._redoable = False, 0
            if self._keeps_newest:
                self._make_room(max(1, self._file.noted.state.changes // 4), words)
        elif group.is_lent:
            raise RuntimeError("a transaction begins in no group")
        try:
            if group.is_lent:
                self._file.lend()
            super()._begin(group)
        except BaseException:
            if group.is_lent:
                self._file.take_back()
            raise

    def _end(self, group: OpenGroup, is_kept: bool) -> bool:
        within = self._within(group)
        if within is None or group is not self._groups[0]:
            return super()._end(group, is_kept)
        self._close_groups(within)
        self._whole(partial(self._keep_group, group, is_kept), lambda _: self._restore_group(group))
        self._file.expect_uninterrupted()
        return True

    def _keep_group(self, group: OpenGroup, is_kept: bool) -> None:
        if is_kept:
            self._file.expect_uninterrupted()
            self._join_from(group.first)
            self._keep(Edit("group", Words(group.note, group.who), None, 0, None), self._has_edited, group.is_lent)
            self._close_groups([group])
        else:
            self._restore_group(group)

    def _restore_group(self, group: OpenGroup) -> None:
        if group.is_lent:
            self._file.take_back()
        self._restore(True)
        self._close_groups([group])

    def _take_back(self, first: int) -> None:
        before = self._done()
        super()._take_back(first)
        self._redoable += before - first

    def undo(self, *, note: Optional[str] = None, who: Optional[str] = None) -> int:
        """As `Index.undo`. Raises NotKept too."""
        return self._in_turn(self._undo, self._whose(note, who))

    def _undo(self, words: Words) -> int:
        self._file.expect_writer()
        if not self._groups:
            return self._whole(partial(self._undo_and_keep, words), self._restore)
        number = super().undo()
        self._redoable += 1
        return number

    def _undo_and_keep(self, words: Words) -> int:
        noted = self._file.noted
        change = self._last_change(noted.many) if noted.many else ""
        number = super().undo()
        last = noted.standing[noted.many - 1]
        self._put("undo", words, [inverse_of(change)], noted.standing, noted.many - 1, [*noted.undone, (last, change)], of=last)
        return number

    def redo(self, *, note: Optional[str] = None, who: Optional[str] = None) -> int:
        """As `Index.redo`. Raises NotKept too."""
        return self._in_turn(self._redo, self._whose(note, who))

    def _redo(self, words: Words) -> int:
        self._file.expect_writer()
        if not self.undone_count():
            raise NothingToRedo
        if not self._groups:
            return self._whole(partial(self._redo_and_keep, words), self._restore)
        number = super().redo()
        self._redoable -= 1
        return number

    def _redo_and_keep(self, words: Words) -> int:
        noted, number = self._file.noted, super().redo()
        last, change = noted.undone[-1]
        noted.standing[noted.many :] = [last]
        self._put("redo", words, [change], noted.standing, noted.many + 1, noted.undone[:-1], of=last)
        return number

    def undone_count(self) -> int:
        """How many changes can be redone. Raises Closed."""
        self._done()
        if self._seen() is not self:
            return self._undone_before
        return self._redoable if self._groups else len(self._file.noted.undone)

    def join(self, last: int, *, note: Optional[str] = None, who: Optional[str] = None) -> int:
        """As `Index.join`. The change that it makes has the id of this step. Raises NotKept too."""
        return self._in_turn(self._join, operator.index(last), self._whose(note, who))

    def _join(self, last: int, words: Words) -> int:
        self._file.expect_writer()
        done = self._file.noted.many
        if self._groups or not 1 < last <= done:
            return super().join(last)
        parts = Index.journal(self, done - last + 1)
        return self._whole(partial(self._join_and_keep, last, words), partial(self._part, done, done - last, parts))

    def _join_and_keep(self, last: int, words: Words) -> int:
        noted, number = self._file.noted, super().join(last)
        keep = noted.many - last
        joined = [noted.state.last + 1] if number else []
        change = self._last_change(keep + 1) if number else None
        self._put(
            "join", words, [change], [*noted.standing[:keep], *joined], keep + len(joined), noted.undone, of=noted.standing[keep]
        )
        return number

    def _part(self, done: int, keep: int, parts: str, is_again: bool) -> None:
        """Takes back a join in memory, unless the file has it: the changes from a place on come from their journal."""
        if self._is_open() and self._done() < done == self._file.noted.many:
            is_again = True
            while self._done() > keep:
                super().undo()
            super().apply(parts)
        self._restore(is_again)

    # What is forgotten, and the whole file.

    def forget(self, *, note: Optional[str] = None, who: Optional[str] = None) -> None:
        """As `Index.forget`: the log stays. Raises NotKept too."""
        self._in_turn(self._forget, self._whose(note, who))

    def _forget(self, words: Words, dump: Optional[str] = None) -> None:
        self._drop("forget", words, [], [], super().forget, dump=dump)

    def forget_older(self, newest: int, *, note: Optional[str] = None, who: Optional[str] = None) -> None:
        """As `Index.forget_older`: the log stays. Raises NotKept too."""
        most = check_natural(min(newest, MOST_U32), MOST_U32, TooFewChanges, "newest")
        self._in_turn(self._forget_but, most, self._whose(note, who))

    def _forget_but(self, newest: int, words: Words) -> None:
        self._done()
        noted = self._file.noted
        if newest < noted.many:
            keep = noted.standing[noted.many - newest : noted.many]
            of = noted.standing[noted.many - newest - 1]
            self._drop("forget_older", words, keep, noted.undone, partial(super().forget_older, newest), of=of)

    def clear(self, *, note: Optional[str] = None, who: Optional[str] = None) -> None:
        """As `Index.clear`: the log stays, and has the pairs that were held. Raises NotKept too."""
        self._in_turn(self._clear, self._whose(note, who))

    def _clear(self, words: Words) -> None:
        held = Index.dump(self).splitlines()[1:-1]
        change = "".join([f"change {len(held)}\n", *(f"{line} 0\n" for line in held)]) if held else None
        self._drop("clear", words, [], [], super().clear, change=change, dump=EMPTY)

    def _drop(
        self, kind: str, words: Words, standing: list[int], undone: list[Undone], forget: Callable[[], None], *,
        of: Optional[int] = None, change: Optional[str] = None, dump: Optional[str] = None,
    ) -> None:
        """Keeps a step after which others can be undone and redone. Then it makes it in memory, and if that can't be done, memory comes
        anew from the file, or the index is closed."""
        self._file.expect_writer()
        self._expect_no_group()
        version = self._file.noted.state.version

        def make() -> None:
            self._put(kind, words, [change], standing, len(standing), undone, of=of, dump=dump)
            forget()

        def restore(_: bool) -> None:
            if self._file.noted.state.version != version:
                self._file.noted = Noted()
                self._is_in_doubt = True

        self._whole(make, restore)

    def compact(self, *, before: Optional[Moment] = None, note: Optional[str] = None, who: Optional[str] = None) -> None:
        """Forgets all changes, and makes the file as small as it can be; the log stays. With `before`, a step's id or a datetime with its
        zone, it forgets only what was done before that, and takes those steps from the log, which says so: then `as_of` and `entries` don't
        reach to them. O(n) for n bytes. Raises NotKept, and sqlite3.Error if the file, or what SQLite keeps beside it, stays as large: then
        all else is done. What it forgets is a step of its own, which stays if the file refuses what follows."""
        self._in_turn(self._compact, asked_for(before), self._whose(note, who))

    def _compact(self, before: Union[int, datetime, None], words: Words) -> None:
        self._file.expect_writer()
        self._expect_no_group()
        if before is None:
            # (a file that is small opens soon)
            self._forget(words, Index.dump(self))
        else:
            self._shorten(before, words)
        self._file.compact()

    def _shorten(self, before: Union[int, datetime], words: Words) -> None:
        """Takes the steps before a moment from the log."""
        cut = self._file.reading(lambda book: cut_at(book, before))
        if cut is None:
            return
        noted, last = self._file.noted, cut.step
        many = next((place for place in range(noted.many, 0, -1) if noted.standing[place - 1] <= last), 0)
        self._forget_but(noted.many - many, words)
        noted = self._file.noted
        undone = undone_after(noted.undone, last)
        shorter = Cut(cut, self._file.reading(lambda book: book.listed_sum(last)))
        put = partial(self._put, "compact", words, [None], noted.standing, noted.many, undone, of=last, dump=Index.dump(self), cut=shorter)
        self._whole(put, lambda _: None)

    def backup(self, path: Union[str, os.PathLike[str]]) -> None:
        """Copies the file to another path, whole and as it is now: between two steps, and before a group that has not ended. Others may go
        on. At the path there must be no file, and none is there if it fails. O(n) for n bytes. Raises Closed, FileExistsError, OSError,
        sqlite3.Error, and RuntimeError within a step or a transaction."""
        self._in_turn(self._backup, os.fsdecode(path), is_of_a_task=False)

    def _backup(self, path: str) -> None:
        self._done()
        self._file.backup(path)

    @classmethod
    def _opened(cls, *limits: int) -> Index:
        # (what is loaded or copied is in memory alone)
        return Index(*limits)


def _expect_one_of(name: str, given: str, *words: str) -> None:
    if given not in words:
        raise ValueError(f"{name} is {' or '.join(words)}, not {given!r}")


def _limits_of(asked: tuple[Optional[int], Optional[int], Optional[int]]) -> Limits:
    """The limits of a new file, the widest in place of None."""
    widest = 1_000_000, MOST_U32, 100_000
    pairs, copies, changes = (most if limit is None else int(operator.index(limit)) for limit, most in zip(asked, widest))
    return pairs, copies, changes


def _expect_limits(asked: tuple[Optional[int], ...], found: Limits) -> None:
    """Raises NoLimits unless a file has the limits that are asked for."""
    if any(limit is not None and limit != other for limit, other in zip(asked, found)):
        raise NoLimits(f"the file has other limits: {found}")


def _label_of(label: int) -> Optional[int]:
    """A label whose note may be kept."""
    number = operator.index(label)
    return number if 0 <= number <= MOST_LABEL else None
