"""The index: a store of the library, with a method for each call."""
from __future__ import annotations

import ctypes
from ctypes import addressof
from typing import Any, Callable, Iterator, Optional, TypeVar

from s2ix import library
from s2ix.batches import labels_met_by_each, labels_of_each, rows_met_by_each, rows_of_each
from s2ix.edits import Edits
from s2ix.given import (
    MOST_U32, MOST_U64, Bounds, Cells, Targets, Text, bytes_of, cells_copied, cells_in, check, check_natural, number_of, wrong_cell,
)
from s2ix.groups import Group, OpenGroup
from s2ix.refusals import NoCell, NoLabel, NoLimits, NoRange, NoSuchChange, NothingToUndo, TooFewChanges, expect, expect_at
from s2ix.rows import (
    ENTRY, HALF, HELD, PACKED, RANGE, WORD, Entry, HeldLabel, Range, Row, entries_of, held_of, labels_of, new_row, numbers_of, ranges_of,
    row_in, rows_of, text_of, view_of, words_of,
)
from s2ix.tokens import Cell, no_cell

_Read = TypeVar("_Read")

# How many ranges the first page of them has.
_FIRST_RANGES = 32
# What a line of a script would do, as `kind_of_line` tells: the library's numbers.
_NOTHING, _QUESTION, _UNDO, _FORGET = 0, 1, 3, 5


def kind_of_line(line: bytes) -> int:
    """What a line of a script would do. Raises OutOfMemory."""
    kind = ctypes.c_uint8()
    expect(library.load().s2ix_line_kind(line, len(line), addressof(kind)))
    return kind.value


def is_still(kind: int) -> bool:
    """Whether a line of this kind changes no pair."""
    return kind in (_NOTHING, _QUESTION, _FORGET)


class Index(Edits):
    """A collection of S2 cells under labels that can be edited, undone and asked. Each pair of a cell and a label has a count.

    Cells are S2's 64-bit ids, or tokens; labels are 0 to 2147483647. Anything with an `__index__` is a number, as those of numpy. Each edit
    is one change, which can be undone or reverted. A refused call changes nothing and raises a class of S2ixError, or ValueError for copies
    or a level below 0. Cells spelled wrong, and numbers out of range, are refused first. Besides what it names, each edit may raise Closed,
    JournalFull, NoChange, TooManyCopies, TooManyPairs or OutOfMemory.

    Close an index by `close`, or use it in a `with`.

    Threads may share an index. Each call but `set_label` and `restore` answers as if it were alone: it writes only to memory of its own,
    and waits while another call on the index runs, but not for `at_each` and its like, which work on a copy. A finalizer or a signal
    handler may call too. An edit of another thread may come between two calls: hold your own lock over calls that belong together. `undo`
    takes the last change back, whichever thread made it. Only one thread at a time may use an iterator. It reads page by page: if an edit
    came after its first page, even a refused one, the next page raises RuntimeError. While a call runs, don't change the array or the
    memory that you gave it. In the forked child of a process with threads, use no index of the parent.

    >>> with Index() as index:
    ...     index.add_union(["04", "0c"], 9)
    ...     index.add("04", 3)
    ...     index.labels("04")
    2
    1
    [3, 9]
    """

    __slots__ = ("__weakref__",)

    def __init__(self, pairs: int = 1_000_000, copies: int = MOST_U32, changes: int = 100_000) -> None:
        """Opens an empty index of at most `pairs` pairs (1 to 1,000,000), `copies` copies of each (1 to 4294967295), and `changes` changes
        that can be undone (1 to 100,000). Raises NoLimits or OutOfMemory, and OSError if the library isn't found."""
        self._prepare()
        limits = [check(limit, MOST_U32, NoLimits) for limit in (pairs, copies, changes)]
        expect(self._calls.s2ix_open(self._at_handle, *limits))

    @classmethod
    def load(
        cls, text: Text, pairs: int = 1_000_000, copies: int = MOST_U32, changes: int = 100_000, *, journal: Optional[Text] = None
    ) -> Index:
        """Opens an index of what a dump holds, under limits as those of a new index. O(n) for n bytes. Raises NoDump, whose `line` is the
        first with a fault, NoLimits or OutOfMemory.

        With the `journal` that was written with the dump, its changes can be undone; without it nothing can. Nothing can be redone. It then
        costs and raises what `rewind` does.

        >>> Index.load("s2ix 2\\n04 9 1\\nend 1 1\\n").count("04", 9)
        1
        >>> index = Index()
        >>> index.add("04", 9)
        1
        >>> again = Index.load(index.dump(), journal=index.journal())
        >>> again.undo(), len(again)
        (1, 0)
        """
        if journal is not None:
            return cls._led("s2ix_resume", text, journal, pairs, copies, changes)
        given, limits = bytes_of(text), tuple(check(limit, MOST_U32, NoLimits) for limit in (pairs, copies, changes))
        index = cls._opened(*limits)
        index._load(given, *limits)
        return index

    @classmethod
    def _opened(cls, *limits: int) -> Index:
        """An index for another store."""
        return cls(*limits)

    def _load(self, text: bytes, *limits: int) -> None:
        """Puts the store of a dump in place of this one's."""
        line = ctypes.c_size_t()
        expect_at(self._calls.s2ix_load(self._at_handle, text, len(text), *limits, addressof(line)), line.value, 0)

    @classmethod
    def replay(cls, dump: Text, journal: Text, pairs: int = 1_000_000, copies: int = MOST_U32, changes: int = 100_000) -> Index:
        """Opens an index of what a dump holds after a journal's changes, with nothing to undo or redo. O(n + m log n) for n bytes and m
        entries. What is refused first is raised: NoDump or NoJournal, whose `line` is the faulty one, or Mismatch, TooManyCopies or
        TooManyPairs, whose `change` is the refused one, counted from 1; and NoLimits or OutOfMemory.

        >>> index = Index()
        >>> index.add("04", 9)
        1
        >>> Index.replay("s2ix 2\\nend 0 0\\n", index.journal()).count("04", 9)
        1
        """
        return cls._led("s2ix_replay", dump, journal, pairs, copies, changes)

    @classmethod
    def rewind(cls, dump: Text, journal: Text, pairs: int = 1_000_000, copies: int = MOST_U32, changes: int = 100_000) -> Index:
        """Opens an index of what a dump held before a journal's changes: they are taken back, the last one first. Else as `replay`.

        >>> index = Index()
        >>> index.add("04", 9)
        1
        >>> len(Index.rewind(index.dump(), index.journal()))
        0
        """
        return cls._led("s2ix_rewind", dump, journal, pairs, copies, changes)

    @classmethod
    def _led(cls, call: str, dump: Text, journal: Text, *limits: int) -> Index:
        """The index that a call of two texts opens."""
        first, second, limits = bytes_of(dump), bytes_of(journal), tuple(check(limit, MOST_U32, NoLimits) for limit in limits)
        index = cls._opened(*limits)
        index._lead(call, first, second, *limits)
        return index

    def _lead(self, call: str, dump: bytes, journal: bytes, *limits: int) -> None:
        """Puts the store that a call of two texts opens in place of this one's."""
        place, entry = ctypes.c_size_t(), ctypes.c_size_t()
        given = dump, len(dump), journal, len(journal), *limits
        status = getattr(self._calls, call)(self._at_handle, *given, addressof(place), addressof(entry))
        expect_at(status, place.value, entry.value)

    def __enter__(self) -> Index:
        return self

    def __exit__(self, *_: object) -> None:
        self.close()

    def copy(self) -> Index:
        """An index of its own that starts from what is held, under the same limits, with nothing to undo or redo. They share memory,
        and calls on one need not wait for the other. O(1); the first edit, undo, redo or `apply` of one of them then takes O(p) more, for
        the p parts of some hundred pairs that an index is kept in. Raises Closed or OutOfMemory.

        >>> index = Index()
        >>> other = index.copy()
        >>> other.add("04", 9), len(other), len(index)
        (1, 1, 0)
        """
        other = self._opened(1, 1, 1)
        expect(self._calls.s2ix_copy(self._at_handle, other._at_handle))
        return other

    __copy__ = copy

    def __reduce__(self) -> Any:
        raise TypeError("an Index can't be pickled: its dump can")

    def __repr__(self) -> str:
        return f"<s2ix.{type(self).__name__}, {'open' if self._is_open() else 'closed'}>"

    def _is_open(self) -> bool:
        number = ctypes.c_size_t()
        return not self._calls.s2ix_len(self._at_handle, addressof(number))

    def close(self) -> None:
        """Frees all that is held. Each later call raises Closed, but a second `close` does nothing. It waits for a call that runs on
        another thread, but not for `at_each` and its like."""
        self._calls.s2ix_close(self._at_handle)

    # Steps.

    def group(self) -> Group:
        """Makes one change of all that is done in a `with`, or none if the counts are then what they were. If the `with` ends with an
        exception, or the changes can't become one, all that was done in it is undone; then it could be redone. In it `undo` takes back no
        earlier change, and what would drop changes raises RuntimeError: `forget`, `forget_older`, `clear`, and a `line` that undoes or
        forgets. What other threads and tasks do meanwhile is in the group too. Until its end each edit in it counts as a change, so a
        full journal may refuse it. It costs what `join` does. Raises Closed; and OutOfMemory: if memory is wanted to undo, the first edits
        of the group may be left.

        Groups may lie within groups. The end of one ends those that began in it and are still open, as that of a generator or of another
        task may be: what they did is in its change, or is undone with it, and their own ends then do nothing. A group that ends on another
        thread than it began on, or in another task of asyncio, as that of a generator which is freed there, is undone, and raises
        RuntimeError if nothing else is raised. So is one that an interrupt keeps from its end.

        >>> index = Index()
        >>> with index.group():
        ...     index.add("04", 9), index.add("0c", 9)
        (1, 1)
        >>> index.done_count(), index.undo(), len(index)
        (1, 2, 0)
        """
        return Group(self)

    def _begin_group(self, group: OpenGroup) -> None:
        group.first = self._done()
        self._groups.append(group)

    def _end_group(self, group: OpenGroup, is_kept: bool) -> bool:
        """Ends a group and those that began in it, as one change or none; returns whether it had not ended before."""
        within = self._within(group)
        if within is None:
            return False
        self._close_groups(within)
        try:
            if is_kept:
                self._join_from(group.first)
            else:
                self._take_back(group.first)
        except BaseException:
            self._take_back(group.first)
            raise
        finally:
            # (if this is interrupted, the group is dropped)
            self._close_groups([group])
        return True

    def _end_dropped(self, _: object = None) -> None:
        """Takes back a group that nothing will end."""
        group = self._dropped_group()
        if group is not None:
            self._end_group(group, False)

    def _dropped_group(self) -> Optional[OpenGroup]:
        return next((group for group in self._groups if group.is_dropped()), None)

    def _within(self, group: OpenGroup) -> Optional[list[OpenGroup]]:
        """The groups that began in one, or None if that has ended."""
        groups = self._groups[:]
        return groups[groups.index(group) + 1 :] if group in groups else None

    def _close_groups(self, groups: list[OpenGroup]) -> None:
        """Notes that groups have ended."""
        for group in groups:
            group.end()
        self._groups[:] = [each for each in self._groups if each not in groups]

    def _join_from(self, first: int) -> None:
        """Makes one change of all but so many of the first."""
        # (another thread may edit or undo between)
        while (many := self._done() - first) > 1:
            try:
                self._edited(self._number_of, self._calls.s2ix_join, many)
            except TooFewChanges:
                continue

    def _take_back(self, first: int) -> None:
        """Undoes all but so many of the first changes."""
        while self._done() > first:
            self._edited(self._number_of, self._calls.s2ix_undo)

    def join(self, last: int) -> int:
        """Makes one change of the last ones that can be undone, so many of them; returns how many pairs it has. If their counts are what
        they were before, the changes are gone, and it returns 0. What is held stays, and so does what can be redone. O(m log k) for m
        entries in k changes. Raises Closed, TooFewChanges or OutOfMemory.

        >>> index = Index()
        >>> index.add("04", 9), index.add("0c", 9), index.join(2), index.done_count(), index.undo()
        (1, 1, 2, 1, 2)
        """
        last = check(last, MOST_U64, TooFewChanges)
        if self._groups and last > self._done() - self._groups[-1].first:
            raise TooFewChanges
        return self._edited(self._number_of, self._calls.s2ix_join, last)

    def undo(self) -> int:
        """Takes the last change back; returns how many pairs it had. Raises Closed, NothingToUndo or OutOfMemory.

        >>> index = Index()
        >>> index.add("04", 9), index.undo(), len(index), index.redo(), len(index)
        (1, 1, 0, 1, 1)
        """
        if self._groups and self._done() <= self._groups[-1].first:
            raise NothingToUndo
        return self._edited(self._number_of, self._calls.s2ix_undo)

    def redo(self) -> int:
        """Redoes the change that was undone last; returns how many pairs it has. An edit drops what could be redone. Raises Closed,
        NothingToRedo or OutOfMemory."""
        return self._edited(self._number_of, self._calls.s2ix_redo)

    def forget(self) -> None:
        """Keeps what is held and drops all changes: nothing is left to undo or redo. Raises Closed."""
        self._expect_no_group()
        expect(self._calls.s2ix_forget(self._at_handle))

    def forget_older(self, newest: int) -> None:
        """Drops all changes that can be undone but the newest, at most so many: a full journal gets room. What is held stays, and so does
        what can be redone. O(k) for k changes. Raises Closed.

        >>> index = Index(changes=2)
        >>> index.add("04", 9), index.add("0c", 9), index.forget_older(1), index.add("14", 9), index.done_count()
        (1, 1, None, 1, 2)
        """
        newest = check_natural(min(newest, MOST_U64), MOST_U64, TooFewChanges, "newest")
        self._expect_no_group()
        expect(self._calls.s2ix_forget_older(self._at_handle, newest))

    def clear(self) -> None:
        """Drops all pairs and all changes, and keeps the limits: nothing is left to undo or redo. O(n). Raises Closed or OutOfMemory."""
        self._expect_no_group()
        expect(self._edited(self._calls.s2ix_clear, self._at_handle))

    def _expect_no_group(self) -> None:
        """Raises RuntimeError in a group."""
        if self._groups:
            raise RuntimeError("an index drops no changes in a group")

    # Queries.

    def at(self, leaf: Cell) -> list[Row]:
        """The pairs whose cells contain a leaf, the innermost cell first, the labels of one cell rising. O(log n + k) for k pairs.
        Raises Closed or NoCell.

        >>> index = Index()
        >>> index.add("1", 3), index.add("04", 9)
        (1, 1)
        >>> [(hex(row.cell), row.label, row.count) for row in index.at("0400000000000001")]
        [('0x400000000000000', 9, 1), ('0x1000000000000000', 3, 1)]
        """
        asker = self._asker
        if asker is not None:
            found = asker.at(leaf)
            if found is not None:
                return found
        if leaf.__class__ is str:
            leaf = number_of(leaf)
        try:
            buffer = self._buffers.pop()
        except IndexError:
            buffer = self._new_buffer()
        words, room, asked, _, _ = buffer
        try:
            words[1] = leaf  # type: ignore[assignment]
        except (TypeError, ValueError):
            words[1] = number_of(leaf)
        if self._ask_at(*asked):
            return self._long_at(words[1])
        many = words[0]
        rows = [new_row(Row, row_in(room))] if many == 1 else rows_of(room[: many * PACKED])
        self._buffers.append(buffer)
        return rows

    def _long_at(self, leaf: int) -> list[Row]:
        """The same, if the rows want more room, or if it is refused."""
        try:
            return self._listed(self._calls.s2ix_at, PACKED, rows_of, leaf)
        except NoCell:
            raise no_cell(leaf, "leaf") from None

    def at_each(self, leaves: Cells, threads: int = 1) -> tuple[Any, Any]:
        """What `at` returns for each of many leaves, in two new arrays. The second has the rows over the first leaf, then those over the
        next one, and so on; the first tells for each leaf where its rows end. So leaf k has `rows[ends[k - 1]:ends[k]]`, and the first one
        `rows[:ends[0]]`.

        If NumPy is installed, `ends` is an array of int64 and `rows` one with the fields of `meet_view`, whose dtype is
        `[("cell", "<u8"), ("label", "<u4"), ("count", "<u4")]`. `numpy.diff(ends, prepend=0)` tells how many rows each leaf has, and
        `numpy.repeat(numpy.arange(len(ends)), numpy.diff(ends, prepend=0))` to which leaf each row belongs. Without NumPy they are an
        `array` of numbers and a memoryview like that of `meet_view`.

        Leaves may be any iterable of numbers and tokens. The call reads a 1-D array, memoryview or pandas column of 64-bit integers in
        place, signed or not, in the machine's order of bytes; it copies a nullable column, a slice with steps, and, if NumPy isn't
        installed, memory that can't be written. It is quickest if the leaves rise.

        At most `threads` threads share the leaves, and at most one for each 4,096 of them or part of these. The call releases the GIL while
        the library works, so other threads of the program run too, and may edit or close the index: all answers are of what the index held
        when the call began. The rows that one thread finds lie in one array, which is copied if it must grow. Those of several
        threads are copied once more, and take twice their memory until the call returns.

        If processors are free for them, threads gain from about 16,000 leaves in no order on, or 65,000 that rise. For so many, over 10,000
        pairs, four threads together took 1.7 or 2.1 times as much of the processors' time as one, and for a million rising leaves 1.2
        times. `bench/run` measures a million in no order: four threads answer 2.4 to 3.6 times as many of them in a second as one.

        O(m log n + k) for m leaves and k rows. If a leaf is refused, none is answered. Raises Closed, OutOfMemory, or NoCell with the first
        number that is no leaf's and its place, counted from 0; TypeError for arrays of other numbers or with a mask, and for missing
        values; ValueError for threads below 1; and MemoryError.

        >>> index = Index()
        >>> index.add("1", 3), index.add("04", 9)
        (1, 1)
        >>> ends, rows = index.at_each([0x0400000000000001, 0x2000000000000001, 0x1000000000000001])
        >>> ends.tolist(), len(rows)
        ([2, 2, 3], 3)
        """
        return rows_of_each(self, leaves, threads)

    def labels_at_each(self, leaves: Cells, threads: int = 1) -> tuple[Any, Any]:
        """As `at_each`, but with labels in place of rows: an array of uint32, or without NumPy an `array`. So leaf k has
        `labels[ends[k - 1]:ends[k]]`, and the first one `labels[:ends[0]]`, the innermost cell's first. A label is repeated if a leaf lies in
        several cells of it.

        >>> index = Index()
        >>> index.add("1", 3), index.add("04", 9)
        (1, 1)
        >>> ends, labels = index.labels_at_each([0x0400000000000001, 0x2000000000000001, 0x1000000000000001])
        >>> ends.tolist(), labels.tolist()
        ([2, 2, 3], [9, 3, 3])
        """
        return labels_of_each(self, leaves, threads)

    def meet(self, cells: Cells) -> list[Row]:
        """The pairs that share a leaf with a union of cells: each once, by first shared leaf, then falling level, then rising label.
        O(k + r + t log n) for k pairs, r ranges and t cells. Raises Closed, NoCell or OutOfMemory.

        >>> index = Index()
        >>> index.add_union(["04", "0c"], 9), index.add("1", 3)
        (2, 1)
        >>> [(hex(row.cell), row.label) for row in index.meet(["0c", "14"])]
        [('0xc00000000000000', 9), ('0x1000000000000000', 3)]
        """
        asker = self._asker
        found = None if asker is None else asker.meet(cells)
        if found is None:
            found = self._of_cells(self._calls.s2ix_meet, PACKED, rows_of, cells, None if asker is None else asker.meet_in)
        return found

    def meet_view(self, cells: Cells) -> memoryview:
        """What `meet` returns, packed: each item is a cell of 8 bytes, a label of 4 and a count of 4. `add_all` takes it for rows, and
        other memory whose format says the same.

        A loop of Python can't read items of more than one number. `struct.iter_unpack("=QII", view)` gives each as a tuple, and
        `numpy.asarray(view)` is an array of the dtype `[("cell", "<u8"), ("label", "<u4"), ("count", "<u4")]`; neither copies.

        >>> import struct
        >>> index = Index()
        >>> index.add("04", 9)
        1
        >>> [(hex(cell), label, count) for cell, label, count in struct.iter_unpack("=QII", index.meet_view("1"))]
        [('0x400000000000000', 9, 1)]
        """
        return self._of_cells(self._calls.s2ix_meet, PACKED, view_of, cells)

    def labels(self, cells: Cells) -> list[int]:
        """The labels of the pairs that share a leaf with a union of cells: each once, rising. Raises as `meet` does.

        >>> index = Index()
        >>> index.add("04", 9), index.add("1", 3), index.labels("04"), index.labels(["0c", "1c"])
        (1, 1, [3, 9], [3])
        """
        asker = self._asker
        found = None if asker is None else asker.labels(cells)
        if found is None:
            found = self._of_cells(self._calls.s2ix_labels, HALF, labels_of, cells, None if asker is None else asker.labels_in)
        return found

    def meet_each(self, targets: Targets, threads: int = 1, *, bounds: Optional[Bounds] = None) -> tuple[Any, Any]:
        """What `meet` returns for each of many targets, in two new arrays like those of `at_each`: where the rows of each target end, and
        the rows of all, one target after the other.

        A target is what `meet` takes, a cell or many, or an array of signed ones. In an array of 64-bit integers each cell is a target, and
        in NumPy's of two dimensions each row. With `bounds`, the cells of all targets lie in one row, and target k has those from
        `bounds[k]` on and before `bounds[k + 1]`: there is one bound more than there are targets, and the first is mostly 0, as in
        `numpy.append(0, ends)` of another answer. Cells after the last bound belong to no target. Arrays are then read as they lie, like
        leaves; targets without bounds are copied, but for an array of which each cell is one. Threads are as in `at_each`, but at most one
        for each 64 targets or part of these.

        It costs what `meet` does for each target, besides a copy for each thread. Raises as `at_each` does, but NoCell and NoSpan with the
        place of the first target that is refused: NoCell has the number that is no cell's, NoSpan the bound that is below the one before or
        above the number of cells.

        >>> index = Index()
        >>> index.add_union(["04", "0c"], 9), index.add("1", 3)
        (2, 1)
        >>> ends, rows = index.meet_each([["04", "0c"], "14", []])
        >>> ends.tolist(), len(rows)
        ([3, 4, 4], 4)
        >>> index.meet_each(["04", "0c", "14"], bounds=[0, 2, 3, 3])[0].tolist()
        [3, 4, 4]
        """
        return rows_met_by_each(self, targets, threads, bounds)

    def labels_each(self, targets: Targets, threads: int = 1, *, bounds: Optional[Bounds] = None) -> tuple[Any, Any]:
        """As `meet_each`, but with what `labels` returns for each target: where its labels end, and the labels of all, for each target
        rising and each once. They are an array of uint32, or without NumPy an `array`.

        >>> index = Index()
        >>> index.add_union(["04", "0c"], 9), index.add("1", 3)
        (2, 1)
        >>> ends, labels = index.labels_each([["04", "0c"], "14", []])
        >>> ends.tolist(), labels.tolist()
        ([2, 3, 3], [3, 9, 3])
        """
        return labels_met_by_each(self, targets, threads, bounds)

    def region(self, label: int) -> list[int]:
        """The region of a label: the normal union of its cells, rising; [] if no pair of it is held. It takes what `of_label` does,
        and O(m log m) for m pairs. Raises Closed, NoLabel or OutOfMemory.

        >>> index = Index()
        >>> index.add_all([("04", 9, 1), ("0c", 9, 2), ("14", 9, 1), ("1c", 9, 1)]), [hex(cell) for cell in index.region(9)]
        (4, ['0x1000000000000000'])
        """
        return self._region(label, numbers_of)

    def region_view(self, label: int) -> memoryview:
        """What `region` returns, as a memoryview of 64-bit numbers: its items are ints, and other methods take it for cells."""
        return self._region(label, words_of)

    def count(self, cell: Cell, label: int) -> int:
        """How many copies of a cell are held under a label: 0 if the pair is not held. O(log n). Raises Closed, NoCell or NoLabel."""
        asker = self._asker
        if asker is not None:
            found = asker.count(cell, label)
            if found is not None:
                return found
        number, copies = number_of(cell), ctypes.c_uint32()
        label = check(label, MOST_U32, NoLabel)
        status = self._calls.s2ix_count(self._at_handle, number, label, addressof(copies))
        if status == NoCell.status:
            raise no_cell(number)
        expect(status)
        return copies.value

    def __contains__(self, pair: tuple[Cell, int]) -> bool:
        """Whether a copy of a cell is held under a label, as in `("04", 9) in index`. Raises as `count` does."""
        if isinstance(pair, (str, bytes, bytearray, memoryview)):
            raise TypeError("a pair is a cell and a label, not a text")
        return self.count(*pair) > 0

    def __len__(self) -> int:
        """How many pairs are held. O(1). Raises Closed."""
        return self._number_of(self._calls.s2ix_len)

    def copies(self) -> int:
        """The sum of the counts. O(n). Raises Closed."""
        copies = ctypes.c_uint64()
        expect(self._calls.s2ix_copies(self._at_handle, addressof(copies)))
        return copies.value

    def done_count(self) -> int:
        """How many changes can be undone. O(1). Raises Closed."""
        return self._done()

    def _done(self) -> int:
        """The same, on whichever thread."""
        return self._number_of(self._calls.s2ix_done_count)

    def undone_count(self) -> int:
        """How many changes can be redone. O(1). Raises Closed."""
        return self._number_of(self._calls.s2ix_undone_count)

    def faces_rebuilt(self) -> int:
        """On how many faces, 0 to 6, the last accepted edit (`record` too), undo, redo or `apply` changed pairs; 0 before the first of
        these. O(1). Raises Closed."""
        return self._number_of(self._calls.s2ix_faces_rebuilt)

    def range_count(self) -> int:
        """How many ranges of leaves there are over which the same pairs lie: at least 1. O(1). Raises Closed."""
        return self._number_of(self._calls.s2ix_range_count)

    def change(self, number: int) -> list[Entry]:
        """The entries of a change by its number, as in `revert`: by rising cell, then label. O(k) for k entries. Raises Closed or
        NoSuchChange.

        >>> index = Index()
        >>> index.add("04", 9), index.change(1)
        (1, [Entry(cell=288230376151711744, label=9, before=0, after=1)])
        """
        number = check(number, MOST_U32, NoSuchChange)
        return self._listed(self._calls.s2ix_change, ENTRY, entries_of, number)

    def difference(self, other: Index) -> list[Entry]:
        """The entries that lead from what this index holds to what another does: the pairs whose counts differ, by rising cell, then label.
        `record` of them gives this one the other's pairs, by one change, or raises NoChange if there are none. O(n + m) for the pairs of
        both. Raises Closed or OutOfMemory.

        >>> index, other = Index(), Index()
        >>> index.add("04", 9), other.add("0c", 9)
        (1, 1)
        >>> index.record(index.difference(other)), index.difference(other), index.dump() == other.dump()
        (2, [], True)
        """
        if not isinstance(other, Index):
            raise TypeError(f"an Index differs from another, not from {type(other).__name__}")
        # (a copy, which no other thread has: its lock need not be taken too)
        with Index.copy(other) as after:
            return self._listed(self._calls.s2ix_difference, ENTRY, entries_of, after._at_handle)

    def range(self, place: int) -> Range:
        """The range at a place, counted from 0. An edit may move the places. O(log n). Raises Closed or NoRange."""
        place = check(place, MOST_U64, NoRange)
        start, limit, is_empty = ctypes.c_uint64(), ctypes.c_uint64(), ctypes.c_bool()
        expect(self._calls.s2ix_range(self._at_handle, place, addressof(start), addressof(limit), addressof(is_empty)))
        return Range(place, start.value, limit.value, is_empty.value)

    def ranges(self, full: bool = False) -> Iterator[Range]:
        """The ranges in order, which together have all leaves; with `full`, only those over which a pair lies. They are read in pages, each by
        one search, O(log n), and twice as long as the one before. Raises Closed, and RuntimeError if there was an edit, even a refused one,
        since the first: an edit moves the places.

        >>> index = Index()
        >>> index.add("04", 9), [(hex(each.start), hex(each.limit)) for each in index.ranges(full=True)]
        (1, [('0x1', '0x800000000000001')])
        """
        place, room, edit = 0, _FIRST_RANGES, self._last_edit()
        while True:
            page = self._page(self._calls.s2ix_ranges, RANGE, ranges_of, room, place)
            for start, limit, is_empty in page:
                if place:
                    self._expect_still(edit)
                if not (full and is_empty):
                    yield Range(place, start, limit, is_empty)
                place += 1
            self._expect_still(edit)
            if len(page) < room:
                return
            room *= 2

    def find(self, leaf: Cell) -> Range:
        """The range that has a leaf. O(log n). Raises Closed or NoCell.

        >>> index = Index()
        >>> index.add("04", 9), index.find("2000000000000001").place, index.find("2000000000000001").is_empty
        (1, 1, True)
        """
        number = number_of(leaf)
        place, start, limit = ctypes.c_size_t(), ctypes.c_uint64(), ctypes.c_uint64()
        while True:
            status = self._calls.s2ix_find(self._at_handle, number, addressof(place), addressof(start), addressof(limit))
            if status == NoCell.status:
                raise no_cell(number, "leaf")
            expect(status)
            try:
                found = self.range(place.value)
            except NoRange:
                continue
            # (an edit on another thread may have moved the places in between)
            if found.start <= number < found.limit:
                return found

    def contents(self, place: int, start: int = 0) -> list[Row]:
        """The pairs over the range at a place, the innermost cell first, the labels of one cell rising; of these only the ones whose cells
        begin at the leaf number `start` or later. If `start` is the `limit` of an earlier range, the pairs over that range are left out.
        O(log n + k) for k pairs. Raises Closed, NoRange, or NoCell if `start` is no 64-bit number.

        >>> index = Index()
        >>> index.add("04", 9), index.add("1", 3), [row.label for row in index.contents(0)], [row.label for row in index.contents(1)]
        (1, 1, [9, 3], [3])
        """
        place = check(place, MOST_U64, NoRange)
        return self._listed(self._calls.s2ix_contents, PACKED, rows_of, place, number_of(start))

    def of_label(self, label: int) -> list[Row]:
        """The pairs of a label, by rising cell; [] if none is held. O(p + k) for p parts of a few hundred pairs and the k pairs of those that may
        have the label, mostly those that have it, and at worst all. Raises Closed or NoLabel.

        >>> index = Index()
        >>> index.add_union(["04", "0c"], 9), [hex(row.cell) for row in index.of_label(9)], index.of_label(3)
        (2, ['0x400000000000000', '0xc00000000000000'], [])
        """
        label = check(label, MOST_U32, NoLabel)
        return self._listed(self._calls.s2ix_of_label, PACKED, rows_of, label)

    def held_labels(self) -> list[HeldLabel]:
        """The labels that are held, rising, each with how many pairs have it and the sum of their counts. O(n log n). Raises Closed or
        OutOfMemory.

        >>> index = Index()
        >>> index.add_all([("04", 9, 2), ("0c", 9, 1), ("04", 3, 1)]), index.held_labels()
        (3, [HeldLabel(label=3, pairs=1, copies=1), HeldLabel(label=9, pairs=2, copies=3)])
        """
        return self._listed(self._calls.s2ix_held_labels, HELD, held_of)

    def pairs(self) -> Iterator[Row]:
        """All pairs, in rising order of cell, then label. O(log n) for each. They are read page by page, so don't edit while you go along
        them: a page raises RuntimeError if there was an edit, even a refused one, since the first page. Raises Closed.

        >>> index = Index()
        >>> index.add_union(["0c", "04"], 9), [hex(row.cell) for row in index.pairs()]
        (2, ['0x400000000000000', '0xc00000000000000'])
        """
        return self._paged(self._calls.s2ix_pairs)

    __iter__ = pairs

    def visit(self, cells: Cells) -> Iterator[Row]:
        """The pairs that `meet` returns, one by one. If you stop early, the others cost no time. Raises as `meet` does; don't edit while
        you go along them, as with `pairs`.

        >>> index = Index()
        >>> index.add_union(["04", "0c"], 9), hex(next(index.visit("1")).cell)
        (2, '0x400000000000000')
        """
        words = cells_copied(cells)
        return self._paged(self._calls.s2ix_meet_from, words)

    def dump(self) -> str:
        """The dump of what is held, which `load` and the program read. O(n). Raises Closed or OutOfMemory.

        >>> index = Index()
        >>> index.add("04", 9, copies=2)
        1
        >>> print(index.dump(), end="")
        s2ix 2
        04 9 2
        end 1 2
        """
        return self._listed(self._calls.s2ix_dump, 1, text_of)

    def journal(self, first: int = 1) -> str:
        """The journal of the changes that can be undone, the oldest first, which `replay`, `rewind` and the program read: of all, or from
        the one with the number `first` on, which is what an index needs for `apply` that has done those before it. If that is one more than
        the last number, it is the journal of no changes. O(n) for n entries. Raises Closed, NoSuchChange or OutOfMemory.

        >>> index = Index()
        >>> index.add("0c", 9), index.add("04", 9)
        (1, 1)
        >>> print(index.journal(2), end="")
        s2ix-journal 2
        change 1
        04 9 0 1
        end 1
        """
        return self._listed(self._calls.s2ix_journal_from, 1, text_of, check(first, MOST_U32, NoSuchChange))

    def export(self) -> str:
        """What is held as one line of compact JSON, without a line feed. O(n). Raises Closed or OutOfMemory.

        >>> index = Index()
        >>> index.add("04", 9), index.export()
        (1, '{"pairs":[["04",9,1]],"version":1}')
        """
        return self._listed(self._calls.s2ix_export, 1, text_of)

    def line(self, text: Text) -> str:
        """Carries out one line of a script, given without its line feed, and returns its answer: `ok N`, `no NAME`, or the lines of a
        query, each with its line feed; '' for a blank line or a comment. A refused line raises nothing. It costs what the line's own call
        does. Raises Closed or OutOfMemory.

        >>> index = Index()
        >>> index.line("add 04 9"), index.line("region 9"), index.line("redo")
        ('ok 1\\n', '04\\nend 1\\n', 'no NothingToRedo\\n')
        """
        given = bytes_of(text)
        kind = kind_of_line(given)
        if kind in (_UNDO, _FORGET):
            self._expect_no_group()
        if is_still(kind):
            return self._listed(self._calls.s2ix_line, 1, text_of, given, len(given))
        return self._edited(self._answer, given)

    # How calls are made.

    def _answer(self, line: bytes) -> str:
        return self._listed(self._calls.s2ix_line, 1, text_of, line, len(line))

    def _region(self, label: int, read: Callable[[memoryview], _Read]) -> _Read:
        label = check(label, MOST_U32, NoLabel)
        return self._listed(self._calls.s2ix_region, WORD, read, label)

    def _of_cells(
        self, call: Callable[..., int], size: int, read: Callable[[memoryview], _Read], cells: Cells,
        ask: Optional[Callable[[int, int], Optional[_Read]]] = None,
    ) -> _Read:
        """What a query about cells finds. It is asked by a call, or first by what needs no ctypes."""
        start, many, _kept = cells_in(cells)
        found = None if ask is None else ask(start, many)
        if found is not None:
            return found
        try:
            return self._listed(call, size, read, start, many)
        except NoCell:
            raise wrong_cell((start, many)) from None
