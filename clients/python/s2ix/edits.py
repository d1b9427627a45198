"""The edits of an index: each is one change, which can be undone."""
from __future__ import annotations

import ctypes
from ctypes import addressof
from typing import Callable

from s2ix.calls import Calls
from s2ix.given import (
    MOST_LABEL, MOST_U8, MOST_U32, Cells, Entries, Rows, Text, bytes_of, cells_in, check, check_natural, entries_in, number_of, rows_in,
    wrong_cell, wrong_entry, wrong_row,
)
from s2ix.refusals import (
    REFUSALS, BelowZero, Mismatch, NoCell, NoChange, NoDifference, NoLabel, NoSuchChange, NoSuchLabel, NotHeld, S2ixError, TooFine,
    TooManyCopies, Unsorted, expect, expect_at,
)
from s2ix.rows import ENTRY, PACKED, Entry, entries_of, rows_of
from s2ix.tokens import Cell, no_cell
from s2ix.unions import normalise


class Edits(Calls):
    """A handle with the calls that edit its store. `s2ix.Index` says what each may raise."""

    __slots__ = ()

    def add(self, cell: Cell, label: int, copies: int = 1) -> int:
        """Adds copies (1 to 4294967295) to the count of a cell under a label; returns how many pairs changed. Raises NoCell, NoLabel, and
        what each edit may.

        >>> from s2ix import Index
        >>> index = Index()
        >>> index.add("04", 9), index.add("04", 9, copies=2), index.count("04", 9)
        (1, 1, 3)
        """
        number = number_of(cell)
        label = check(label, MOST_U32, NoLabel)
        copies = check_natural(copies, MOST_U32, TooManyCopies, "copies")
        try:
            return self._edited(self._number_of, self._calls.s2ix_add, number, label, copies)
        except NoCell:
            raise no_cell(number) from None

    def add_all(self, rows: Rows) -> int:
        """Adds rows, each a cell, a label and copies, as one change: in any order, and repeated or not; returns how many pairs changed. All
        are added, or none. Each row keeps its cell: only `add_union` normalises. O(m log m) for m rows, besides the time of an edit.
        An array of NumPy, as the `to_records()` of a frame of pandas, has fields of integers named cell, label and count in any order, and
        maybe others; `meet_view` says how rows in other memory are packed. TypeError for memory of all else. Raises NoCell or NoLabel, with
        the wrong value of the first wrong row and its place, counted from 0; and what each edit may.

        >>> from s2ix import Index
        >>> index = Index()
        >>> index.add_all([("0c", 9, 1), ("04", 9, 2), ("0c", 9, 1)]), index.count("0c", 9), index.done_count()
        (2, 2, 1)
        """
        return self._edit_by(self._calls.s2ix_add_all, rows_in(rows), wrong_row, NoCell, NoLabel)

    def remove(self, cell: Cell, label: int, copies: int = 1) -> int:
        """Takes copies (1 to 4294967295) from the count of a cell under a label; returns how many pairs changed. A pair of count 0 is held
        no more. Raises NoCell, NoLabel, NotHeld, and what each edit may.

        >>> from s2ix import Index
        >>> index = Index()
        >>> index.add("04", 9, copies=3), index.remove("04", 9, copies=2), index.count("04", 9)
        (1, 1, 1)
        >>> index.remove("04", 9, copies=2)
        Traceback (most recent call last):
        s2ix.refusals.NotHeld: too few copies are held
        """
        number = number_of(cell)
        label = check(label, MOST_U32, NoLabel)
        copies = check_natural(copies, MOST_U32, NotHeld, "copies")
        try:
            return self._edited(self._number_of, self._calls.s2ix_remove, number, label, copies)
        except NoCell:
            raise no_cell(number) from None

    def remove_all(self, rows: Rows) -> int:
        """Takes rows away, each a cell, a label and copies, as one change: in any order, and repeated ones add up; returns how many pairs
        changed. All are taken, or none. They come as those of `add_all`. O(m log m) for m rows, besides the time of an edit, and O(log m)
        times that for NotHeld. Raises NoCell or NoLabel, with the wrong value of the first wrong row and its place, counted from 0;
        NotHeld, with the copies and the place of the first row that takes more than the rows before it leave; and what each edit may.

        >>> from s2ix import Index
        >>> index = Index()
        >>> index.add_all([("04", 9, 3), ("0c", 9, 1)]), index.remove_all([("0c", 9, 1), ("04", 9, 2)]), index.count("04", 9), len(index)
        (2, 2, 1, 1)
        """
        return self._edit_by(self._calls.s2ix_remove_all, rows_in(rows, NotHeld), wrong_row, NoCell, NoLabel, NotHeld)

    def add_union(self, cells: Cells, label: int) -> int:
        """Adds one copy under a label for each cell of the normal form of a union; returns how many pairs changed. So a cell within another
        adds nothing, nor does a repeated one, and four children are added as their parent; `add_all` adds each cell as it is. Raises NoCell
        with the first number that is no cell's and its place, NoLabel, and what each edit may.

        >>> from s2ix import Index
        >>> index = Index()
        >>> index.add_union(["04", "0c", "14", "1c"], 9), [hex(row.cell) for row in index]
        (1, ['0x1000000000000000'])
        """
        label = check(label, MOST_U32, NoLabel)
        start, many, _kept = cells_in(cells)
        try:
            return self._edited(self._number_of, self._calls.s2ix_add_union, start, many, label)
        except NoCell:
            raise wrong_cell((start, many)) from None

    def drop_label(self, label: int, *, same_ok: bool = False) -> int:
        """Takes away all copies of a label's pairs; returns how many pairs there were. Raises NoLabel, NoSuchLabel (or returns 0 with
        `same_ok`), and what each edit may.

        >>> from s2ix import Index
        >>> index = Index()
        >>> index.add_union(["04", "0c"], 9), index.drop_label(9), index.drop_label(9, same_ok=True), len(index)
        (2, 2, 0, 0)
        """
        label = check(label, MOST_U32, NoLabel)
        try:
            return self._edited(self._number_of, self._calls.s2ix_drop_label, label)
        except NoSuchLabel:
            if not same_ok:
                raise
            return 0

    def set_label(self, label: int, cells: Cells, *, same_ok: bool = False) -> int:
        """Makes one copy of each cell of the normal form of a union all that a label has, as one change; returns how many pairs changed. So
        it drops what the label has elsewhere, and a pair of several copies keeps one. Without cells it is `drop_label`. It finds the
        label's pairs as `of_label` does, and O(m log m) for m cells that the label has or gets, each of which takes some 2 µs. It reads the
        label, and then edits: if another thread changes one of the pairs between, it raises Mismatch, and nothing has changed. Raises NoLabel,
        NoCell with the first number that is no cell's and its place, NoSuchLabel without cells, and what each edit may, as NoChange if the
        label has just these. With `same_ok` it returns 0 in place of NoChange and NoSuchLabel.

        >>> from s2ix import Index
        >>> index = Index()
        >>> index.add_union(["04", "0c"], 9), index.set_label(9, ["0c", "14"]), [hex(cell) for cell in index.region(9)], index.undo()
        (2, 2, ['0xc00000000000000', '0x1400000000000000'], 2)
        """
        label, wanted = check(label, MOST_LABEL, NoLabel), dict.fromkeys(normalise(cells), 1)
        if not wanted:
            return Edits.drop_label(self, label, same_ok=same_ok)
        # (an edit of another pair of the label between comes as if it followed)
        try:
            return self._give_label(label, self._counts_of(label), wanted)
        except NoChange:
            if not same_ok:
                raise
            return 0

    def _counts_of(self, label: int) -> dict[int, int]:
        """The count of each cell of a label."""
        return {row.cell: row.count for row in self._listed(self._calls.s2ix_of_label, PACKED, rows_of, label)}

    def _give_label(self, label: int, held: dict[int, int], wanted: dict[int, int]) -> int:
        """Makes one change of what leads from the cells that a label has to others."""
        changed = sorted(cell for cell in {*held, *wanted} if held.get(cell, 0) != wanted.get(cell, 0))
        return Edits.record(self, [(cell, label, held.get(cell, 0), wanted.get(cell, 0)) for cell in changed])

    def restore(self, label: int, before: int) -> int:
        """Gives a label the cells and counts that it had before a change that can be undone, as one new change, whatever came later;
        returns how many pairs changed. Changes are numbered as for `revert`. It reads the label and the changes, and then edits: see
        `set_label`. O(n + m) for n pairs and m entries of the changes from that one on. Raises NoLabel, NoSuchChange, and what each edit
        may, as NoChange if the label is as it was.

        >>> from s2ix import Index
        >>> index = Index()
        >>> index.set_label(9, ["04"]), index.set_label(9, ["0c", "14"]), index.add("04", 9), index.restore(9, before=2)
        (1, 3, 1, 2)
        >>> [hex(cell) for cell in index.region(9)]
        ['0x400000000000000']
        """
        label, before = check(label, MOST_LABEL, NoLabel), check(before, MOST_U32, NoSuchChange)
        held = self._counts_of(label)
        wanted = dict(held)
        for number in range(max(before, self._number_of(self._calls.s2ix_done_count)), before - 1, -1):
            wanted.update((each.cell, each.before) for each in self._entries_of(number) if each.label == label)
        return self._give_label(label, held, wanted)

    def _entries_of(self, number: int) -> list[Entry]:
        return self._listed(self._calls.s2ix_change, ENTRY, entries_of, number)

    def relabel(self, source: int, target: int) -> int:
        """Moves all copies of one label to another, cell by cell, and adds them to what that has; returns how many pairs changed, those of
        either label. Raises NoLabel, NoSuchLabel, and what each edit may.

        >>> from s2ix import Index
        >>> index = Index()
        >>> index.add("04", 7), index.relabel(7, 8), index.labels("04")
        (1, 2, [8])
        """
        source = check(source, MOST_U32, NoLabel)
        target = check(target, MOST_U32, NoLabel)
        return self._edited(self._number_of, self._calls.s2ix_relabel, source, target)

    def grow(self, label: int, level: int) -> int:
        """Adds one copy under a label for each cell of a level (0 to 30) that overlaps no cell of the label and shares an edge with a cell
        of the level that overlaps one; returns how many pairs changed. Raises NoLabel, NoSuchLabel, and what each edit may, and TooFine for
        a level above 30, or more than 8 finer than some cell of the label.

        >>> from s2ix import Index
        >>> index = Index()
        >>> index.add("1", 9), index.grow(9, level=0), [hex(row.cell)[2] for row in index]
        (1, 4, ['1', '3', '5', '9', 'b'])
        """
        label = check(label, MOST_U32, NoLabel)
        level = check_natural(level, MOST_U8, TooFine, "level")
        return self._edited(self._number_of, self._calls.s2ix_grow, label, level)

    def normalise_label(self, label: int) -> int:
        """Replaces a label's pairs by one copy at each cell of the label's region; returns how many pairs changed. Raises NoLabel,
        NoSuchLabel, and what each edit may.

        >>> from s2ix import Index
        >>> index = Index()
        >>> index.add_all([("1", 9, 1), ("04", 9, 2)]), index.normalise_label(9), len(index)
        (2, 1, 1)
        """
        label = check(label, MOST_U32, NoLabel)
        return self._edited(self._number_of, self._calls.s2ix_normalise_label, label)

    def revert(self, change: int) -> int:
        """Takes back a change and leaves those that followed it; returns how many pairs changed. The changes that can be undone are
        numbered, the oldest as 1. This is a change of its own. Raises NoSuchChange, and what each edit may; and BelowZero if a later change
        took copies that it had added: `cell` and `label` are the first pair, and `later` is the number of that change. `restore` gives a
        label what it had, whatever came later.

        >>> from s2ix import Index
        >>> index = Index()
        >>> index.add("04", 9), index.add("04", 3), index.revert(1), index.labels("04"), index.done_count()
        (1, 1, 1, [3], 3)
        """
        change = check(change, MOST_U32, NoSuchChange)
        try:
            return self._edited(self._number_of, self._calls.s2ix_revert, change)
        except BelowZero:
            raise self._below_zero(change) from None

    def _below_zero(self, change: int) -> BelowZero:
        """Why a change can't be taken back: the first pair of too few copies, and the later change that took them."""
        for cell, label, before, after in self._entries_of(change):
            if after - before > self._counts_of(label).get(cell, 0):
                break
        else:
            # (another thread has edited since)
            return BelowZero()
        for number in range(self._number_of(self._calls.s2ix_done_count), change, -1):
            for each in self._entries_of(number):
                if each[:2] == (cell, label) and each.before >= after - before > each.after:
                    return BelowZero(cell, label, change, number)
        return BelowZero()

    def record(self, entries: Entries) -> int:
        """Does a change that is given by its entries, as `change` and `difference` list them: by rising cell, then label. All are done, or
        none; returns how many there are. O(m) for m entries, besides the time of an edit. Raises, with the place of the first wrong entry,
        counted from 0: NoCell or NoLabel, with the wrong value; Unsorted, if an entry is not above the one before it; NoDifference, if its
        two counts are equal; Mismatch, if the count before is not the one that is held; and what each edit may. `record` of no entries is
        NoChange.

        >>> from s2ix import Index
        >>> index = Index()
        >>> index.record([("04", 3, 0, 1), ("04", 9, 0, 2)]), index.labels("04"), index.undo(), len(index)
        (2, [3, 9], 2, 0)
        """
        refusals = NoCell, NoLabel, Unsorted, NoDifference, Mismatch
        return self._edit_by(self._calls.s2ix_record, entries_in(entries), wrong_entry, *refusals)

    def apply(self, journal: Text) -> int:
        """Does the changes of a journal, which another index did from the same pairs on: all, or none. Each can be undone by itself.
        Returns how many pairs have another count than before. O(b + m log n) for b bytes and m entries, besides the time of an edit. What
        is refused first is raised: NoJournal, whose `line` is the faulty one; JournalFull; or Mismatch, TooManyCopies or TooManyPairs,
        whose `change` is the refused one, counted from 1; and Closed or OutOfMemory.

        >>> from s2ix import Index
        >>> index, other = Index(), Index()
        >>> index.add("04", 9), other.apply(index.journal()), other.count("04", 9), other.undo()
        (1, 1, 1, 1)
        """
        return self._edited(self._apply, bytes_of(journal))

    def _apply(self, journal: bytes) -> int:
        number, place, entry = ctypes.c_size_t(), ctypes.c_size_t(), ctypes.c_size_t()
        told = addressof(number), addressof(place), addressof(entry)
        expect_at(self._calls.s2ix_apply(self._at_handle, journal, len(journal), *told), place.value, entry.value)
        return number.value

    def _edit_by(
        self, call: Callable[..., int], items: tuple[int, int, object], wrong: Callable[..., S2ixError], *refusals: type[S2ixError]
    ) -> int:
        """Makes an edit that takes a list. Some of its refusals are of one item, whose place the call tells."""
        (start, many, _kept), number = items, ctypes.c_size_t()
        status = self._edited(call, self._at_handle, start, many, addressof(number))
        if REFUSALS.get(status) in refusals:
            raise wrong(REFUSALS[status], start, number.value)
        expect(status)
        return number.value
