"""The refusals of the index, one class for each status of include/s2ix.h, with the words of s2ix_status_text. A refused call changes
nothing."""
from __future__ import annotations

from typing import Any, Optional


class S2ixError(Exception):
    """What each refusal of the index is. `status` is its number in C. `change` is the number of the refused change of a journal, or 0.

    `value` is the refused number or token, and `place` its place in the list that was passed, counted from 0. NoCell has a value if a
    number or token is no cell's, and so has each refusal of a row. A refused entry has a place too. Without a value or a list they are
    None.

    >>> from s2ix import NoCell, unions
    >>> try:
    ...     unions.normalise(["04", 2])
    ... except NoCell as refusal:
    ...     print(refusal, refusal.value, refusal.place, refusal.status)
    place 1: 0x2 is no number of a cell 2 1 3
    """

    status = 0
    change = 0
    value: Optional[object] = None
    place: Optional[int] = None

    def __init__(self, *words: object) -> None:
        super().__init__(*(words or (type(self).__doc__,)))

    def __reduce__(self) -> Any:
        # (a class makes its words from what it is given, so from its words it would make others)
        return _again, (type(self), *self.args), self.__dict__


def _again(kind: type[S2ixError], *words: object) -> S2ixError:
    """A refusal of a class, with words that it had."""
    return kind.__new__(kind, *words)


class NoDump(S2ixError):
    """the text is no dump"""

    status = 9

    def __init__(self, line: int = 0) -> None:
        super().__init__(f"{self.__doc__}: line {line} is the first with a fault")
        self.line = line


class NoJournal(S2ixError):
    """the text is no journal"""

    status = 28

    def __init__(self, line: int = 0) -> None:
        super().__init__(f"{self.__doc__}: line {line} is the first with a fault")
        self.line = line


class Mismatch(S2ixError):
    """a change has another count than is held"""

    status = 29

    def __init__(self, change: int = 0, entry: int = 0, place: Optional[int] = None) -> None:
        # (an entry that was passed in a list has a place there)
        super().__init__(f"{self.__doc__}: entry {entry} of change {change}" if place is None else f"entry {place}: another count is held")
        self.change, self.entry, self.place = change, entry, place


class BelowZero(S2ixError):
    """a count would be below 0"""

    status = 21
    #: The first pair that has too few copies, and the number of the later change that took them. `step` is its id in a file. None if they
    #: aren't known.
    cell: Optional[int] = None
    label: Optional[int] = None
    later: Optional[int] = None
    step: Optional[int] = None

    def __init__(self, cell: int = 0, label: int = 0, change: int = 0, later: int = 0, steps: Optional[tuple[int, int]] = None) -> None:
        """Without a cell it only has its name. `steps` are the ids of both changes in a file."""
        if not cell:
            super().__init__()
            return
        word, (first, last) = ("change", (change, later)) if steps is None else ("step", steps)
        token = f"{cell:016x}".rstrip("0")
        super().__init__(f"{self.__doc__}: {word} {last} took copies of {token} under {label} that {word} {first} had added")
        self.cell, self.label, self.later, self.step = cell, label, later, None if steps is None else last


#: The class of each status.
REFUSALS: dict[int, type[S2ixError]] = {
    NoDump.status: NoDump, NoJournal.status: NoJournal, Mismatch.status: Mismatch, BelowZero.status: BelowZero
}


def _refusal(status: int, name: str, text: str) -> type[S2ixError]:
    made: type[S2ixError] = type(name, (S2ixError,), {"__doc__": text, "__module__": __name__, "status": status})
    REFUSALS[status] = made
    return made


Closed = _refusal(1, "Closed", "the handle is closed")
OutOfMemory = _refusal(2, "OutOfMemory", "out of memory")
NoCell = _refusal(3, "NoCell", "a number is no cell's, or no leaf's")
NoLabel = _refusal(4, "NoLabel", "a number is no label's")
NoLimits = _refusal(5, "NoLimits", "limits are out of their ranges")
NothingToUndo = _refusal(6, "NothingToUndo", "nothing to undo")
NothingToRedo = _refusal(7, "NothingToRedo", "nothing to redo")
NoRoom = _refusal(8, "NoRoom", "the buffer is too short")
JournalFull = _refusal(16, "JournalFull", "the journal is full")
NoSuchLabel = _refusal(17, "NoSuchLabel", "no pair of the label is held")
NotHeld = _refusal(18, "NotHeld", "too few copies are held")
TooFine = _refusal(19, "TooFine", "the level is too fine")
NoSuchChange = _refusal(20, "NoSuchChange", "no change has the number")
NoChange = _refusal(22, "NoChange", "nothing would change")
TooManyCopies = _refusal(23, "TooManyCopies", "a count would pass the limit")
TooManyPairs = _refusal(24, "TooManyPairs", "the number of pairs would pass the limit")
Coarser = _refusal(25, "Coarser", "the level is coarser than the cell's")
NoSpan = _refusal(26, "NoSpan", "the bounds are no span")
NoRange = _refusal(27, "NoRange", "no range is at the place")
TooFewChanges = _refusal(30, "TooFewChanges", "fewer changes can be undone")
Unsorted = _refusal(31, "Unsorted", "an entry is not above the one before it")
NoDifference = _refusal(32, "NoDifference", "an entry has two equal counts")


def expect(status: int) -> None:
    """Raises the class of a status, unless that is 0."""
    if status:
        raise REFUSALS.get(status, S2ixError)()


def expect_at(status: int, place: int, entry: int) -> None:
    """The same for a call of texts: the place is that of the faulty line, or of the refused change, which has the entry."""
    if status in (NoDump.status, NoJournal.status):
        raise REFUSALS[status](place)
    if status == Mismatch.status:
        raise Mismatch(place, entry)
    try:
        expect(status)
    except S2ixError as refusal:
        refusal.change = place
        raise


def named(refusal: type[S2ixError], words: str, value: object) -> S2ixError:
    """A refusal with the value that is refused."""
    made = refusal(words)
    made.value = value
    return made


def placed(refusal: S2ixError, item: str, place: int) -> S2ixError:
    """The same refusal, with the place of the refused item in its list."""
    made = named(type(refusal), f"{item} {place}: {refusal}", refusal.value)
    made.place = place
    return made
