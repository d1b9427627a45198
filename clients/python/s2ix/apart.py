"""An index whose groups are seen whole or not at all: until one ends, other threads and tasks read what was held before it."""
from __future__ import annotations

import functools
from typing import Any, Callable, Optional

from s2ix.groups import OpenGroup
from s2ix.index import Index, is_still, kind_of_line
from s2ix.refusals import NoSuchChange
from s2ix.given import MOST_U32, Text, bytes_of, check
from s2ix.rows import Entry
from s2ix.steps import Steps
from s2ix.tokens import token_of

_HEAD = "s2ix-journal 2\n"
# The questions that a copy answers as the index would have before the group.
_READS = (
    "at", "at_each", "labels_at_each", "meet", "meet_view", "labels", "meet_each", "labels_each", "region", "region_view", "count",
    "__contains__", "__len__", "copies", "faces_rebuilt", "range_count", "difference", "range", "ranges", "find", "contents", "of_label",
    "held_labels", "pairs", "__iter__", "visit", "dump", "export", "copy", "__copy__",
)


class Apart(Steps):
    """An index that keeps a copy of what was held before a group, for those that aren't in it."""

    __slots__ = ("_before", "_many_before", "_undone_before")

    def _prepare(self) -> None:
        super()._prepare()
        # What was held before the outermost group, and how many changes could be undone and redone then.
        self._before: Optional[Index] = None
        self._many_before = self._undone_before = 0

    def _seen(self) -> Index:
        """The index that this thread and task may read: this one, or what was held before a group of others."""
        before = self._before
        if before is not None:
            for group in self._groups[:1]:
                if not group.is_of_this_task():
                    return before
        return self

    def _begin(self, group: OpenGroup) -> None:
        if not self._groups:
            self._many_before, self._undone_before = self._done(), self.undone_count()
            self._before = Index.copy(self)
        super()._begin(group)

    def _close_groups(self, groups: list[OpenGroup]) -> None:
        super()._close_groups(groups)
        if not self._groups:
            self._before = None

    def _shut(self) -> None:
        self._before = None
        super()._shut()

    def done_count(self) -> int:
        """As `Index.done_count`."""
        return self._done() if self._seen() is self else self._many_before

    def undone_count(self) -> int:
        """As `Index.undone_count`."""
        return Index.undone_count(self) if self._seen() is self else self._undone_before

    def change(self, number: int) -> list[Entry]:
        """As `Index.change`."""
        number = check(number, MOST_U32, NoSuchChange)
        if self._seen() is not self and number > self._many_before:
            raise NoSuchChange
        return super().change(number)

    def journal(self, first: int = 1) -> str:
        """As `Index.journal`."""
        if self._seen() is self:
            return super().journal(first)
        first, many = check(first, MOST_U32, NoSuchChange), self._many_before
        if not 1 <= first <= many + 1:
            raise NoSuchChange
        changes = [self._lines_of(number) for number in range(first, many + 1)]
        return f"{_HEAD}{''.join(changes)}end {len(changes)}\n"

    def _lines_of(self, number: int) -> str:
        """The lines of a change within a journal."""
        entries = super().change(number)
        lines = [f"{token_of(each.cell)} {each.label} {each.before} {each.after}\n" for each in entries]
        return f"change {len(entries)}\n{''.join(lines)}"

    def _still_line(self, line: Text) -> Optional[str]:
        """What a line answers that changes no pair; None for another line, and for a journal that another's group is in."""
        given, index = bytes_of(line), self._seen()
        if not is_still(kind_of_line(given)) or index is not self and b"journal" in given:
            return None
        return Index.line(index, given)


def _read_apart(name: str) -> Callable[..., Any]:
    """A method of `Index` that asks the index which its caller may read."""
    read: Callable[..., Any] = getattr(Index, name)

    @functools.wraps(read)
    def asked(self: Apart, *given: Any, **named: Any) -> Any:
        return read(self._seen() if self._groups else self, *given, **named)

    return asked


for _name in _READS:
    setattr(Apart, _name, _read_apart(_name))
