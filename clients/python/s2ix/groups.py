"""Groups of edits: what a `with` holds of one, and what an index notes of those that are open."""
from __future__ import annotations

import sys
import threading
import weakref
from contextlib import ContextDecorator
from functools import partial
from typing import TYPE_CHECKING, Callable, Optional, TypeVar

if TYPE_CHECKING:
    from s2ix.index import Index


class _Here(threading.local):
    """An object for each thread. (The number of a thread that has ended may be a later one's.)"""

    def __init__(self) -> None:
        self.thread = object()


_HERE = _Here()


def _task() -> Optional[object]:
    """The task of asyncio that runs on this thread, if there is one."""
    asyncio = sys.modules.get("asyncio")
    try:
        found: Optional[object] = asyncio and asyncio.current_task()
        return found
    except (AttributeError, RuntimeError):
        # (asyncio is about to be imported, or runs nothing on this thread)
        return None


class OpenGroup:
    """A group that has begun: where, how many changes could be undone then, the note for its change, who makes it, and whether its caller
    writes to tables of its own."""

    __slots__ = ("first", "note", "who", "is_lent", "_thread", "_task", "_held", "_ended")

    def __init__(self, words: tuple[Optional[str], Optional[str]], is_lent: bool, held: object, dropped: Callable[[object], None]) -> None:
        """What is held is what keeps the group open. When it is gone, `dropped` is called, unless the group has ended."""
        self.first, (self.note, self.who), self.is_lent = 0, words, is_lent
        self._thread, self._task = _HERE.thread, _task()
        self._held: Optional[weakref.ref[object]] = weakref.ref(held, dropped)
        self._ended = threading.Lock()
        self._ended.acquire()

    def is_dropped(self) -> bool:
        """Whether nothing will end it any more."""
        return self._held is None or self._held() is None

    def is_of_this_thread(self) -> bool:
        return self._thread is _HERE.thread

    def is_of_this_task(self) -> bool:
        """Whether it began on this thread, and in the task that runs now or in none."""
        return self.is_of_this_thread() and (self._task is None or self._task is _task())

    def wait(self) -> None:
        """Waits until it has ended."""
        # (on one line: see `Steps`)
        with self._ended: pass

    def end(self) -> None:
        """Lets those go on that wait. Nothing is called any more when what is held is gone."""
        self._held = None
        if self._ended.locked():
            self._ended.release()


class _Exit:
    """How a `with` finds the end of its group. It keeps what it finds, which nothing else does, until the `with` is over. So if an
    interrupt comes before the first line of that end, the index learns of it: what the `with` kept is gone. (It is no method of Python,
    since a call of one drops it at once.)"""

    def __get__(self, group: Optional[Block], _: Optional[type[Block]] = None) -> Callable[..., None]:
        if group is None:
            return Block._leave
        held = partial(Block._leave, group)
        group._held = weakref.ref(held)
        return held


class Block(ContextDecorator):
    """What one `with` holds of a group."""

    _is_lent = False

    def __init__(self, index: Index, note: Optional[str] = None, who: Optional[str] = None) -> None:
        self._index, self._words = index, (note, who)
        self._open: Optional[OpenGroup] = None
        self._held: Callable[[], object] = weakref.ref(self)

    def _recreate_cm(self: _Some) -> _Some:
        """A group for a call of the function that it decorates."""
        return type(self)(self._index, *self._words)

    def _enter(self) -> None:
        if self._open is not None:
            raise RuntimeError("a group is for one `with`: ask the index for another")
        # (no variable here knows what is held, since what is raised knows the frames that know it)
        self._open = OpenGroup(self._words, self._is_lent, self._held() or self, self._index._end_dropped)
        self._index._begin_group(self._open)

    __exit__ = _Exit()

    def _leave(self, kind: Optional[type[BaseException]] = None, *_: object) -> None:
        """Ends the group, as one change unless something was raised."""
        if self._open is None:
            return
        is_of_another = not self._open.is_of_this_task()
        if self._index._end_group(self._open, kind is None and not is_of_another) and kind is None and is_of_another:
            raise RuntimeError("a group ends on the thread and in the task that it began in, so all that was done in it is undone")


_Some = TypeVar("_Some", bound=Block)


class Group(Block):
    """A group of edits, for one `with`: see `Index.group`."""

    def __enter__(self) -> None:
        self._enter()
