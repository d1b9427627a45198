"""Steps that come one after the other, each whole or not at all, whatever interrupts them."""
from __future__ import annotations

import os
import threading
import weakref
from typing import Any, Callable, Optional, TypeVar

from s2ix.groups import OpenGroup
from s2ix.index import Index

_Made = TypeVar("_Made")


class Steps(Index):
    """An index each of whose steps waits for other threads' steps and groups. A signal handler or a finalizer that runs within a step can
    make none: RuntimeError."""

    __slots__ = ("_turn", "_busy", "_is_torn")

    def _prepare(self) -> None:
        super()._prepare()
        # The first is held by the thread of a step. The second is held during a step, so who has both is within another step.
        self._turn, self._busy = threading.RLock(), threading.Lock()
        # Whether a step has begun that has neither ended nor been taken back.
        self._is_torn = False
        _ALL.add(self)

    def _leave_threads(self) -> None:
        """Waits for no thread of the parent any more: a forked child has none of them."""
        self._turn, self._busy = threading.RLock(), threading.Lock()
        self._close_groups(self._groups[:])

    def close(self) -> None:
        """Closes the index and its file. Each later call raises Closed, but a second `close` does nothing. It waits for another thread's
        step or group. Raises RuntimeError within a step."""
        self._in_turn(self._shut, is_of_a_task=False)

    def _shut(self) -> None:
        super().close()

    # A lock and what is done under it stand on one line: so an interrupt comes before the lock is taken, or in what is done, or after all.

    def _in_turn(self, work: Callable[..., _Made], *given: Any, is_of_a_task: bool = True, waits: bool = True) -> _Made:
        """Does some work beside which no other may run, after other threads' steps, and their groups if it waits for these."""
        answers: list[_Made] = []
        while True:
            with self._turn: group = self._tried(is_of_a_task, waits, answers, work, given)
            if group is None:
                return answers[0]
            group.wait()

    def _tried(
        self, is_of_a_task: bool, waits: bool, answers: list[_Made], work: Callable[..., _Made], given: tuple[Any, ...]
    ) -> Optional[OpenGroup]:
        """Does some work, and notes its answer; or returns the group of another thread whose end comes first."""
        self._expect_no_step()
        group = None
        if self._is_torn or self._groups:
            self._mend()
            group = self._group_of_another(is_of_a_task) if waits else None
        if group is None:
            with self._busy: answers.append(work(*given))
        return group

    def _expect_no_step(self) -> None:
        if self._busy.locked():
            raise RuntimeError("a step within a step: a signal handler or a finalizer made it while the other ran, so it has done nothing")

    def _group_of_another(self, is_of_a_task: bool) -> Optional[OpenGroup]:
        """The group for whose end this thread waits, if there is one. A task can't wait for another one of its thread."""
        group = self._groups[-1] if self._groups else None
        if group is None or not group.is_of_this_thread():
            return group
        if is_of_a_task and not group.is_of_this_task():
            raise RuntimeError("a task of asyncio makes no step while another one of its thread is in a group")
        return None

    def _mend(self) -> None:
        """Closes the index if interrupts left a step half done, and takes back a group that they kept from its end."""
        if self._is_torn:
            self._shut()
        group = self._dropped_group()
        if group is not None:
            with self._busy: self._end(group, False)

    def _whole(self, make: Callable[[], _Made], restore: Callable[[bool], None]) -> _Made:
        """Makes a step. If that raises, `restore` takes it back, and once more, given True, if an interrupt cuts that off. If that raises
        too, the index is closed."""
        # (nothing stands before or between these: an interrupt at a `try` itself passes by the `except` of the one around it)
        try:
            try:
                self._is_torn = True
                answer = make()
                self._is_torn = False
                return answer
            except BaseException:
                self._take_up(restore, False)
                raise
        except BaseException:
            try:
                self._take_up(restore, True)
            except BaseException:
                if self._is_torn:
                    self._shut()
                raise
            raise

    def _take_up(self, restore: Callable[[bool], None], is_again: bool) -> None:
        """Takes back a step that has not ended."""
        if self._is_torn:
            restore(is_again)
            self._settle()
            self._is_torn = False

    def _settle(self) -> None:
        """Does what is left when a step is taken back."""

    # Groups.

    def _begin_group(self, group: OpenGroup) -> None:
        self._in_turn(self._begin, group)

    def _begin(self, group: OpenGroup) -> None:
        super()._begin_group(group)

    def _end_group(self, group: OpenGroup, is_kept: bool) -> bool:
        # (it may be another thread's, so this waits only for a step)
        with self._turn: return self._end_in_turn(group, is_kept)

    def _end_in_turn(self, group: OpenGroup, is_kept: bool) -> bool:
        self._expect_no_step()
        with self._busy: return self._end(group, is_kept)

    def _end(self, group: OpenGroup, is_kept: bool) -> bool:
        return super()._end_group(group, is_kept)

    def _end_dropped(self, _: object = None) -> None:
        with self._turn: self._mend_if_free()

    def _mend_if_free(self) -> None:
        # (within a step nothing is ended: the next step does it)
        if not self._busy.locked():
            self._mend()


_ALL: weakref.WeakSet[Steps] = weakref.WeakSet()


def _leave_threads() -> None:
    for each in list(_ALL):
        each._leave_threads()


if hasattr(os, "register_at_fork"):
    os.register_at_fork(after_in_child=_leave_threads)
