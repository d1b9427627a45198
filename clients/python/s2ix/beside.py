"""Work on several threads at once, which an interrupt ends, and the end of the program."""
from __future__ import annotations

import _thread
import atexit
import os
from functools import partial
from typing import Any, Callable, Generic, Optional, Sequence, TypeVar

_Found = TypeVar("_Found")


class _Program:
    """What begins no thread once the program ends, since Python would free what that needs before it has begun. (Only threads of the kind
    that Python calls daemons are left to ask then.)"""

    def __init__(self) -> None:
        self.start_anew()

    def start_anew(self) -> None:
        """Forgets all threads: a forked child has none of them."""
        self.is_ending = False
        self.running: set[_Threads[Any]] = set()
        # This is held while threads begin.
        self.beginning = _thread.allocate_lock()

    def end(self) -> None:
        """Stops all threads that have begun, and waits for them."""
        with self.beginning:
            self.is_ending = True
            running = [*self.running]
        for threads in running:
            threads.stop()


_PROGRAM = _Program()
atexit.register(_PROGRAM.end)
if hasattr(os, "register_at_fork"):
    os.register_at_fork(after_in_child=_PROGRAM.start_anew)


def side_by_side(work: Callable[..., _Found], given: Sequence[tuple[object, ...]], leave: Callable[[], None]) -> list[_Found]:
    """What some work returns for each of several arguments, each on a thread of its own. If some of it raises, the first in order is raised
    here. Then, or after an interrupt, `leave` is called, which should make the others end soon, and they are waited for. If the program
    ends meanwhile, SystemExit ends the thread that called this. After that all is done on the thread that calls this."""
    threads = _Threads([partial(work, *each) for each in given], leave)
    # (no loop is in this `try`: from Python 3.12 on, an interrupt at the end of a loop's turn may pass the `except` by)
    try:
        return threads.found()
    except BaseException:
        leave()
        threads.end()
        raise
    finally:
        _PROGRAM.running.discard(threads)
        threads.drop()


class _Threads(Generic[_Found]):
    """Tasks, each for a thread of its own.

    No thread waits for what this one holds, since an interrupt may come when this one holds it and is not yet known to. (In `threading` and
    `concurrent.futures` locks are taken in Python, so there all might wait for ever.)"""

    def __init__(self, tasks: list[Callable[[], _Found]], leave: Callable[[], None]) -> None:
        self._tasks, self._places = [[task] for task in tasks], range(len(tasks))
        self._begun: list[int] = []
        self._leave: Callable[[], object] = leave
        self._is_stopped = False
        self._found: dict[int, _Found] = {}
        self._raised: dict[int, BaseException] = {}
        self._has_ended, self._ends = [False for _ in tasks], [_thread.allocate_lock() for _ in tasks]

    def found(self) -> list[_Found]:
        """Starts all threads; what each returns, when all have ended, or what the first raises."""
        with _PROGRAM.beginning: self._begin()
        if not self._begun:
            return [task() for [task] in self._tasks]
        for place in self._places:
            self._wait_for(place)
            if place in self._raised:
                raise self._raised[place]
        if self._is_stopped:
            # (not all was found)
            raise SystemExit
        return [self._found[place] for place in self._places]

    def _begin(self) -> None:
        if _PROGRAM.is_ending:
            return
        _PROGRAM.running.add(self)
        for place in self._places:
            self._ends[place].acquire()
            _thread.start_new_thread(self._run, (place,))
            self._begun.append(place)

    def stop(self) -> None:
        """Makes the threads end soon, and waits for all that were begun."""
        self._is_stopped = True
        self._leave()
        for place in self._begun:
            self._wait_for(place)

    def end(self) -> None:
        """Waits for the threads that have begun. The others will find no task."""
        for place in self._places:
            if self._take(place) is None:
                self._wait_for(place)

    def drop(self) -> None:
        """Drops what was found or raised, since what is raised knows the frames that know this."""
        self._found.clear()
        self._raised.clear()
        self._leave = bool

    def _take(self, place: int) -> Optional[Callable[[], _Found]]:
        """A task, for the first who takes it."""
        try:
            return self._tasks[place].pop()
        except IndexError:
            return None

    def _run(self, place: int) -> None:
        task = self._take(place)
        try:
            if task is not None:
                self._found[place] = task()
        except BaseException as error:  # noqa: BLE001
            self._raised[place] = error
        # (a thread that has ended holds nothing of the caller's)
        del task
        self._has_ended[place] = True
        self._ends[place].release()

    def _wait_for(self, place: int) -> None:
        # (a call that took the lock may have been interrupted)
        while not self._has_ended[place]:
            with self._ends[place]: pass
