"""Groups of the Python package that end in any order: of generators, on two threads and in two tasks, beside a plain model. tests/durable runs
this."""
import asyncio
import contextlib
import queue
import random
import sys
import threading
import time

from of_durable.tools import FACE, outcome_of
from s2ix import Durable, Index

RUNS, STEPS = 40, 30


class Thread:
    """A thread that does what it is given."""

    def __init__(self):
        self.given, self.answers = queue.SimpleQueue(), queue.SimpleQueue()
        threading.Thread(target=self.serve, daemon=True).start()

    def serve(self):
        while True:
            # (no variable knows what is done, which may hold a generator)
            self.answers.put(outcome_of(self.given.get()))

    def do(self, work):
        self.given.put(work)
        try:
            return self.answers.get(timeout=20)
        except queue.Empty:
            return "waits for ever"

    def end(self):
        self.given.put(sys.exit)


class Task:
    """A task of asyncio that does what it is given."""

    def __init__(self, loop):
        self.loop, self.given = loop, asyncio.Queue()
        self.task = loop.create_task(self.serve())

    async def serve(self):
        while True:
            work, answer = await self.given.get()
            answer.set_result(outcome_of(work))
            del work, answer

    def do(self, work):
        answer = self.loop.create_future()
        self.given.put_nowait((work, answer))
        return self.loop.run_until_complete(answer)


@contextlib.contextmanager
def places():
    """Four places to work in: their threads, their tasks, and what does work there."""
    loop, other = asyncio.new_event_loop(), Thread()
    tasks = [Task(loop), Task(loop)]
    try:
        yield [(0, 0, outcome_of), (0, 1, tasks[0].do), (0, 2, tasks[1].do), (1, 0, other.do)]
    finally:
        other.end()
        for each in tasks:
            each.task.cancel()
        loop.run_until_complete(asyncio.gather(*(each.task for each in tasks), return_exceptions=True))
        loop.close()


def part(index):
    """A group that ends when its generator does."""
    with index.group():
        yield


class Model:
    """The labels of each change, and the groups that are open: how many changes there were then, the thread and the task."""

    def __init__(self, is_kept):
        self.is_kept, self.done, self.open = is_kept, [], []

    def is_of(self, group, thread, task):
        return group[1] == thread and group[2] in (0, task)

    def refused(self, thread, task):
        """Whether a step waits for another thread, or is refused to another task."""
        if not self.open or not self.is_kept:
            return None
        if self.open[-1][1] != thread:
            return "waits"
        return None if self.is_of(self.open[-1], thread, task) else "RuntimeError"

    def end(self, group, is_well, thread, task):
        if all(each is not group for each in self.open):
            return None
        while self.open.pop() is not group:
            pass
        changes = self.done[group[0]:]
        del self.done[group[0]:]
        if is_well and self.is_of(group, thread, task):
            self.done += [sorted(sum(changes, []))] if changes else []
            return None
        return "RuntimeError" if is_well else None

    def in_file(self):
        return self.done[: self.open[0][0]] if self.open else self.done


def shown(index):
    return [sorted(entry.label for entry in index.change(number)) for number in range(1, index.done_count() + 1)]


class Walk:
    """Random steps of an index beside the model."""

    def __init__(self, seed, index, follower):
        self.chance, self.index, self.follower = random.Random(seed), index, follower
        self.model, self.held, self.label = Model(follower is not None), [], 0

    def step(self, thread, task, do):
        """A step in some place: what it answers, and what it should; None if it would wait."""
        way, model = self.chance.random(), self.model
        refused = model.refused(thread, task)
        if way < 0.4 and self.held:
            return self.end(thread, task, do)
        if refused:
            return None if refused == "waits" else (do(lambda: self.index.add(FACE, 0)), refused)
        if way < 0.6:
            generator = part(self.index)
            self.held.append((generator, (len(model.done), thread, task)))
            model.open.append(self.held[-1][1])
            return do(lambda: next(generator)), None
        if way < 0.7:
            first = model.open[-1][0] if model.open else 0
            wanted = len(model.done.pop()) if len(model.done) > first else "NothingToUndo"
            return do(self.index.undo), wanted
        if way < 0.75:
            wanted = "RuntimeError" if model.open else model.done.clear()
            return do(self.index.forget), wanted
        self.label += 1
        model.done.append([self.label])
        return do(lambda: self.index.add(FACE, self.label)), 1

    def end(self, thread, task, do):
        """A group ends, mostly the last one, as its block does, or by an error, or since its generator is freed."""
        place = -1 if self.chance.random() < 0.4 else self.chance.randrange(len(self.held))
        generator, group = self.held.pop(place)
        way = self.chance.choice(["end", "error", "free"])
        wanted = self.model.end(group, way == "end", thread, task)
        if way == "end":
            return do(lambda: next(generator, None)), wanted
        if way == "error":
            return do(lambda: generator.throw(KeyError)), "KeyError"
        box = [generator]
        del generator
        return do(box.clear), None

    def differs(self):
        """What is wrong now, if something is."""
        found, model = shown(self.index), self.model
        # (a group in a file is only seen by the thread and the task that it is of)
        is_apart = self.follower is not None and bool(model.open) and not model.is_of(model.open[0], 0, 0)
        wanted = model.in_file() if is_apart else model.done
        if found != wanted:
            return f"{found} in place of {wanted}"
        if self.follower is not None:
            self.follower.refresh()
            if shown(self.follower) != self.model.in_file():
                return f"the file has {shown(self.follower)} in place of {self.model.in_file()}"
        return ""

    def fault(self, where):
        """What goes wrong first, if something does."""
        for number in range(STEPS):
            place = self.chance.choice(where)
            told_and_wanted = self.step(*place)
            if told_and_wanted is None:
                continue
            found, wanted = told_and_wanted
            fault = self.differs() if found == wanted else f"{found!r} in place of {wanted!r}"
            if fault:
                return f"step {number} in {place[:2]}: {fault}"
        while self.held:
            self.end(*self.chance.choice(where))
        last = outcome_of(self.index.add, FACE, 0), outcome_of(self.index.forget), self.index.done_count()
        return "" if last == (1, None, 0) else f"at the end {last}"


def check_orders(count, folder):
    """Groups that end in any order, in any place."""
    with places() as where:
        for seed in range(RUNS):
            count.expect(f"groups of walk {seed}", Walk(seed, Index(), None).fault(where), "")
            path = f"{folder}/groups{seed}.db"
            with Durable(path, synchronous="NORMAL") as index, Durable(path, read_only=True) as follower:
                fault = Walk(seed, index, follower).fault(where)
                count.expect(f"groups in a file, of walk {seed}", fault, "")
                if "waits for ever" in fault:
                    return


def check_others(count, folder):
    """What other threads and tasks wait for, and what a `with` may do."""
    path = f"{folder}/others.db"
    with Durable(path, synchronous="NORMAL") as index:
        other, came = Thread(), []
        group = index.group()
        group.__enter__()
        other.given.put(lambda: came.append(index.add(FACE, 2)))
        index.add(FACE, 1)
        time.sleep(0.05)
        count.expect("a step of another thread waits", came, [])
        group.__exit__(None, None, None)
        count.expect("until the group ends", (other.answers.get(timeout=20), came, shown(index)), (None, [1], [[1], [2]]))
        count.expect("a group is used once", (outcome_of(group.__enter__), group.__exit__(None, None, None)), ("RuntimeError", None))
        box = []
        other.do(lambda: box.append(part(index)) or next(box[0]))
        other.do(lambda: index.add(FACE, 3))
        other.end()
        free = Thread()
        count.expect("freed on another thread", (free.do(box.clear), free.do(lambda: index.add(FACE, 4)), shown(index)), (None, 1, [[1], [2], [4]]))
        free.end()
        with index.group():
            async def fill():
                index.add(FACE, 5)
                with index.group():
                    index.add(FACE, 6)
            asyncio.run(fill())
        count.expect("tasks within a group of none", shown(index)[3:], [[5, 6]])

        @index.group(note="each")
        def both(label):
            index.add(FACE, label)
            index.add(FACE, label + 1)
        both(7)
        both(9)
        count.expect("a function in a group", (shown(index)[4:], [each.note for each in index.log()[4:]]), ([[7, 8], [9, 10]], ["each", "each"]))
        with contextlib.ExitStack() as stack:
            for label in (11, 12):
                stack.enter_context(index.group(note="stack"))
                index.add(FACE, label)
        count.expect("groups on a stack", shown(index)[6:], [[11, 12]])
        group = index.group()
        group.__enter__()
        index.add(FACE, 1)
        count.expect("a close in a group", (outcome_of(index.close), outcome_of(group.__exit__, None, None, None), outcome_of(index.add, FACE, 1)), (None, "Closed", "Closed"))
    with Durable(path) as index:
        count.expect("what it left", shown(index)[6:], [[11, 12]])


def check_all(count, folder):
    """All checks of this file."""
    check_orders(count, folder)
    check_others(count, folder)
