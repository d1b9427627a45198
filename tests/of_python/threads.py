"""Many Python threads on one index, and on cells and unions without one: each answer is compared. tests/python_client runs this."""
import gc
import itertools
import signal
import sys
import threading
import time
from array import array

from s2ix import Closed, Index, NothingToRedo, Row, cells, library, token_of, unions

THREADS, SECONDS = 8, 1.0
FACES = [face << 61 | 1 << 60 for face in range(6)]
# How many labels a leaf has, so that its rows want more room than a buffer has at first.
MANY = 700
# The first leaf number, and the one with which all leaves end.
FIRST_LEAF, LEAF_END = 1, 0xC000000000000001


def in_threads(work, seconds=SECONDS):
    """What is wrong when threads do some work again and again, and how many answers were right.

    The work of a thread and a step yields triples: a name, the answer that is found, and the answer that is wanted."""
    wrong, right, start, until = [], [0] * THREADS, threading.Barrier(THREADS), time.monotonic() + seconds

    def repeat(place):
        start.wait()
        try:
            for step in itertools.count():
                if wrong or step > 2 and time.monotonic() > until:
                    return
                for name, found, wanted in work(place, step):
                    right[place] += found == wanted
                    if found != wanted:
                        wrong.append(f"{name}: {found!r} in place of {wanted!r}"[:300])
        except Exception as raised:  # noqa: BLE001
            wrong.append(f"{type(raised).__name__}: {raised}")

    threads = [threading.Thread(target=repeat, args=(place,), daemon=True) for place in range(THREADS)]
    before = sys.getswitchinterval()
    sys.setswitchinterval(1e-6)
    try:
        for thread in threads:
            thread.start()
        for thread in threads:
            thread.join(60)
    finally:
        sys.setswitchinterval(before)
    return wrong + ["a thread waits for ever" for thread in threads if thread.is_alive()], sum(right)


def tried(call, *refusals):
    """What a call answers, or None if it raises what it may."""
    try:
        return call()
    except refusals:
        return None


class Zones:
    """An index of pairs that stay, and pairs that threads edit beside them.

    Three children of each of five faces have a label of their own, and the last face has many labels: these stay. The fourth children are for
    edits: each thread has a cell of its own there, and labels of its own."""

    def __init__(self):
        self.index = Index()
        self.zones = [Row(cells.child(face, position), 3 * number + position, number + 2) for number, face in enumerate(FACES[:5]) for position in range(3)]
        self.index.add_all([*self.zones, *((FACES[5], label, 1) for label in range(MANY))])
        self.index.forget()
        self.held = len(self.index)

    def of_thread(self, place):
        """The cell of a thread, and three of its children."""
        cell = cells.child(cells.child(FACES[place % 5], 3), place // 5)
        return cell, [cells.child(cell, position) for position in range(3)]

    def ask(self, place, step):
        """Questions about what stays."""
        index, zone = self.index, self.zones[(place + step) % len(self.zones)]
        other = self.zones[(place + step + 1) % len(self.zones)]
        leaf, both = cells.range_min(zone.cell), sorted([zone, other])
        found = index.find(leaf)
        yield "at", index.at(leaf), [zone]
        yield "at a token", index.at(token_of(cells.range_max(zone.cell))), [zone]
        yield "meet", index.meet(array("Q", [other.cell, zone.cell])), both
        yield "meet_view", index.meet_view([zone.cell]).tobytes(), bytes(library.PackedRow(*zone))
        yield "labels", index.labels([zone.cell, other.cell]), sorted([zone.label, other.label])
        yield "count", index.count(zone.cell, zone.label), zone.count
        yield "in", ((zone.cell, zone.label) in index, (zone.cell, MANY) in index), (True, False)
        yield "a line that is refused", index.line("at 1"), "no NotLeaf\n"
        yield "a line of a query", index.line(f"at {leaf:016x}"), f"{token_of(zone.cell)}:{zone.label}:{zone.count}\nend 1\n"
        yield "visit", list(index.visit(zone.cell)), [zone]
        yield "find", (found.start <= leaf < found.limit, found.is_empty), (True, False)
        if (place + step) % 16 == 0:
            yield "many rows", [row.label for row in index.at(cells.range_min(FACES[5]))], list(range(MANY))
            yield "many labels", index.labels(FACES[5]), list(range(MANY))
            found = index.labels_at_each([leaf, cells.range_min(other.cell)]), index.labels_each([[zone.cell, other.cell], zone.cell], 2)
            wanted = [1, 2], [zone.label, other.label], [2, 3], sorted([zone.label, other.label]) + [zone.label]
            yield "many at once", tuple(part.tolist() for each in found for part in each), wanted
            yield "of_label", index.of_label(zone.label), [zone, Row(FACES[5], zone.label, 1)]
            yield "held_labels", {each.label: each[1:] for each in index.held_labels()}[zone.label], (2, zone.count + 1)
            yield "region", index.region(zone.label), [zone.cell, FACES[5]]
            yield "region_view", index.region_view(zone.label).tolist(), [zone.cell, FACES[5]]

    def edit(self, place, step):
        """Edits of a thread's own pairs, and questions about these."""
        index, (cell, children), label = self.index, self.of_thread(place), 1000 + place
        yield "add", (index.add(cell, label, 2), index.count(cell, label)), (1, 2)
        yield "at what is added", index.at(cells.range_min(cell)), [Row(cell, label, 2)]
        yield "remove", (index.remove(cell, label, copies=2), index.count(cell, label)), (1, 0)
        yield "meet what is gone", index.meet(cell), []
        yield "add_union", index.add_union(children, label), 3
        yield "meet a union", index.meet(cell), [Row(child, label, 1) for child in children]
        yield "relabel", index.relabel(label, label + 100), 6
        yield "region", (index.region(label + 100), index.region(label)), (children, [])
        yield "a line of an edit", index.line(f"drop {label + 100}"), "ok 3\n"
        yield "labels of what is gone", (index.labels(cell), repr(index)), ([], "<s2ix.Index, open>")
        if step % 32 == 0:
            index.forget()
        yield from self.ask(place, step)

    def undo(self, place, step):
        """Edits, each of three pairs, that the threads undo and redo for one another, and walks along all pairs and ranges meanwhile."""
        index, (_, children), label = self.index, self.of_thread(place), 10_000 * (place + 1) + step % 10_000
        if step % 2:
            yield "add_union", index.add_union(children, label), 3
        else:
            yield "add_all", index.add_all([(child, label, 1) for child in children]), 3
        if tried(index.redo, NothingToRedo):
            yield "undo of what is redone", index.undo(), 3
        yield "undo", index.undo(), 3
        yield "pairs", (len(index) - self.held) % 3, 0
        if (place + step) % 8 == 0:
            rows, ranges = tried(lambda: list(index.pairs()), RuntimeError), tried(lambda: list(index.ranges()), RuntimeError)
            if rows is not None:
                yield "a walk along pairs", ((len(rows) - self.held) % 3, rows == sorted(set(rows)), set(self.zones) <= set(rows)), (0, True, True)
            if ranges is not None:
                bounds = [FIRST_LEAF, *(each.limit for each in ranges)]
                yield "a walk along ranges", ([*(each.start for each in ranges), LEAF_END], [each.place for each in ranges]), (bounds, [*range(len(ranges))])
            with index.copy() as other:
                yield "a copy", ((len(other) - self.held) % 3, other.done_count(), other.at(FIRST_LEAF)), (0, 0, [self.zones[0]])
        yield from self.ask(place, step)

    def expect_whole(self, count, name):
        """What stays is there, and all edits are taken back but those that are not undone."""
        count.expect(f"pairs at the end of {name}", len(self.index), self.held + 3 * self.index.done_count())
        while self.index.done_count():
            self.index.undo()
        count.expect(f"rows at the end of {name}", [row for row in self.index if row.cell != FACES[5]], self.zones)


def check_edits(count, name):
    """Edits, steps and questions of many threads on one index."""
    zones = Zones()
    for work in (zones.ask, zones.edit):
        count.expect(f"{work.__name__} {name}", in_threads(work)[0], [])
    zones.index.forget()
    count.expect(f"undo {name}", in_threads(zones.undo)[0], [])
    zones.expect_whole(count, name)


class Dropped:
    """An object in a cycle, so that only the garbage collector drops it: then it asks about an index, in the midst of a call of that thread."""

    def __init__(self, ask, wrong):
        self.own, self.ask, self.wrong = self, ask, wrong
        self.index = Index(pairs=1)

    def __del__(self):
        self.wrong += [f"{name} while garbage is collected" for name, found, wanted in itertools.islice(self.ask(0, 1), 6) if found != wanted]


def check_garbage(count, name):
    """Indexes are dropped, and finalizers ask, while threads call."""
    zones, wrong = Zones(), []

    def work(place, step):
        Dropped(zones.ask, wrong)
        yield from zones.edit(place, step)

    before = gc.get_threshold()
    gc.set_threshold(50)
    try:
        found = in_threads(work)[0]
    finally:
        gc.set_threshold(*before)
    # (while the index is open)
    gc.collect()
    count.expect(f"garbage {name}", (found, wrong), ([], []))


def check_signals(count, name):
    """A signal handler asks in the midst of a call."""
    zones, wrong, until = Zones(), [], time.monotonic() + SECONDS

    def handle(*_):
        wrong.extend(f"{name} in a handler" for name, found, wanted in zones.ask(0, 3) if found != wanted)

    before = signal.signal(signal.SIGALRM, handle)
    try:
        for step in itertools.count(1):
            if time.monotonic() > until:
                break
            # (one signal for each step, so that no handler comes into another)
            signal.setitimer(signal.ITIMER_REAL, step % 40 * 1e-5 + 1e-5)
            wrong += [f"{name} around a handler" for name, found, wanted in zones.edit(1, step) if found != wanted]
    finally:
        signal.setitimer(signal.ITIMER_REAL, 0)
        signal.signal(signal.SIGALRM, before)
    count.expect(f"signals {name}", wrong, [])


def check_close(count, name):
    """An index is closed while threads ask: each answer is right, until all are refused."""
    for _ in range(10):
        zones, closed = Zones(), threading.Event()

        def work(place, step, zones=zones, closed=closed):
            if place == 0 and step == 2:
                zones.index.close()
                closed.set()
            try:
                yield from zones.ask(place, step)
            except Closed:
                yield "closed", closed.wait(10) and repr(zones.index), "<s2ix.Index, closed>"

        count.expect(f"close {name}", (in_threads(work, 0.1)[0], closed.is_set()), ([], True))


class Stand:
    """The calls of an index, but for s2ix_add, which another function stands for."""

    def __init__(self, calls, add):
        self.calls, self.s2ix_add = calls, add

    def __getattr__(self, name):
        return getattr(self.calls, name)


def walk_in_an_edit(index, walk):
    """A walk whose first item is read when an edit has begun, but has not come to the library."""
    calls, walks = index._calls, []

    def in_turn(*given):
        walks.append(walk())
        next(walks[0])
        return calls.s2ix_add(*given)

    try:
        index._calls = Stand(calls, in_turn)
        index.add(FACES[0], 5)
    finally:
        index._calls = calls
    return walks[0]


def check_iterators(count):
    """An iterator refuses a page after an edit, and none after a query."""
    zones = Zones()
    for name, walk in {"pairs": zones.index.pairs, "visit": lambda: zones.index.visit(FACES), "ranges": zones.index.ranges}.items():
        lines = ["add 04 5", "remove 04 5", "addunion 5 04", "drop 5", "relabel 4 5", "grow 5 3", "normal 5", "revert 1", "undo", " redo"]
        edits = [lambda: zones.index.add(FACES[0], 5), zones.index.undo, zones.index.redo, lambda: zones.index.add_all([(FACES[1], 5, 1)])]
        for edit in [*edits, *(lambda text=text: zones.index.line(text) for text in lines)]:
            rows = walk()
            first = next(rows)
            tried(edit, NothingToRedo)
            count.expect(f"{name} after an edit", (tried(lambda: [first, *rows], RuntimeError), bool(next(walk()))), (None, True))
        rows = walk_in_an_edit(zones.index, walk)
        count.expect(f"{name} from the midst of an edit", tried(lambda: [*rows], RuntimeError), None)
        zones.index.undo()
        queries = ["at 1", " at 0000000000000001", "meet 1", "labels 1", "ranges", "region 1", "common 1 2", "only 1 2", "path 1", "neighbors 1", "face 1"]
        queries += ["dump", "journal", "export", "\tforget", "# undo", "fly", "add 04"]
        calls = [lambda: zones.index.at(FIRST_LEAF), zones.index.forget, zones.index.dump, zones.index.copy, lambda: list(zones.index.pairs())]
        for call in [*calls, *(lambda text=text: zones.index.line(text) for text in queries)]:
            rows = walk()
            first = next(rows)
            call()
            count.expect(f"{name} after a query", [first, *rows], list(walk()))


def check_cells(count):
    """Cells and unions, which have no index."""
    calls = [
        cells.path, cells.level, cells.face, cells.range_min, cells.range_max, cells.next_cell, cells.edge_neighbors, cells.to_face_ij, token_of,
        lambda cell: cells.parent(cell, 3), lambda cell: cells.child(cell, 2), lambda cell: cells.border(cell, 9), lambda cell: cells.common_level(cell, cells.parent(cell, 4)),
        lambda cell: cells.from_face_ij(*(lambda square: (square.face, square.i, square.j, square.level))(cells.to_face_ij(cell))),
        lambda cell: unions.normalise([cell, cells.next_cell(cell)]), lambda cell: unions.union(cell, [FACES[0]]), lambda cell: unions.leaf_count(cell),
        lambda cell: unions.intersection(array("Q", FACES), cell), lambda cell: unions.difference(cells.parent(cell, 2), [cell]),
        lambda cell: unions.contains(FACES, cell), lambda cell: unions.intersects([cell], FACES[3]), lambda cell: unions.from_leaves(cells.range_min(cell), LEAF_END),
    ]
    given = [cells.child(cells.child(cells.edge_neighbors(cells.parent(number << 50 | 1, 5))[number % 4], 1), 3) for number in range(7, 3000, 131)]
    wanted = {cell: [call(cell) for call in calls] for cell in given}

    def work(place, step):
        cell = given[(step + 3 * place) % len(given)]
        yield f"calls about {token_of(cell)}", [call(cell) for call in calls], wanted[cell]

    count.expect("cells and unions", in_threads(work)[0], [])


def check_threads(count):
    """All checks of this file, with the calls that this Python makes, and with those that a Python without a GIL makes."""
    check_cells(count)
    check_iterators(count)
    has_gil = library.has_gil
    for name, answer in {"as it is": has_gil, "in turn": lambda: False}.items():
        library.has_gil = answer
        try:
            for check in (check_edits, check_garbage, check_signals, check_close):
                check(count, name)
        finally:
            library.has_gil = has_gil
