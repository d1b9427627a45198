"""Many leaves and targets at once by the Python package, beside single calls: answers, forms and refusals; how often the library is asked;
threads that run meanwhile, and interrupts. tests/python_client and tests/python_frames run this."""
import ctypes
import faulthandler
import random
import signal
import struct
import sys
import threading
import time
import types
from array import array

from models import plain_cells as plain
from of_python import timers
from s2ix import Closed, Index, NoCell, NoSpan, S2ixError, batches, beside, library, token_of

FIRST, SECOND, FACE, LEAF, OTHER = 0x0400000000000000, 0x0C00000000000000, 0x1000000000000000, 0x0400000000000001, 0xBFFFFFFFFFFFFFFF
ROUNDS, LONG, INTERRUPTS = 40, 1_000_000, 20
# How many seconds a check with interrupts may take, on a machine that has much else to do.
PATIENCE = 600
# How many labels a cell has, so that its rows want more room than there is at first.
MANY = 3000
# (so that threads share few leaves and targets too)
SHARES = {kind: kind.share for kind in (batches._Leaves, batches._Targets)}
for kind in SHARES:
    kind.share = 1


def outcome_of(call, *given, **named):
    """What a call answers, or the class, the value, the place and the words of what it raises."""
    try:
        return call(*given, **named)
    except S2ixError as refusal:
        return type(refusal), refusal.value, refusal.place, str(refusal)
    except Exception as raised:  # noqa: BLE001
        return type(raised)


def listed(answer):
    """An answer as lists, with rows as tuples."""
    ends, found = answer
    packed = memoryview(found)
    # (in Python 3.9 the items of an empty array of ctypes have 0 bytes)
    return ends.tolist(), list(struct.iter_unpack("=QII", bytes(packed))) if packed.itemsize in (16, 0) else packed.tolist()


def wanted(lists):
    """The answer that is made of lists."""
    ends, found = [], []
    for each in lists:
        found += each
        ends.append(len(found))
    return ends, found


def some_cell(chance):
    return plain.parent_at(chance.choice([chance.randrange(6 << 61), FACE + chance.randrange(99)]) | 1, chance.randrange(31))


def some_index(chance, many):
    index = Index()
    for _ in range(many):
        index.add(some_cell(chance), chance.randrange(5), chance.randrange(1, 4))
    return index


def columns_of(targets):
    """The cells of all targets in one row, and their bounds."""
    cells, bounds = array("Q"), array("Q", [0])
    for target in targets:
        cells.extend(target)
        bounds.append(len(cells))
    return cells, bounds


def check_each(count):
    for check in (check_targets, check_long_targets, check_target_forms, check_leaf_forms, check_wrong_targets, check_calls, check_stops, check_shares, check_given):
        check(count)


def check_targets(count):
    """Random targets by any number of threads, as lists and as columns, beside single calls."""
    chance = random.Random(9)
    for number in range(ROUNDS):
        index = some_index(chance, chance.randrange(60))
        targets = [[some_cell(chance) for _ in range(chance.randrange(4))] for _ in range(chance.choice([0, 1, 2, 5, 100]))]
        cells, bounds = columns_of(targets)
        rows, labels = wanted(list(map(index.meet, targets))), wanted(list(map(index.labels, targets)))
        for threads in (1, 2, 3, 200):
            name = f"targets {number} by {threads} threads"
            count.expect(f"rows of {name}", (listed(index.meet_each(targets, threads)), listed(index.meet_each(cells, threads, bounds=bounds))), (rows, rows))
            count.expect(f"labels of {name}", (listed(index.labels_each(targets, threads)), listed(index.labels_each(cells, threads, bounds=bounds))), (labels, labels))


def check_long_targets(count):
    """Targets with so many pairs that they want more room, among others with few or none, and after targets without a cell."""
    with Index() as index:
        index.add_all([*((FIRST, label, 1) for label in range(MANY)), (FACE, 9000, 2)])
        for targets in ([[FIRST]], [[SECOND]] * 1000, [[], [FIRST], [OTHER], [FIRST, SECOND]] * 3, [[]] * 300 + [[SECOND]] * 300 + [[FIRST]] * 30 + [[SECOND], []]):
            cells, bounds = columns_of(targets)
            rows, labels = wanted(list(map(index.meet, targets))), wanted(list(map(index.labels, targets)))
            for threads in (1, 3):
                count.expect("long rows", listed(index.meet_each(targets, threads)) == listed(index.meet_each(cells, threads, bounds=bounds)) == rows, True)
                count.expect("long labels", listed(index.labels_each(targets, threads)) == listed(index.labels_each(cells, threads, bounds=bounds)) == labels, True)


def check_target_forms(count):
    """Targets and bounds in each form, and what is none."""
    with Index() as index:
        index.add_all([(FIRST, 9, 1), (FACE, 3, 1), (OTHER, 7, 1)])
        words, answer = array("Q", [SECOND, FIRST, OTHER]), ([2, 2, 3, 4], [3, 9, 3, 7])
        for place, targets in enumerate([
            [[SECOND, FIRST], [], [SECOND], [OTHER]], [("0c", FIRST), [], "0c", OTHER], [words[:2], array("Q"), memoryview(words)[:1], token_of(OTHER)],
            (each for each in ([FIRST], [], SECOND, [OTHER])), [array("q", [FIRST]), array("q"), array("q", [SECOND]), memoryview(array("q", [OTHER - (1 << 64)]))], iter([{FIRST, SECOND}, (), iter([SECOND]), memoryview(words).toreadonly()[2:]]),
        ]):
            count.expect(f"form {place} of targets", listed(index.labels_each(targets)), answer)
        signed = array("q", [cell - (1 << 64) if cell >> 63 else cell for cell in words])
        apart = memoryview(array("Q", [each for cell in words for each in (cell, 0)]))[::2]
        odd = memoryview(b"odd" + words.tobytes())[3:].cast("Q")
        cells = [words, signed, memoryview(words), memoryview(words).toreadonly(), memoryview(words.tobytes()).cast("Q"), apart, odd]
        for place, each in enumerate(cells):
            count.expect(f"form {place} of cells", listed(index.labels_each(each)), ([1, 3, 4], [3, 3, 9, 7]))
        count.expect("a list of cells", listed(index.labels_each(["0c", FIRST, OTHER])), ([1, 3, 4], [3, 3, 9, 7]))
        row, bounds = ["0c", FIRST, "0c", OTHER, FACE], [0, 2, 2, 3, 4]
        for place, each in enumerate([bounds, tuple(bounds), iter(bounds), array("Q", bounds), array("q", bounds), memoryview(array("L", bounds)), range(0, 5, 2)]):
            found = listed(index.labels_each(row, bounds=each))
            count.expect(f"form {place} of bounds", found, answer if place < 6 else ([2, 4], [3, 9, 3, 7]))
        for each, found in (((3, 4), ([1], [7])), ((2, 2, 3, 4), ([0, 1, 2], [3, 7])), ((0,), ([], [])), ((9,), ([], []))):
            count.expect(f"bounds {each}", listed(index.labels_each(row, 2, bounds=each)), found)
        for none in ([], (), array("Q"), iter(())):
            count.expect("no targets", [len(each) for each in (*index.meet_each(none), *index.labels_each(none, 3), *index.labels_each(words, bounds=none))], [0] * 6)
        for wrong in (None, 7, True, 1.5, "04", b"04", bytearray(8), [None], [1.5], [[None]], [b"04"], [["04", None]], array("I", [1]), array("d", [1.0]), memoryview(bytes(16)).cast("Q", (1, 2))):
            count.expect(f"no targets: {wrong!r}", outcome_of(index.meet_each, wrong), TypeError)
        for wrong in (7, 1.5, "12", b"12", [1.5], ["1"], [None], array("I", [1]), array("d", [1.0])):
            count.expect(f"no bounds: {wrong!r}", outcome_of(index.meet_each, words, bounds=wrong), TypeError)
        count.expect("targets beside bounds", outcome_of(index.meet_each, [["04"]], bounds=[1]), TypeError)
        for threads, kind in ((0, ValueError), (-1, ValueError), (1.5, TypeError), ("2", TypeError)):
            count.expect(f"{threads} threads", outcome_of(index.meet_each, [FIRST], threads), kind)
    closed = [outcome_of(call, [])[0] for call in (index.meet_each, index.labels_each, index.at_each, index.labels_at_each)]
    count.expect("a closed index", closed, [Closed] * 4)


def check_leaf_forms(count):
    """Leaves in memory that can't be written, or that lies at no multiple of 8."""
    with Index() as index:
        index.add_all([(FIRST, 9, 1), (FACE, 3, 1)])
        leaves = array("Q", [LEAF, OTHER, FACE + 1])
        for offset in range(9):
            given = memoryview(bytes(offset) + leaves.tobytes())[offset:].cast("Q")
            writable = memoryview(bytearray(offset) + leaves.tobytes())[offset:].cast("Q")
            for each in (given, writable):
                count.expect(f"leaves at {offset}", listed(index.labels_at_each(each)), ([2, 2, 3], [9, 3, 3]))
        for threads in (1, 3):
            ends, _ = index.at_each(leaves, threads)
            outcome_of(index.at_each, [*leaves, 2], threads)
            leaves.append(LEAF)
            # (an array of NumPy has no append)
            count.expect(f"arrays that grow afterwards, {threads} threads", outcome_of(getattr(ends, "append", [].append), 9), None)


def check_wrong_targets(count):
    """What is refused has the place of the first target, whichever thread finds it, and a value."""
    wrong, spelled = "0x2 is no number of a cell", "'x' is no token of 1 to 16 hexadecimal digits"
    with Index() as index:
        index.add_all([(FIRST, label, 1) for label in range(MANY)])
        targets = [[FIRST], [], [FACE, SECOND, 2, 0], [0]] * 2
        cells, bounds = columns_of(targets)
        for call in (index.meet_each, index.labels_each):
            for threads in (1, 2, 8):
                refused = (NoCell, 2, 2, f"target 2: place 2: {wrong}")
                count.expect(f"a wrong number, {threads} threads", (outcome_of(call, targets, threads), outcome_of(call, cells, threads, bounds=bounds)), (refused, refused))
                later = [[FIRST]] * 9 + targets[2:3]
                count.expect("a wrong number after long rows", outcome_of(call, later, threads)[:3], (NoCell, 2, 9))
                for given, place in (([0, 3, 2], 1), ([0, 1, 1, 99, 2, 99], 2), ([0, -1, 0], 0), ([1, 1 << 65, 1], 0), ([0, 4, 3, 4, 2], 1), ([0, 1 << 64], 0), ([3, 2, 4], 0), ([-1, 5], 0), ([6, 6], 0)):
                    found, value = outcome_of(call, [FIRST] * 5, threads, bounds=given), given[place + 1]
                    count.expect(f"bounds {given}, {threads} threads", found[:3], (NoSpan, value if 0 <= value < 1 << 64 else (1 << 64) - 1, place))
                count.expect("words of a bound", outcome_of(call, [FIRST] * 5, threads, bounds=[0, 3, 2])[3], "target 1: its cells end at 2, which is not from 3 to 5")
            count.expect("a wrong token", outcome_of(call, [["04"], ["04", "x"], [2]]), (NoCell, "x", 1, f"target 1: place 1: {spelled}"))
            count.expect("one wrong token", outcome_of(call, ["04", "x"]), (NoCell, "x", 1, f"target 1: place 0: {spelled}"))
            count.expect("a number too great", outcome_of(call, [["04"], [1 << 64]])[:3], (NoCell, 1 << 64, 1))
            count.expect("a wrong cell of a row", outcome_of(call, array("Q", [FIRST, 2])), (NoCell, 2, 1, f"target 1: place 0: {wrong}"))
        many = array("Q", [LEAF] * 1000)
        for place, threads in ((0, 1), (10, 4), (999, 4), (499, 2), (500, 2)):
            leaves = many[:]
            leaves[place], leaves[999] = 2, 2
            count.expect(f"a wrong leaf at {place}, {threads} threads", outcome_of(index.at_each, leaves, threads), (NoCell, 2, place, f"place {place}: 0x2 is no number of a leaf"))
        count.expect("the index afterwards", (len(index), index.labels(SECOND)), (MANY, []))


class Around:
    """The long calls of the library, with something around each."""

    def __init__(self, around):
        self.calls, self.around = library.load_unlocked(), around

    def __getattr__(self, name):
        call = getattr(self.calls, name)
        return lambda *given: self.around(call, *given)


class calls_by:
    """Makes the long calls by a function in a `with`."""

    def __init__(self, around):
        self.kept, self.stand = library.load_unlocked, Around(around)

    def __enter__(self):
        library.load_unlocked = lambda: self.stand

    def __exit__(self, *_):
        library.load_unlocked = self.kept


def calls_of(call, *given):
    """How often a call asks the library."""
    asked = []
    with calls_by(lambda made, *each: asked.append(made) or made(*each)):
        call(*given)
    return len(asked)


def check_calls(count):
    """The library is asked once by each thread, if there is room for all answers, and as often as its room is full."""
    with Index() as index:
        index.add_all([*((FACE, label, 1) for label in range(4)), *((FIRST, label, 1) for label in range(9, 105))])
        index.add_all([(OTHER, label, 1) for label in range(MANY)])
        few, many, step = [FACE + 1] * 1000, [LEAF] * 1000, batches._STEP
        for call in (index.at_each, index.labels_at_each, index.meet_each, index.labels_each):
            count.expect(f"how often {call.__name__} asks", [calls_of(call, few), calls_of(call, few, 4), calls_of(call, few[:7], 9), calls_of(call, [])], [1, 4, 7, 0])
            count.expect(f"{call.__name__} with 100,000 answers", (calls_of(call, many), calls_of(call, many[:2])), (2, 1))
            count.expect(f"{call.__name__} with many of one", calls_of(call, [OTHER]), 3)
            mixed = [LEAF, FACE + 1, OTHER, LEAF - 2] * 25
            whole = listed(call(mixed))
            batches._STEP = 7
            try:
                count.expect(f"{call.__name__} by sevens", [listed(call(mixed, threads)) == whole for threads in (1, 3)], [True] * 2)
                count.expect(f"how often {call.__name__} asks by sevens", calls_of(call, few[:100]), 15)
                batches._STEP = 1
                asked = []
                with calls_by(lambda made, *each: asked.append(time.sleep(0.001)) or made(*each)):
                    refused = outcome_of(call, [2, *few], 2)
                count.expect(f"{call.__name__} leaves what follows a refusal", (refused[:3], len(asked) < 400), ((NoCell, 2, 0), True))
            finally:
                batches._STEP = step


def check_stops(count):
    """An interrupt while threads begin, just before or just after one has, ends the work of all, and none is left at work."""
    kept, step = beside._thread, batches._STEP
    with Index() as index:
        index.add(FACE, 9)
        for has_begun in (False, True):
            asked = []

            def begin(run, given, has_begun=has_begun):
                if has_begun or given == (0,):
                    kept.start_new_thread(run, given)
                if given != (0,):
                    raise KeyboardInterrupt

            batches._STEP, beside._thread = 1, types.SimpleNamespace(allocate_lock=kept.allocate_lock, start_new_thread=begin)
            try:
                with calls_by(lambda made, *each, asked=asked: asked.append(time.sleep(0.001)) or made(*each)):
                    raised = type(index.labels_at_each([FACE + 1] * 2000, 2))
            except BaseException as refusal:  # noqa: BLE001
                raised = type(refusal)
            finally:
                batches._STEP, beside._thread = step, kept
            many = len(asked)
            time.sleep(0.05)
            count.expect(f"an interrupt when a thread has begun: {has_begun}", (raised, many < 900, len(asked) - many), (KeyboardInterrupt, True, 0))


def check_shares(count):
    """Few leaves or targets are not worth many threads."""
    for kind, share in SHARES.items():
        kind.share = share
    try:
        with Index() as index:
            index.add(FACE, 9)
            leaves, targets = array("Q", [FACE + 1]) * 10_000, [FACE] * 200
            for threads, wanted in ((1, (1, 1)), (2, (2, 2)), (100_000, (3, 4))):
                asked = calls_of(index.labels_at_each, leaves, threads), calls_of(index.labels_each, targets, threads)
                count.expect(f"threads in place of {threads}", asked, wanted)
            count.expect("an answer by few threads", listed(index.labels_at_each(leaves, 100_000)), ([*range(1, 10_001)], [9] * 10_000))
    finally:
        for kind in SHARES:
            kind.share = 1


def check_given(count):
    """What the library is given: memory as it lies, at a multiple of 8, and no cells beyond the last."""
    given = []
    with Index() as index, calls_by(lambda made, *each: given.append(each) or made(*each)):
        leaves, bounds = array("Q", [LEAF, OTHER, LEAF]), array("Q", [0, 1, 1, 3])
        for each in (leaves, memoryview(leaves), array("q", [LEAF] * 3), memoryview(leaves)[1:]):
            index.at_each(each)
            index.meet_each(each)
            start = ctypes.addressof(ctypes.c_char.from_buffer(each))
            count.expect("where the leaves lie, and the cells", [one[1] for one in given[-2:]], [start] * 2)
        index.meet_each(leaves, bounds=bounds)
        count.expect("where cells and bounds lie", given[-1][1:5], (leaves.buffer_info()[0], 3, bounds.buffer_info()[0], 4))
        given.clear()
        index.meet_each(leaves, 3, bounds=bounds)
        lies = {(leaves.buffer_info()[0], 3, bounds.buffer_info()[0] + 8 * place, 2) for place in range(3)}
        count.expect("where they lie for each thread", {one[1:5] for one in given}, lies)
        odd = memoryview(bytearray(b"odd") + leaves.tobytes())[3:].cast("Q")
        index.at_each(odd)
        index.meet_each(odd, bounds=odd[:0])
        index.meet_each([[LEAF]] * 5, 3)
        count.expect("at multiples of 8", {address % 8 for one in given for address in (one[0], one[1], one[-5], one[-3], one[-1])}, {0})
        first = leaves.buffer_info()[0]
        for wrong in ([0, 1, 9, 2, 3], [0, 9, 1, 9, 1], [0, 1, 2, 3, 4], [9, 9, 9, 9, 9]):
            given.clear()
            refused = outcome_of(index.meet_each, leaves, 4, bounds=wrong)[0]
            count.expect(f"cells for bounds {wrong}", (refused, {one[1] + 8 * one[2] for one in given}, all(0 <= one[2] <= 3 for one in given)), (NoSpan, {first + 24}, True))


def check_meanwhile(count):
    """Other threads run while a call works, on another thread and on this one; and the answers are those of one thread."""
    with Index() as index:
        index.add_all([(FIRST, 9, 1), (FACE, 3, 1)])
        leaves, stamps, over, spans = array("Q", [LEAF, OTHER]) * (LONG // 2), [], threading.Event(), []

        def step():
            while not over.wait(0.001):
                stamps.append(time.monotonic())

        def timed(call, *given):
            start = time.monotonic()
            status = call(*given)
            spans.append((start, time.monotonic()))
            return status

        stepper, interval = threading.Thread(target=step, daemon=True), sys.getswitchinterval()
        stepper.start()
        # (no thread that runs has to let another one run)
        sys.setswitchinterval(30)
        try:
            with calls_by(timed):
                found = {threads: index.labels_at_each(leaves, threads) for threads in (1, 4)}
        finally:
            over.set()
            sys.setswitchinterval(interval)
            stepper.join()
        steps = max(sum(start < stamp < end for stamp in stamps) for start, end in spans)
        count.expect("steps of another thread during a call", steps > 2, True)
        same = [memoryview(one).tobytes() == memoryview(four).tobytes() for one, four in zip(found[1], found[4])]
        count.expect("the answers of one thread and of four", (same, len(found[1][1])), ([True, True], LONG))


def check_interrupts(count):
    """An interrupt at any moment leaves the index as it was, and usable, and holds nothing of the caller's. No thread waits for ever."""
    with Index() as index:
        index.add_all([(FIRST, 9, 1), (FACE, 3, 1)])
        chance, outcomes, before = random.Random(3), [], signal.signal(signal.SIGALRM, signal.default_int_handler)
        faulthandler.dump_traceback_later(PATIENCE, exit=True)
        try:
            for many, times in ((LONG // 4, INTERRUPTS), (300, 20 * INTERRUPTS)):
                leaves = array("Q", [LEAF]) * many
                for number in range(times):
                    threads, start = 1 + 2 * (number % 2), time.monotonic()
                    answer = listed(index.labels_at_each(leaves, threads))
                    took = time.monotonic() - start
                    outcomes.append(interrupted(lambda threads=threads, leaves=leaves: index.labels_at_each(leaves, threads), chance.random() * took + 1e-5))
                    count.expect(f"interrupt {number} of {many} leaves", outcomes[-1] is None or listed(outcomes[-1]) == answer, True)
                    count.expect("the index afterwards", (index.add(SECOND, 1), index.labels(SECOND), index.undo()), (1, [1, 3], 1))
                    count.expect("an array that grows afterwards", outcome_of(leaves.append, LEAF), None)
        finally:
            faulthandler.cancel_dump_traceback_later()
            signal.signal(signal.SIGALRM, before)
        count.expect("calls that were interrupted", outcomes.count(None) > INTERRUPTS, True)


def interrupted(call, seconds):
    """What a call answers, or None if it is interrupted after some seconds."""
    try:
        signal.setitimer(signal.ITIMER_REAL, seconds)
        answer = call()
        timers.stop()
        return answer
    except KeyboardInterrupt:
        return None
