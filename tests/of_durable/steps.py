"""Steps of the Python package that are cut off at each of their lines, or within which another is tried; and the end of the program.
tests/durable runs this."""
import contextlib
import gc
import os
import random
import shutil
import signal
import sqlite3
import subprocess
import sys
import tempfile

import s2ix
from of_durable.tools import FACE, FIRST, SECOND, outcome_of
from of_python import timers
from s2ix import Durable, Index

PACKAGE = os.path.dirname(os.path.realpath(s2ix.__file__))
TWICE, STORMS, STRIKES, ENDS, FEW = 200, 6, 12, 12, 7
# How a step may end in a storm of interrupts.
SAID = "nothing", "KeyboardInterrupt", "NotKept", "Closed", "NotHeld"
JOURNAL = "s2ix-journal 2\nchange 1\n04 20 0 1\nchange 1\n04 21 0 1\nend 2\n"


def shown(index):
    """All that an index shows: its pairs, its changes with their notes, and how many can be redone."""
    return index.dump(), index.journal(), [(each.note, each.kind, each.is_undone) for each in index.log()], index.undone_count()


def in_file(path):
    """What a file shows to who reads it alone, or the name of what that raises."""
    try:
        with Durable(path, read_only=True) as index:
            return shown(index)
    except Exception as raised:  # noqa: BLE001
        return type(raised).__name__


def is_open(index):
    return repr(index) == "<s2ix.Durable, open>"


def in_group(index):
    with index.group(note="group"):
        index.add(FIRST, 7)
        index.undo()
        index.redo()
        index.add(SECOND, 7)


def in_groups(index):
    with index.group():
        index.add(FIRST, 7)
        with contextlib.suppress(KeyError), index.group():
            index.add(SECOND, 7)
            raise KeyError
        with index.group():
            index.add(SECOND, 8)
            index.add(SECOND, 9)


def in_transaction(index):
    with index.transaction(note="mine") as connection:
        connection.execute("CREATE TABLE mine (a)")
        index.add(FIRST, 7)
        connection.execute("INSERT INTO mine VALUES (7)")
        index.add(SECOND, 7)


def in_group_that_fails(index):
    with contextlib.suppress(KeyError), index.group():
        index.add(FIRST, 7)
        raise KeyError


# Each kind of step. Those of the second list are refused by the file, which another process has locked.
CALLS = {
    "add": lambda index: index.add(FIRST, 7, note="new"),
    "remove of what isn't held": lambda index: index.remove(FIRST, 7),
    "apply": lambda index: index.apply(JOURNAL),
    "set_label": lambda index: index.set_label(1, [FIRST, SECOND]),
    "revert": lambda index: index.revert(id=2),
    "undo": lambda index: index.undo(),
    "redo": lambda index: index.redo(),
    "line": lambda index: index.line("add 04 7"),
    "join": lambda index: index.join(3, note="one"),
    "join to none": lambda index: index.join(2),
    "forget": lambda index: index.forget(),
    "forget_older": lambda index: index.forget_older(1),
    "clear": lambda index: index.clear(),
    "compact": lambda index: index.compact(),
    "compact before": lambda index: index.compact(before=4),
    "restore": lambda index: index.restore(3, before=4),
    "what changes nothing": lambda index: index.set_label(1, [FACE], same_ok=True, note="same"),
    "log": lambda index: len(index.log()),
    "log of a label": lambda index: len(index.log(label=3, newest_first=True, most=2)),
    "as_of": lambda index: len(index.as_of(3)),
    "a transaction": in_transaction,
    "refresh": lambda index: index.refresh(),
    "a group": in_group,
    "groups": in_groups,
    "a group that fails": in_group_that_fails,
}
LOCKED = ["add", "undo", "redo", "join", "forget", "a group", "a transaction"]


class Case:
    """A kind of step from a file on: what is shown before it and after it."""

    def __init__(self, folder, name, is_locked):
        self.path, self.made, self.is_locked = f"{folder}/case.db", f"{folder}/made.db", is_locked
        self.name, self.call = f"{name}{' on a locked file' if is_locked else ''}", CALLS[name]
        if not os.path.exists(self.made):
            with Durable(self.made, synchronous="NORMAL") as index:
                index.add(FACE, 1, note="stays")
                index.add(FACE, 2, 2)
                index.add_all([(FIRST, 3, 1), (SECOND, 3, 1)], note="comes and goes")
                index.revert(3)
                index.add(FACE, 4)
                index.add(FACE, 5)
                index.undo()
                index.undo()
        with self.opened() as index:
            self.states = [shown(index)]
            outcome_of(self.call, index)
            self.states.append(shown(index))
        if name == "compact before":
            # (it forgets by a step of its own)
            with self.opened() as index:
                index.forget_older(1)
                self.states.append(shown(index))

    @contextlib.contextmanager
    def opened(self):
        """The index as it is before the step."""
        for end in ("-wal", "-shm"):
            with contextlib.suppress(FileNotFoundError):
                os.unlink(self.path + end)
        shutil.copy(self.made, self.path)
        other = None
        with Durable(self.path, synchronous="NORMAL", timeout=0) as index:
            if self.is_locked:
                other = sqlite3.connect(self.path, isolation_level=None)
                other.execute("BEGIN IMMEDIATE")
            try:
                yield index
            finally:
                if other is not None:
                    other.close()

    def traced(self, index, at, work):
        """Makes the step, and does some work before each line of the package that has a number in a set, counted as they come. Returns
        whether that was before some line."""
        number, came = 0, False

        def trace(frame, event, _):
            nonlocal number, came
            if not frame.f_code.co_filename.startswith(PACKAGE):
                return None
            if event == "line":
                number += 1
                if number - 1 in at:
                    came = True
                    sys.settrace(trace)
                    work()
            return trace

        sys.settrace(trace)
        try:
            outcome_of(self.call, index)
        except KeyboardInterrupt:
            pass
        finally:
            sys.settrace(None)
        return came

    def fault(self, index, states):
        """What is wrong after the step, if something is: memory and file are as some state says, and the next step is in the file."""
        if not is_open(index):
            return "" if in_file(self.path) in states else f"the file has {in_file(self.path)}"
        found = shown(index), in_file(self.path)
        if found[0] != found[1] or found[0] not in states:
            return f"memory and file have {found}"
        if self.is_locked:
            return ""
        last = outcome_of(index.add, FACE, 30), outcome_of(index.undo), outcome_of(index.redo)
        found = shown(index), in_file(self.path)
        return "" if last == (1, 1, 1) and found[0] == found[1] else f"after the next steps, {last}, memory and file have {found}"


def interrupt():
    raise KeyboardInterrupt


def cases(folder):
    for name in CALLS:
        yield Case(folder, name, False)
    for name in LOCKED:
        yield Case(folder, name, True)


def check_interrupts(count, folder):
    """An interrupt comes before each line of each kind of step. Returns how many came."""
    came = 0
    for case in cases(folder):
        faults, number = [], 0
        while len(faults) < 3:
            with case.opened() as index:
                if not case.traced(index, {number}, interrupt):
                    break
                fault = case.fault(index, case.states)
                faults += [f"line {number}: {fault}"] if fault else []
            number += 1
        count.expect(f"interrupts of {case.name}", (faults, number > 2), ([], True))
        came += number
    return came


def check_two(count, folder):
    """Two interrupts come, the second one mostly into the repair after the first. The next step sees memory as the file is, or Closed."""
    chance, every = random.Random(3), list(cases(folder))
    for _ in range(TWICE):
        case = chance.choice(every)
        at = chance.randrange(120)
        with case.opened() as index:
            case.traced(index, {at, at + 1 + chance.randrange(60)}, interrupt)
            outcome_of(index.refresh)
            count.expect(f"two interrupts of {case.name} from line {at} on", case.fault(index, case.states), "")


def check_storms(count, folder):
    """Many interrupts come one soon after the other. The step ends with one of them, or with a refusal; then memory is as the file is, or the
    index is closed."""
    wrong, left, chance = [], [0], random.Random(21)

    def strike(_, frame):
        # (not in this file, which would not end)
        if left[0] and frame.f_code.co_filename.startswith(PACKAGE):
            left[0] -= 1
            raise KeyboardInterrupt

    before = signal.signal(signal.SIGALRM, strike)
    try:
        for case in cases(folder):
            for _ in range(STORMS):
                with case.opened() as index:
                    said = storm(case, index, left, chance.random() * 1e-3)
                    outcome_of(index.refresh)
                    fault = case.fault(index, case.states)
                wrong += [f"{case.name}: {said} {fault}"] if fault or said not in SAID else []
    finally:
        signal.setitimer(signal.ITIMER_REAL, 0)
        signal.signal(signal.SIGALRM, before)
    count.expect("storms of interrupts", (len(wrong), wrong[:5]), (0, []))


def storm(case, index, left, start):
    """Makes a step while interrupts come, and returns what it raised."""
    said, left[0] = "nothing", STRIKES
    try:
        signal.setitimer(signal.ITIMER_REAL, 1e-4 + start, 5e-5)
        case.call(index)
    except (KeyboardInterrupt, Exception) as raised:  # noqa: BLE001
        said = type(raised).__name__
    left[0] = 0
    signal.setitimer(signal.ITIMER_REAL, 0)
    return said


def check_closes(count, folder):
    """An interrupt comes before each line of `close`. The next `close` does what is left: SQLite deletes the log when the file is closed."""
    case = Case(folder, "log", False)
    case.call, number, came = Durable.close, 0, True
    while came:
        with case.opened() as index:
            came = case.traced(index, {number}, interrupt)
        found = os.path.exists(f"{case.path}-wal"), in_file(case.path)
        count.expect(f"a close from line {number} on", found, (False, case.states[0]))
        number += 1


def check_backups(count, folder):
    """An interrupt comes before each line of a backup. It leaves nothing, or a whole copy."""
    case = Case(folder, "log", False)
    case.call, number, came = lambda index: index.backup(f"{folder}/copy.db"), 0, True
    while came:
        with case.opened() as index:
            came = case.traced(index, {number}, interrupt)
            left = [name for name in os.listdir(folder) if name.startswith(".copy.db")]
            found = in_file(f"{folder}/copy.db") if os.path.exists(f"{folder}/copy.db") else case.states[0]
            count.expect(f"a backup from line {number} on", (left, found, case.fault(index, case.states)), ([], case.states[0], ""))
        for name in os.listdir(folder):
            if name.startswith("copy.db"):
                os.unlink(f"{folder}/{name}")
        number += 1


def check_refreshes(count, folder):
    """An interrupt comes before each line of a refresh that has news."""
    case = Case(folder, "refresh", False)
    for call in (lambda index: index.join(2), lambda index: index.forget()):
        number, came = 0, True
        while came:
            with case.opened() as index:
                with Durable(case.path, synchronous="NORMAL") as other:
                    call(other)
                came = case.traced(index, {number}, interrupt)
                if is_open(index):
                    outcome_of(index.refresh)
                count.expect(f"a refresh from line {number} on", case.fault(index, [in_file(case.path)]), "")
            number += 1


def check_handlers(count, folder):
    """A handler tries a step within each kind of step, before each of its lines: it does it, or raises RuntimeError."""
    tries = {
        "add": lambda index: index.add(SECOND, 77), "undo": lambda index: index.undo(), "refresh": lambda index: index.refresh(),
        "close": lambda index: index.close(), "log": lambda index: len(index.log()), "a group": in_group,
    }
    refused = dict.fromkeys(tries, 0)
    for place, case in enumerate(cases(folder)):
        for name in tries if place == 0 else ["add"]:
            # (each line of the first case, and some of the others)
            faults, number, by = [], place % FEW, 1 if place == 0 else FEW
            while len(faults) < 3:
                answers = []
                with case.opened() as index:
                    if not case.traced(index, {number}, lambda: answers.append(outcome_of(tries[name], index))):
                        break
                    refused[name] += answers == ["RuntimeError"]
                    found = (shown(index) if is_open(index) else in_file(case.path)), in_file(case.path)
                    if found[0] != found[1] or answers == ["RuntimeError"] and found[0] != case.states[1]:
                        faults.append(f"line {number}, {answers}: {found}")
                number += by
            count.expect(f"{name} in a handler within {case.name}", faults, [])
    count.expect("what handlers may not do", [name for name, many in refused.items() if not many], [])
    check_raised(count, Case(folder, "add", False))


def check_raised(count, case):
    """What a handler raises ends the step, and what a finalizer raises doesn't."""
    class Dropped:
        """An object whose finalizer makes a step."""

        def __init__(self, index):
            self.index = index

        def __del__(self):
            self.index.add(SECOND, 77)

    raised, before = [], sys.unraisablehook
    sys.unraisablehook = lambda each: raised.append(each.exc_type)
    try:
        for number in range(40, 120, 8):
            with case.opened() as index:
                case.traced(index, {number}, lambda: index.add(SECOND, 77))
                count.expect(f"what a handler raised at line {number}", case.fault(index, case.states), "")
            with case.opened() as index:
                box = [Dropped(index)]
                case.traced(index, {number}, box.clear)
                count.expect(f"a finalizer at line {number}", (case.fault(index, case.states[1:]), raised.pop()), ("", RuntimeError))
    finally:
        sys.unraisablehook = before


# Daemon threads ask while the program ends.
ENDS_WORDS = """
import random, sys, threading, time
from array import array
from s2ix import Index
index = Index()
index.add_all([((2 * place + 1) << 40, place % 7, 1) for place in range(20_000)])
leaves = array("Q", [place << 40 | 1 for place in range(1, 400_001, 2)])
def work():
    while True:
        index.labels_at_each(leaves, threads=4)
for _ in range(2):
    threading.Thread(target=work, daemon=True).start()
time.sleep(random.random() * 0.15)
"""
# What the program does at its end before it is gone: a thread that has begun ends, and no other begins.
LAST_WORDS = """
import atexit, os, threading
from array import array
def ask():
    import _thread
    _thread.start_new_thread = None
    print(index.at_each(array("Q", range(1, 40_001, 2)), threads=4)[0][-1], flush=True)
atexit.register(ask)
from s2ix import Index
from s2ix.beside import side_by_side
index, begun, told = Index(), threading.Event(), threading.Event()
index.add("1", 3)
def work(number):
    begun.set()
    os.write(1, b"told to end\\n" if told.wait(20) else b"left alone\\n")
def wait():
    try:
        side_by_side(work, [(1,), (2,)], told.set)
        print("all is found", flush=True)
    except SystemExit:
        pass
threading.Thread(target=wait, daemon=True).start()
begun.wait()
"""
# A forked child ends though a thread of its parent runs.
FORK_WORDS = """
import os, sys, threading, time
from s2ix.beside import side_by_side
begun = threading.Event()
threading.Thread(target=side_by_side, args=(lambda: begun.set() or time.sleep(1), [(), ()], print), daemon=True).start()
begun.wait()
child = os.fork()
if not child:
    sys.exit(7)
print(os.waitstatus_to_exitcode(os.waitpid(child, 0)[1]), flush=True)
os._exit(0)
"""


def check_end(count):
    """The program ends while threads ask, and while their indexes are open."""
    around = {**os.environ, "PYTHONPATH": os.path.dirname(PACKAGE), "PYTHONDONTWRITEBYTECODE": "1"}

    def begin(words):
        return subprocess.Popen([sys.executable, "-c", words], env=around, stdout=subprocess.PIPE, stderr=subprocess.PIPE, text=True)

    for _ in range(ENDS // 3):
        for ran in [begin(ENDS_WORDS) for _ in range(3)]:
            found = ran.communicate(timeout=60)
            count.expect("an end while threads ask", (ran.returncode, *found), (0, "", ""))
    ran = begin(LAST_WORDS)
    wanted = ("told to end\ntold to end\n20000\n", ""), 0
    count.expect("an end in order", (ran.communicate(timeout=60), ran.returncode), wanted)
    if sys.version_info < (3, 12):
        ran = begin(FORK_WORDS)
        count.expect("the end of a child", (ran.communicate(timeout=60), ran.returncode), (("7\n", ""), 0))


def check_dropped(count):
    """A store is freed when its index is dropped, by no line of Python, before which an interrupt might come."""
    called = []
    for is_cycle in (False, True):
        index = Index()
        index.add(FACE, 1)
        handle, box = index._handle, [index]
        if is_cycle:
            box.append(box)
        del index
        gc.collect()
        sys.setprofile(lambda frame, event, _: called.append(frame.f_code.co_name) if event == "call" else None)
        if is_cycle:
            del box
            gc.collect()
        else:
            box.clear()
        sys.setprofile(None)
        count.expect("what an index that is dropped calls", (called, handle.is_open), ([], False))


def check_all(count):
    """All checks of this file. Their files lie in memory if they can, since each step is made some thousand times."""
    check_dropped(count)
    check_end(count)
    with tempfile.TemporaryDirectory(dir="/dev/shm" if os.path.isdir("/dev/shm") else None) as folder:
        sys.unraisablehook = timers.but_for(KeyboardInterrupt)
        for check in (check_interrupts, check_two, check_storms, check_closes, check_backups, check_refreshes, check_handlers):
            check(count, folder)
        sys.unraisablehook = sys.__unraisablehook__
