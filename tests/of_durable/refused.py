"""The calls of the log of s2ix.Durable where the file takes nothing: full disks, files that others hold, and interrupts. `tests/durable` runs it.

Each refused step leaves memory, log and file as they were; what only reads answers as before; and once there is room all is done."""
import os
import resource
import sqlite3

from of_durable.tools import FACE, FIRST, SECOND, child, in_file, outcome_of, rest_of, shown
from s2ix import Durable

MOST = 2000


def opened(path, changes=None, keep="all", timeout=5.0):
    """An index in a file with some steps, whose log has ten."""
    index = Durable(path, changes=changes, keep=keep, timeout=timeout)
    if not index.log(most=1):
        with index.transaction(note="shop") as connection:
            connection.execute("CREATE TABLE shop (label INTEGER)")
            index.add(FACE, 1)
        for label in range(2, 8):
            index.add_all([(FIRST, label, 1), (SECOND, label, 2)], who="ann")
        index.drop_label(3)
        index.add(FACE, 3)
        index.undo()
    return index


def lent(index):
    """A step with a row of a caller's own."""
    with index.transaction(note="row") as connection:
        connection.execute("INSERT INTO shop VALUES (1)")
        return index.add(FACE, 50)


def grouped(index):
    with index.group(note="both"):
        index.add(FACE, 60)
        return index.drop_label(7)


# What each call answers when there is room.
STEPS = (
    ("restore", lambda index: index.restore(3, before=5), 2), ("transaction", lent, 1), ("group", grouped, 2),
    ("a note", lambda index: index.drop_label(90, same_ok=True, note="gone"), 0), ("revert", lambda index: index.revert(id=2), 2),
    ("set_label", lambda index: index.set_label(2, ["04"]), 1), ("forget_older", lambda index: index.forget_older(3), None),
    ("compact before a step", lambda index: index.compact(before=5), None), ("compact", lambda index: index.compact(), None),
)


def state_of(index, path):
    """All that an index and its file show."""
    hand = sqlite3.connect(path, timeout=0)
    rows = hand.execute("SELECT count(*) FROM shop").fetchone()
    hand.close()
    return shown(index), index.log(), rows


def asked_of(index):
    """What only reads."""
    return [index.as_of(number).dump() for number in range(8, 11)], index.log(label=3), index.log(cell=FACE), index.entries(8)


def refused(index, path):
    """What the steps answer that the file refuses, and whether all is as it was."""
    kept, asked = (state_of(index, path), in_file(path)), asked_of(index)
    lines = []
    for name, call, _ in STEPS:
        answer = outcome_of(call, index)
        lines.append(f"{name} {answer} {(state_of(index, path), in_file(path)) == kept} {asked_of(index) == asked}")
    return lines


def done(path):
    """What the steps answer each on a file of its own that has room."""
    lines = []
    for place, (name, call, _) in enumerate(STEPS):
        with opened(f"{path}{place}") as index:
            lines.append(f"{name} {outcome_of(call, index)} {in_file(f'{path}{place}') == shown(index)}")
    return lines


WANTED = [f"{name} NotKept True True" for name, *_ in STEPS]
ANSWERED = [f"{name} {answer} True" for name, _, answer in STEPS]


def check_full(count, folder):
    """A disk is full: SQLite's log, to which all goes first, may not grow."""
    path, newest = f"{folder}/full.db", f"{folder}/newest.db"
    opened(path).close()
    opened(newest, changes=8, keep="newest").close()

    def fill(start):
        with opened(path) as index, opened(newest, changes=8, keep="newest") as other:
            for each in (index, other):
                each.add(FACE, 70)
            kept = shown(other), other.log()
            _, most = resource.getrlimit(resource.RLIMIT_FSIZE)
            resource.setrlimit(resource.RLIMIT_FSIZE, (4096, most))
            lines = refused(index, path)
            for label in range(10):
                lines.append(f"{outcome_of(other.add, FIRST, 100 + label)} {(shown(other), other.log()) == kept} {in_file(newest) == kept[0]}")
            resource.setrlimit(resource.RLIMIT_FSIZE, (most, most))
            lines += [f"{outcome_of(other.add, FIRST, 100 + label)} {in_file(newest) == shown(other)}" for label in range(10)]
            lines.append(f"{outcome_of(index.restore, 3, 5)} {in_file(path) == shown(index)} {other.log(newest_first=True, most=1)[0].kind}")
            os.write(start, "\n".join(lines).encode())

    with child(fill) as (_, end):
        lines = rest_of(end).decode().split("\n")
    many = len(STEPS)
    count.expect("steps on a full disk", lines[:many], WANTED)
    count.expect("an index that keeps the newest", lines[many : many + 10], ["NotKept True True"] * 10)
    count.expect("and with room", lines[many + 10 :], ["1 True"] * 10 + ["2 True add"])
    count.expect("each with room", done(f"{folder}/room"), ANSWERED)


def check_held(count, folder):
    """Another process holds the file."""
    path = f"{folder}/held.db"
    opened(path).close()
    with opened(path, timeout=0.01) as index:
        other = sqlite3.connect(path, isolation_level=None)
        other.execute("BEGIN IMMEDIATE")
        count.expect("steps on a file that another holds", refused(index, path), WANTED)
        other.execute("ROLLBACK")
        other.close()
        count.expect("once it is free", (lent(index), in_file(path) == shown(index)), (1, True))


def check_large(count, folder):
    """What a caller writes to its own table is more than SQLite keeps in memory, on a full disk: neither that nor the step is there."""
    path = f"{folder}/large.db"
    opened(path).close()

    def fill(start):
        with opened(path) as index:
            kept = state_of(index, path), in_file(path)
            _, most = resource.getrlimit(resource.RLIMIT_FSIZE)
            resource.setrlimit(resource.RLIMIT_FSIZE, (100_000, most))

            def write():
                with index.transaction() as connection:
                    connection.execute("PRAGMA table_info(shop)")
                    connection.executemany("INSERT INTO shop VALUES (?)", (("n" * 3000,) for _ in range(MOST)))
                    index.add(FACE, 50)

            answer = outcome_of(write)
            resource.setrlimit(resource.RLIMIT_FSIZE, (most, most))
            os.write(start, f"{answer} {(state_of(index, path), in_file(path)) == kept} {outcome_of(lent, index)}".encode())

    with child(fill) as (_, end):
        answer, *rest = rest_of(end).decode().split()
    count.expect("rows that are too many", (answer in ("NotKept", "OperationalError"), rest), (True, ["True", "1"]))


def check_all(count, folder):
    """All of them, in a folder of their own."""
    folder = f"{folder}/refused"
    os.mkdir(folder)
    for check in (check_full, check_held, check_large):
        check(count, folder)
