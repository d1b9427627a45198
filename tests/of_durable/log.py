"""The log of s2ix.Durable: who did what, what each step changed, any moment again, a label as it was, what is forgotten, and a caller's own
tables. `tests/durable` runs it."""
import contextlib
import faulthandler
import os
import random
import signal
import sqlite3
import threading
import time
from datetime import datetime, timedelta, timezone
from unittest import mock

from of_durable.tools import FACE, FIRST, SECOND, child, in_file, outcome_of, rest_of, shown, words_of
from s2ix import BelowZero, Durable, Index

WALKED, STOPPED = 400, 150


class Note(str):
    """A text that shows itself as another."""

    def __repr__(self):
        return "a note"


def said(index, **asked):
    """The log as short tuples."""
    return [(each.id, each.kind, each.of, each.note, each.who, each.is_undone) for each in index.log(**asked)]


def check_logs(count, folder):
    """What each kind of step leaves in the log, and what each call needs."""
    path, start = f"{folder}/logs.db", time.time()
    with Durable(path, pairs=50, copies=9, changes=6, who="ann") as index:
        index.add("04", 7, note="match day")
        index.add_all([("0c", 7, 2)], note="née", who="bob")
        index.add_union(["14"], 7)
        index.undo(note="no", who="eve")
        index.redo()
        index.undo()
        index.remove("0c", 7)
        wanted = [(1, "add", None, "match day", "ann", False), (2, "add_all", None, "née", "bob", False), (3, "add_union", None, None, "ann", True),
                  (4, "undo", 3, "no", "eve", False), (5, "redo", 3, None, "ann", False), (6, "undo", 3, None, "ann", False),
                  (7, "remove", None, None, "ann", False)]
        count.expect("steps", said(index), wanted)
        count.expect("revert", (index.revert(id=1, note="back"), index.labels("04"), outcome_of(index.revert, id=3)), (1, [], "NoSuchChange"))
        count.expect("revert by number", (index.revert(3), outcome_of(index.revert), outcome_of(index.revert, 1, id=1)), (1, "TypeError", "TypeError"))
        count.expect("reverts", said(index, since=8), [(8, "revert", 1, "back", "ann", False), (9, "revert", 7, None, "ann", False)])
        count.expect("a note that is no text", (outcome_of(index.add, "04", 1, note=7), outcome_of(index.add, "04", 1, note="\udcff"), len(index.log())),
                     ("TypeError", "UnicodeEncodeError", 9))
        refused = [outcome_of(index.group(note=7).__enter__), outcome_of(index.join, 2, note=b"x"), outcome_of(index.undo, who=7), outcome_of(Durable, path, who=7)]
        count.expect("such notes of other steps", refused, ["TypeError"] * 4)
        count.expect("times", all(start - 1 < each.time.timestamp() < time.time() + 1 and each.time.tzinfo for each in index.log()), True)
        count.expect("a full journal", (index.add("04", 3), outcome_of(index.add, "04", 3), in_file(path) == shown(index)), (1, "JournalFull", True))
        count.expect("join", (index.join(2, note="two"), said(index, since=11), index.done_count()), (2, [(11, "join", 9, "two", "ann", False)], 5))
        count.expect("what a join changed", (index.entries(11), index.undo(), index.entries(12)[0].before, index.redo()), ([], 2, 1, 2))
        count.expect("forget_older of more than there are", (index.forget_older(2**40), len(index.log())), (None, 13))
        count.expect("forget_older", (index.forget_older(2), said(index, since=14), in_file(path) == shown(index)),
                     (None, [(14, "forget_older", 7, None, "ann", False)], True))
        other = index.copy()
        count.expect("a copy", (type(other), other.dump() == index.dump(), type(Durable.load(index.dump()))), (Index, True, Index))
        count.expect("compact", (index.compact(note="small"), said(index)[-1], outcome_of(index.undo), os.path.getsize(f"{path}-wal")),
                     (None, (15, "forget", None, "small", "ann", False), "NothingToUndo", 0))
        count.expect("after it", (index.add("1", 1), len(index.log()), repr(index)), (1, 16, "<s2ix.Durable, open>"))
        index.line("addunion 8 04 0c", note="line")
        index.line("revert 2")
        index.line("add 04 77 0", note="none")
        index.line("undo", note="undone")
        count.expect("lines", said(index, since=17), [(17, "add_union", None, "line", "ann", False), (18, "revert", 17, None, "ann", True),
                                                     (19, "undo", 18, "undone", "ann", False)])
    calls = [index.log, index.refresh, index.undo, lambda: index.add("04", 1), index.redo, lambda: index.entries(1), lambda: index.as_of(1)]
    count.expect("closed", [outcome_of(call) for call in calls], ["Closed"] * 7)
    with Durable(path, changes=6) as index:
        count.expect("what can be redone", (index.undone_count(), index.redo(), index.undo(), said(index)[-1][:3]), (1, 2, 2, (21, "undo", 18)))
        count.expect("clear", (index.clear(note="all"), len(index), index.done_count(), said(index)[-1]), (None, 0, 0, (22, "clear", None, "all", None, False)))
        count.expect("what it took", index.entries(22), Index.difference(index.as_of(21), Index()))
        count.expect("the limits of the file", outcome_of(index.add, "04", 1, 10), "TooManyCopies")
        index.add("0c", 7, 2, note="more")
        wanted = [entry.cell for entry in Index().difference(index)], [each[:2] for each in index.held_labels()]
        count.expect("what is held", wanted, ([SECOND], [(7, 1)]))
        with index.group(note="both", who="ann"):
            index.set_label(7, "04", note="less")
            index.grow(7, 1)
        count.expect("a group", (said(index)[-1], in_file(path) == shown(index)), ((24, "group", None, "both", "ann", False), True))
    check_notes(count, folder, path)


def check_notes(count, folder, path):
    with Durable(f"/{folder}/notes.db") as index:
        index.add("04", 1, note=Note("n\u00e9e \U0001fae8"), who=Note("\0\x1f="))
    with Durable(f"{folder}/notes.db") as index:
        found = [(each.note, each.who, type(each.note), type(each.who)) for each in index.log(who="\0\x1f=")]
        count.expect("texts of another class", found, [("n\u00e9e \U0001fae8", "\0\x1f=", str, str)])
    refused = [outcome_of(Durable, path, pairs=51), outcome_of(Durable, f"{folder}/none.db", read_only=True, timeout=0), outcome_of(Durable, path, synchronous="OFF")]
    refused += [outcome_of(Durable, f"{folder}/none/none.db"), outcome_of(Durable, f"{folder}/limits.db", pairs=0), outcome_of(Durable, path, keep="oldest")]
    count.expect("refused files", refused, ["NoLimits", "OperationalError", "ValueError", "OperationalError", "NoLimits", "ValueError"])
    sqlite3.connect(f"{folder}/other.db", isolation_level=None).execute("CREATE TABLE mine (a)")
    count.expect("another's file", [outcome_of(Durable, f"{folder}/other.db"), outcome_of(Durable, f"{folder}/other.db", read_only=True)], ["Spoilt"] * 2)


def overlap(cell, other):
    low, high = sorted((cell, other), key=lambda each: each & -each)
    size = high & -high
    return high - size < low < high + size


def check_asked(count, folder):
    """Each question of the log answers what a list of all steps does, page by page too."""
    path, chance = f"{folder}/asked.db", random.Random(3)
    cells = [cell << 59 | 1 << 58 for cell in range(4)] + [FACE, 0xB000000000000000, 0xB400000000000000, 0xBC00000000000000]
    with Durable(path, synchronous="NORMAL") as index:
        for _ in range(WALKED):
            rows = [(chance.choice(cells), chance.randrange(5), 1) for _ in range(chance.randrange(1, 4))]
            way = chance.random()
            who = chance.choice([None, "ann", "bob"])
            if way < 0.6:
                index.add_all(rows, who=who)
            elif way < 0.7:
                outcome_of(index.drop_label, rows[0][1], who=who)
            else:
                outcome_of(chance.choice([index.undo, index.redo, lambda **given: index.join(2, **given)]), who=who)
        steps = index.log()
        entries = {each.id: index.entries(each.id) for each in steps}
        count.expect("ids", [each.id for each in steps], list(range(1, len(steps) + 1)))
        for _ in range(120):
            label, cell = chance.choice([None, *range(6)]), chance.choice([None, *cells])
            who = chance.choice([None, "ann", "bob", "eve"])
            since, before = (chance.choice([None, chance.randrange(len(steps) + 2)]) for _ in range(2))
            wanted = [each for each in steps if (label is None or label in {entry.label for entry in entries[each.id]})
                      and (cell is None or any(overlap(cell, entry.cell) for entry in entries[each.id]))
                      and (who is None or each.who == who) and each.id >= (since or 0) and each.id < (len(steps) + 9 if before is None else before)]
            asked = {"label": label, "cell": cell, "who": who, "since": since, "before": before}
            count.expect(f"the log of {asked}", index.log(**asked), wanted)
            most = chance.randrange(4)
            found = index.log(**asked, newest_first=True, most=most)
            count.expect(f"the newest {most} of {asked}", found, wanted[::-1][:most])
            moment = chance.choice(steps).time
            count.expect("since a time", index.log(since=moment), [each for each in steps if each.time >= moment])
            count.expect("before a time", index.log(before=moment), [each for each in steps if each.time < moment])
        wrong = [outcome_of(index.log, label=-1), outcome_of(index.log, cell="x"), outcome_of(index.log, cell=2), outcome_of(index.log, since=datetime(2026, 1, 1)),
                 outcome_of(index.log, most=-1), outcome_of(index.entries, 0), outcome_of(index.entries, len(steps) + 1), outcome_of(index.as_of, len(steps) + 1)]
        count.expect("wrong questions", wrong, ["NoLabel", "NoCell", "NoCell", "ValueError", "ValueError"] + ["NoSuchChange"] * 3)
        early, late = datetime(1970, 1, 1, tzinfo=timezone.utc), datetime.now(timezone.utc) + timedelta(days=1)
        count.expect("before all and after all", (index.as_of(early).dump(), index.as_of(late).dump()), (Index().dump(), index.dump()))
        count.expect("no step then", (index.log(before=early), index.log(since=late)), ([], []))


class Clock:
    """A clock that shows what it is told."""

    def __init__(self, seconds):
        self.seconds = seconds

    def time_ns(self):
        return self.seconds * 1_000_000_000


def check_clocks(count, folder):
    """A clock is set back, and the file is opened again: no step is earlier than the one before it, so each is found by its time."""
    path, clock = f"{folder}/clocks.db", Clock(1000)
    with mock.patch("s2ix.kept.time", clock):
        for seconds in (1000, 1010, 1020, 990, 1005, 1030, 1020, 1040):
            clock.seconds = seconds
            with Durable(path) as index:
                index.add(FIRST, seconds - 990)
    with Durable(path) as index:
        log = index.log()
        count.expect("times of a clock that was set back", [int(each.time.timestamp()) for each in log], [1000, 1010, 1020, 1020, 1020, 1030, 1030, 1040])
        for number, each in enumerate(log):
            moment, same = each.time, [other.id for other in log if other.time == each.time]
            found = [step.id for step in index.log(since=moment)], [step.id for step in index.log(before=moment)], index.as_of(moment).copies()
            count.expect(f"the time of step {number + 1}", found, ([*range(same[0], 9)], [*range(1, same[0])], index.as_of(same[-1]).copies()))
    with Durable(path) as index, mock.patch("s2ix.kept.time", clock):
        for seconds, is_kept in ((2000, True), (2010, False)):
            clock.seconds = seconds
            with contextlib.suppress(ZeroDivisionError), index.transaction() as connection:
                connection.execute(f"CREATE TABLE mine{seconds} (a)")
                is_kept or 1 / 0
        clock.seconds = 1050
        index.add(SECOND, 1)
        count.expect("a clock that was wrong while no step was made", int(index.log()[-1].time.timestamp()), 1050)


def check_restores(count, folder):
    """A label gets what it had, whatever came later, in a file by a step and in memory by a change; and a revert that can't be says why."""
    path, chance = f"{folder}/restored.db", random.Random(5)
    cells = [cell << 57 | 1 << 56 for cell in range(9)]
    with Durable(path, synchronous="NORMAL") as index:
        plain, was = Index(), [{}]
        for step in range(120):
            label, some = chance.randrange(3), chance.sample(cells, chance.randrange(1, 5))
            rows = [(cell, label, chance.randrange(1, 3)) for cell in some]
            for each in (index, plain):
                outcome_of(each.add_all, rows) if step % 3 else outcome_of(each.set_label, label, some, same_ok=True)
            if len(index.log()) == len(was):
                was.append({(row.cell, row.label): row.count for row in index})
        for _ in range(60):
            label, before = chance.randrange(3), chance.randrange(1, len(was))
            wanted = {cell: many for (cell, of), many in was[before - 1].items() if of == label}
            found = outcome_of(index.restore, label, before, note="again"), outcome_of(plain.restore, label, before)
            count.expect(f"restored before {before}", ({row.cell: row.count for row in index.of_label(label)}, found[0]), (wanted, found[1]))
            count.expect("the same in memory", (index.dump(), index.change(index.done_count())), (plain.dump(), plain.change(plain.done_count())))
            was.append({(row.cell, row.label): row.count for row in index})
            was += [was[-1]] * (len(index.log()) + 1 - len(was))
            del was[len(index.log()) + 1 :]
        restored = index.log(newest_first=True, most=1)[0]
        count.expect("the step of it", (restored.kind, restored.note), ("restore", "again"))
        index.forget()
        outcome_of(index.restore, 0, 1)
        count.expect("it needs no change that can be undone", index.of_label(0), [])
        with index.group():
            index.add(FIRST, 50)
            index.add(SECOND, 50)
            count.expect("in a group", (index.restore(50, before=1), index.of_label(50)), (2, []))
        wrong = [outcome_of(index.restore, 0, 0), outcome_of(index.restore, 0, 10**6), outcome_of(index.restore, -1, 1), outcome_of(plain.restore, 0, 0), outcome_of(plain.restore, 0, 10**6)]
        count.expect("restores that can't be", wrong, ["NoSuchChange", "NoSuchChange", "NoLabel", "NoSuchChange", "NoSuchChange"])
    for make in (Index, lambda: Durable(f"{folder}/below.db")):
        with make() as index:
            index.add_all([(FIRST, 1, 2), (SECOND, 1, 2)])
            index.add(FIRST, 1)
            index.remove(SECOND, 1)
            index.remove(FACE if False else SECOND, 1)
            index.add(FIRST, 9)
            try:
                index.revert(1)
            except BelowZero as refusal:
                step = 4 if isinstance(index, Durable) else None
                found = refusal.cell, refusal.label, refusal.later, refusal.step, str(refusal)
                word = "change" if step is None else "step"
                says = f"a count would be below 0: {word} 3 took copies of 0c under 1 that {word} 1 had added"
                count.expect("why a revert is refused", found, (SECOND, 1, 3, None if step is None else 3, says))


def check_same(count, folder):
    """Callers that repeat themselves, and the notes of what changes nothing."""
    with Durable(f"{folder}/same.db") as index:
        index.set_label(7, ["04", "0c"])
        index.add(FACE, 1)
        index.undo()
        found = [index.set_label(7, ["04", "0c"], same_ok=True), index.drop_label(8, same_ok=True), index.set_label(8, [], same_ok=True), len(index.log())]
        count.expect("what changes nothing", found, [0, 0, 0, 3])
        found = [index.set_label(7, ["04", "0c"], same_ok=True, note="again"), index.drop_label(8, same_ok=True, note="gone"), index.redo()]
        count.expect("with a note", (found, said(index, since=4)), ([0, 0, 1], [(4, "set_label", None, "again", None, False), (5, "drop_label", None, "gone", None, False),
                                                                                (6, "redo", 2, None, None, False)]))
        count.expect("its label", ([each.id for each in index.log(label=7)], [each.id for each in index.log(label=8)], index.entries(4)), ([1, 4], [5], []))
        wrong = [outcome_of(index.set_label, 7, ["04", "0c"], note="x"), outcome_of(index.drop_label, 8), outcome_of(index.set_label, 8, []), outcome_of(index.drop_label, -1, same_ok=True)]
        count.expect("without the word", (wrong, len(index.log())), (["NoChange", "NoSuchLabel", "NoSuchLabel", "NoLabel"], 6))
    with Index() as index:
        index.set_label(7, ["04"])
        found = [index.set_label(7, ["04"], same_ok=True), index.drop_label(8, same_ok=True), outcome_of(index.set_label, 7, ["04"]), index.done_count()]
        count.expect("in memory", found, [0, 0, "NoChange", 1])


def check_forgotten(count, folder):
    """What can be undone is bounded, and the log isn't; compact alone shortens it."""
    path = f"{folder}/forgotten.db"
    with Durable(path, changes=8, keep="newest", synchronous="NORMAL") as index, Durable(path, read_only=True) as follower:
        for label in range(50):
            index.add(FIRST, label, note=str(label))
        with index.group(note="two"):
            index.add(SECOND, 1)
            index.add(SECOND, 2)
        index.apply("s2ix-journal 2\n" + "".join(f"change 1\n1 {label} 0 1\n" for label in range(8)) + "end 8\n")
        steps = index.log()
        kinds = [each.kind for each in steps]
        count.expect("an index that keeps the newest", (index.done_count(), kinds.count("add"), kinds.count("group"), kinds.count("apply")), (8, 50, 1, 8))
        count.expect("its follower", (follower.refresh(), shown(follower), follower.log()), (True, shown(index), steps))
        count.expect("too many at once", outcome_of(index.apply, "s2ix-journal 2\n" + "change 1\n1 20 0 1\n" * 9 + "end 9\n"), "NoJournal")
        states = [index.as_of(number).dump() for number in range(len(steps) + 1)]
        for before in (5, steps[29].time, 31, len(steps) + 1, 3):
            kept = index.dump()
            first = before if isinstance(before, int) else 30
            first = max(first, index.log()[0].id)
            index.compact(before=before, note="less")
            log = index.log()
            more = [each for each in log if each.id > len(steps)]
            count.expect(f"the log before {before} is gone", [each for each in log if each.id <= len(steps)], steps[first - 1 :])
            count.expect("it says so", {each.kind for each in more} <= {"compact", "forget_older"}, True)
            count.expect("what is held", (index.dump(), in_file(path) == shown(index)), (kept, True))
            reached = [outcome_of(lambda number=number: index.as_of(number).dump()) for number in range(len(steps) + 1)]
            count.expect("the moments that are left", reached, ["NoSuchChange"] * (first - 1) + states[first - 1 :])
            count.expect("its follower then", (follower.refresh() in (True, False), shown(follower), follower.log()), (True, shown(index), log))
        count.expect("a moment before the log", outcome_of(index.as_of, steps[0].time), "NoSuchChange")
        index.add(FIRST, 99)
        count.expect("steps go on", (index.log()[-1].kind, index.undo(), follower.refresh(), shown(follower)), ("add", 1, True, shown(index)))
    with Durable(path) as index:
        index.add(FIRST, 70)
        index.undo()
        index.compact(before=index.log()[-1].id + 1)
        count.expect("nothing is left to be redone", (index.undone_count(), outcome_of(index.redo), in_file(path) == shown(index)), (0, "NothingToRedo", True))


def check_full(count, folder):
    """A change that is taken back is the one that was named, though the oldest are forgotten first to make room."""
    for name, call, of in (
        ("an id", lambda index: index.revert(id=4), 4), ("a number", lambda index: index.revert(2), 2),
        ("a line", lambda index: index.line("revert 3"), 3),
        ("one that is forgotten", lambda index: index.revert(1), None), ("a line of that", lambda index: index.line("revert 1"), None),
    ):
        with Durable(f"{folder}/full {name}.db", changes=4, keep="newest", synchronous="NORMAL") as index:
            for label in range(1, 5):
                index.add(FIRST, label)
            outcome_of(call, index)
            held = [label for label in range(1, 5) if label != of]
            last = index.log()[-1]
            count.expect(f"what {name} takes back", (index.labels(FIRST), last.of if last.kind == "revert" else None), (held, of))


def check_stale(count, folder):
    """A label is not given back what it had if another process has written since."""
    path = f"{folder}/stale.db"
    with Durable(path) as index, Durable(path) as other:
        index.add(FIRST, 9)
        other.refresh()
        index.add(SECOND, 9)
        count.expect("a stale restore", outcome_of(other.restore, 9, 1), "NotKept")
        count.expect("after a refresh", (other.refresh(), other.restore(9, 1)), (True, 2))


def check_transactions(count, folder):
    """Tables of a caller's own, and what its connection refuses."""
    path = f"{folder}/lent.db"
    with Durable(path) as index, Durable(path, read_only=True) as follower:
        with index.transaction(note="shop", who="ann") as connection:
            connection.execute("CREATE TABLE shop (label INTEGER, name TEXT)")
            connection.execute("CREATE INDEX by_name ON shop (name)")
            connection.executemany("INSERT INTO shop VALUES (?, ?)", [(1, "née"), (2, "b")])
            index.add(FIRST, 1)
            count.expect("a text", connection.execute("SELECT name FROM shop WHERE label = 1").fetchall(), [("née",)])
            words = ["COMMIT", "ROLLBACK", "BEGIN", "DELETE FROM s2ix_step", "UPDATE S2IX_STATE SET last = 0", "INSERT INTO s2ix_label VALUES (1, 1)",
                     "DROP TABLE s2ix_cell", "CREATE TABLE s2ix_mine (a)", "CREATE TRIGGER lost AFTER INSERT ON s2ix_step BEGIN SELECT 1; END",
                     "PRAGMA user_version = 7", "ATTACH ':memory:' AS other", "CREATE INDEX more ON s2ix_step (time)"]
            count.expect("what is refused", [outcome_of(connection.execute, each) for each in words], ["DatabaseError"] * len(words))
            count.expect("its other calls", [outcome_of(connection.commit), outcome_of(connection.rollback), outcome_of(connection.executescript, "SELECT 1")], ["DatabaseError"] * 3)
            count.expect("what may be asked", (connection.execute("SELECT count(*) FROM s2ix_step").fetchone(), len(index.log()), index.entries), ((0,), 0, index.entries))
            connection.execute("SAVEPOINT mine")
            connection.execute("DELETE FROM shop")
            connection.execute("ROLLBACK TO mine")
            refused = [outcome_of(index.backup, f"{path}.copy"), outcome_of(index.forget), outcome_of(index.refresh), outcome_of(index.transaction().__enter__), outcome_of(index.compact)]
            count.expect("steps in it", refused, ["RuntimeError"] * 5)
            count.expect("another process's view", seen_rows(path), "OperationalError")
        count.expect("its step", (said(index), follower.refresh(), shown(follower)), ([(1, "group", None, "shop", "ann", False)], True, shown(index)))
        kept = shown(index), seen_rows(path)
        count.expect("its rows", kept[1], [(1, "née"), (2, "b")])
        for raised in (KeyError, KeyboardInterrupt):
            try:
                with index.transaction() as connection:
                    connection.execute("DELETE FROM shop")
                    index.add(SECOND, 1)
                    raise raised
            except raised:
                count.expect(f"a transaction that ends with {raised.__name__}", ((shown(index), seen_rows(path)), in_file(path)), (kept, kept[0]))
        with index.transaction(note="no step") as connection:
            connection.execute("INSERT INTO shop VALUES (3, 'c')")
        count.expect("no step", (len(index.log()), len(seen_rows(path)), follower.refresh(), index.add(SECOND, 4), follower.refresh()), (1, 3, False, 1, True))
        with index.transaction() as connection:
            index.add(SECOND, 9)
            index.remove(SECOND, 9)
            connection.execute("DELETE FROM shop WHERE label = 3")
        count.expect("a step that comes to nothing", (len(index.log()), len(seen_rows(path)), in_file(path) == shown(index)), (2, 2, True))
        count.expect("a table with a name of the index", outcome_of(renamed, index), "NotKept")
        count.expect("what it left", (len(seen_rows(path)), in_file(path) == shown(index)), (2, True))
        with index.group():
            count.expect("in a group", outcome_of(index.transaction().__enter__), "RuntimeError")
        count.expect("of a follower", outcome_of(follower.transaction().__enter__), "NotKept")
        with Durable(path, timeout=0.05) as second, index.transaction() as connection:
            count.expect("a second writer meanwhile", outcome_of(second.add, FIRST, 5), "NotKept")
            connection.execute("INSERT INTO shop VALUES (4, 'd')")
        connection.execute("SELECT 1").fetchall()
        index.backup(f"{path}.copy")
        count.expect("a backup", (seen_rows(f"{path}.copy"), in_file(f"{path}.copy")), (seen_rows(path), in_file(path)))
        index.compact(before=2)
        count.expect("compact", (len(seen_rows(path)), [each.id for each in index.log()]), (3, [2, 3, 4]))


def check_ended(count, folder):
    """SQL rolls a caller's transaction back: what is written after that isn't kept either."""
    path = f"{folder}/ended.db"
    with Durable(path) as index:
        with index.transaction() as connection:
            connection.execute("CREATE TABLE shop (label INTEGER PRIMARY KEY)")
            connection.execute("INSERT INTO shop VALUES (?)", (1,))
        kept, found = shown(index), []

        def write():
            with index.transaction() as connection:
                connection.execute("INSERT INTO shop VALUES (?)", (2,))
                index.add(FIRST, 7)
                found.append(outcome_of(connection.execute, "INSERT OR ROLLBACK INTO shop VALUES (1)"))
                for words in ("INSERT INTO shop VALUES (3)", "DELETE FROM shop", "CREATE TABLE other (a)"):
                    found.append(outcome_of(connection.execute, words))
                found.append(outcome_of(connection.execute, "INSERT INTO shop VALUES (?)", (4,)))
                found.append(outcome_of(connection.executemany, "INSERT INTO shop VALUES (?)", [(5,), (6,)]))

        count.expect("a transaction that was rolled back", (outcome_of(write), found), ("NotKept", ["IntegrityError"] + ["OperationalError"] * 5))
        count.expect("its rows", (seen_rows(path), shown(index), in_file(path)), ([(1,)], kept, kept))
        count.expect("steps go on", (index.add(FIRST, 7), in_file(path) == shown(index)), (1, True))


def check_stopped(count, folder):
    """Ctrl-C comes within a caller's statements, and while SQLite asks what they may do: it is raised, and nothing is kept."""
    path, raised = f"{folder}/stopped.db", []

    def stop(*_):
        raise KeyboardInterrupt

    before = signal.signal(signal.SIGALRM, stop)
    with Durable(path, synchronous="NORMAL") as index:
        with index.transaction() as connection:
            connection.execute("CREATE TABLE shop (label INTEGER)")
        kept = shown(index)
        for step in range(STOPPED):
            try:
                with index.transaction() as connection:
                    index.add(FIRST, 7)
                    signal.setitimer(signal.ITIMER_REAL, 1e-5 + step % 40 * 5e-6)
                    until = time.monotonic() + 10
                    while time.monotonic() < until:
                        connection.execute(f"INSERT INTO shop VALUES ({step})")
                        connection.execute(f"SELECT label + {step} FROM shop WHERE label < {step}").fetchall()
            except BaseException as each:  # noqa: BLE001
                raised.append(type(each))
            signal.setitimer(signal.ITIMER_REAL, 0)
        count.expect("what is raised", set(raised), {KeyboardInterrupt})
        count.expect("each of them", (len(raised), seen_rows(path), shown(index), in_file(path)), (STOPPED, [], kept, kept))
    signal.signal(signal.SIGALRM, before)


def check_lent(count, folder):
    """A caller sets up the connection as it likes, and another thread reads the log meanwhile: neither disturbs the other, and none waits for
    ever."""
    asked, is_over, wrong = [0], threading.Event(), []
    with Durable(f"{folder}/beside a log.db", synchronous="NORMAL") as index:

        def ask():
            while not is_over.is_set():
                log, asked[0] = index.log(), asked[0] + 1
                wrong.extend(each for each in log if each.kind != "group")

        faulthandler.dump_traceback_later(300, exit=True)
        asker = threading.Thread(target=ask)
        asker.start()
        try:
            for number in range(300):
                with index.transaction() as connection:
                    connection.row_factory = sqlite3.Row
                    connection.execute("CREATE TABLE IF NOT EXISTS shop (name TEXT)")
                    connection.execute("INSERT INTO shop VALUES ('a')")
                    wrong += [each["name"] for each in connection.execute("SELECT name FROM shop") if each["name"] != "a"]
                    index.add(FIRST, number)
        finally:
            is_over.set()
            asker.join()
            faulthandler.cancel_dump_traceback_later()
        count.expect("a connection beside the log", (wrong, len(index.log()), asked[0] > 0), ([], 300, True))


def renamed(index):
    with index.transaction() as connection:
        index.add(SECOND, 90)
        connection.execute("ALTER TABLE shop RENAME TO s2ix_shop")


def seen_rows(path):
    """The rows of the caller's table, in a connection of its own."""
    hand = sqlite3.connect(path, timeout=0)
    try:
        return outcome_of(lambda: hand.execute("SELECT * FROM shop ORDER BY label").fetchall())
    finally:
        hand.close()


def check_threads(count, folder):
    """Other threads see a group whole or not at all, and read without waiting."""
    path = f"{folder}/apart.db"
    with Durable(path, synchronous="NORMAL") as index:
        index.add_all([(FACE, 1, 1), (FIRST, 2, 1)], note="first")
        index.add(SECOND, 3)
        index.undo()

        def all_of(index):
            asked = [index.dump(), index.journal(), index.journal(2), index.undone_count(), index.done_count(), len(index), index.copies(), list(index)]
            asked += [index.at(FIRST + 1 - (FIRST & -FIRST)), index.labels(FACE), index.meet([FIRST]), index.region(2), index.count(FACE, 1), (FACE, 1) in index]
            asked += [index.change(1), outcome_of(index.change, 2), index.of_label(7), index.held_labels(), index.export(), index.copy().dump(), index.range_count()]
            asked += [[tuple(each) for each in index.ranges()], index.line("dump"), index.log(), index.as_of(len(index.log())).dump(), index.entries(1)]
            return asked + [list(index.visit([FACE])), index.find(FIRST | 1)[1:], index.contents(0), [len(each) for each in index.at_each([FACE | 1])]]

        def elsewhere(work):
            box = []
            thread = threading.Thread(target=lambda: box.append(outcome_of(work)))
            thread.start()
            thread.join(60)
            return box[0]

        before = all_of(index)
        with index.group():
            index.add(FACE, 7)
            index.drop_label(2)
            index.undo()
            index.add(SECOND, 7)
            count.expect("another thread in a group", elsewhere(lambda: all_of(index)), before)
            count.expect("the thread of the group", (index.count(FACE, 7), index.undone_count(), index.done_count()), (1, 0, 3))
            with index.group():
                index.add(FIRST, 7)
                count.expect("in a group within", elsewhere(lambda: all_of(index)), before)
            going = elsewhere(lambda: iter(index))
        after = all_of(index)
        count.expect("after the group", (elsewhere(lambda: all_of(index)), after != before, len(list(going))), (after, True, 2))
        count.expect("writers and readers at once", races(index), [])


def races(index):
    """What other threads see that is half a group."""
    wrong, is_over = [], threading.Event()

    def read():
        while not is_over.is_set():
            counts = {index.count(FACE, 50) - index.count(FACE, 50), 0}
            found = [row.count for row in index.of_label(50)]
            many = len(index.meet([FACE])) if counts == {0} else 0
            if found and len(found) != 3 or many < 0:
                wrong.append(found)

    threads = [threading.Thread(target=read) for _ in range(3)]
    for each in threads:
        each.start()
    for _ in range(60):
        with index.group():
            for cell in (FACE, FIRST, SECOND):
                index.add(cell, 50)
        with index.group():
            for cell in (FACE, FIRST, SECOND):
                index.remove(cell, 50)
    is_over.set()
    for each in threads:
        each.join(60)
    return wrong


def check_waits(count, folder):
    """A follower waits for its file, and errors on opening name it."""
    path = f"{folder}/late.db"
    with child(lambda start: (time.sleep(0.3), Durable(path).add(FACE, 1), os.write(start, b"."))) as (_, end):
        with Durable(path, read_only=True, timeout=20) as follower:
            rest_of(end)
            follower.refresh()
            count.expect("a follower before its file", follower.count(FACE, 1), 1)
    start = time.monotonic()
    words = words_of(Durable, f"{folder}/never.db", read_only=True, timeout=0.2)
    count.expect("a file that never comes", (words, 0.15 < time.monotonic() - start < 5), (f"{folder}/never.db: unable to open database file", True))


def check_saved(count, folder):
    """States are saved as the log grows: a file opens by them, and each moment comes from the last one before it."""
    path, chance = f"{folder}/saved.db", random.Random(9)
    with Durable(path, synchronous="NORMAL") as index:
        for step in range(40):
            index.add_all([(chance.randrange(1 << 59) << 1 | 1, step, 1) for _ in range(200)])
        for _ in range(12):
            index.undo()
        kept, log = shown(index), index.log()
        moments = {number: index.as_of(number).dump() for number in range(0, len(log) + 1, 3)}
    hand = sqlite3.connect(path)
    saved = hand.execute("SELECT step FROM s2ix_saved").fetchall()
    hand.close()
    count.expect("saved states", (len(saved) > 2, saved[0]), (True, (0,)))
    with Durable(path) as index:
        count.expect("what they give", (shown(index), index.log() == log), (kept, True))
        count.expect("earlier moments", {number: index.as_of(number).dump() for number in moments}, moments)
    for words in ("change = replace(change, ' 2 0 1', ' 2 0 2')", "change = NULL", "id = -7"):
        hand = sqlite3.connect(path, isolation_level=None)
        [row] = hand.execute("SELECT * FROM s2ix_step WHERE id = 3").fetchall()
        hand.execute(f"UPDATE s2ix_step SET {words} WHERE id = 3")
        found = outcome_of(lambda: Durable(path, read_only=True).close()), words_of(Durable, path).partition(": its ")[0].partition(": it ")[0]
        count.expect(f"a change before a saved state: {words}", found, ("Spoilt", f"{path}: the file is spoilt: step {4 if 'id' in words else 3}"))
        hand.execute("DELETE FROM s2ix_step WHERE id IN (3, -7)")
        hand.execute(f"INSERT INTO s2ix_step VALUES ({', '.join('?' * len(row))})", row)
        hand.close()
    for (step,) in saved[1:-1]:
        hand = sqlite3.connect(path, isolation_level=None)
        hand.execute("UPDATE s2ix_saved SET tip = tip + 1 WHERE step = ?", (step,))
        with Durable(path) as index:
            found = [outcome_of(lambda: index.as_of(step)), shown(index) == kept]
        hand.execute("UPDATE s2ix_saved SET tip = tip - 1 WHERE step = ?", (step,))
        hand.close()
        count.expect(f"a saved state that is spoilt, of step {step}", found, ["Spoilt", True])


def check_saved_by_another(count, folder):
    """A writer that follows another's steps saves states when the other would: not again after the step that the other saved."""
    path, chance = f"{folder}/another.db", random.Random(4)
    with Durable(path, synchronous="NORMAL") as first, Durable(path, synchronous="NORMAL") as second, Durable(path, read_only=True) as follower:
        hand = sqlite3.connect(path, isolation_level=None)
        for step in range(60):
            first.add_all([(chance.randrange(1 << 59) << 1 | 1, step, 1) for _ in range(200)])
            if step % 4 == 3:
                follower.refresh()
            second.refresh()
            [(last,)] = hand.execute("SELECT max(step) FROM s2ix_saved").fetchall()
            if last == step + 1:
                with second.transaction() as connection:
                    connection.execute(f"CREATE TABLE mine{step} (a)")
                first.refresh()
        saved = hand.execute("SELECT step FROM s2ix_saved").fetchall()
        hand.close()
        follower.refresh()
        counted = [(each._file.noted.since, each._file.noted.size) for each in (first, second, follower)]
        count.expect("bytes since the saved state", (len(saved) > 2, counted[1:]), (True, counted[:1] * 2))
        count.expect("the step of the other then", (second.add(FIRST, 1), first.refresh(), in_file(path) == shown(first)), (1, True, True))


def check_all(count, folder):
    """All of them, in a folder of their own."""
    folder = f"{folder}/log"
    os.mkdir(folder)
    for check in (
        check_logs, check_asked, check_clocks, check_restores, check_same, check_forgotten, check_full, check_stale, check_transactions,
        check_ended, check_stopped, check_lent, check_threads, check_waits, check_saved, check_saved_by_another,
    ):
        check(count, folder)
