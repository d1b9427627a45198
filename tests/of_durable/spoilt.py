"""Spoils the file under s2ix.Durable: rows, pages and bytes that are wrong, tables of another kind, and files of form 1. `tests/durable` runs
it."""
import ast
import contextlib
import os
import random
import sqlite3
import time
import zlib

from of_durable.tools import FACE, FIRST, SECOND, in_file, outcome_of, ran, shown, words_of
from s2ix import Durable, LaterForm, NotKept, Spoilt
from s2ix.form import seal_of

SPOILT_BYTES = 300


# What a hand does to a file: the words, whether the seals of steps from that one on are put right, or those of the start for 0; and the step
# that is told.
SPOILT = [
    ("UPDATE s2ix_step SET change = replace(change, ' 0 1', ' 0 2') WHERE id = 2", False, 2),
    ("UPDATE s2ix_step SET change = replace(change, ' 0 1', ' 1 2') WHERE id = 3", True, 3),
    ("UPDATE s2ix_step SET change = 'change 1' || char(10) || '04 9 0 x' || char(10) WHERE id = 2", True, 2),
    ("UPDATE s2ix_step SET change = '' WHERE id = 3", True, 3),
    ("UPDATE s2ix_step SET change = NULL WHERE id = 2", False, 2),
    ("UPDATE s2ix_step SET change = x'ff' WHERE id = 2", False, 2),
    ("UPDATE s2ix_step SET note = 'other' WHERE id = 1", False, 1),
    ("UPDATE s2ix_step SET who = 'other' WHERE id = 1", False, 1),
    ("UPDATE s2ix_step SET time = time + 1 WHERE id = 1", False, 1),
    ("UPDATE s2ix_step SET time = 'now' WHERE id = 1", True, 1),
    ("UPDATE s2ix_step SET kind = 'undo' WHERE id = 1", False, 1),
    ("UPDATE s2ix_step SET kind = 'undo' WHERE id = 1", True, 1),
    ("UPDATE s2ix_step SET kind = NULL WHERE id = 1", True, 1),
    ("UPDATE s2ix_step SET kind = 'join' WHERE id = 3", True, 3),
    ("UPDATE s2ix_step SET kind = 'redo' WHERE id = 5", True, 5),
    ("UPDATE s2ix_step SET of_step = 3 WHERE id = 5", False, 5),
    ("UPDATE s2ix_step SET of_step = 3 WHERE id = 5", True, 5),
    ("UPDATE s2ix_step SET kind = 'forget_older', of_step = 9 WHERE id = 5", True, 5),
    ("UPDATE s2ix_step SET id = 9 WHERE id = 2", False, 3),
    ("DELETE FROM s2ix_step WHERE id = 2", False, 3),
    ("DELETE FROM s2ix_step WHERE id = 5", False, 0),
    ("DELETE FROM s2ix_step", False, 0),
    ("INSERT INTO s2ix_step SELECT 6, time, who, note, kind, of_step, change, seal FROM s2ix_step WHERE id = 4", False, 0),
    ("UPDATE s2ix_step SET seal = (SELECT seal FROM s2ix_step WHERE id = 1) WHERE id = 2", False, 2),
    ("UPDATE s2ix_saved SET dump = 's2ix 2' || char(10) || 'end 1 1' || char(10)", False, 0),
    ("UPDATE s2ix_saved SET dump = 's2ix 2' || char(10) || 'end 1 1' || char(10)", True, 0),
    ("UPDATE s2ix_saved SET dump = x'ff'", False, 0),
    ("UPDATE s2ix_saved SET standing = '1-3'", False, 0),
    ("UPDATE s2ix_saved SET standing = '1-9'", True, 6),
    ("UPDATE s2ix_saved SET standing = 'x'", True, 0),
    ("UPDATE s2ix_saved SET standing = '1-99999999999'", True, 0),
    ("UPDATE s2ix_saved SET undone = '5'", True, 0),
    ("UPDATE s2ix_saved SET changes = 7", True, 0),
    ("UPDATE s2ix_saved SET changes = NULL", True, 0),
    ("UPDATE s2ix_saved SET tip = 7", False, 0),
    ("UPDATE s2ix_saved SET tip = 7", True, 1),
    ("DELETE FROM s2ix_saved", False, 0),
    ("DELETE FROM s2ix_state", False, 0),
    ("UPDATE s2ix_state SET pairs = 'x'", False, 0),
    ("UPDATE s2ix_state SET pairs = 0", False, 0),
    ("UPDATE s2ix_state SET pairs = 0", True, 0),
    ("UPDATE s2ix_state SET last = 2", False, 0),
    ("UPDATE s2ix_state SET last = 2", True, 0),
    ("UPDATE s2ix_state SET tip = 7", True, 0),
    ("UPDATE s2ix_state SET saved = 7", True, 0),
    ("UPDATE s2ix_state SET seal = NULL", False, 0),
    ("INSERT INTO s2ix_state SELECT * FROM s2ix_state", False, 0),
    ("PRAGMA user_version = 0", False, 0),
]


def seal(hand, words):
    """Puts the seals right of what some words change."""
    if "s2ix_step" in words:
        [(tip,)] = hand.execute("SELECT tip FROM s2ix_saved").fetchall()
        for row in hand.execute("SELECT * FROM s2ix_step ORDER BY id").fetchall():
            tip = seal_of(row[:-1], tip)
            hand.execute("UPDATE s2ix_step SET seal = ? WHERE id = ?", (tip, row[0]))
        hand.execute("UPDATE s2ix_state SET tip = ?", (tip,))
    elif "s2ix_saved" in words:
        [row] = hand.execute("SELECT * FROM s2ix_saved").fetchall()
        hand.execute("UPDATE s2ix_saved SET seal = ?", (seal_of(row[:-1]),))
        hand.execute("UPDATE s2ix_state SET saved = ?", (seal_of(row[:-1]),))
    [row] = hand.execute("SELECT * FROM s2ix_state").fetchall()
    hand.execute("UPDATE s2ix_state SET seal = ?", (seal_of(row[:-1]),))


def check_spoilt(count, folder):
    """A file that is spoilt by hand is told with the step that is wrong, and is left as it is."""
    for place, (words, is_sealed, row) in enumerate(SPOILT):
        path = f"{folder}/spoilt{place}.db"
        with Durable(path) as index:
            for label in range(4):
                index.add(FACE, label, note="mine")
            index.undo()
            kept = shown(index)
        hand = sqlite3.connect(path, isolation_level=None)
        hand.execute(words)
        if is_sealed:
            seal(hand, words)
        before = "\n".join(hand.iterdump())
        for read_only in (False, True):
            try:
                with Durable(path, read_only=read_only) as index:
                    # (what is after the last step isn't of the log yet)
                    count.expect(f"spoilt by {words}", shown(index), kept if row is None else "Spoilt")
            except Spoilt as refusal:
                says = f"{path}: the file is spoilt: {f'step {row}' if row else 'its start'}: "
                count.expect(f"spoilt by {words}", (refusal.row, str(refusal).startswith(says)), (row, True))
        count.expect(f"what is left after {words}", "\n".join(hand.iterdump()), before)
        hand.close()
    check_before_refresh(count, f"{folder}/spoilt.db")
    check_indexes(count, f"{folder}/indexes.db")


def check_before_refresh(count, path):
    """What is spoilt before a follower reads it leaves the follower as it was."""
    with Durable(path) as index, Durable(path, read_only=True) as follower:
        index.add(FACE, 1)
        follower.refresh()
        kept = shown(follower)
        index.add(FACE, 2)
        hand = sqlite3.connect(path, isolation_level=None)
        hand.execute("UPDATE s2ix_step SET note = 'other' WHERE id = 2")
        count.expect("spoilt before a refresh", (outcome_of(follower.refresh), shown(follower)), ("Spoilt", kept))
        hand.execute("UPDATE s2ix_step SET note = NULL WHERE id = 2")
        hand.close()
        count.expect("put right", (follower.refresh(), shown(follower)), (True, shown(index)))
        kept = shown(follower)
        index.add(FACE, 3)
        index.add(FACE, 4)
        hand = sqlite3.connect(path, isolation_level=None)
        hand.execute("DELETE FROM s2ix_step WHERE id = 3")
        hand.close()
        count.expect("gone before a refresh", (outcome_of(follower.refresh), shown(follower)), ("Spoilt", kept))


def saved_last(path):
    """A file whose only saved states are before its first step and after its last: what opens it reads no step between them. Returns the
    times of its steps."""
    with Durable(path) as index:
        for place, cell in enumerate(("04", "0c", "14", "1c", "24")):
            index.add(cell, 1 + place % 2, who="ann")
        index.compact()
        return [each.time for each in index.log()]


def by_hand(path, words, *given):
    hand = sqlite3.connect(path)
    hand.execute(words, given)
    hand.commit()
    hand.close()


def check_gone(count, folder):
    """A step in the middle is gone: whatever wants it says so, nothing is made of what is left, and the file stays as it is."""
    path = f"{folder}/gone.db"
    moments = saved_last(path)
    by_hand(path, "DELETE FROM s2ix_step WHERE id = 3")
    before = bytes_at(path)
    with Durable(path) as index:
        asked = [{}, {"before": 4}, {"since": 3, "before": 4}, {"since": 3, "most": 1}, {"newest_first": True}, {"newest_first": True, "before": 4},
                 {"label": 1}, {"label": 1, "who": "ann"}, {"label": 1, "since": 3}, {"label": 1, "newest_first": True, "most": 2}, {"label": 1, "cell": "14"},
                 {"cell": "14"}, {"cell": "1", "since": 3}, {"cell": "14", "who": "ann"}, {"cell": "14", "newest_first": True, "most": 1}]
        for each in asked:
            count.expect(f"a log without a step, {each}", outcome_of(index.log, **each), "Spoilt")
        listed = [[each.id for each in index.log(**given)] for given in ({"label": 2, "before": 4}, {"cell": "04"}, {"before": 3}, {"label": 1, "most": 1})]
        count.expect("what is before it", (listed, index.as_of(2).copies()), ([[2], [1], [1, 2], [1]], 2))
        calls = [lambda: index.as_of(3), lambda: index.as_of(4), lambda: index.as_of(moments[2]), lambda: index.log(before=moments[3], since=3),
                 lambda: index.entries(3), lambda: index.entries(4), lambda: index.restore(1, 3), lambda: index.restore(1, 4), lambda: index.restore(1, 5)]
        calls += [lambda before=before: index.compact(before=before) for before in (3, 4, 5, 6, moments[3])]
        count.expect("what wants a step that is gone", [outcome_of(call) for call in calls], ["Spoilt"] * len(calls))
        count.expect("no step", (outcome_of(index.entries, 9), outcome_of(index.entries, 0), index.entries(6)), ("NoSuchChange", "NoSuchChange", []))
    count.expect("the file then", bytes_at(path), before)
    with Durable(path) as index:
        by_hand(path, "DELETE FROM s2ix_step WHERE id = 6")
        found = outcome_of(index.log), outcome_of(index.log, since=6), outcome_of(index.entries, 6), index.as_of(6).copies()
        count.expect("the last step is gone, and a state after it is there", found, ("Spoilt", "Spoilt", "Spoilt", 5))


def check_seals(count, folder):
    """The seal or the time of a step in the middle is no number, or none."""
    for place, bad in enumerate(("x", b"\xff", None, 1.5, 1 << 40)):
        path = f"{folder}/seal{place}.db"
        saved_last(path)
        by_hand(path, "UPDATE s2ix_step SET seal = ? WHERE id = 3", bad)
        with Durable(path) as index:
            calls = [index.log, lambda: index.log(label=2, since=4), lambda: index.log(cell="1c"), lambda: index.entries(3), lambda: index.entries(4),
                     lambda: index.as_of(3), lambda: index.as_of(4), lambda: index.restore(1, 4), lambda: index.compact(before=4)]
            count.expect(f"the seal {bad}", [outcome_of(call) for call in calls], ["Spoilt"] * len(calls))
    path = f"{folder}/time.db"
    for bad in ("x", b"\xff", None, 1.5):
        moment = saved_last(path)[4]
        by_hand(path, "UPDATE s2ix_step SET time = ? WHERE id IN (3, 4)", bad)
        with Durable(path) as index:
            count.expect(f"the time {bad}", [outcome_of(index.as_of, moment), outcome_of(index.log, since=moment)], ["Spoilt"] * 2)
        os.unlink(path)


def check_indexes(count, path):
    """Steps that a spoilt table of labels or cells leads to are real ones; what is lost there is told on opening, and no other call wants it."""
    with Durable(path) as index:
        for label in range(6):
            index.add(FIRST, label, who="ann")
        log = index.log()
        # (a note about a label lists all steps)
        index.drop_label(99, same_ok=True, note="gone")
        hand = sqlite3.connect(path, isolation_level=None)
        whole = [hand.execute(f"SELECT * FROM s2ix_{name}").fetchall() for name in ("label", "cell")]
        count.expect("what is listed", [len(rows) for rows in whole], [7, 6])
        hand.execute("UPDATE s2ix_label SET label = 3 WHERE label = 4")
        hand.execute("INSERT INTO s2ix_label VALUES (3, 77)")
        hand.execute("DELETE FROM s2ix_cell WHERE step = 2")
        hand.execute("INSERT INTO s2ix_cell VALUES (5, -1)")
        found = [outcome_of(index.log, label=3), index.log(label=4), index.log(label=2), index.log(cell=FIRST), index.log(who="ann")]
        count.expect("what they find", found, ["Spoilt", [], [log[2]], log[:1] + log[2:], log])
        count.expect("a label whose step is lost", (index.restore(4, before=5), index.of_label(4), index.undo()), (1, [], 1))
        hand.execute("DELETE FROM s2ix_label WHERE label = 3 AND step = 5")
        count.expect("put right", index.log(label=3), [log[3]])
        hand.execute("UPDATE s2ix_step SET note = 'x' WHERE id = 4")
        found = [outcome_of(index.log, label=3), outcome_of(index.log), outcome_of(index.entries, 4), outcome_of(index.as_of, 4), outcome_of(index.as_of, 6), outcome_of(index.entries, 5)]
        count.expect("a step that is spoilt", found[:5] + [len(found[5])], ["Spoilt"] * 5 + [1])
        hand.execute("UPDATE s2ix_step SET note = NULL WHERE id = 4")
        count.expect("steps go on", index.add(SECOND, 1), 1)
    for words in ("DELETE FROM s2ix_label WHERE step = 2", "DELETE FROM s2ix_cell", "INSERT INTO s2ix_cell VALUES (5, 1)", "UPDATE s2ix_label SET step = 3 WHERE label = 1",
                  "UPDATE s2ix_label SET label = 'x' WHERE label = 1", "UPDATE s2ix_label SET label = 'x' WHERE label = 0",
                  "UPDATE s2ix_label SET label = -1 WHERE label = 1", "UPDATE s2ix_label SET label = 1.5 WHERE label = 1",
                  "UPDATE s2ix_label SET step = 2.5 WHERE label = 1", "UPDATE s2ix_cell SET step = 2.5 WHERE step = 2", None):
        for name, rows in zip(("label", "cell"), whole):
            hand.execute(f"DELETE FROM s2ix_{name}")
            hand.executemany(f"INSERT INTO s2ix_{name} VALUES (?, ?)", rows)
        if words:
            hand.execute(words)
        found = outcome_of(lambda: Durable(path, read_only=True).close()), outcome_of(lambda: Durable(path).close())
        count.expect(f"lists after {words}", found, ("Spoilt",) * 2 if words else (None, None))
    hand.close()


def bytes_at(path):
    """All bytes of a file whose log is empty."""
    hand = sqlite3.connect(path)
    hand.execute("PRAGMA wal_checkpoint(TRUNCATE)")
    hand.close()
    with open(path, "rb") as file:
        return file.read()


def check_pages(count, folder):
    """A page of before is put in its place into the file after a step, and the other way round: it opens as before or after the step, or not."""
    path, mixed, chance, many = f"{folder}/pages.db", f"{folder}/mixed.db", random.Random(3), 0
    note = "n" * 1500
    with Durable(path, synchronous="NORMAL") as index:
        for label in range(12):
            index.add(FACE, label, note=note)
        steps = [lambda: index.add(FACE, 50, note=note), index.undo, index.redo, lambda: (index.undo(), index.add(FACE, 51, note=note)),
                 lambda: (index.undo(), index.undo(), index.add(FACE, 52, note=note), index.add(FACE, 53, note=note)),
                 lambda: (index.undo(), index.add(FACE, 54), index.undo(), index.add(FACE, 55)), lambda: index.join(3),
                 lambda: index.forget_older(4), lambda: (index.add(FACE, 56), index.undo(), index.join(2)), index.forget,
                 lambda: [index.add(FIRST, label, note=note) for label in range(9)], index.compact, index.clear,
                 lambda: index.add_all([(FIRST + 1 + 2 * cell, cell, 1) for cell in range(400)]),
                 lambda: index.remove_all([(FIRST + 1 + 2 * cell, cell, 1) for cell in range(400)]), lambda: index.compact(before=20)]
        old, states = bytes_at(path), [opened_of(index)]
        for place, step in enumerate(steps):
            step()
            new, states = bytes_at(path), [states[-1], opened_of(index)]
            for under, over in ((new, old), (old, new)):
                for page in range(0, min(len(new), len(old)), 4096):
                    taken = under[:page] + over[page : page + 4096] + under[page + 4096 :]
                    with open(mixed, "wb") as file:
                        file.write(taken)
                    many += taken not in (old, new)
                    found = outcome_of(opened, mixed)
                    if found != "Spoilt" and found not in states:
                        count.expect(f"page {page // 4096} of another state at step {place}", found, "Spoilt")
            old = new
    count.expect("pages of another state", many > 100, True)
    return many


def opened(path):
    """What a file shows, with its log; its tables of labels and cells lead to steps of the log, or to none."""
    with Durable(path, read_only=True) as index:
        found = opened_of(index)
        by_id = {each.id: each for each in found[1]}
        for asked in ({"label": 50}, {"label": 3}, {"cell": FACE}, {"cell": FIRST}):
            listed = outcome_of(lambda asked=asked: index.log(**asked))
            if listed != "Spoilt" and any(by_id.get(each.id, each)._replace(is_undone=False) != each._replace(is_undone=False) for each in listed):
                return f"the log of {asked} has {listed}"
        return found


def opened_of(index):
    return shown(index), index.log()


def check_bytes(count, folder):
    """A byte of the file is another: it opens as it was or not, and if it takes a step, it opens again."""
    path, spoilt, chance = f"{folder}/whole.db", f"{folder}/byte.db", random.Random(9)
    with Durable(path) as index:
        for label in range(6):
            index.add(FACE, label, note="n" * 1000)
        index.forget_older(4)
        index.undo()
        kept = shown(index)
    whole = bytes_at(path)
    wanted = {kept}
    places = [(place, value) for place in range(110) for value in {0, 1, 2, 4, 5, 255} - {whole[place]}]
    places += [(chance.randrange(110, len(whole)), chance.randrange(256)) for _ in range(SPOILT_BYTES)]
    for place, value in places:
        with open(spoilt, "wb") as file:
            file.write(whole[:place] + bytes([value]) + whole[place + 1 :])
        try:
            with Durable(spoilt, synchronous="NORMAL") as index:
                found = shown(index)
                index.add(FIRST, 7)
                after = shown(index)
            again = in_file(spoilt)
            if found not in wanted or again != after:
                count.expect(f"byte {place} is {value}", (found, again), (kept, after))
        except (Spoilt, LaterForm, NotKept):
            pass
        except Exception as raised:  # noqa: BLE001
            count.expect(f"byte {place} is {value}", repr(raised), "Spoilt")
        for each in ("-wal", "-shm"):
            with contextlib.suppress(FileNotFoundError):
                os.unlink(spoilt + each)
    for size in range(0, len(whole), 1365):
        with open(spoilt, "wb") as file:
            file.write(whole[:size])
        found = outcome_of(in_file, spoilt)
        count.expect(f"the first {size} bytes", found in ("Spoilt", kept), True)
    return len(places)


def check_logs_bytes(count, folder):
    """A byte of SQLite's log is another: the file opens at a state that it had, or not."""
    path, spoilt = f"{folder}/logged.db", f"{folder}/log.db"
    state = """
import os, sqlite3, sys
from s2ix import Durable
index = Durable(sys.argv[1])
def copied(way):
    hand = sqlite3.connect(sys.argv[1])
    hand.execute(f"PRAGMA wal_checkpoint({way})").fetchall()
    hand.close()
for label in range(30):
    index.add("1", label, note="n" * 700)
copied("TRUNCATE")
for label in range(30):
    print(repr((index.dump(), index.journal(), index.undone_count())))
    index.undo()
print(repr((index.dump(), index.journal(), index.undone_count())))
copied("PASSIVE")
"""
    states = {ast.literal_eval(line) for line in ran(state, path, kill=True)[0].splitlines()}
    pieces = {end: open(path + end, "rb").read() for end in ("", "-wal")}
    told_of = []
    for place in range(40, len(pieces["-wal"]), 2060):
        for end, piece in pieces.items():
            with open(spoilt + end, "wb") as file:
                file.write(piece[:place] + bytes([piece[place] ^ 1]) + piece[place + 1 :] if end else piece)
        found = outcome_of(in_file, spoilt)
        told_of.append(found)
        for end in ("-wal", "-shm"):
            with contextlib.suppress(FileNotFoundError):
                os.unlink(spoilt + end)
    wrong = [found for found in told_of if found not in states and found != "Spoilt"]
    count.expect("states of spoilt logs", (len(states), wrong), (31, []))
    count.expect("that some are told", "Spoilt" in told_of, True)


ENDLESS = "WITH RECURSIVE many(n) AS (SELECT 1 UNION ALL SELECT n + 1 FROM many) SELECT {} FROM many"
SCHEMAS = [
    "CREATE TRIGGER lost AFTER INSERT ON s2ix_step BEGIN DELETE FROM s2ix_step WHERE id = new.id; END",
    "CREATE TRIGGER wrong AFTER UPDATE ON s2ix_state BEGIN UPDATE s2ix_step SET seal = 0; END",
    f"DROP TABLE s2ix_state; CREATE VIEW s2ix_state AS {ENDLESS.format('n, n, n, n, n, n, n, n, n, n')}",
    f"DROP TABLE s2ix_saved; CREATE VIEW s2ix_saved AS {ENDLESS.format('n, n, n, n, n, n')}",
    "CREATE TABLE s2ix_mine (a)",
    "CREATE TABLE S2IX_mine (a)",
    "CREATE INDEX by_time ON s2ix_step (time)",
    "DROP INDEX s2ix_who",
    "DROP TABLE s2ix_cell",
    "ALTER TABLE s2ix_step ADD COLUMN more",
    "PRAGMA application_id = 7",
]


def check_schemas(count, folder):
    """Tables of another kind, and files of other programs: they are refused at once, and stay as they are."""
    for place, words in enumerate(SCHEMAS):
        path = f"{folder}/schema{place}.db"
        with Durable(path) as index:
            index.add(FACE, 1)
        hand = sqlite3.connect(path)
        hand.executescript(words)
        hand.close()
        before = bytes_at(path)
        start = time.monotonic()
        found = [outcome_of(Durable, path, read_only=read_only) for read_only in (True, False)]
        count.expect(f"refused: {words}", (found, time.monotonic() - start < 2, bytes_at(path) == before), (["Spoilt"] * 2, True, True))
    path = f"{folder}/mine.db"
    with Durable(path) as index:
        hand = sqlite3.connect(path)
        hand.executescript("CREATE TABLE mine (a); CREATE INDEX more ON mine (a); CREATE VIEW seen AS SELECT a FROM mine; ANALYZE")
        hand.close()
        index.add(FACE, 1)
    with Durable(path) as index:
        count.expect("tables of a caller's own", (index.add(FACE, 2), in_file(path) == shown(index)), (1, True))
    path = f"{folder}/later.db"
    Durable(path).close()
    for mode in ("WAL", "DELETE"):
        hand = sqlite3.connect(path)
        hand.executescript(f"PRAGMA user_version = 3; PRAGMA journal_mode = {mode}; CREATE TABLE IF NOT EXISTS later (a)")
        hand.close()
        before = bytes_at(path)
        found = [outcome_of(Durable, path, read_only=read_only) for read_only in (True, False)]
        count.expect(f"a later form in the mode {mode}", (found, bytes_at(path) == before), (["LaterForm"] * 2, True))
        count.expect("what is said of it", "later version of s2ix" in words_of(Durable, path), True)
    path = f"{folder}/empty.db"
    for words, given in (("one byte", b"\0"), ("a page of nothing", bytes(4096)), ("text", b"zones\n" * 300)):
        with open(path, "wb") as file:
            file.write(given)
        found = outcome_of(Durable, path), outcome_of(Durable, path, read_only=True)
        count.expect(f"a file of {words}", (found, open(path, "rb").read() == given), (("Spoilt", "Spoilt"), True))
    os.unlink(path)
    hand = sqlite3.connect(path)
    hand.executescript("CREATE TABLE a (b); DROP TABLE a")
    hand.close()
    before = bytes_at(path)
    count.expect("an empty database of another program", (outcome_of(Durable, path), bytes_at(path) == before), ("Spoilt", True))
    open(path, "w").close()
    with Durable(path) as index:
        count.expect("an empty file", index.add(FACE, 1), 1)
    whole = bytearray(bytes_at(path))
    whole[104] = 0
    with open(path, "wb") as file:
        file.write(whole)
    count.expect("no tables on the first page", (outcome_of(Durable, path), open(path, "rb").read() == whole), ("Spoilt", True))
    for is_there in (True, False):
        with open(path, "w"), open(f"{path}-wal", "wb") as file:
            file.write(b"a log of steps")
        if not is_there:
            os.unlink(path)
        found = outcome_of(Durable, path), os.path.getsize(f"{path}-wal"), os.path.exists(path)
        count.expect("a log without its file", found, ("Spoilt", 14, is_there))


def make_form_1(path):
    """A file as s2ix 1.1.0 wrote it: three changes stand, one is undone, and a fifth was forgotten with its dump."""
    def seal(given):
        return zlib.crc32(ascii(given).encode("ascii"))

    hand = sqlite3.connect(path, isolation_level=None)
    hand.execute("PRAGMA journal_mode = WAL")
    hand.execute("CREATE TABLE state (version, start, last, many, standing, pairs, copies, changes, seal)")
    hand.execute("CREATE TABLE dump (text TEXT, seal INTEGER)")
    hand.execute("CREATE TABLE change (id INTEGER PRIMARY KEY, time TEXT, note TEXT, journal TEXT, seal INTEGER, undone INTEGER)")
    hand.execute(f"PRAGMA application_id = {0x53324958}")
    hand.execute("PRAGMA user_version = 1")
    dump = "s2ix 2\n1 9 1\nend 1 1\n"
    hand.execute("INSERT INTO dump VALUES (?, ?)", (dump, seal((dump,))))
    for label in range(2, 6):
        row = label, f"2026-11-28T10:00:0{label}.000000+00:00", "n\u00e9e" if label == 3 else None, f"s2ix-journal 2\nchange 1\n1 {label} 0 1\nend 1\n"
        hand.execute("INSERT INTO change VALUES (?, ?, ?, ?, ?, ?)", (*row, seal(row), int(label == 5)))
    state = 77, 33, 6, 4, 3, 50, 9, 600
    hand.execute("INSERT INTO state VALUES (?, ?, ?, ?, ?, ?, ?, ?, ?)", (*state, seal(state)))
    hand.close()


def check_form_1(count, folder):
    """A file of form 1 is read as it is, and taken over by who writes; a spoilt one stays as it is."""
    path = f"{folder}/form1.db"
    make_form_1(path)
    before = bytes_at(path)
    with Durable(path, read_only=True) as follower:
        kept = shown(follower), follower.log()
        says = [(each.id, each.note, each.is_undone, each.kind, each.of) for each in kept[1]]
        wanted = [(2, None, False, "change", None), (3, "n\u00e9e", False, "change", None), (4, None, False, "change", None),
                  (5, None, True, "change", None), (7, None, False, "undo", 5)]
        count.expect("form 1", (says, kept[0][0]), (wanted, "s2ix 2\n1 2 1\n1 3 1\n1 4 1\n1 9 1\nend 4 4\n"))
        count.expect("what its log tells", ([each.id for each in follower.log(label=5)], follower.entries(7)[0].before, len(follower.as_of(3))), ([5, 7], 1, 3))
        count.expect("form 1 that is only read", bytes_at(path) == before, True)
        count.expect("form 1 under other limits", (outcome_of(Durable, path, pairs=51), bytes_at(path) == before), ("NoLimits", True))
        with Durable(path, pairs=50) as index:
            count.expect("form 1 taken over", (shown(index), index.log()), kept)
            count.expect("its follower", (follower.refresh(), shown(follower), follower.log()), (False, *kept))
            count.expect("steps then", (index.redo(), index.undo(), index.add(FACE, 8), index.log()[-1].id), (1, 1, 1, 10))
            moments = [outcome_of(lambda number=number: index.as_of(number).copies()) for number in range(11)]
            count.expect("its moments", moments, ["NoSuchChange"] + [1, 2, 3, 4, 5, 5, 4, 5, 4, 5])
            count.expect("its follower after steps", (follower.refresh(), shown(follower)), (True, shown(index)))
            kept = shown(index)
    count.expect("form 1 opened again", (in_file(path), outcome_of(Durable(path).undo)), (kept, 1))
    for words, row in (("UPDATE change SET note = 'x' WHERE id = 4", 4), ("UPDATE state SET last = 9", 0), ("DELETE FROM change WHERE id = 3", 0),
                       ("UPDATE dump SET text = ''", 0), ("CREATE TABLE mine (a)", 0)):
        path = f"{folder}/form1 spoilt.db"
        make_form_1(path)
        hand = sqlite3.connect(path, isolation_level=None)
        hand.execute(words)
        hand.close()
        before = bytes_at(path)
        try:
            found = outcome_of(lambda: Durable(path).close(), )
            Durable(path)
        except Spoilt as refusal:
            found = refusal.row
        count.expect(f"form 1 spoilt by {words}", (found, bytes_at(path) == before), (row, True))
        os.unlink(path)


def check_all(count, folder):
    """All of them, in a folder of their own. Returns how many pages and bytes there were."""
    folder = f"{folder}/spoilt"
    os.mkdir(folder)
    for check in (check_spoilt, check_gone, check_seals, check_logs_bytes, check_schemas, check_form_1):
        check(count, folder)
    return check_pages(count, folder), check_bytes(count, folder)
