"""Histories by the Python package: changes that texts lead on, back and again, groups of them, and walks that go on after a dump and a journal.
tests/python_client runs this."""
import os
import pickle
import random
import re
import tempfile

import s2ix
from models.plain_model import Model, differences
from models.random_lines import Writer, start_of
from s2ix import Index

FIRST, SECOND, FACE = 0x0400000000000000, 0x0C00000000000000, 0x1000000000000000
NONE = "s2ix-journal 2\nend 0\n"


def outcome_of(call, *given):
    """What a call answers, or the name of what it raises, with the line or the change, and the entry that are told."""
    try:
        return call(*given)
    except s2ix.S2ixError as refusal:
        place = refusal.line if hasattr(refusal, "line") else refusal.change
        return type(refusal).__name__, place, getattr(refusal, "entry", None)
    except Exception as raised:  # noqa: BLE001
        return type(raised).__name__


def check_histories(count):
    """Changes entry by entry, and texts that are replayed, rewound, resumed and applied."""
    with Index() as index:
        index.add(FIRST, 9, 2)
        before = index.dump()
        index.forget()
        index.add_union(["0c", "04"], 9)
        index.add(FACE, 3)
        after, journal = index.dump(), index.journal()
        count.expect("a change", index.change(1), [s2ix.Entry(FIRST, 9, 2, 3), (SECOND, 9, 0, 1)])
        numbers = [outcome_of(index.change, number) for number in (2, 0, 3, -1, 2**32 + 1)]
        count.expect("changes", numbers, [[(FACE, 3, 0, 1)], *[("NoSuchChange", 0, None)] * 4])
        count.expect("replay", Index.replay(before, journal.encode()).dump(), after)
        count.expect("rewind", (Index.rewind(after, journal).dump(), Index.rewind(after, journal).done_count()), (before, 0))
        again, other = Index.load(after, journal=journal.encode()), Index.load(before)
        count.expect("resume", (again.dump(), again.journal(), again.undone_count()), (after, journal, 0))
        count.expect("undo after it", (again.undo(), again.undo(), again.dump(), outcome_of(again.undo)), (1, 2, before, ("NothingToUndo", 0, None)))
        count.expect("apply", (other.apply(journal), other.dump(), other.journal()), (3, after, journal))
        count.expect("apply of nothing", (other.undo(), other.apply(NONE), other.undone_count(), other.redo()), (1, 0, 1, 1))
    full = Index.load(before, changes=2)
    full.add(FACE, 4)
    for name, call, wanted in [
        ("no dump", lambda: Index.replay("", journal), ("NoDump", 1, None)),
        ("no journal", lambda: Index.rewind(after, before), ("NoJournal", 1, None)),
        ("a mismatch", lambda: Index.rewind(before, journal), ("Mismatch", 2, 1)),
        ("too many copies", lambda: Index.replay(before, journal, copies=2), ("NoJournal", 3, None)),
        ("too many pairs", lambda: Index.replay(before, journal, pairs=2), ("TooManyPairs", 2, None)),
        ("no limits", lambda: Index.replay(before, journal, pairs=0), ("NoLimits", 0, None)),
        ("no dump to go on from", lambda: Index.load("", journal=journal), ("NoDump", 1, None)),
        ("no journal to go on from", lambda: Index.load(after, journal=""), ("NoJournal", 1, None)),
        ("too many changes to go on from", lambda: Index.load(after, changes=1, journal=journal), ("NoJournal", 5, None)),
        ("a journal of another dump", lambda: Index.load(before, journal=journal), ("Mismatch", 2, 1)),
        ("no limits to go on from", lambda: Index.load(after, copies=0, journal=journal), ("NoLimits", 0, None)),
        ("what is no text", lambda: Index.load(after, journal=7), "TypeError"),
        ("no journal to apply", lambda: full.apply(after), ("NoJournal", 1, None)),
        ("a full journal", lambda: full.apply(journal), ("JournalFull", 0, None)),
        ("a mismatch to apply", lambda: Index().apply(journal), ("Mismatch", 1, 1)),
        ("too many pairs to apply", lambda: Index.load(before, pairs=2).apply(journal), ("TooManyPairs", 2, None)),
        ("the refused index", lambda: (full.dump() == before, full.undo(), full.dump()), (False, 1, before)),
        ("too few changes", lambda: [outcome_of(full.join, last) for last in (1, 2**64, -1)], [("TooFewChanges", 0, None)] * 3),
        ("older below 0", lambda: outcome_of(full.forget_older, -1), "ValueError"),
        ("older above all", lambda: (full.redo(), full.forget_older(2**70), full.done_count()), (1, None, 1)),
    ]:
        count.expect(name, outcome_of(call), wanted)
    check_groups(count)
    check_given(count)


def check_groups(count):
    """Groups that become one change, or none, or are undone; and what they refuse."""
    with Index() as index:
        index.add(FACE, 3)
        with index.group():
            index.add(FIRST, 9)
            index.add(SECOND, 9)
            index.remove(SECOND, 9)
            index.add_all([(FIRST, 8, 2)])
        kept = index.dump(), index.journal()
        count.expect("a group", (index.done_count(), index.change(2)), (2, [(FIRST, 8, 0, 2), (FIRST, 9, 0, 1)]))
        count.expect("a group undone", (index.undo(), len(index), index.redo(), index.dump()), (2, 1, 2, kept[0]))
        with index.group():
            pass
        with index.group():
            index.add(SECOND, 4)
            with index.group():
                index.add(SECOND, 5)
                index.remove(SECOND, 5)
            count.expect("a group in a group", index.done_count(), 3)
            count.expect("undo in a group", (index.undo(), outcome_of(index.undo), index.redo()), (1, ("NothingToUndo", 0, None), 1))
            count.expect("join in a group", (outcome_of(index.join, 2), index.join(1)), (("TooFewChanges", 0, None), 1))
            calls = [index.forget, lambda: index.forget_older(1), index.clear, lambda: index.line("undo"), lambda: index.line("\u2003forget")]
            count.expect("refused in a group", [outcome_of(call) for call in calls], ["RuntimeError"] * 5)
            count.expect("a line in a group", index.line("remove 0c 4"), "ok 1\n")
            count.expect("words in a group", [index.line(line) for line in ("# undo", " #forget", "undo 1")], ["", "", "no BadArguments\n"])
        count.expect("groups of nothing", (index.dump(), index.journal()), kept)
        for raised in (KeyError, KeyboardInterrupt, s2ix.NotHeld):
            try:
                with index.group():
                    index.drop_label(9)
                    with index.group():
                        index.add(SECOND, 4)
                    index.remove(FACE, 3, 2) if raised is s2ix.NotHeld else index.grow(3, 1)
                    raise raised
            except raised:
                count.expect(f"a group that ends with {raised.__name__}", (index.dump(), index.journal()), kept)
        count.expect("after groups", (index.line("undo"), index.line("forget")), ("ok 2\n", "ok 0\n"))
        with index.group():
            index.add(SECOND, 4)
        count.expect("a group after a forget", (index.done_count(), index.undo()), (1, 1))


def at_place(call, *given):
    """What a call answers, or the name of what it raises, with the value and the place of what is wrong."""
    try:
        return call(*given)
    except s2ix.S2ixError as refusal:
        return type(refusal).__name__, refusal.value, refusal.place
    except Exception as raised:  # noqa: BLE001
        return type(raised).__name__


def shown(index):
    return index.dump(), index.journal(), index.undone_count()


def check_given(count):
    """Changes that are given by their entries, and what is refused; then all is as it was."""
    entries = [("04", 9, 0, 2), (SECOND, 9, 0, 1), s2ix.Entry(FACE, 3, 0, 1)]
    with Index(pairs=3, copies=9, changes=2) as index:
        count.expect("record", (index.record(iter(entries)), index.change(1), index.done_count()), (3, [(FIRST, 9, 0, 2), *entries[1:]], 1))
        index.undo()
        kept = shown(index)
        first = (FIRST, 9, 0, 1)
        for given, wanted in [
            ([], ("NoChange", None, None)),
            ([first, (2, 9, 0, 1), (2, 9, 0, 1)], ("NoCell", 2, 1)),
            ([first, ("x", 9, 0, 1)], ("NoCell", "x", 1)),
            ([(FIRST, 2**31, 0, 1)], ("NoLabel", 2**31, 0)),
            ([(FIRST, -1, 0, 1)], ("NoLabel", -1, 0)),
            ([(SECOND, 9, 0, 1), first], ("Unsorted", None, 1)),
            ([first, first], ("Unsorted", None, 1)),
            ([first, (FIRST, 8, 0, 1), (2, 9, 0, 1)], ("NoCell", 2, 2)),
            ([first, (SECOND, 9, 1, 1), (FIRST, 9, 0, 1)], ("Unsorted", None, 2)),
            ([first, (SECOND, 9, 1, 1)], ("NoDifference", None, 1)),
            ([first, (SECOND, 9, 1, 2)], ("Mismatch", None, 1)),
            ([(FIRST, 9, 2**32, 1)], ("Mismatch", None, 0)),
            ([first, (SECOND, 9, 0, 2**32)], ("TooManyCopies", 2**32, 1)),
            ([(FIRST, 9, 0, 10)], ("TooManyCopies", None, None)),
            ([(FIRST, label, 0, 1) for label in range(4)], ("TooManyPairs", None, None)),
            ([(FIRST, 9, 0, -1)], "ValueError"),
            ([(FIRST, 9, -1, 1)], "ValueError"),
            *((wrong, "TypeError") for wrong in (None, 7, "abcd", [7], ["abcd"], [(FIRST, 9, 0)], [(FIRST, 9, 0, 1, 1)], [(FIRST, "9", 0, 1)], [(FIRST, 9, 0, 1.5)])),
        ]:
            count.expect(f"record of {given!r}", (at_place(index.record, given), shown(index)), (wanted, kept))
        try:
            index.record([first, (SECOND, 9, 1, 2)])
        except s2ix.Mismatch as refusal:
            count.expect("the entry of a mismatch", (refusal.change, refusal.entry, str(refusal)), (1, 2, "entry 1: another count is held"))
            count.expect("its pickle", str(pickle.loads(pickle.dumps(refusal))), str(refusal))
        for call, given, words in [
            (index.record, [first, (SECOND, 9, 0)], "entry 1 has 3 items, not 4"),
            (index.record, [(FIRST, 9, 0, 1, 1)], "entry 0 has 5 items, not 4"),
            (index.add_all, [("04", 9, 1), ()], "row 1 has 0 items, not 3"),
            (index.remove_all, [(FIRST, 9)], "row 0 has 2 items, not 3"),
        ]:
            try:
                count.expect(words, call(given), "TypeError")
            except TypeError as refusal:
                count.expect("an item of another size", str(refusal), words)
        index.redo()
        index.remove(FACE, 3)
        count.expect("record into a full journal", [at_place(index.record, given) for given in ([first], [])], [("JournalFull", None, None)] * 2)
    check_removed(count)
    check_journals(count)
    check_page(count)
    for seed in range(40):
        walk_between(count, seed)


def check_removed(count):
    """Rows that are removed at once, and what is refused; then all is as it was."""
    with Index(changes=2) as index:
        index.add_all([(FIRST, 9, 3), (SECOND, 9, 1), (FACE, 3, 2**32 - 1)])
        rows = [(SECOND, 9, 1), ("04", 9, 1), (FACE, 3, 0), (FIRST, 9, 1)]
        found = index.remove_all(rows), index.count(FIRST, 9), len(index), index.done_count(), index.undo()
        count.expect("remove_all", found, (2, 1, 2, 2, 2))
        count.expect("remove_all of packed rows", (index.remove_all(index.meet_view(SECOND)), index.undo()), (2, 2))
        kept = shown(index)
        for given, wanted in [
            ([], ("NoChange", None, None)),
            ([(FIRST, 9, 0)], ("NoChange", None, None)),
            ([(FIRST, 9, 1), (2, 9, 1)], ("NoCell", 2, 1)),
            ([("x", 9, 1)], ("NoCell", "x", 0)),
            ([(FIRST, 9, 9), (FIRST, 2**31, 1)], ("NoLabel", 2**31, 1)),
            ([(FIRST, 9, 2), (SECOND, 9, 1), (FIRST, 9, 2), (SECOND, 9, 1)], ("NotHeld", 2, 2)),
            ([(SECOND, 3, 1)], ("NotHeld", 1, 0)),
            ([(FACE, 3, 1), (FACE, 3, 2**32)], ("NotHeld", 2**32, 1)),
            ([(FIRST, 9, -1)], "ValueError"),
            *((wrong, "TypeError") for wrong in (None, 7, "abc", [7], ["abc"], [(FIRST, 9)], [(FIRST, None, 1)])),
        ]:
            count.expect(f"remove_all of {given!r}", (at_place(index.remove_all, given), shown(index)), (wanted, kept))
        try:
            index.remove_all([(FIRST, 9, 4)])
        except s2ix.NotHeld as refusal:
            count.expect("the words of NotHeld", str(refusal), "row 0: too few copies are held")
        index.add(FIRST, 1)
        count.expect("remove_all with a full journal", at_place(index.remove_all, [(FIRST, 1, 2)]), ("JournalFull", None, None))


def check_journals(count):
    """Journals from a change on, for who has done those before it; and what leads from one index to another."""
    with Index() as index, Index() as follower, Index() as closed:
        closed.close()
        for label in range(4):
            index.add_all([(FIRST, label, 1), (SECOND, label, 2)])
            wanted = f"s2ix-journal 2\nchange 2\n04 {label} 0 1\n0c {label} 0 2\nend 1\n"
            count.expect("the last change", (index.journal(label + 1), index.journal(first=label + 2)), (wanted, NONE))
            if label % 2:
                follower.apply(index.journal(follower.done_count() + 1))
                count.expect("who follows", shown(follower), shown(index))
        count.expect("all changes", index.journal(1), index.journal())
        count.expect("no such change", [outcome_of(index.journal, first) for first in (0, 6, -1, 2**32 + 1)], [("NoSuchChange", 0, None)] * 4)
        count.expect("no number", [outcome_of(index.journal, first) for first in ("1", None, 1.5)], ["TypeError"] * 3)
        follower.undo()
        index.add(FACE, 9)
        found = index.difference(follower), index.difference(index), follower.record(follower.difference(index)), follower.dump() == index.dump()
        count.expect("difference", found, ([(FIRST, 3, 1, 0), (SECOND, 3, 2, 0), (FACE, 9, 1, 0)], [], 3, True))
        refused = [outcome_of(index.difference, closed), outcome_of(closed.difference, index), outcome_of(index.difference, None), outcome_of(index.difference, index.dump())]
        count.expect("no difference", refused, [("Closed", 0, None)] * 2 + ["TypeError"] * 2)


def check_page(count):
    """The functions of docs/FROM_PYTHON.md that keep an index and open it again: each time the file has the last index alone."""
    with open(f"{os.path.dirname(os.path.realpath(__file__))}/../../docs/FROM_PYTHON.md", encoding="utf-8") as file:
        lines = re.search(r"## How to keep an index\n\n```python\n(.*?)```", file.read(), re.S)[1]
    words = {"Index": Index}
    exec(lines, words)
    with tempfile.TemporaryDirectory() as folder, Index() as index:
        for label in range(3):
            index.add(FIRST, label)
            index.add(SECOND, 9)
            index.undo()
            words["keep"](index, f"{folder}/zones")
            again = words["reopened"](f"{folder}/zones")
            count.expect("what is kept", (shown(again), os.listdir(folder)), ((*shown(index)[:2], 0), ["zones"]))


def walk_between(count, seed):
    """Two random indexes: the entries from one to the other, and the rows by which one goes down to what is common."""
    chance = random.Random(seed)
    writer = Writer(chance, Model())
    pairs = [(writer.cell(), writer.label()) for _ in range(chance.choice([1, 9, 200]))]
    first, second = ({pair: chance.randrange(1, 5) for pair in pairs if chance.random() < 0.6} for _ in range(2))
    indexes = [Index.load("".join(f"{line}\n" for line in Model(held).dump())) for held in (first, second)]
    wanted = [(*pair, before, after) for pair, before, after in differences(first, second)]
    entries = indexes[0].difference(indexes[1])
    count.expect(f"the difference of walk {seed}", entries, wanted)
    if entries:
        count.expect(f"its record in walk {seed}", (indexes[0].record(entries), indexes[0].dump(), indexes[0].change(1)), (len(entries), indexes[1].dump(), entries))
        indexes[0].undo()
    rows = [(cell, label, 1) for (cell, label), copies in first.items() for _ in range(chance.randrange(copies + 1))]
    chance.shuffle(rows)
    if rows:
        left = dict(first)
        for cell, label, _ in rows:
            left[cell, label] -= 1
        left = {pair: copies for pair, copies in left.items() if copies}
        found = indexes[0].remove_all(rows), indexes[0].dump().splitlines()
        count.expect(f"the removal of walk {seed}", found, (len(differences(first, left)), Model(left).dump()))


def walk_on(count, seed):
    """A script of 300 lines. At one of them the index ends with a dump and a journal, from which another goes on as the first would, but that
    nothing is left to redo."""
    chance = random.Random(seed)
    limits = {"pairs": chance.choice([6, 40, 1_000_000]), "copies": chance.choice([3, 65_535, 4_294_967_295]), "changes": chance.choice([3, 30, 100_000])}
    model = Model({} if seed % 2 else {pair: 1 for pair in start_of(chance)[: limits["pairs"]]}, **limits)
    index = Index.load("".join(f"{line}\n" for line in model.dump()), **limits)
    writer, cut = Writer(chance, model), chance.randrange(300)
    for step in range(300):
        if step == cut:
            with index:
                texts = index.dump(), index.journal()
            index = Index.load(texts[0], journal=texts[1], **limits)
            del model.history[model.cursor + 1 :]
        line = writer.line()
        wanted, _ = model.answer(line)
        count.expect(f"line {step} of script {seed}, cut at {cut}: {line}", index.line(line), "".join(f"{each}\n" for each in wanted))
    index.close()
