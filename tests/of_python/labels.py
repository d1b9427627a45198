"""Labels by the Python package, beside plain counts: labels that get other cells in place of theirs, and what is held of each label.
tests/python_client runs this."""
import random
import sys
import threading

from models import plain_cells as plain
import s2ix
from models.plain_model import Model, differences
from models.random_lines import Writer
from s2ix import Index

FIRST, SECOND, THIRD, FACE = 0x0400000000000000, 0x0C00000000000000, 0x1400000000000000, 0x1000000000000000
STEPS = 300


def outcome_of(call, *given):
    """What a call answers, or the name of what it raises."""
    try:
        return call(*given)
    except Exception as raised:  # noqa: BLE001
        return type(raised).__name__


def shown(index):
    return index.dump(), index.journal(), index.undone_count()


def check_labels(count):
    check_set_label(count)
    check_set_beside(count)
    check_held_labels(count)
    for seed in range(6):
        walk(count, seed)


def check_set_label(count):
    """A label gets other cells by one change; what is refused leaves all as it was, and so what can be redone."""
    with Index(pairs=3, copies=9, changes=3) as index:
        index.add_all([(FIRST, 1, 3), (FACE, 1, 1), (FIRST, 2, 1)])
        index.remove(FIRST, 2)
        index.undo()
        kept = shown(index)
        for name, call, wanted in [
            ("no cell", lambda: index.set_label(1, [FIRST, 2]), "NoCell"),
            ("no token", lambda: index.set_label(1, "x"), "NoCell"),
            ("no label", lambda: [outcome_of(index.set_label, label, FIRST) for label in (-1, 2**31, 2**32 + 1)], ["NoLabel"] * 3),
            ("no label and no cell", lambda: index.set_label(-1, [2]), "NoLabel"),
            ("no cells of a label that is not held", lambda: index.set_label(3, []), "NoSuchLabel"),
            ("what it has", lambda: index.set_label(2, ["04", FIRST]), "NoChange"),
            ("too many pairs", lambda: index.set_label(1, [FIRST, SECOND, THIRD]), "TooManyPairs"),
            ("what is no cells", lambda: [outcome_of(index.set_label, 1, cells) for cells in (None, 1.5, [None], b"04")], ["TypeError"] * 4),
            ("what is no label", lambda: [outcome_of(index.set_label, label, FIRST) for label in (None, 1.5, "1")], ["TypeError"] * 3),
        ]:
            count.expect(f"a label that gets {name}", (outcome_of(call), shown(index)), (wanted, kept))
        count.expect("several copies become one", (index.set_label(1, "04"), index.of_label(1)), (2, [(FIRST, 1, 1)]))
        count.expect("what it was", (index.done_count(), index.undo(), shown(index)[0]), (2, 2, kept[0]))
        count.expect("other cells", (index.set_label(1, [SECOND, THIRD, SECOND]), index.region(1), len(index)), (4, [SECOND, THIRD], 3))
        count.expect("four siblings", (index.set_label(1, ["04", "0c", "14", "1c"]), index.of_label(1)), (3, [(FACE, 1, 1)]))
        count.expect("a full journal", (outcome_of(index.set_label, 1, FIRST), outcome_of(index.set_label, 1, []), index.region(1)), ("JournalFull", "JournalFull", [FACE]))
        index.forget()
        count.expect("no cells", (index.set_label(1, []), index.of_label(1), index.undo(), index.region(1)), (1, [], 1, [FACE]))
        with index.group():
            index.set_label(3, SECOND)
            index.set_label(3, THIRD)
        count.expect("in a group", index.change(1), [(THIRD, 3, 0, 1)])


class Meddled(Index):
    """An index whose label 1 gets a copy of a cell each time that it was read, as from another thread."""

    __slots__ = ()

    def _listed(self, call, *given):
        found = super()._listed(call, *given)
        if given[-1] == 1:
            Index.add(self, FIRST, 1)
        return found


def check_set_beside(count):
    """A label gets other cells while its cells are edited: all is done, or Mismatch is raised and nothing."""
    with Meddled() as index:
        index.add(FIRST, 1)
        count.expect("a pair that changes meanwhile", (outcome_of(index.set_label, 1, SECOND), index.count(FIRST, 1), len(index)), ("Mismatch", 2, 1))
    with Index() as index:
        is_over = threading.Event()

        def edit():
            while not is_over.is_set():
                outcome_of(index.add, FIRST, 1)
                outcome_of(index.remove, FIRST, 1)

        other, before, interval = threading.Thread(target=edit), set(), sys.getswitchinterval()
        sys.setswitchinterval(1e-5)
        other.start()
        try:
            for step in range(STEPS):
                wanted = [{SECOND}, {THIRD}, {SECOND, THIRD}][step % 3]
                found = outcome_of(index.set_label, 1, wanted)
                held = {row.cell for row in index.of_label(1)} - {FIRST}
                count.expect(f"step {step} beside a thread", (found in (1, 2, 3, 4, "Mismatch", "NoChange"), held), (True, before if found == "Mismatch" else wanted))
                before = held
                index.forget()
        finally:
            is_over.set()
            other.join()
            sys.setswitchinterval(interval)


def labels_of(held):
    """The labels that are held, rising, each with its pairs and copies."""
    counts = {label: [copies for (_, each), copies in held.items() if each == label] for _, label in held}
    return [(label, len(counts[label]), sum(counts[label])) for label in sorted(counts)]


def check_held_labels(count):
    """None, one with copies that want more than 32 bits, and more labels than a buffer has room for at first."""
    with Index() as index:
        count.expect("no labels", index.held_labels(), [])
        index.add_all([(FIRST, 2**31 - 1, 2**32 - 1), (SECOND, 2**31 - 1, 2**32 - 1), (FACE, 0, 1)])
        wanted = [s2ix.HeldLabel(label=0, pairs=1, copies=1), s2ix.HeldLabel(2**31 - 1, 2, 2**33 - 2)]
        count.expect("two labels", (index.held_labels(), index.held_labels()[1].copies), (wanted, 2**33 - 2))
        index.add_all([(FACE, label, 1 + label % 3) for label in range(1, 600)])
        count.expect("601 labels", index.held_labels(), labels_of({(row.cell, row.label): row.count for row in index}))


def walk(count, seed):
    """Random labels get random cells, beside plain counts."""
    chance, held = random.Random(seed), {}
    most = chance.choice([8, 1_000_000])
    with Index(pairs=most) as index:
        for step in range(STEPS):
            model = Model(held)
            writer = Writer(chance, model)
            label, cells = chance.randrange(4), [writer.cell() for _ in range(chance.randrange(6))]
            if chance.random() < 0.3:
                rows = [(cell, label, chance.randrange(1, 4)) for cell in cells]
                if isinstance(outcome_of(index.add_all, rows), int):
                    for cell, _, copies in rows:
                        held[cell, label] = held.get((cell, label), 0) + copies
                continue
            if held and chance.random() < 0.2:
                # (what it has already, at times with copies)
                cells = [cell for cell, each in held if each == label]
            after = {pair: copies for pair, copies in held.items() if pair[1] != label} | dict.fromkeys(((cell, label) for cell in plain.normal(cells)), 1)
            changed = differences(held, after)
            wanted = "NoSuchLabel" if not cells and not changed else "NoChange" if not changed else "TooManyPairs" if len(after) > most else len(changed)
            found, before = outcome_of(index.set_label, label, cells), held
            if found == wanted and isinstance(found, int):
                held = after
                count.expect(f"the change of step {step} of walk {seed}", index.change(index.done_count()), [(*pair, *counts) for pair, *counts in changed])
            name = f"step {step} of walk {seed}: label {label} gets {cells}"
            count.expect(name, (found, index.dump().splitlines()), (wanted, Model(held).dump()))
            count.expect(f"what is held of each label after {name}", index.held_labels(), labels_of(held))
            if chance.random() < 0.3 and index.done_count() and held is not before:
                count.expect(f"the undo of {name}", (index.undo(), index.dump().splitlines()), (len(changed), Model(before).dump()))
                held = before
