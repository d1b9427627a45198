"""A model of the program, written from docs/FORMATS.md alone: it keeps each collection of its history whole, as a dictionary of counts,
and finds each answer the longest way round."""
import re

from models.plain_cells import (
    LEAF_LEVEL, cell_spelled, children_at, common, do_meet, end_of, first_leaf, last_leaf, level_of, neighbors_of, normal, parent_at, positions_of,
    square_of, token_of, without,
)

# What Unicode calls white space.
WHITE_SPACE = re.compile("[\t-\r \x85\xa0\u1680\u2000-\u200a\u2028\u2029\u202f\u205f\u3000]+")
MOST_LABEL, MOST_COPIES, LONGEST_LINE, LEAF_END = 2147483647, 4294967295, 65536, 0xC000000000000001


class Refusal(Exception):
    """What a line is refused for, by its name."""


def number_of(field, name, most, least=0):
    """The script number that a field writes."""
    if not re.fullmatch(rb"[0-9]{1,10}", field) or not least <= int(field) <= most:
        raise Refusal(name)
    return int(field)


def cell_of(field):
    cell = cell_spelled(field)
    if cell is None:
        raise Refusal("BadToken")
    return cell


def label_of(field):
    return number_of(field, "BadLabel", MOST_LABEL)


def copies_of(field):
    return number_of(field, "BadCount", MOST_COPIES, 1)


def level_named(field):
    return number_of(field, "BadLevel", LEAF_LEVEL)


def change_named(field):
    return number_of(field, "BadNumber", 100000, 1)


def fields_of(line):
    """The fields of a line: bytes that are no UTF-8 separate nothing."""
    text = line.decode(errors="surrogateescape")
    return [field.encode(errors="surrogateescape") for field in WHITE_SPACE.split(text) if field]


def differences(first, second):
    """The pairs whose counts differ, rising, each with both counts."""
    return [(pair, first.get(pair, 0), second.get(pair, 0)) for pair in sorted({*first, *second}) if first.get(pair, 0) != second.get(pair, 0)]


def without_change(collections, number):
    """The first of some collections, with what leads from each to the next added up again, but for one such change."""
    changes = [differences(before, after) for before, after in zip(collections, collections[1:])]
    if number > len(changes):
        raise Refusal("NoSuchChange")
    after = dict(collections[0])
    for pair, old, new in sum(changes[: number - 1] + changes[number:], []):
        after[pair] = after.get(pair, 0) + new - old
    if any(count < 0 for count in after.values()):
        raise Refusal("BelowZero")
    return after


def innermost_first(held):
    return sorted(held, key=lambda one: (-level_of(one[0][0]), one[0][1]))


def over_leaf(counts, leaf):
    """The pairs over a leaf with their counts, innermost first."""
    return innermost_first([one for one in counts.items() if first_leaf(one[0][0]) <= leaf <= last_leaf(one[0][0])])


def met_by(counts, target):
    """The pairs that meet a normal union, by the first leaf that they share with it, then innermost first."""
    met = []
    for (cell, label), count in counts.items():
        shared = [max(first_leaf(cell), first_leaf(each)) for each in target if do_meet(cell, each)]
        if shared:
            met.append((min(shared), -level_of(cell), label, (cell, label), count))
    return [one[3:] for one in sorted(met)]


def ranges_of(counts):
    """The ranges of leaves with the same pairs: where each begins and ends, and its pairs."""
    bounds = sorted({1, LEAF_END, *(bound for cell, _ in counts for bound in (first_leaf(cell), end_at(cell)))})
    rows = []
    for start, limit in zip(bounds, bounds[1:]):
        held = over_leaf(counts, start)
        if rows and rows[-1][2] == held:
            rows[-1][1] = limit
        else:
            rows.append([start, limit, held])
    return rows


def end_at(cell):
    return min(end_of(cell), LEAF_END)


def cells_of(counts, label):
    cells = [cell for cell, each in counts if each == label]
    if not cells:
        raise Refusal("NoSuchLabel")
    return cells


def region_of(counts, label):
    return normal([cell for cell, each in counts if each == label])


def border(cells, level):
    """The cells of a level that overlap none of some cells, and share an edge with one of the level that overlaps one."""
    inside = set()
    for cell in cells:
        inside.update(children_at(cell, level) if level_of(cell) < level else [parent_at(cell, level)])
    return {near for cell in inside for near in neighbors_of(cell)} - inside


def grown(counts, label, level):
    cells = cells_of(counts, label)
    if any(level > level_of(cell) + 8 for cell in cells):
        raise Refusal("TooFine")
    return with_copies(counts, label, border(cells, level), 1)


def with_copies(counts, label, cells, copies):
    after = dict(counts)
    for cell in cells:
        after[cell, label] = after.get((cell, label), 0) + copies
    return after


def add(counts, cell, label, copies=1):
    return with_copies(counts, label, [cell], copies)


def remove(counts, cell, label, copies=1):
    if counts.get((cell, label), 0) < copies:
        raise Refusal("NotHeld")
    return with_copies(counts, label, [cell], -copies)


def add_union(counts, label, *cells):
    return with_copies(counts, label, normal(cells), 1)


def drop(counts, label):
    cells_of(counts, label)
    return {pair: count for pair, count in counts.items() if pair[1] != label}


def relabel(counts, source, target):
    cells_of(counts, source)
    after = {pair: count for pair, count in counts.items() if pair[1] != source}
    for (cell, label), count in counts.items():
        if label == source:
            after[cell, target] = after.get((cell, target), 0) + count
    return after


def normalise(counts, label):
    return with_copies(drop(counts, label), label, normal(cells_of(counts, label)), 1)


def listed(items):
    """Each item on a line of its own, and the line that counts them."""
    lines = [str(item) for item in items]
    return [*lines, f"end {len(lines)}"]


def pair_text(one):
    (cell, label), count = one
    return f"{token_of(cell)}:{label}:{count}"


EDITS = {
    "add": (add, [cell_of, label_of], [copies_of]),
    "remove": (remove, [cell_of, label_of], [copies_of]),
    "addunion": (add_union, [label_of], cell_of),
    "drop": (drop, [label_of], []),
    "relabel": (relabel, [label_of, label_of], []),
    "grow": (grown, [label_of, level_named], []),
    "normal": (normalise, [label_of], []),
}


class Model:
    """A history of collections, and the answers to lines over the one at the cursor."""

    def __init__(self, counts=None, pairs=1_000_000, copies=MOST_COPIES, changes=100_000):
        self.history, self.cursor = [counts or {}], 0
        self.pairs, self.copies, self.changes = pairs, copies, changes
        self.words = {name: (lambda *given, edit=edit: self.edit(edit, *given), first, more) for name, (edit, first, more) in EDITS.items()}
        self.words |= {name: (getattr(self, name), [], []) for name in ("undo", "redo", "forget", "ranges", "dump", "journal", "export")}
        self.words |= {name: (getattr(self, name), [cell_of], []) for name in ("at", "path", "neighbors", "face")}
        self.words |= {name: (getattr(self, name), [], cell_of) for name in ("meet", "labels")}
        self.words |= {name: (getattr(self, name), [label_of] * many, []) for name, many in (("region", 1), ("common", 2), ("only", 2))}
        self.words["revert"] = self.revert, [change_named], []

    @property
    def counts(self):
        return self.history[self.cursor]

    def answer(self, line):
        """What a line prints, as a list of lines, and whether it is refused."""
        try:
            return self.carry_out(line), False
        except Refusal as refusal:
            return [f"no {refusal}"], True

    def carry_out(self, line):
        if len(line) > LONGEST_LINE:
            raise Refusal("LineTooLong")
        fields = fields_of(line)
        if not fields or fields[0].startswith(b"#"):
            return []
        word = fields.pop(0).decode(errors="replace")
        if word not in self.words:
            raise Refusal("BadCommand")
        call, first, more = self.words[word]
        if callable(more):
            first, more = [*first, more], [more] * (len(fields) - len(first) - 1)
            given = len(fields) >= len(first)
        else:
            given = len(first) <= len(fields) <= len(first) + len(more)
        if not given:
            raise Refusal("BadArguments")
        return call(*[read(field) for read, field in zip([*first, *more], fields)])

    def edit(self, edit, *given):
        if self.cursor == self.changes:
            raise Refusal("JournalFull")
        after = {pair: count for pair, count in edit(self.counts, *given).items() if count > 0}
        changed = differences(self.counts, after)
        if not changed:
            raise Refusal("NoChange")
        if any(count > self.copies for count in after.values()):
            raise Refusal("TooManyCopies")
        if len(after) > self.pairs:
            raise Refusal("TooManyPairs")
        self.history[self.cursor + 1 :] = [after]
        self.cursor += 1
        return [f"ok {len(changed)}"]

    def revert(self, number):
        return self.edit(lambda _: without_change(self.history[: self.cursor + 1], number))

    def step(self, by, name):
        if not 0 <= self.cursor + by < len(self.history):
            raise Refusal(name)
        before = self.counts
        self.cursor += by
        return [f"ok {len(differences(before, self.counts))}"]

    def undo(self):
        return self.step(-1, "NothingToUndo")

    def redo(self):
        return self.step(1, "NothingToRedo")

    def forget(self):
        self.history, self.cursor = [self.counts], 0
        return ["ok 0"]

    def at(self, cell):
        if level_of(cell) != LEAF_LEVEL:
            raise Refusal("NotLeaf")
        return listed(map(pair_text, over_leaf(self.counts, cell)))

    def meet(self, *cells):
        return listed(map(pair_text, met_by(self.counts, normal(cells))))

    def labels(self, *cells):
        return listed(sorted({label for (_, label), _ in met_by(self.counts, normal(cells))}))

    def ranges(self):
        rows = ranges_of(self.counts)
        return listed(" ".join([f"{start:016x} {limit:016x}", *map(pair_text, held)]) for start, limit, held in rows)

    def region(self, label):
        return listed(map(token_of, region_of(self.counts, label)))

    def common(self, first, second):
        return listed(map(token_of, common(region_of(self.counts, first), region_of(self.counts, second))))

    def only(self, first, second):
        return listed(map(token_of, without(region_of(self.counts, first), region_of(self.counts, second))))

    def path(self, cell):
        return [f"{cell >> 61}/{''.join(map(str, positions_of(cell)))}"]

    def neighbors(self, cell):
        return [" ".join(map(token_of, neighbors_of(cell)))]

    def face(self, cell):
        return [" ".join(map(str, square_of(cell)))]

    def dump(self):
        lines = [f"{token_of(cell)} {label} {count}" for (cell, label), count in sorted(self.counts.items())]
        return ["s2ix 2", *lines, f"end {len(lines)} {sum(self.counts.values())}"]

    def journal(self):
        lines = ["s2ix-journal 2"]
        for before, after in zip(self.history[: self.cursor], self.history[1:]):
            changed = differences(before, after)
            lines.append(f"change {len(changed)}")
            lines += [f"{token_of(cell)} {label} {old} {new}" for (cell, label), old, new in changed]
        return [*lines, f"end {self.cursor}"]

    def export(self):
        pairs = ",".join(f'["{token_of(cell)}",{label},{count}]' for (cell, label), count in sorted(self.counts.items()))
        return [f'{{"pairs":[{pairs}],"version":1}}']

    def run(self, script, stop=False):
        """What a script prints, and whether a line of it is refused."""
        lines = script.split(b"\n")
        printed, is_refused = [], False
        for line in lines if lines[-1] else lines[:-1]:
            answer, refused = self.answer(line)
            printed += answer
            is_refused |= refused
            if stop and refused:
                break
        return "".join(f"{line}\n" for line in printed).encode(), is_refused
