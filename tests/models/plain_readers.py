"""Readers of dumps and journals, written from docs/FORMATS.md alone, to compare the program with."""
import re

from models.plain_cells import cell_spelled, token_of

NUMBER = re.compile(rb"0|[1-9][0-9]*")
MOST_LABEL, MOST_COUNT, MOST_PAIRS, MOST_CHANGES, MOST_ENTRIES = 2147483647, 4294967295, 1000000, 100000, 2000000
# the greatest count below each header
DUMPS = {b"s2ix 1": 65535, b"s2ix 2": MOST_COUNT}
JOURNALS = {b"s2ix-journal 1": 65535, b"s2ix-journal 2": MOST_COUNT}


def cell_of(part):
    """The number of the cell that a canonical token names, or None."""
    if not re.fullmatch(rb"[0-9a-f]{0,15}[1-9a-f]", part):
        return None
    return cell_spelled(part)


def number_of(part, least, most):
    """The number that a part writes without a leading zero, where it is from least to most, or None."""
    if not NUMBER.fullmatch(part) or len(part) > 10:
        return None
    return int(part) if least <= int(part) <= most else None


class Lines:
    """The lines of a text, one after the other; their numbers count from 1."""

    def __init__(self, text):
        *self.lines, self.rest = text.split(b"\n")
        self.number = 0

    def next(self):
        """The next line, or None where the rest of the text has no line feed."""
        self.number += 1
        return self.lines[self.number - 1] if self.number <= len(self.lines) else None

    def trailing(self):
        return bool(self.lines[self.number :]) or self.rest != b""


def pair_fault(parts):
    """The fault of the first two parts of a line, or the pair that they write."""
    cell = cell_of(parts[0])
    if cell is None:
        return "BadToken", None
    label = number_of(parts[1], 0, MOST_LABEL)
    return ("BadLabel", None) if label is None else (None, (cell, label))


def read_dump(text, most_pairs=MOST_PAIRS, most_copies=MOST_COUNT):
    """The pairs and counts of a dump within limits, or its fault and the number of its line."""
    lines, pairs = Lines(text), []
    line = lines.next()
    if line is None:
        return None, ("Truncated", 1)
    if line not in DUMPS:
        return None, ("BadHeader", 1)
    most_written = DUMPS[line]
    while True:
        line = lines.next()
        if line is None:
            return None, ("Truncated", lines.number)
        if line.split(b" ")[0] == b"end":
            if line != b"end %d %d" % (len(pairs), sum(count for _, count in pairs)):
                return None, ("BadEnd", lines.number)
            return (None, ("TrailingBytes", lines.number + 1)) if lines.trailing() else (pairs, None)
        fault, pair = dump_line(line.split(b" "), pairs, most_written, most_pairs, most_copies)
        if fault:
            return None, (fault, lines.number)
        pairs.append(pair)


def dump_line(parts, pairs, most_written, most_pairs, most_copies):
    """The fault of a line of a dump under the pairs above it, or its pair with its count."""
    if len(parts) != 3 or b"" in parts:
        return "BadLine", None
    fault, pair = pair_fault(parts)
    if fault:
        return fault, None
    count = number_of(parts[2], 1, most_written)
    if count is None:
        return "BadCount", None
    if pairs and pair <= pairs[-1][0]:
        return "Unsorted", None
    if count > most_copies:
        return "TooManyCopies", None
    return ("TooManyPairs", None) if len(pairs) == most_pairs else (None, (pair, count))


def read_journal(text):
    """The changes of a journal, each a list of pairs with two counts, or its fault and the number of its line."""
    lines, changes, wanted = Lines(text), [], 0
    line = lines.next()
    if line is None:
        return None, ("Truncated", 1)
    if line not in JOURNALS:
        return None, ("BadHeader", 1)
    most_written = JOURNALS[line]
    while True:
        line = lines.next()
        if line is None:
            return None, ("Truncated", lines.number)
        parts = line.split(b" ")
        if wanted == 0 and parts[0] == b"end":
            if line != b"end %d" % len(changes):
                return None, ("BadEnd", lines.number)
            return (None, ("TrailingBytes", lines.number + 1)) if lines.trailing() else (changes, None)
        if wanted == 0:
            fault, wanted = group_line(parts, changes)
            if not fault:
                changes.append([])
        else:
            fault, entry = entry_line(parts, changes[-1], most_written)
            if not fault:
                changes[-1].append(entry)
                wanted -= 1
        if fault:
            return None, (fault, lines.number)


def group_line(parts, changes):
    """The fault of a line that begins a change, or how many entries it has."""
    if len(parts) != 2 or parts[0] != b"change" or b"" in parts:
        return "BadLine", 0
    wanted = number_of(parts[1], 1, MOST_ENTRIES)
    if wanted is None:
        return "BadCount", 0
    return ("TooManyChanges", 0) if len(changes) == MOST_CHANGES else (None, wanted)


def entry_line(parts, above, most_written):
    """The fault of an entry's line under the entries above it, or its pair with its two counts."""
    if len(parts) != 4 or b"" in parts:
        return "BadLine", None
    fault, pair = pair_fault(parts)
    if fault:
        return fault, None
    before, after = (number_of(part, 0, most_written) for part in parts[2:])
    if before is None or after is None:
        return "BadCount", None
    if before == after:
        return "NoDifference", None
    return ("Unsorted", None) if above and pair <= above[-1][0] else (None, (pair, before, after))


def check(text):
    """What `check` prints of a text."""
    pairs, fault = read_dump(text)
    if fault:
        return b"no %s %d\n" % (fault[0].encode(), fault[1])
    return b"ok %d %d\n" % (len(pairs), sum(count for _, count in pairs))


def loaded(text, most_pairs, most_copies):
    """What a run that loads a text within limits prints of it, where its script is empty."""
    _, fault = read_dump(text, most_pairs, most_copies)
    return b"no %s %d\n" % (fault[0].encode(), fault[1]) if fault else b""


def compared(first, second):
    """What `diff` prints of two texts."""
    held = []
    for text, before in ((first, b""), (second, b"second ")):
        pairs, fault = read_dump(text)
        if fault:
            return b"no %s%s %d\n" % (before, fault[0].encode(), fault[1])
        held.append(dict(pairs))
    old, new = held
    changed = [(pair, old.get(pair, 0), new.get(pair, 0)) for pair in sorted({*old, *new}) if old.get(pair, 0) != new.get(pair, 0)]
    lines = [b"%s %d %d %d\n" % (token_of(cell).encode(), label, before, after) for (cell, label), before, after in changed]
    group = b"change %d\n%s" % (len(lines), b"".join(lines)) if lines else b""
    return b"s2ix-journal 2\n%send %d\n" % (group, bool(lines))


def resumed(dump, journal):
    """What a run that goes on from a dump and the journal that led to it prints of them, where its script is empty."""
    told = moved(dump, journal, True)
    return told if told.startswith(b"no ") else b""


def moved(dump, journal, is_back):
    """What `replay` prints of two texts, or `rewind` where it goes back."""
    pairs, fault = read_dump(dump)
    if fault:
        return b"no %s %d\n" % (fault[0].encode(), fault[1])
    changes, fault = read_journal(journal)
    if fault:
        return b"no journal %s %d\n" % (fault[0].encode(), fault[1])
    counts = dict(pairs)
    numbered = list(enumerate(changes, 1))
    for number, change in reversed(numbered) if is_back else numbered:
        for place, (pair, before, after) in enumerate(change, 1):
            old, new = (after, before) if is_back else (before, after)
            if counts.get(pair, 0) != old:
                return b"no Mismatch %d %d\n" % (number, place)
            counts[pair] = new
    held = sorted((pair, count) for pair, count in counts.items() if count > 0)
    lines = [b"%s %d %d\n" % (token_of(cell).encode(), label, count) for (cell, label), count in held]
    return b"s2ix 2\n%send %d %d\n" % (b"".join(lines), len(held), sum(count for _, count in held))
