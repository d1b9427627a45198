"""The form of an index's file, as docs/DURABLE.md describes it: its tables, rows and seals, and what is wrong with a file."""
from __future__ import annotations

import os
import re
import zlib
from typing import Iterable, NamedTuple, Optional, Sequence, Union

from s2ix.refusals import S2ixError

# (a call of a class of named tuples takes longer)
_new = tuple.__new__

#: How many pairs, copies of each, and changes an index may have.
Limits = tuple[int, int, int]

#: The application id of the file, and the form of its tables.
MARK, FORM = 0x53324958, 2

EMPTY = "s2ix 2\nend 0 0\n"
HEAD = "s2ix-journal 2\n"

TABLES = {
    "s2ix_cell": "CREATE TABLE s2ix_cell (cell INTEGER, step INTEGER, PRIMARY KEY (cell, step)) WITHOUT ROWID",
    "s2ix_label": "CREATE TABLE s2ix_label (label INTEGER, step INTEGER, PRIMARY KEY (label, step)) WITHOUT ROWID",
    "s2ix_saved": (
        "CREATE TABLE s2ix_saved (step INTEGER PRIMARY KEY, tip INTEGER, standing TEXT, undone TEXT, changes INTEGER, dump TEXT, "
        "seal INTEGER)"
    ),
    "s2ix_state": (
        "CREATE TABLE s2ix_state (version INTEGER, last INTEGER, tip INTEGER, saved INTEGER, listed INTEGER, listed_sum INTEGER, "
        "pairs INTEGER, copies INTEGER, changes INTEGER, seal INTEGER)"
    ),
    "s2ix_step": (
        "CREATE TABLE s2ix_step (id INTEGER PRIMARY KEY, time INTEGER, who TEXT, note TEXT, kind TEXT, of_step INTEGER, change TEXT, "
        "seal INTEGER)"
    ),
}
#: The indexes of SQL, each over s2ix_step.
INDEXES = {
    "s2ix_of": "CREATE INDEX s2ix_of ON s2ix_step (of_step) WHERE of_step IS NOT NULL",
    "s2ix_who": "CREATE INDEX s2ix_who ON s2ix_step (who) WHERE who IS NOT NULL",
}
#: What `sqlite_master` has of the tables of an index, by name.
SCHEMA = sorted(
    [(b"table", name.encode(), name.encode(), words.encode()) for name, words in TABLES.items()]
    + [(b"index", name.encode(), b"s2ix_step", words.encode()) for name, words in INDEXES.items()],
    key=lambda row: row[1],
)
#: The kinds of steps that change no count by themselves; those that take back or repeat an earlier change; and all kinds whose own change
#: can't be undone.
QUIET = "join", "forget", "forget_older", "compact"
MOVES = "undo", "redo"
LAST = *QUIET, *MOVES, "clear"


# Why a step is not kept that was made of what the file doesn't hold any more.
STALE = "another process has written to the file, so refresh the index"


class NotKept(S2ixError):
    """the file doesn't keep the step, so nothing has changed"""

    def __init__(self, why: object = "") -> None:
        super().__init__(f"{self.__doc__}: {why}")


class Spoilt(S2ixError):
    """the file is spoilt. `row` is the id of the first step that is wrong, or 0 if what it starts from is"""

    def __init__(self, row: int = 0, why: object = "") -> None:
        super().__init__(f"the file is spoilt: {f'step {row}' if row else 'its start'}: {why}")
        self.row = row


class LaterForm(S2ixError):
    """a later version of s2ix wrote the file. `form` is the form of its tables"""

    def __init__(self, form: int = 0) -> None:
        super().__init__(f"a later version of s2ix wrote the file: it is of form {form}, and this version reads forms up to {FORM}")
        self.form = form


class State(NamedTuple):
    """The row of `s2ix_state` without its seal."""

    version: int = -1
    last: int = 0
    tip: int = 0
    saved: int = 0
    listed: int = 0
    listed_sum: int = 0
    pairs: int = 0
    copies: int = 0
    changes: int = 0

    def limits(self) -> Limits:
        """How many pairs, copies of each and changes the index may have."""
        return self.pairs, self.copies, self.changes

    def sealed(self) -> tuple[int, ...]:
        """The row with its seal."""
        # (as `seal_of`, but each step has one)
        return (*self, zlib.crc32(b"%d\x1f%d\x1f%d\x1f%d\x1f%d\x1f%d\x1f%d\x1f%d\x1f%d\x1f" % self))


class Step(NamedTuple):
    """A row of `s2ix_step`. Its time is in microseconds since 1970; its change has its lines in a journal."""

    id: int
    time: int
    who: Optional[str]
    note: Optional[str]
    kind: str
    of_step: Optional[int] = None
    change: Optional[str] = None
    seal: int = 0


def step_after(
    before: int, id: int, time: int, who: Optional[str], note: Optional[str], kind: str, of_step: Optional[int], change: Optional[str]
) -> Step:
    """A step with its seal, which goes on from another."""
    # (as `seal_of`, but each step has one)
    text = (
        f"{id}\x1f{time}\x1f{'' if who is None else f'={who}'}\x1f{'' if note is None else f'={note}'}\x1f={kind}\x1f"
        f"{'' if of_step is None else of_step}\x1f{'' if change is None else f'={change}'}\x1f"
    )
    return _new(Step, (id, time, who, note, kind, of_step, change, zlib.crc32(text.encode(), before)))


class Saved(NamedTuple):
    """A row of `s2ix_saved`: the state after a step."""

    step: int
    tip: int
    standing: str
    undone: str
    changes: int
    dump: str
    seal: int = 0

    def sealed(self) -> Saved:
        """The row with its seal in place of the one that it has."""
        return self._replace(seal=seal_of(self[:-1]))


#: A step whose change can be redone, and that change.
Undone = tuple[int, str]


class Noted(NamedTuple):
    """What is noted of a file: its state; the steps whose changes can be undone, so many of a list, which may have other ids behind them;
    those whose changes can be redone, the next one last; how many bytes of steps have come since the last saved state, and its own; the
    steps that aren't listed yet, of a list that may have others behind them, and their bytes; and the time of the last step."""

    state: State = State()
    standing: list[int] = []
    many: int = 0
    undone: list[Undone] = []
    since: int = 0
    size: int = 0
    unlisted: list[Step] = []
    waiting: int = 0
    time: int = 0

    def with_unlisted(self, steps: list[Step]) -> list[Step]:
        """The steps that aren't listed, and others after them. What is noted stays."""
        self.unlisted[self.state.last - self.state.listed :] = steps
        return self.unlisted


def seal_of(values: Iterable[Union[int, str, None]], before: int = 0) -> int:
    """A number that shows whether a row is as it was written, and what it follows."""
    texts = ["" if each is None else f"={each}" if isinstance(each, str) else str(each) for each in values]
    return zlib.crc32("\x1f".join([*texts, ""]).encode(), before)


def new_version() -> int:
    """A number that no other transaction has. SQLite writes it in 8 bytes, the highest first."""
    return int.from_bytes(os.urandom(8), "big") >> 3 | 1 << 61


def runs_of(ids: Iterable[int]) -> str:
    """Ids as a text, in which `4-7` stands for 4 5 6 7."""
    runs: list[list[int]] = []
    for each in ids:
        if runs and each == runs[-1][1] + 1:
            runs[-1][1] = each
        else:
            runs.append([each, each])
    return " ".join(f"{first}" if first == last else f"{first}-{last}" for first, last in runs)


_RUNS = re.compile(r"(?:[0-9]{1,19}(?:-[0-9]{1,19})?(?: (?!$)|$))*")


def ids_in(runs: str, most: int) -> list[int]:
    """The ids of such a text, at most so many; or ValueError."""
    if not _RUNS.fullmatch(runs):
        raise ValueError("no list of steps")
    ids: list[int] = []
    for run in runs.split():
        first, _, last = run.partition("-")
        many = range(int(first), int(last or first) + 1)
        if len(ids) + len(many) > most:
            raise ValueError("too many steps")
        ids.extend(many)
    return ids


def touched(change: str) -> tuple[set[int], set[int]]:
    """The labels and the cells of a change, as the tables of them have these."""
    words = change.split()
    if len(words) == 6:
        # (most changes are of one pair)
        cell = int(words[2].ljust(16, "0"), 16)
        return {int(words[3])}, {cell - (cell >> 63 << 64)}
    cells = {int(token.ljust(16, "0"), 16) for token in words[2::4]}
    return {int(label) for label in words[3::4]}, {cell - (cell >> 63 << 64) for cell in cells}


def inverse_of(change: str) -> str:
    """What takes a change back."""
    head, *lines = change.splitlines()
    parts = (line.split(" ") for line in lines)
    return "".join([f"{head}\n", *(f"{token} {label} {after} {before}\n" for token, label, before, after in parts)])


#: What is to be written: a statement of SQL, and the rows that it is run with.
Write = tuple[str, Sequence[tuple[object, ...]]]

PUT_STATE = (
    "UPDATE s2ix_state SET version = ?, last = ?, tip = ?, saved = ?, listed = ?, listed_sum = ?, pairs = ?, copies = ?, changes = ?, "
    "seal = ? WHERE version = ?"
)
PUT_STEP = "INSERT INTO s2ix_step VALUES (?, ?, ?, ?, ?, ?, ?, ?)"
PUT_SAVED = "INSERT INTO s2ix_saved VALUES (?, ?, ?, ?, ?, ?, ?)"
_PUT_LABEL, _PUT_CELL = "INSERT INTO s2ix_label VALUES (?, ?)", "INSERT INTO s2ix_cell VALUES (?, ?)"
# A prime below 2^16, by which the number of a listed row is made.
_PRIME = 65_521
#: The sum of the numbers of the rows that list what steps after one changed.
LISTED_SUM = " + ".join(
    f"(SELECT coalesce(sum((abs({name} % {_PRIME}) + 1) * (step % {_PRIME} + 1)), 0) FROM s2ix_{name} WHERE step > ?1)"
    for name in ("label", "cell")
)


def listing_of(steps: Iterable[Step], labels: Iterable[tuple[int, int]] = ()) -> tuple[list[Write], int]:
    """What lists the labels and the cells of what steps changed, and other labels with their steps; and the sum of the rows' numbers."""
    rows: tuple[list[tuple[int, int]], list[tuple[int, int]]] = [*labels], []
    for step in steps:
        if step.change is not None and step.kind != "join":
            for listed, touches in zip(rows, touched(step.change)):
                listed += [(each, step.id) for each in touches]
    # (they rise, so that rows come in the order of their tables)
    writes: list[Write] = [(statement, sorted(listed)) for statement, listed in zip((_PUT_LABEL, _PUT_CELL), rows) if listed]
    return writes, sum((abs(each) % _PRIME + 1) * (step % _PRIME + 1) for listed in rows for each, step in listed)


def shortening_writes(saved: Saved) -> list[Write]:
    """What takes the steps up to a saved state from the log, which goes on from it."""
    places = ("s2ix_step", "id"), ("s2ix_label", "step"), ("s2ix_cell", "step"), ("s2ix_saved", "step")
    writes: list[Write] = [(f"DELETE FROM {table} WHERE {column} <= ?", [(saved.step,)]) for table, column in places]
    return [*writes, (PUT_SAVED, [saved])]
