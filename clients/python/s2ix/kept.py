"""How the steps of an index come into its file, and how it follows those that others made there."""
from __future__ import annotations

import time
import zlib
from functools import partial
from typing import NamedTuple, Optional, Sequence

from s2ix.apart import Apart
from s2ix.book import Start, is_change
from s2ix.form import (
    HEAD, PUT_SAVED, PUT_STEP, NotKept, Noted, Saved, Spoilt, State, Step, Undone, Write, listing_of, runs_of,
    shortening_writes, step_after,
)
from s2ix.index import Index
from s2ix.index_file import Found, IndexFile
from s2ix.refusals import Closed, NoDump, NoJournal, NoLimits, OutOfMemory, S2ixError
from s2ix.rows import text_of as text_in

_END = "end 1\n"
# How many bytes a step counts for beside its change; how many bytes of steps there are at least between two saved states, and for each
# change that can be undone; and how many bytes of them wait at most until their labels and cells are listed, since that costs less for many
# steps at once.
_OF_A_STEP, _FEW_BYTES, _OF_A_CHANGE, _MOST_WAITING = 32, 65_536, 4, 32_768


# (a call of a class of named tuples takes longer)
_new = tuple.__new__


class Cut(NamedTuple):
    """Where the log is made shorter: the state from which it goes on, and the sum of the listed rows of later steps."""

    start: Saved
    listed_sum: int


class Words(NamedTuple):
    """What a caller says of a step: the note, and who makes it."""

    note: Optional[str] = None
    who: Optional[str] = None


class Edit(NamedTuple):
    """An edit: its kind, what is said of it, the step that it is about, how many changes it may make, and the label whose note is kept if
    nothing changes."""

    kind: str
    words: Words
    of: Optional[int]
    room: int
    label: Optional[int]


def text_of(text: Optional[str], name: str) -> Optional[str]:
    """A text as it will come back from the file."""
    if text is None or type(text) is str:
        return text
    if not isinstance(text, str):
        raise TypeError(f"{name} is a str, not {type(text).__name__}")
    return str.__str__(text)


class Kept(Apart):
    """An index that is in a file, whose steps are kept there, or taken back."""

    __slots__ = ("_file", "_is_in_doubt", "_who")

    _file: IndexFile
    # Whether the file may have a step that isn't noted.
    _is_in_doubt: bool
    # Who makes a step that doesn't say so.
    _who: Optional[str]

    def _shut(self) -> None:
        super()._shut()
        self._file.close()

    # What others did.

    def refresh(self) -> bool:
        """Brings the index up to what the file holds now, and returns whether that is something new: it makes the steps that were made
        there, and costs what these do; or what opening does if another compacted the file beyond what is known here. Raises Closed,
        sqlite3.Error if the file can't be read, Spoilt and OutOfMemory. The index is closed after OutOfMemory, and after Spoilt it may be
        if a step isn't as it was made though its seal is."""
        return self._in_turn(self._refresh)

    def _refresh(self) -> bool:
        self._done()
        self._expect_no_group()
        found = self._file.read()
        if found is None:
            return False
        self._whole(partial(self._take_news, found), lambda _: self._shut())
        return found.start is not None or bool(found.steps)

    def _settle(self) -> None:
        """If the file may have a step that isn't noted, brings memory up to what it holds."""
        if self._file.is_closed():
            self._shut()
        elif self._is_in_doubt and self._is_open():
            found = self._file.read()
            if found is not None:
                self._take_news(found)
            self._is_in_doubt = False

    def _take_news(self, found: Found) -> None:
        """Goes in memory to what the file holds, and notes it."""
        noted = self._file.noted
        unlisted, waiting = _unlisted(noted, found)
        if found.start is not None:
            noted = self._started(found.start, found.state)
        noted = self._followed(noted, found.steps)
        if found.saved is not None:
            since = sum(_weight(step) for step in found.steps if step.id > found.saved.step)
            noted = noted._replace(since=since, size=_size(found.saved))
        self._file.noted = noted._replace(state=found.state, unlisted=unlisted, waiting=waiting, time=found.time)

    def _started(self, start: Start, state: State) -> Noted:
        """Goes in memory to a saved state."""
        saved, limits = start.saved, state.limits()
        _expect_changes(start.standing, start.done)
        _expect_changes(start.undone, start.redoable)
        try:
            self._edited(self._lead, "s2ix_resume", saved.dump.encode(), _journal_of(start.done).encode(), *limits)
        except (NoDump, NoLimits) as refusal:
            raise Spoilt(0, refusal) from refusal
        except (Closed, OutOfMemory):
            raise
        except S2ixError as refusal:
            raise _spoilt_by(refusal, start.standing, start.done) from refusal
        self._do(start.undone, start.redoable)
        for _ in start.undone:
            super().undo()
        undone = [*zip(start.undone, start.redoable)]
        return Noted(state, start.standing, len(start.standing), undone[::-1], 0, _size(saved))

    def _followed(self, noted: Noted, steps: list[Step]) -> Noted:
        """Makes some steps in memory. What is noted doesn't change meanwhile."""
        place = 0
        while place < len(steps):
            many = place
            while many < len(steps) and is_change(steps[many].kind) and steps[many].change is not None:
                many += 1
            if many > place:
                noted = self._made_again(noted, steps[place:many])
            else:
                many += 1
                noted = self._moved(noted, steps[place])
            place = many
        return noted._replace(since=noted.since + sum(map(_weight, steps)))

    def _made_again(self, noted: Noted, steps: list[Step]) -> Noted:
        """Makes changes that others made."""
        self._do([step.id for step in steps], [step.change or "" for step in steps])
        noted.standing[noted.many :] = [step.id for step in steps]
        return noted._replace(many=len(noted.standing), undone=[])

    def _moved(self, noted: Noted, step: Step) -> Noted:
        """Makes a step in memory that is no change to be undone."""
        standing, many, undone = noted.standing, noted.many, noted.undone
        try:
            if step.kind == "undo" and many and standing[many - 1] == step.of_step:
                undone = [*undone, (standing[many - 1], self._last_change(many))]
                super().undo()
                return noted._replace(many=many - 1, undone=undone)
            if step.kind == "redo" and undone and undone[-1][0] == step.of_step:
                super().redo()
                standing[many:] = [undone[-1][0]]
                return noted._replace(many=many + 1, undone=undone[:-1])
            if step.kind == "join":
                return self._joined(noted, step)
            if step.kind in ("forget", "clear"):
                super().forget() if step.kind == "forget" else super().clear()
                return noted._replace(standing=[], many=0, undone=[])
            if step.kind == "forget_older":
                return self._forgot(noted, standing.index(step.of_step or 0, 0, many) + 1)
            if step.kind == "compact":
                return noted._replace(undone=undone_after(undone, step.of_step or 0))
            if step.change is None and is_change(step.kind):
                return noted._replace(undone=[]) if step.kind == "group" else noted
        except (ValueError, S2ixError) as wrong:
            if isinstance(wrong, (Closed, OutOfMemory)):
                raise
            raise Spoilt(step.id, wrong) from wrong
        raise Spoilt(step.id, f"nothing can be done by {step.kind} then")

    def _joined(self, noted: Noted, step: Step) -> Noted:
        keep = noted.standing.index(step.of_step or 0, 0, noted.many)
        made = super().join(noted.many - keep)
        if (made > 0) != (step.change is not None):
            raise Spoilt(step.id, "it joins other changes")
        standing = [*noted.standing[:keep], *([step.id] if made else [])]
        return noted._replace(standing=standing, many=len(standing))

    def _forgot(self, noted: Noted, many: int) -> Noted:
        """Forgets so many of the oldest changes."""
        standing = noted.standing[many : noted.many]
        super().forget_older(len(standing))
        return noted._replace(standing=standing, many=len(standing))

    def _do(self, ids: list[int], changes: list[str]) -> None:
        """Does changes of some steps, or tells which of them is wrong."""
        if not changes:
            return
        _expect_changes(ids, changes)
        try:
            super().apply(_journal_of(changes))
        except (Closed, OutOfMemory):
            raise
        except S2ixError as refusal:
            raise _spoilt_by(refusal, ids, changes) from refusal

    def _last_change(self, done: int) -> str:
        """The lines of the last of so many changes within a journal."""
        return Index.journal(self, done)[len(HEAD) : -len(_END)]

    def _changes_after(self, many: int) -> list[str]:
        """The lines of each change after so many of the first."""
        text = self._listed(self._calls.s2ix_journal_from, 1, text_in, many + 1)
        if text.endswith(_END):
            return [text[len(HEAD) : -len(_END)]]
        _, *changes = text[: text.rindex("end ")].split("change ")
        return [f"change {lines}" for lines in changes]

    # How steps are kept.

    def _whose(self, note: Optional[str], who: Optional[str]) -> Words:
        """What is noted of a step."""
        return Words(text_of(note, "a note"), self._who if who is None else text_of(who, "who"))

    def _put(
        self, kind: str, words: Words, changes: Sequence[Optional[str]], standing: list[int], many: int, undone: list[Undone], *,
        of: Optional[int] = None, dump: Optional[str] = None, label: Optional[int] = None, cut: Optional[Cut] = None,
    ) -> None:
        """Makes steps of some changes one transaction, with what can be undone and redone then; after it these are noted. Given a dump, the
        state is saved too, and else if it's time for that. A label is listed with the last step. With a cut the log goes on from there. If
        the file refuses it, it is as it was, and NotKept is raised."""
        noted = self._file.noted
        _, last, tip, saved, listed, listed_sum, pairs, copies, most = noted.state
        steps, weight, made = [], 0, max(time.time_ns() // 1000, noted.time)
        for change in changes:
            last += 1
            step = step_after(tip, last, made, words.who, words.note, kind, of, change)
            steps.append(step)
            tip, weight = step.seal, weight + _weight(step)
        writes: list[Write] = [(PUT_STEP, steps)]
        unlisted, since, waiting, size = noted.with_unlisted(steps), noted.since + weight, noted.waiting + weight, noted.size
        # (without a step the state may be saved already)
        if dump is not None or steps and since > max(2 * size, _FEW_BYTES, _OF_A_CHANGE * many):
            start = self._saved(last, tip, standing[:many], undone, super().dump() if dump is None else dump)
            writes.append((PUT_SAVED, [start]))
            saved, size, since, waiting = start.seal, _size(start), 0, _MOST_WAITING
        if cut is not None:
            writes[:0] = shortening_writes(cut.start)
            unlisted, listed_sum = [step for step in unlisted if step.id > cut.start.step], cut.listed_sum
        if label is not None or waiting >= _MOST_WAITING:
            listing, added = listing_of(unlisted, () if label is None else [(label, last)])
            writes += listing
            listed, listed_sum, unlisted, waiting = last, listed_sum + added, [], 0
        after = _new(State, (next(self._file.versions), last, tip, saved, listed, listed_sum, pairs, copies, most))
        # (without a step the log has no time from now)
        made = made if steps else noted.time
        self._write(writes, _new(Noted, (after, standing, many, undone, since, size, unlisted, waiting, made)))

    def _saved(self, last: int, tip: int, standing: list[int], undone: list[Undone], dump: str) -> Saved:
        """The state after a step, when the newest changes are those that can be undone."""
        text = self._listed(self._calls.s2ix_journal_from, 1, text_in, self._done() - len(standing) + 1)
        changes = [text[len(HEAD) : text.rindex("end ")], *(change for _, change in reversed(undone))]
        ids = runs_of(standing), runs_of(number for number, _ in reversed(undone))
        return Saved(last, tip, *ids, zlib.crc32("".join(changes).encode()), dump).sealed()

    def _write(self, writes: list[Write], noted: Noted) -> None:
        # (unless it is done or refused, the file may have it)
        self._is_in_doubt = True
        try:
            self._file.write(writes, noted)
        except NotKept:
            self._is_in_doubt = False
            raise
        except BaseException:
            if self._file.is_closed():
                self._shut()
            raise
        self._is_in_doubt = False

    def _restore(self, is_over: bool = False) -> None:
        """Brings memory back to what is noted, after a step. `is_over` says that what could be redone may be gone, though no change is left
        of the step."""
        if not self._is_open():
            return
        many, undone = self._file.noted.many, self._file.noted.undone
        is_over = is_over or self._done() > many
        while self._done() > many:
            super().undo()
        while self._done() < many:
            super().redo()
        if is_over and undone:
            self._do([number for number, _ in reversed(undone)], [change for _, change in reversed(undone)])
            for _ in undone:
                super().undo()


def _journal_of(changes: list[str]) -> str:
    return f"{HEAD}{''.join(changes)}end {len(changes)}\n"


def _expect_changes(ids: list[int], changes: list[str]) -> None:
    """Raises Spoilt for the first of some steps that has no lines of one change."""
    # (one look at all of them is quicker, and the library refuses what it leaves)
    if all(changes) and "".join(changes).count("change ") == len(changes):
        return
    for number, change in zip(ids, changes):
        if not change.startswith("change ") or not change.endswith("\n") or change.count("change ") != 1:
            raise Spoilt(number, "it is no change")


def _weight(step: Step) -> int:
    return _OF_A_STEP + len(step.change or "")


def _unlisted(noted: Noted, found: Found) -> tuple[list[Step], int]:
    """The steps that aren't listed in what a file holds, and their bytes."""
    if found.start is None and found.state.listed == noted.state.listed:
        return noted.with_unlisted(found.steps), noted.waiting + sum(map(_weight, found.steps))
    known = found.steps if found.start is not None else noted.with_unlisted(found.steps)
    left = [step for step in known if step.id > found.state.listed]
    return left, sum(map(_weight, left))


def _size(saved: Saved) -> int:
    return len(saved.dump) + len(saved.standing) + len(saved.undone)


def undone_after(undone: list[Undone], last: int) -> list[Undone]:
    """What can be redone once the steps up to one are removed."""
    return [] if any(number <= last for number, _ in undone) else undone


def _spoilt_by(refusal: S2ixError, ids: list[int], changes: list[str]) -> Spoilt:
    """Which of some steps is wrong, as their journal was refused."""
    if isinstance(refusal, NoJournal):
        line = 1
        for number, change in zip(ids, changes):
            line += change.count("\n")
            if refusal.line <= line:
                return Spoilt(number, refusal)
        return Spoilt(0, refusal)
    return Spoilt(ids[refusal.change - 1], refusal)
