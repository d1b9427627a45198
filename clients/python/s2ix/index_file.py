"""The file of an index, which SQLite keeps, with its write-ahead log beside it: opened, read, written and closed."""
from __future__ import annotations

import errno
import os
import shutil
import sqlite3
import sys
import time
import weakref
from contextlib import contextmanager
from functools import lru_cache
from itertools import count
from typing import Any, Callable, Iterator, NamedTuple, Optional, TypeVar

from s2ix import form_1
from s2ix.book import Book, Start
from s2ix.form import (
    EMPTY, FORM, INDEXES, MARK, PUT_STATE, SCHEMA, STALE, TABLES, LaterForm, Limits, NotKept, Noted, Saved, Spoilt, State, Step, Write,
    new_version,
)
from s2ix.place import Place, leak, shut
from s2ix.refusals import Closed, S2ixError

_Made = TypeVar("_Made")
# A file of at most so many pages is looked through when it is opened, a larger one isn't.
_FEW_PAGES = 4096
# How many pages SQLite's log has before they go into the file.
_LOG_PAGES = 2000


class Found(NamedTuple):
    """What a file holds that isn't noted: its state, what to start from unless the noted steps go on, the steps then, the time of the last
    one in the log, and the state that was saved last, if the noted steps go on and it is another than before."""

    state: State
    start: Optional[Start]
    steps: list[Step]
    time: int
    saved: Optional[Saved]


@contextmanager
def naming(path: str) -> Iterator[None]:
    """Puts the file's name in front of what is said of it."""
    try:
        yield
    except (sqlite3.Error, S2ixError) as raised:
        raised.args = (f"{path}: {raised}",)
        raise


@contextmanager
def _telling() -> Iterator[None]:
    """Raises Spoilt where SQLite says that the file is damaged, or no database."""
    try:
        yield
    except UnicodeDecodeError as raised:
        # (the words of an error had bytes of the file in them)
        raise Spoilt(0, raised) from raised
    except sqlite3.DatabaseError as raised:
        # (its other errors are of classes below this one, and so is what it says of a header that no version writes)
        if type(raised) is not sqlite3.DatabaseError and str(raised) != "unsupported file format":
            raise
        raise Spoilt(0, raised) from raised


class IndexFile:
    """A connection of SQLite to the file of an index, which one thread uses at a time. `noted` is what is noted of what the file held when
    it was read or written last.

    SQLite never closes the file in a forked child, where it takes its parent's locks for its own, nor after another file or log has come to
    the path: it would write an old log into the file, and delete the log of who writes now. Since it lets all connections of a process to a
    file share memory and locks, such a process can't open the file again."""

    def __init__(self, path: str, limits: Limits, *, read_only: bool, synchronous: str, timeout: float) -> None:
        self.noted = Noted()
        # The versions of its steps. (None begins where another may: not in a forked child, nor when the file is opened again.)
        self.versions = count(new_version())
        # The version of a step whose COMMIT has neither ended nor been mended.
        self._unsure: Optional[int] = None
        self._reads_only, self._process, self._form = read_only, os.getpid(), FORM
        # Whether a caller has the connection, in a transaction, and what guards it then; and whether the file has begun to close.
        self._is_lent = self._is_ending = False
        self._guard: Optional[Guard] = None
        # Why the connection was given up: a class and its words.
        self._left: Optional[tuple[type[Exception], str]] = None
        self._place = Place(path)
        self._place.expect_openable()
        if read_only:
            self._place.wait_for_file(timeout)
        is_fixed = read_only and self._place.is_read_only()
        self._connect("ro&immutable=1" if is_fixed else "ro" if read_only else "rwc", timeout)
        try:
            with _telling():
                _patiently(timeout, lambda: self._prepare(limits, synchronous))
                _patiently(timeout, lambda: self._see(is_fixed))
                if not read_only:
                    self._write_over_unseen()
        except BaseException:
            self.close()
            raise

    def _connect(self, mode: str, timeout: float) -> None:
        self._connection = sqlite3.connect(
            self._place.address(mode), uri=True, timeout=timeout, isolation_level=None, check_same_thread=False
        )
        self._connection.text_factory = bytes
        # The cursor of all steps: one for each would take longer, and what a step raises would keep its own one open.
        self._cursor = self._connection.cursor()
        self._close = weakref.finalize(self, shut, self._connection, self._cursor, self._place, self._process)
        _OPEN.add(self)
        # The log, and that of a file of form 1 in today's form.
        self._book = Book(self._connection)
        self._old_book: Optional[Book] = None

    def _prepare(self, limits: Limits, synchronous: str) -> None:
        """Makes the tables of a new file, or looks at those that are there, before anything is written."""
        if self._reads_only:
            self._check_form()
            return
        if not self._asked("PRAGMA page_count"):
            self._make(limits)
        self._check_form()
        self._run("PRAGMA journal_mode = WAL")
        self._run(f"PRAGMA synchronous = {synchronous}")
        self._run(f"PRAGMA wal_autocheckpoint = {_LOG_PAGES}")

    def _see(self, is_fixed: bool) -> None:
        """Notes which file and log are there while it reads: until SQLite has the log open, another process that closes it may delete
        it."""
        self._run("BEGIN")
        try:
            self._check_form()
            self._place.see(is_fixed)
        finally:
            self._roll_back()

    def _write_over_unseen(self) -> None:
        """Writes over what the log may have behind the last step that SQLite sees. A writer that was killed in a COMMIT may have left its
        step there, and SQLite would bring it back once all connections are closed and another one opens the log."""
        try:
            if os.path.getsize(self._place.log):
                self._run("BEGIN IMMEDIATE")
                # (SQLite writes this page although nothing in it changes)
                self._run(f"PRAGMA user_version = {self._asked('PRAGMA user_version')}")
                self._run("COMMIT")
        except (OSError, sqlite3.OperationalError):
            # (there is no log, another process writes over it just now, or the disk takes nothing)
            pass
        finally:
            self._roll_back()

    def _make(self, limits: Limits) -> None:
        """Makes the tables if the file is still empty. There is no log yet, so a crash leaves an empty file, or a whole one."""
        self._run("BEGIN IMMEDIATE")
        try:
            if not os.stat(self._place.real).st_size:
                for each in (*TABLES.values(), *INDEXES.values()):
                    self._run(each)
                saved = Saved(0, 0, "", "", 0, EMPTY).sealed()
                form_1.put(self._connection, State(new_version(), 0, 0, saved.seal, 0, 0, *limits), saved)
            self._run("COMMIT")
        finally:
            self._roll_back()

    def _run(self, statement: str, values: tuple[object, ...] = ()) -> sqlite3.Cursor:
        return self._connection.execute(statement, values)

    def _asked(self, question: str, *given: object) -> Any:
        """The first value that the file answers, or None."""
        row = self._run(question, given).fetchone()
        return row and row[0]

    def _roll_back(self) -> None:
        if self._connection.in_transaction:
            self._run("ROLLBACK")

    # Its end.

    def is_closed(self) -> bool:
        """Whether the file is closed, or has begun to close, and is not just given up."""
        return self._left is None and (self._is_ending or not self._close.alive)

    def close(self) -> None:
        """Closes the file. If an interrupt cuts that off, the next call does what is left, or the end of this object."""
        self._is_ending = True
        if self._close.alive:
            shut(self._connection, self._cursor, self._place, self._process)
            self._close.detach()
        if self._left is not None:
            self._left = Closed, str(Closed())

    def leave(self, kind: type[Exception], why: str) -> None:
        """Gives the connection up without closing it. What uses it from now on raises this."""
        if self._close.alive:
            self._left = kind, why
            leak(self._connection, self._place, self._process)
            self._close.detach()

    def leave_in_child(self) -> None:
        """Leaves the file to the parent of this process."""
        self.leave(Closed, "a forked child can't use the file of its parent")

    def expect_writer(self) -> None:
        """Raises NotKept if no step can be kept, and Closed in a forked child."""
        if self._reads_only:
            raise NotKept("the file is open to be read")
        # (each step asks)
        if self._process == os.getpid() and self._left is None and not self._is_ending:
            return
        try:
            self._expect_here()
        except sqlite3.Error as raised:
            raise NotKept(raised) from raised

    def _expect_here(self) -> None:
        """Raises why the connection was given up, if it was."""
        if self._process != os.getpid():
            self.leave_in_child()
        if self._left is not None:
            kind, why = self._left
            raise kind(why)
        if self._is_ending:
            raise Closed

    def _expect_same(self) -> None:
        """Raises sqlite3.OperationalError if who opens the path now doesn't see what this connection writes."""
        why = self._place.fault()
        if why:
            self._roll_back()
            self.leave(sqlite3.OperationalError, why)
            self._expect_here()

    # Reading.

    def read(self) -> Optional[Found]:
        """What the file holds, or None if it has the version that is noted. Raises Closed, sqlite3.Error and Spoilt."""
        return self.reading(self._news)

    def reading(self, ask: Callable[[Book], _Made]) -> _Made:
        """What the log answers at one state of the file. Raises Closed, sqlite3.Error and Spoilt, and what is raised by who asks."""
        self._expect_here()
        if self._is_lent:
            return self._while_lent(ask)
        try:
            self._mend()
            with _telling():
                self._run("BEGIN")
                self._check_form()
                self._expect_same()
                return ask(self._log())
        finally:
            if self._left is None and not self._is_ending:
                self._roll_back()

    def _while_lent(self, ask: Callable[[Book], _Made]) -> _Made:
        """The same by a connection of its own, before a caller's transaction. (Two threads that use one connection may wait for each other
        for ever, since what SQLite asks by its authorizer wants the GIL.)"""
        reader = sqlite3.connect(self._place.address("ro"), uri=True, isolation_level=None, check_same_thread=False)
        reader.text_factory = bytes
        try:
            with _telling():
                reader.execute("BEGIN")
                return ask(Book(reader))
        finally:
            reader.close()

    def _log(self) -> Book:
        """The log in today's form."""
        if self._form == FORM:
            self._old_book = None
            return self._book
        version = form_1.read_state(self._connection).version
        if self._old_book is None or self._old_book.state().version != version:
            copied = sqlite3.connect(":memory:", isolation_level=None, check_same_thread=False)
            copied.text_factory = bytes
            form_1.take_over(self._connection, copied)
            self._old_book = Book(copied)
        return self._old_book

    def _news(self, book: Book) -> Optional[Found]:
        """What the log has that isn't noted. Raises Spoilt."""
        noted = self.noted.state
        is_looked_through = noted.version == -1 and self._asked("PRAGMA page_count") <= _FEW_PAGES
        if is_looked_through:
            self._check_pages()
        state = book.state()
        if is_looked_through and not book.is_listed(state):
            raise Spoilt(0, "its labels or cells are listed in another way")
        if state.version == noted.version:
            return None
        start = None if noted.version != -1 and book.first() <= noted.last and book is self._book else book.start(state)
        after, tip = (noted.last, noted.tip) if start is None else (start.saved.step, start.saved.tip)
        steps = book.steps(after, tip, state.last)
        if (steps[-1].seal if steps else tip) != state.tip or start is not None and not book.is_between(state):
            raise Spoilt(0, "its steps are those of another state")
        saved = book.saved(state.last) if start is None and state.saved != noted.saved else None
        return Found(state, start, steps, steps[-1].time if steps else book.last_time(), saved)

    def _check_form(self) -> None:
        """Raises Spoilt unless the tables are those of an index, before anything is asked of them, and LaterForm if a later version made
        them."""
        if self._asked("PRAGMA application_id") != MARK:
            raise Spoilt(0, "it is no file of an index")
        form = self._asked("PRAGMA user_version")
        if form > FORM:
            raise LaterForm(form)
        wanted, which = (SCHEMA, _OWN) if form == FORM else (form_1.SCHEMA, "")
        found = self._run(f"SELECT type, name, tbl_name, sql FROM sqlite_master {which} ORDER BY name LIMIT {len(SCHEMA) + 1}").fetchall()
        if found != wanted:
            raise Spoilt(0, "its tables are not those of an index")
        self._form = form

    def _check_pages(self) -> None:
        """Raises Spoilt if pages don't belong together, so that a step would put one in another's place."""
        found = self._asked("PRAGMA integrity_check(1)")
        if found != b"ok":
            raise Spoilt(0, found.decode(errors="replace") if isinstance(found, bytes) else found)

    # Writing.

    def write(self, writes: list[Write], noted: Noted) -> None:
        """Makes some writes and a new state one transaction, that of a caller if there is one; then it is noted. If the file refuses it, it
        is as it was, and NotKept is raised. If it can't even say whether it has the step, or can't write over it, the file is closed, and
        its own error raised."""
        run, is_lent, state = self._cursor.execute, self._is_lent, noted.state
        if is_lent:
            self._take_connection()
        else:
            self._mend()
        try:
            if is_lent:
                self._expect_transaction()
            else:
                run("BEGIN IMMEDIATE")
            self._expect_same()
            if run(PUT_STATE, (*state.sealed(), self.noted.state.version)).rowcount != 1:
                raise NotKept(STALE)
            for statement, rows in writes:
                # (most steps come alone, with nothing else)
                self._cursor.executemany(statement, rows) if len(rows) != 1 else run(statement, rows[0])
            self._unsure = state.version
            run("COMMIT")
            self._note(noted)
        except BaseException as raised:
            is_of_file = isinstance(raised, sqlite3.Error)
            if self._left is None and not self._is_ending and self._is_at(state.version):
                # (an interrupt came after the file had taken it)
                self._note(noted)
                if is_of_file:
                    return
            if not is_of_file:
                raise
            self._mend()
            raise NotKept(raised) from raised

    def _note(self, noted: Noted) -> None:
        """Notes that the file has a step. (If an interrupt comes before, `read` finds the step.)"""
        self.noted, self._unsure = noted, None

    def _mend(self) -> None:
        """Does what an interrupt or a refusal left: ends the transaction, and writes over a step whose COMMIT failed, if the log has it."""
        if self._left is not None or self._is_ending:
            return
        self._roll_back()
        if self._unsure is not None:
            if not self._is_at(self._unsure) and self._is_logged(self._unsure):
                self._write_over()
            self._unsure = None

    def _is_at(self, version: int) -> bool:
        """Whether the file came to a version. If it can't say so, it is closed."""
        try:
            self._roll_back()
            return bool(self._asked("SELECT version FROM s2ix_state") == version)
        except BaseException:
            self.close()
            raise

    def _is_logged(self, version: int) -> bool:
        """Whether the log has a step, although its COMMIT failed: SQLite might bring it back after a crash. (On a full disk it has no room
        for the step, nor for anything over it.)"""
        try:
            # (SQLite has no locks on the log itself)
            with open(self._place.log, "rb") as log:
                return version.to_bytes(8, "big") in log.read()
        except OSError:
            return True

    def _write_over(self) -> None:
        """Writes over a step in the log. If that is refused too, the file is closed."""
        try:
            state = self.noted.state._replace(version=next(self.versions))
            self._run("BEGIN IMMEDIATE")
            # (another process that wrote meanwhile has done it)
            if self._run(PUT_STATE, (*state.sealed(), self.noted.state.version)).rowcount == 1:
                self.noted = self.noted._replace(state=state)
            self._run("COMMIT")
        except BaseException:
            self.close()
            raise

    # A caller's own tables.

    def lend(self) -> sqlite3.Connection:
        """Begins the transaction of the next step, and hands out the connection, which may only write to other tables than the index has.
        Raises NotKept."""
        self._mend()
        try:
            self._run("BEGIN IMMEDIATE")
            self._expect_same()
            if self._asked("SELECT version FROM s2ix_state") != self.noted.state.version:
                raise NotKept(STALE)
            self._is_lent, self._guard = True, Guard(self._connection)
            self._connection.set_authorizer(self._guard.authorized)
            self._connection.set_trace_callback(self._guard.begun)
            self._connection.text_factory = str
            return self._connection
        except BaseException as raised:
            self.take_back()
            if isinstance(raised, sqlite3.Error):
                raise NotKept(raised) from raised
            raise

    def lent(self) -> sqlite3.Connection:
        """The connection that a caller has."""
        return self._connection

    def _take_connection(self) -> None:
        """Lets the index write again."""
        self._connection.set_authorizer(_ALL_AUTHORIZED)
        self._connection.set_trace_callback(None)
        self._connection.text_factory = bytes
        self._connection.row_factory = None
        self._is_lent = False

    def expect_uninterrupted(self) -> None:
        """Raises KeyboardInterrupt if an interrupt came while SQLite asked about a caller's statement."""
        if self._guard is not None:
            self._guard.expect_ended()

    def _expect_transaction(self) -> None:
        """Raises NotKept if a caller ended the transaction, or gave a table a name of the index's own."""
        if not self._connection.in_transaction:
            raise NotKept("the transaction has ended before its step")
        try:
            self._check_form()
        except Spoilt as wrong:
            raise NotKept(wrong) from wrong

    def take_back(self) -> None:
        """Ends a caller's transaction, as if it had not been."""
        if self._left is None and not self._is_ending:
            self._take_connection()
            self._roll_back()

    # The whole file.

    def take_over(self) -> bool:
        """Brings a file of form 1 into today's form, in one transaction, and returns whether it was of form 1: then it is to be read again.
        Raises sqlite3.Error and Spoilt."""
        if self._form == FORM or self._reads_only:
            return False
        self._run("BEGIN IMMEDIATE")
        try:
            self._check_form()
            # (another process may have done it meanwhile)
            if self._form == 1:
                form_1.take_over(self._connection, self._connection)
            self._run("COMMIT")
        finally:
            self._roll_back()
        self.noted = Noted()
        return True

    def compact(self) -> None:
        """Makes the file as small as it can be. Raises sqlite3.Error if the file, or its log, stays as large."""
        self._expect_here()
        self._expect_same()
        self._run("VACUUM")
        if self._asked("PRAGMA wal_checkpoint(TRUNCATE)"):
            raise sqlite3.OperationalError("another process reads the file, so what is beside it stays as large")

    def backup(self, path: str) -> None:
        """Copies the file as it is now to a path where there is none. Raises FileExistsError, OSError, sqlite3.Error and Closed; then
        nothing is at the path."""
        self._expect_here()
        if self._is_lent:
            raise RuntimeError("no copy is made in a transaction")
        path = os.path.realpath(path)
        for each in (path, f"{path}-wal", f"{path}-journal"):
            # (SQLite would put an old log into the copy)
            if os.path.lexists(each):
                raise FileExistsError(errno.EEXIST, os.strerror(errno.EEXIST), each)
        folder, name = os.path.split(path)
        room = os.path.join(folder, f".{name}.{new_version():x}")
        try:
            try:
                self._back_up(room, name, path)
            finally:
                _remove(room)
        finally:
            # (an interrupt may have cut that off)
            _remove(room)
        _flush(folder)

    def _back_up(self, room: str, name: str, path: str) -> None:
        """Makes the copy in a folder of its own, and moves it to its path."""
        os.mkdir(room, 0o700)
        made = os.path.join(room, name)
        self._roll_back()
        self._run("VACUUM INTO ?", (made,))
        _flush(made)
        _put(made, path)


# The tables and indexes that are an index's own, and what is about these.
_OWN = r"WHERE name LIKE 's2ix\_%' ESCAPE '\' OR tbl_name LIKE 's2ix\_%' ESCAPE '\'"
# What a caller's SQL may do without writing, and which questions about its tables it may ask.
_READS = sqlite3.SQLITE_READ, sqlite3.SQLITE_SELECT, sqlite3.SQLITE_FUNCTION, sqlite3.SQLITE_RECURSIVE, sqlite3.SQLITE_SAVEPOINT
_QUESTIONS = "table_info", "table_xinfo", "table_list", "index_list", "index_info", "index_xinfo", "foreign_key_list", "foreign_key_check"
_ENDS = sqlite3.SQLITE_TRANSACTION, sqlite3.SQLITE_ATTACH, sqlite3.SQLITE_DETACH
_ALL_AUTHORIZED: Any = None if sys.version_info >= (3, 11) else lambda *_: sqlite3.SQLITE_OK


class Guard:
    """What SQLite asks about a caller's statements. sqlite3 drops what is raised in such a call, as by Ctrl-C. The caches count the calls
    before they begin, so one that did not end shows."""

    def __init__(self, connection: sqlite3.Connection) -> None:
        self._connection = connection
        #: What SQLite asks of a part of a statement, and what it tells when one begins.
        self.authorized, self.begun = lru_cache(maxsize=None)(self._authorize), lru_cache(maxsize=0)(self._begin)
        self._ended = 0

    def expect_ended(self) -> None:
        """Raises KeyboardInterrupt, once, if a call did not end."""
        cut_off = self._cut_off()
        self._ended += cut_off
        if cut_off:
            raise KeyboardInterrupt("it came within a statement of SQL")

    def _cut_off(self) -> int:
        """How many calls have begun and did not end."""
        return self.authorized.cache_info().misses + self.begun.cache_info().misses - self._ended

    def _authorize(self, action: int, first: Optional[str], second: Optional[str], *_: Optional[str]) -> int:
        """What a part of a statement may do: it may neither end the transaction nor write to what is the index's own."""
        is_own = any(name is not None and name.lower().startswith("s2ix_") for name in (first, second))
        is_setting = action == sqlite3.SQLITE_PRAGMA and second is not None and first not in _QUESTIONS
        is_refused = action not in _READS and (is_own or is_setting or action in _ENDS)
        # (this call has begun)
        is_refused = is_refused or self._cut_off() > 1
        self._ended += 1
        return sqlite3.SQLITE_DENY if is_refused else sqlite3.SQLITE_OK

    def _begin(self, _: str) -> None:
        """Stops a statement that begins after another one rolled the transaction back, as INSERT OR ROLLBACK may: what it writes would be
        there without the step. So is one after an interrupt."""
        if not self._connection.in_transaction or self._cut_off() > 1:
            self._connection.interrupt()
        self._ended += 1


def _remove(room: str) -> None:
    """Removes a folder, if it is there."""
    if os.path.isdir(room):
        shutil.rmtree(room)


def _put(made: str, path: str) -> None:
    """Gives a file a path at which nothing may have come meanwhile: a new name never takes the place of a file."""
    try:
        os.link(made, path)
    except FileExistsError:
        raise
    except OSError:
        # (some file systems give a file only one name)
        os.rename(made, path)


def _flush(path: str) -> None:
    """Waits until a file or folder is on the disk."""
    opened = os.open(path, os.O_RDONLY)
    try:
        os.fsync(opened)
    finally:
        os.close(opened)


def _patiently(seconds: float, action: Callable[[], _Made]) -> _Made:
    """Does something again while another process has the file locked: SQLite doesn't wait where two could wait for each other."""
    until = time.monotonic() + seconds
    while True:
        try:
            return action()
        except sqlite3.OperationalError as raised:
            if "lock" not in str(raised) or time.monotonic() > until:
                raise
        time.sleep(0.005)


_OPEN: weakref.WeakSet[IndexFile] = weakref.WeakSet()


def _leave_all() -> None:
    for each in list(_OPEN):
        each.leave_in_child()


if hasattr(os, "register_at_fork"):
    os.register_at_fork(after_in_child=_leave_all)
