"""Breaks the file under s2ix.Durable: forks, failed commits, files that are deleted, replaced or spoilt, and four processes that make one.
`tests/durable` runs it."""
import ast
import contextlib
import gc
import os
import pickle
import signal
import sqlite3
import subprocess
import sys
import tempfile
import threading
import time
from unittest import mock

from of_durable.tools import FACE, FIRST, SECOND, TOP, child, in_file, outcome_of, ran, rest_of, shown, words_of
from s2ix import Durable, LaterForm, NotKept, Spoilt, index_file, place, refusals

MAKERS, ROUNDS = 4, 20


def labels_in(path):
    """The labels of a file's changes that stand, or what its opening raises."""
    try:
        with Durable(path, read_only=True) as index:
            return [index.change(number)[0].label for number in range(1, index.done_count() + 1)]
    except Exception as raised:  # noqa: BLE001
        return type(raised).__name__


def seen_by_another(path):
    """The same, in another process."""
    said, _ = ran("import sys\nfrom of_durable.files import labels_in\nprint(repr(labels_in(sys.argv[1])))", path)
    return ast.literal_eval(said or "None")


# Opens an index and forks: the child waits until it is told by a file, and then ends as Python ends.
FORKED = """
import os, sys, time
from s2ix import Durable
path = sys.argv[1]
index = Durable(path)
index.add("04", 1)
if not os.fork():
    os.close(1), os.close(2)
    while not os.path.exists(f"{path}.end"):
        time.sleep(0.01)
    sys.exit()
"""
OTHER = "import sys\nfrom s2ix import Durable\nindex = Durable(sys.argv[1])\nprint(index.add('0c', 2))"


def check_forks(count, folder):
    """A forked child never closes its parent's file, makes no step, and waits for no thread of the parent."""
    path = f"{folder}/forked.db"
    ran(FORKED, path)
    count.expect("a second writer, killed", ran(OTHER, path, kill=True), ("1\n", ""))
    count.expect("before the child ends", labels_in(path), [1, 2])
    open(f"{path}.end", "w").close()
    time.sleep(0.5)
    count.expect("after the child has ended", labels_in(path), [1, 2])

    path, holds, free = f"{folder}/parent.db", threading.Event(), threading.Event()
    with Durable(path) as index, Durable(path, read_only=True) as follower:
        index.add(FACE, 1)
        follower.refresh()

        def hold():
            with index.group():
                index.add(FACE, 2)
                holds.set()
                free.wait(60)

        def use(start):
            signal.alarm(20)
            calls = [lambda: follower.refresh(), lambda: index.add(FACE, 9), index.undo, index.redo, index.forget, lambda: index.join(2)]
            calls += [index.compact, lambda: index.backup(f"{path}.copy"), lambda: index.line("add 04 9")]
            os.write(start, repr([outcome_of(call) for call in calls]).encode())
            follower.close()
            index.close()
            gc.collect()

        with child(use) as (_, end):
            count.expect("steps in a child", rest_of(end).decode(), repr(["Closed"] * 9))
        thread = threading.Thread(target=hold)
        thread.start()
        holds.wait(60)
        with child(use) as (_, end):
            said = rest_of(end).decode()
        free.set()
        thread.join(60)
        count.expect("steps in a child while another thread is in a group", said, repr(["Closed"] * 9))
        with index.group(), child(use) as (_, end):
            count.expect("steps in a child that begins in a group", rest_of(end).decode(), repr(["Closed"] * 9))
        ran("import sys; from s2ix import Durable; Durable(sys.argv[1]).close()", path)
        count.expect("the parent goes on", (index.add(FACE, 3), labels_in(path)), (1, [1, 2, 3]))
    check_children_that_open(count, path)


def check_children_that_open(count, path):
    """What a forked child says of a file that its parent has open, and that it opens one that its parent has closed."""
    def say(start):
        signal.alarm(20)
        words = [words_of(Durable, path, read_only=read_only) for read_only in (True, False)]
        os.write(start, repr([each.partition(": ")[2] for each in words] + [labels_in(f"{path}.closed")]).encode())

    with Durable(f"{path}.closed") as index:
        index.add(FACE, 5)
    says = "the process that this one was forked from had it open: start this process by spawn, or fork before the file is opened"
    with Durable(path) as index:
        with child(say) as (_, end):
            count.expect("a child that opens", rest_of(end).decode(), repr([says, says, [5]]))
        count.expect("the parent of a child that opens", (index.add(FACE, 4), seen_by_another(path)), (1, [1, 2, 3, 4]))
    with child(say) as (_, end):
        count.expect("a child that opens what is closed", rest_of(end).decode(), repr(["", "", [5]]))


# Makes steps in files with logs of so many frames. One call fails of each; it says what it raised, and whether memory stayed. Each process is
# killed then.
REFUSED = """
import ctypes, os, signal, sqlite3, sys
from s2ix import Durable
shim, folder, frames, first, last = sys.argv[1:]
def number(name):
    return ctypes.c_int.in_dll(ctypes.CDLL(shim), name)
def step(path, failing):
    index = Durable(path)
    index.add("1", 1)
    hand = sqlite3.connect(path, isolation_level=None)
    hand.executescript("PRAGMA wal_autocheckpoint = 0; PRAGMA synchronous = OFF")
    while os.path.getsize(f"{path}-wal") < 32 + 4120 * int(frames):
        hand.execute("UPDATE s2ix_state SET seal = seal + 1"), hand.execute("UPDATE s2ix_state SET seal = seal - 1")
    kept = index.dump(), index.journal()
    number("calls").value, number("failing").value = 0, failing
    try:
        index.add("04", 7)
        said = "done"
    except Exception as raised:
        said = type(raised).__name__
    number("failing").value = 0
    if "open" in repr(index):
        said += f" {(index.dump(), index.journal()) == kept}"
    print(failing, number("calls").value, said, flush=True)
    os.kill(os.getpid(), signal.SIGKILL)
def forked(failing):
    pid = os.fork()
    if not pid:
        step(f"{folder}/refused{frames}-{failing}.db", failing)
    os.waitpid(pid, 0)
for each in range(int(first), int(last) + 1):
    forked(each)
"""


def check_commits(count, folder):
    """Each call on a file that a step makes fails once, before and after its COMMIT is flushed: what is refused isn't there after a crash. A
    step with the log's frame 4063 needs more of SQLite's shared memory after it is flushed."""
    shim = f"{folder}/refused_files.so"
    subprocess.run(["cc", "-O2", "-shared", "-fPIC", "-o", shim, f"{TOP}/tests/preloaded/refused_files.c"], check=True)
    came = set()
    for frames in (0, 4061):
        answer = ran(REFUSED, shim, folder, frames, 0, 0, LD_PRELOAD=shim)[0].split()
        most = int(answer[1]) if answer[2:] else 0
        count.expect("calls of a step", (most > 2, answer[2:]), (True, ["done", "False"]))
        said, errors = ran(REFUSED, shim, folder, frames, 1, most, LD_PRELOAD=shim)
        count.expect("what is written to standard error", errors, "")
        for line in said.splitlines():
            failing, _, *answer = line.split()
            path = f"{folder}/refused{frames}-{failing}.db"
            wanted = {"done False": 2, "NotKept True": 1}.get(" ".join(answer))
            found = outcome_of(lambda: len(in_file(path)[0].splitlines()) - 2)
            # (an index that closes says that the step may be there)
            count.expect(f"call {failing} of {most}: {answer}", wanted or answer == ["OperationalError"], found if wanted else True)
            came.add(answer[0])
            with contextlib.suppress(OSError):
                os.unlink(path), os.unlink(f"{path}-wal")
        count.expect("steps that were refused", "NotKept" in came, True)


def check_own(count, folder):
    """The process reads its own file, or the file is deleted or replaced while it is open: no step that returned is lost, the pairs can still
    be read, and another's file isn't touched."""
    reopened = "import sys; from s2ix import Durable; Durable(sys.argv[1]).close()"

    def deleted(path):
        os.unlink(path)

    def replaced(path):
        with Durable(f"{path}.new") as other:
            other.add(SECOND, 9)
        for log in (f"{path}-wal", f"{path}-shm"):
            os.unlink(log)
        os.replace(f"{path}.new", path)

    def read_by_its_own(path):
        with open(path, "rb") as file:
            file.read()
        ran(reopened, path)

    def robbed_of_its_memory(path):
        os.unlink(f"{path}-shm")

    def linked(path):
        Durable(f"{path}.other").close()
        os.symlink(f"{path}.other", f"{path}.link")
        os.replace(f"{path}.link", path)

    for way, says in ((deleted, "no file is at its path any more"), (replaced, "another file is at its path"),
                      (read_by_its_own, "its log"), (robbed_of_its_memory, "its shared memory"), (linked, "another file is at its path")):
        path = f"{folder}/own_{way.__name__}.db"
        real = f"{path}.real" if way is linked else path
        if way is linked:
            os.symlink(real, path)
        index, follower = Durable(path), None if way is read_by_its_own else Durable(path, read_only=True)
        index.add(FACE, 1)
        index.add(FACE, 2)
        kept = shown(index)
        way(path)
        words = words_of(index.add, FIRST, 7)
        count.expect(f"a step in a file {way.__name__}", (says in words, words.startswith("the file doesn't keep the step")), (True, True))
        count.expect(f"later steps when it was {way.__name__}", [outcome_of(index.undo), outcome_of(index.forget), outcome_of(index.redo)], ["NotKept"] * 3)
        count.expect(f"the pairs when it was {way.__name__}", (shown(index), outcome_of(index.refresh)), (kept, "OperationalError"))
        if follower is not None:
            count.expect(f"its follower when it was {way.__name__}", outcome_of(follower.refresh), "OperationalError")
            follower.close()
        before = seen_by_another(path)
        index.close()
        count.expect(f"the file there when it was {way.__name__}", (seen_by_another(path), outcome_of(index.add, FACE, 1)), (before, "Closed"))
        wanted = {deleted: "Spoilt", replaced: [9], read_by_its_own: [1, 2], robbed_of_its_memory: [1, 2], linked: []}[way]
        count.expect(f"what is there when it was {way.__name__}", seen_by_another(path), wanted)

    # (a file system that only has whole seconds shows no change of the folder within one)
    path, second = f"{folder}/seconds.db", (time.time_ns() // 10**9 - 1) * 10**9
    index = Durable(path)
    os.utime(folder, ns=(second, second))
    index.add(FACE, 1)
    for end in ("-wal", "-shm"):
        os.unlink(path + end)
    os.utime(folder, ns=(second, second))
    count.expect("a step after a deletion within a second", outcome_of(index.add, FIRST, 7), "NotKept")
    index.close()

    # (what copies a folder sets its time as it was)
    index, path = Durable(f"{folder}/set_back.db"), f"{folder}/set_back.db"
    index.add(FACE, 1)
    index.backup(f"{folder}/older.db")
    for label in (2, 3):
        index.add(FACE, label)
        index.compact()
        time.sleep(0.2)
    index.add(FACE, 4)
    index.compact()
    before = os.stat(folder)
    os.replace(f"{folder}/older.db", path)
    os.utime(folder, ns=(before.st_atime_ns, before.st_mtime_ns))
    words = [words_of(index.add, FIRST, label) for label in (7, 8)]
    count.expect("steps after an older copy came, and the time was set back", ["another file is at its path" in each for each in words], [True, True])
    index.close()
    count.expect("the older copy", seen_by_another(path), [1])

    path = f"{folder}/collected.db"
    index = Durable(path)
    index.add(FACE, 1)
    read_by_its_own(path)
    count.expect("another's step then", ran(OTHER, path, kill=True), ("1\n", ""))
    del index
    gc.collect()
    count.expect("what is there when it is collected", (seen_by_another(path), outcome_of(Durable, path)), ([1, 2], "OperationalError"))


def check_backup(count, folder):
    """A backup is whole, at one state, while another process writes; without room nothing is at its path."""
    path, copy = f"{folder}/backed.db", f"{folder}/backed copy.db"

    def write(start):
        with Durable(path, synchronous="NORMAL") as index:
            for label in range(400):
                with index.group():
                    index.add(FACE, label)
                    index.add(FIRST, label)
                if label == 20:
                    os.write(start, b".")

    with child(write) as (_, end):
        os.read(end, 1)
        with Durable(path, read_only=True) as follower:
            for number in range(10):
                follower.backup(f"{copy}{number}")
        rest_of(end)
    pairs = []
    for number in range(10):
        with Durable(f"{copy}{number}") as index:
            pairs.append((len(index) == 2 * index.done_count() > 40, index.add(SECOND, 1)))
    count.expect("backups while another writes", pairs, [(True, 1)] * 10)
    with Durable(path) as index:
        index.undo()
        kept = shown(index), index.log()
        with index.group():
            index.add(SECOND, 7)
            index.backup(copy)
        count.expect("a backup before the end of a group", (in_file(copy), Durable(copy, read_only=True).log()), kept)
        count.expect("a path where a file is", [outcome_of(index.backup, each) for each in (copy, path)], ["FileExistsError"] * 2)
        open(f"{copy}.new-wal", "w").close()
        count.expect("a path where a log is", outcome_of(index.backup, f"{copy}.new"), "FileExistsError")
        count.expect("a folder that isn't there", outcome_of(index.backup, f"{folder}/none/copy.db"), "FileNotFoundError")
        flush = index_file._flush
        with mock.patch.object(index_file, "_flush", lambda made: (flush(made), Durable(f"{copy}.come").close())):
            count.expect("a file that comes while the copy is made", outcome_of(index.backup, f"{copy}.come"), "FileExistsError")
        count.expect("what that file has", labels_in(f"{copy}.come"), [])
        ran("import sys; from s2ix import Durable; Durable(sys.argv[1]).close()", path)
        count.expect("a step after a backup", (index.add(SECOND, 8), in_file(path) == shown(index)), (1, True))
    full = """
import os, resource, sys
from s2ix import Durable
with Durable(sys.argv[1]) as index:
    resource.setrlimit(resource.RLIMIT_FSIZE, (8192, resource.RLIM_INFINITY))
    try:
        index.backup(sys.argv[2])
    except Exception as raised:
        print(type(raised).__name__, os.path.lexists(sys.argv[2]))
"""
    before = sorted(os.listdir(folder))
    count.expect("a backup without room", ran(full, path, f"{copy}.full"), ("OperationalError False\n", ""))
    count.expect("what is left of it", sorted(os.listdir(folder)), before)


def check_pickles(count):
    """Each refusal comes out of a pickle as it went in."""
    made = [NotKept("full"), Spoilt(7, "wrong"), LaterForm(3), refusals.NoDump(3), refusals.NoJournal(4), refusals.Mismatch(1, 2), refusals.Mismatch(1, 2, 3)]
    made += [refusals.placed(refusals.named(refusals.NoCell, "words", "xyz"), "row", 4), *(kind() for kind in refusals.REFUSALS.values())]
    for each in made:
        for protocol in range(pickle.HIGHEST_PROTOCOL + 1):
            again = pickle.loads(pickle.dumps(each, protocol))
            count.expect(f"a pickle of {type(each).__name__}", (type(again), str(again), again.__dict__), (type(each), str(each), each.__dict__))


# Makes a file at a time that all of its kind know.
MAKER = """
import sys, time
from s2ix import Durable, NotKept
path, rounds, start = sys.argv[1], int(sys.argv[2]), float(sys.argv[3])
for each in range(rounds):
    while time.time() < start + each * 0.1:
        pass
    with Durable(f"{path}{each}", timeout=20) as index:
        while True:
            try:
                index.add("1", 1)
                break
            except NotKept:
                index.refresh()
"""


def check_makers(count, folder):
    """Four processes make one file at the same moment, again and again; each adds to it."""
    path, start = f"{folder}/made", time.time() + 0.5
    around = {**os.environ, "PYTHONDONTWRITEBYTECODE": "1", "PYTHONPATH": os.pathsep.join(sys.path)}
    words = [sys.executable, "-c", MAKER, path, str(ROUNDS), str(start)]
    makers = [subprocess.Popen(words, env=around, stderr=subprocess.PIPE, text=True) for _ in range(MAKERS)]
    errors = [each.communicate(timeout=60)[1][-200:] for each in makers]
    count.expect("four that make one file", errors, [""] * MAKERS)
    found = [labels_in(f"{path}{number}") for number in range(ROUNDS)]
    count.expect("what they made", found, [[1] * MAKERS] * ROUNDS)


def check_seen(count, folder):
    """Another process has a new file open while its maker looks which log is there, and then closes it."""
    path, see, found = f"{folder}/seen.db", place.Place.see, []
    around = {**os.environ, "PYTHONDONTWRITEBYTECODE": "1", "PYTHONPATH": os.pathsep.join(sys.path)}
    words = "import sys; from s2ix import Durable\nwith Durable(sys.argv[1]) as index: index.add('1', 1), print(flush=True), input()"

    def seen(*given):
        with subprocess.Popen([sys.executable, "-c", words, path], env=around, stdin=subprocess.PIPE, stdout=subprocess.PIPE, text=True) as other:
            other.stdout.readline()
            see(*given)
            found.append(other.communicate("\n", timeout=60)[0])

    place.Place.see = seen
    try:
        with Durable(path) as index:
            found += [len(index), index.add(FACE, 2)]
    except sqlite3.Error as raised:
        found.append(str(raised))
    finally:
        place.Place.see = see
    count.expect("a new file that another process closes", (found, labels_in(path)), (["", 1, 1], [1, 2]))


def check_raised(count, folder):
    """Who keeps what a step raised doesn't keep the file open: SQLite deletes the log when it is closed."""
    path = f"{folder}/raised.db"
    with Durable(path, timeout=0) as index:
        index.add(FACE, 1)
        other = sqlite3.connect(path, isolation_level=None)
        other.execute("BEGIN IMMEDIATE")
        try:
            index.add(FACE, 2)
        except NotKept as raised:
            kept = raised
        other.close()
    count.expect("what is open when a step was refused", (type(kept), os.path.exists(f"{path}-wal")), (NotKept, False))


def check_paths(count, folder):
    """Paths as the system takes them, and errors that name the file."""
    os.makedirs(f"{folder}/deep/er")
    os.symlink(f"{folder}/deep/er", f"{folder}/way")
    with Durable(f"{folder}/way/../x.db") as index:
        index.add(FACE, 1)
    count.expect("a path over a link", (labels_in(f"{folder}/deep/x.db"), os.path.exists(f"{folder}/x.db")), ([1], False))
    for name in ("a%20b?c#d.db", "n\u00e9e \udcff.db"):
        path = os.path.join(folder, name)
        with Durable(os.fsencode(path)) as index:
            index.add(FACE, 1)
        count.expect(f"a file of the name {name!a}", (labels_in(path), os.path.exists(path)), ([1], True))
    path = f"{folder}/named.db"
    with open(path, "wb") as file:
        file.write(b"x" * 5000)
    for words in (words_of(Durable, path), words_of(Durable, f"{folder}/named.db", read_only=True)):
        count.expect("an error names the file", words.startswith(f"{path}: the file is spoilt: its start: "), True)
    words = words_of(Durable, f"{folder}/none.db", read_only=True, timeout=0)
    count.expect("an error without a file", words, f"{folder}/none.db: unable to open database file")
    with Durable(f"{folder}/limits2.db", pairs=7):
        count.expect("an error of limits", words_of(Durable, f"{folder}/limits2.db", pairs=8).startswith(f"{folder}/limits2.db: "), True)


def check_read_only_disk(count, folder):
    """A file whose log is empty opens on a disk that can't be written."""
    disk = f"{folder}/disk"
    os.mkdir(disk)
    if subprocess.run(["mount", "-t", "tmpfs", "-o", "size=4m", "tmpfs", disk], capture_output=True, check=False).returncode:
        print("durable: no disk can be mounted here, so the read-only one is left out")
        return
    try:
        with Durable(f"{disk}/a.db") as index:
            index.add(FACE, 1)
        subprocess.run(["mount", "-o", "remount,ro", disk], check=True)
        with Durable(f"{disk}/a.db", read_only=True) as index:
            count.expect("a read-only disk", (shown(index)[0], index.refresh(), outcome_of(index.add, FACE, 2)), ("s2ix 2\n1 1 1\nend 1 1\n", False, "NotKept"))
            index.backup(f"{folder}/from_disk.db")
        count.expect("a backup from it", labels_in(f"{folder}/from_disk.db"), [1])
        count.expect("a writer there", outcome_of(Durable, f"{disk}/a.db"), "OperationalError")

        def follow(start):
            index = Durable(f"{disk}/a.db", read_only=True)
            subprocess.run(["mount", "-o", "remount,rw", disk], check=True)
            ran(OTHER, f"{disk}/a.db")
            os.write(start, str(outcome_of(index.refresh)).encode())

        with child(follow) as (_, end):
            count.expect("a disk that was not read-only for ever", rest_of(end), b"OperationalError")
    finally:
        subprocess.run(["umount", disk], check=True)


def check_all(count, folder):
    """All of them, in a folder of their own."""
    folder = f"{folder}/files"
    os.mkdir(folder)
    with tempfile.TemporaryDirectory(dir="/dev/shm" if os.path.isdir("/dev/shm") else folder) as quick:
        check_commits(count, quick)
    for check in (check_forks, check_own, check_backup, check_makers, check_seen, check_raised, check_paths, check_read_only_disk):
        check(count, folder)
    check_pickles(count)
    print(f"durable: {ROUNDS} files made by {MAKERS}")
