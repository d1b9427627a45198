"""What the tests of s2ix.Durable share: a count of answers, what an index shows, and processes that are killed."""
import contextlib
import os
import signal
import subprocess
import sys
import traceback

from s2ix import Durable

TOP = os.path.dirname(os.path.dirname(os.path.dirname(os.path.realpath(__file__))))

FIRST, SECOND, FACE = 0x0400000000000000, 0x0C00000000000000, 0x1000000000000000


class Count:
    """How many answers were right, and how many not."""

    def __init__(self):
        self.passed = self.failed = 0

    def expect(self, name, found, wanted):
        self.passed += found == wanted
        self.failed += found != wanted
        if found != wanted:
            print(f"{name}: {found!r} in place of {wanted!r}"[:600])


def room():
    """Where files of a test go: to memory, if there is 1 GB for them and libraries may lie there, since a disk is waited for at each step."""
    try:
        found = os.statvfs("/dev/shm")
    except OSError:
        return None
    is_wide = found.f_bavail * found.f_frsize >= 1 << 30 and not found.f_flag & os.ST_NOEXEC
    return "/dev/shm" if is_wide and os.access("/dev/shm", os.W_OK) else None


def outcome_of(call, *given, **named):
    """What a call answers, or the name of what it raises, which may be an interrupt that is told late."""
    try:
        return call(*given, **named)
    except (Exception, KeyboardInterrupt) as raised:  # noqa: BLE001
        return type(raised).__name__


def shown(index):
    """All that an index shows: its pairs, its changes and how many can be redone."""
    return index.dump(), index.journal(), index.undone_count()


def in_file(path):
    """What a file shows to who reads it alone."""
    with Durable(path, read_only=True) as index:
        return shown(index)


@contextlib.contextmanager
def child(work):
    """A process that does some work, which gets a file to write to; and the end of a pipe to read that."""
    end, start = os.pipe()
    pid = os.fork()
    if not pid:
        status = 1
        try:
            os.close(end)
            work(start)
            status = 0
        except BaseException:  # noqa: BLE001
            traceback.print_exc()
        finally:
            os._exit(status)
    os.close(start)
    try:
        yield pid, end
    finally:
        with contextlib.suppress(ProcessLookupError):
            os.kill(pid, signal.SIGKILL)
        os.waitpid(pid, 0)
        os.close(end)


def rest_of(end):
    """All that comes from a pipe."""
    pieces = []
    while True:
        piece = os.read(end, 65536)
        if not piece:
            return b"".join(pieces)
        pieces.append(piece)


def words_of(call, *given, **named):
    """The words of what a call raises."""
    try:
        call(*given, **named)
    except Exception as raised:  # noqa: BLE001
        return str(raised)
    return ""


def ran(words, *given, kill=False, **around):
    """What a program of Python prints and writes to standard error; it may kill itself at its end."""
    words += "\nimport os, sys; sys.stdout.flush(); os.kill(os.getpid(), 9)" if kill else ""
    around = {**os.environ, "PYTHONDONTWRITEBYTECODE": "1", "PYTHONPATH": os.pathsep.join(sys.path), **around}
    made = subprocess.run([sys.executable, "-c", words, *map(str, given)], env=around, capture_output=True, text=True, timeout=60, check=False)
    return made.stdout, made.stderr
