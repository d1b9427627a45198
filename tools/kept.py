"""What is kept on this machine from one run to the next, beside the proofs that rt keeps and never in the repository.

An entry is a small text under a name, which is a sum of all that the entry rests on: whatever changes has another name, so no entry goes stale.
Entries that cannot be read count for nothing. Each is written apart and then renamed, so that runs side by side never meet half of one."""
import contextlib
import functools
import glob
import hashlib
import json
import os
import stat
import subprocess
import tempfile

# How many entries are kept at most. Those that were not used for the longest go first.
MOST = 20_000


@functools.cache
def kit():
    """The toolchain's folder."""
    return os.path.dirname(subprocess.run(["rt", "doc"], capture_output=True, text=True, check=True).stdout.strip())


@functools.cache
def toolchain():
    """A sum of the toolchain: the texts that name it, and the size and the time of each file that a check reads."""
    found = hashlib.sha256()
    for name in ("KIT-ID", "WHAT"):
        with open(f"{kit()}/{name}", "rb") as file:
            found.update(file.read())
    # (the format of a library has the sum of its other files)
    paths = [path for path in (f"{kit()}/rlibs/{name}/format" for name in os.listdir(f"{kit()}/rlibs")) if os.path.isfile(path)]
    for part in ("bin", "toolchain", "logic_built", "rattle/logic", "rattle/antt"):
        paths += [os.path.join(at, name) for at, _, names in os.walk(f"{kit()}/{part}") for name in names]
    for path in sorted(paths):
        file = os.lstat(path)
        found.update(f"{path} {file.st_size} {file.st_mtime_ns}\n".encode())
    return found.hexdigest()


def sum_of(*rests):
    """The name of an entry that rests on these values."""
    return hashlib.sha256(repr(rests).encode()).hexdigest()


def sum_of_files(folders, top):
    """A sum of the files under some folders of a folder, with their paths in it."""
    found = hashlib.sha256()
    for folder in folders:
        for at, inner, names in os.walk(f"{top}/{folder}"):
            inner.sort()
            for name in sorted(names):
                with open(f"{at}/{name}", "rb") as file:
                    found.update(repr((os.path.relpath(f"{at}/{name}", top), file.read())).encode())
    return found.hexdigest()


def places():
    """The folders in which entries may be kept, the best first: beside the proofs that rt keeps, or with what else this user keeps."""
    yield f"{os.path.dirname(kit())}/s2ix-kept"
    yield f"{os.environ.get('XDG_CACHE_HOME') or os.path.expanduser('~/.cache')}/s2ix-kept"


@functools.cache
def place():
    """The folder in which entries are kept, for this user alone, or None if there is none that is safe."""
    for path in places():
        with contextlib.suppress(OSError):
            os.makedirs(path, 0o700, exist_ok=True)
            found = os.lstat(path)
            if stat.S_ISDIR(found.st_mode) and found.st_uid == os.geteuid():
                os.chmod(path, 0o700)
                return path
    return None


def read(name):
    """What is kept under a name, or None."""
    if not place():
        return None
    try:
        with open(f"{place()}/{name}", encoding="utf-8") as file:
            entry = json.load(file)
        if entry["name"] == name:
            os.utime(f"{place()}/{name}")
            return entry["kept"]
    except (OSError, ValueError, KeyError, TypeError):
        pass
    return None


def keep(name, what):
    """Keeps something under a name; nothing if there is no place for it."""
    with contextlib.suppress(OSError):
        if place():
            with tempfile.NamedTemporaryFile("w", prefix="new-", dir=place(), delete=False, encoding="utf-8") as file:
                json.dump({"name": name, "kept": what}, file)
            os.replace(file.name, f"{place()}/{name}")


def shrink():
    """Removes what was not used for the longest until no more than MOST are kept, with what killed runs left half written."""
    with contextlib.suppress(OSError):
        entries = sorted((entry.stat().st_mtime, entry.path) for entry in os.scandir(place())) if place() else []
        for _, path in entries[: max(0, len(entries) - MOST)]:
            os.remove(path)


def has_proof(crate):
    """Whether rt keeps some proof of a crate. Of which text it is, only rt can tell."""
    return bool(glob.glob(f"{os.path.dirname(kit())}/rattle-kept/proof-{crate}-*"))
