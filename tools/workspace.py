"""A workspace: a copy of some crates and of those below them, for rt ci to prove and build there.

rt ci proves all that crates.txt names. In a workspace it finds the crates that are wanted and no other, without their wrong bodies, and
proves as many side by side as there are processors. A workspace proves all anew; only the parts of ./test share one (see proved).
"""
import contextlib
import os
import re
import shutil
import subprocess
import tempfile
import time

import kept

TOP = os.path.dirname(os.path.dirname(os.path.realpath(__file__)))
PARTS = ("src", "specs", "proofs")
# What rt ci runs a program on.
RUN_FILES = ("args", "stdin", "stdout", "status")
# The crate that all others wait for, the seconds that its proof takes on README's machine, and those that a unit of Progress takes there.
FIRST, FIRST_SECONDS, UNIT_SECONDS = "s2id_core", 33, 1.13
# What rt ci says of a crate that is proved.
PROVED = re.compile(r"rt: (\w+) (proved$|is kept)")


class NotProved(Exception):
    """A crate is not proved; the text is what rt said of it."""


def read_crates():
    """The lines of crates.txt by the crate that each is of: what it is, a static library or nothing that is said, and the libraries that
    it uses, the lowest first."""
    with open(f"{TOP}/crates.txt", encoding="utf-8") as file:
        lines = [line.strip().split(":") for line in file if ":" in line and not line.startswith("#")]
    return {head.split()[0]: (head.split()[1:], used.split()) for head, used in lines}


KINDS = {crate: kind for crate, (kind, _) in read_crates().items()}
CRATES = {crate: used for crate, (_, used) in read_crates().items()}


def with_below(names):
    """These crates and all that they are built on, the lowest first."""
    wanted = set(names)
    for crate in reversed(list(CRATES)):
        if crate in wanted:
            wanted |= {used for used in CRATES[crate] if used in CRATES}
    return [crate for crate in CRATES if crate in wanted]


def with_above(names):
    """These crates and all that are built on them, the lowest first."""
    wanted = set(names)
    for crate, used in CRATES.items():
        if wanted & set(used):
            wanted.add(crate)
    return [crate for crate in CRATES if crate in wanted]


def sources(names):
    """The folders that a proof of these crates reads."""
    return [path for path in (f"crates/{crate}/{part}" for crate in names for part in PARTS) if os.path.isdir(f"{TOP}/{path}")]


def add_crates(names, folder):
    """Adds these crates to a folder, with their lines of crates.txt."""
    with open(f"{folder}/crates.txt", "a", encoding="utf-8") as file:
        file.writelines(f"{' '.join([crate, *KINDS[crate]])}: {' '.join(CRATES[crate])}\n" for crate in names)
    for path in sources(names):
        shutil.copytree(f"{TOP}/{path}", f"{folder}/{path}")


def copy_crates(names, folder):
    """Lays these crates into a folder as a repository of their own."""
    # (rt ci runs at the top of a repository)
    os.makedirs(f"{folder}/.git")
    shutil.copy(f"{TOP}/HANDLES", folder)
    add_crates(names, folder)
    for crate in names:
        for name in RUN_FILES:
            if os.path.isfile(f"{TOP}/crates/{crate}/{name}"):
                shutil.copy(f"{TOP}/crates/{crate}/{name}", f"{folder}/crates/{crate}")


def sum_of(names, top):
    """A sum of these crates as a folder has them, with their lines of crates.txt."""
    lines = [(crate, KINDS[crate], CRATES[crate]) for crate in names]
    return kept.sum_of(lines, kept.sum_of_files([f"crates/{crate}/{part}" for crate in names for part in PARTS], top))


def words_over(used, folder):
    """The words by which rattle reads a crate over these libraries: the crates among them, as they are built in a workspace, and the toolchain's."""
    words = ["--antt-project", f"{kept.kit()}/rattle/logic/antt-project.json", "--logic-built", f"{kept.kit()}/logic_built"]
    words += ["-L", f"dependency={kept.kit()}/rlibs"]
    for crate in with_below([name for name in used if name in CRATES]):
        words += ["-L", f"dependency={folder}/crates/{crate}/out/rlib"]
    for name in ("std", *used):
        rlibs = f"{folder}/crates/{name}/out/rlib" if name in CRATES else f"{kept.kit()}/rlibs"
        words += ["--extern", f"{name}={rlibs}/{name}.rlib"]
    return words


def build_static(crate, used, folder, before, archive):
    """Proves a crate of a workspace over the libraries that it uses, as they are built there, and makes a static library of it as a program is
    made: by LLVM with -O3. What it proves is kept in the folder `before`, for when the crate changes. Raises NotProved, and makes no library, if
    the crate is not proved."""
    words = [f"{kept.kit()}/bin/rattle", "build", "--crate-name", crate, "--crate-type", "staticlib", "--backend", "llvm", "src/lib.rt"]
    words += ["--jobs", str(len(os.sched_getaffinity(0))), "--incremental", before, *words_over(used, folder)]
    words += ["--toolchain", f"{kept.kit()}/toolchain", "-o", archive]
    ran = subprocess.run(words, cwd=f"{folder}/crates/{crate}", stdout=subprocess.PIPE, stderr=subprocess.STDOUT, text=True, errors="replace")
    if ran.returncode:
        raise NotProved(ran.stdout.replace(folder, TOP))


def proof_name(crate, top):
    """The name under which it is kept that a crate of a folder is proved."""
    return kept.sum_of("proof", kept.toolchain(), sum_of(with_below([crate]), top))


def is_kept(crate):
    """Whether a run on this machine proved a crate of the same text, and rt keeps a proof of it. It only serves to say how long a run takes."""
    return kept.has_proof(crate) and kept.read(proof_name(crate, TOP)) is True


def pace():
    """How many times as long as README's machine this one takes, as it was seen at the first crate, or None."""
    seconds = kept.read(kept.sum_of("first crate", kept.toolchain()))
    return seconds / FIRST_SECONDS if isinstance(seconds, (int, float)) else None


def note_proof(line, top, started):
    """If a line of rt ci says that a crate is proved, notes that for later runs, and returns the crate and whether rt kept its proof."""
    told = PROVED.match(line)
    if not told or told[1] not in CRATES:
        return None
    crate, was_kept = told[1], told[2] != "proved"
    kept.keep(proof_name(crate, top), True)
    if crate == FIRST and not was_kept:
        kept.keep(kept.sum_of("first crate", kept.toolchain()), time.monotonic() - started)
    return crate, was_kept


def minutes_words(minutes):
    return f"about {minutes:.0f} min" if minutes >= 1.5 else "about a minute"


class Progress:
    """How far the proofs of some crates are. Crates wait for those below them, so what is left takes as long as the longest chain of crates
    that are left, or as all of these on all processors if that is longer."""

    def __init__(self, names):
        self.work = {crate: 25 + lines_of(crate) / 80 + 2 * len(with_below([crate])) for crate in names}
        self.of, self.left, self.started = len(names), list(names), time.monotonic()

    def length(self, names, processors=len(os.sched_getaffinity(0))):
        """How long these crates take, in a unit of its own."""
        chains = {}
        for crate in names:
            chains[crate] = self.work[crate] + max((chains[used] for used in CRATES[crate] if used in chains), default=0)
        return max(sum(self.work[crate] for crate in names) / processors, *chains.values(), 0)

    def done(self, crate, was_kept):
        """Notes that a crate is proved, and returns how far the proofs are, in words."""
        self.left.remove(crate)
        if was_kept:
            self.work[crate] = 0
        left = self.length(self.left)
        done = self.length(self.work) - left
        told = f"proved {self.of - len(self.left)} of {self.of}: {crate}"
        if not self.left or done <= 0:
            return told
        return f"{told}, {minutes_words((time.monotonic() - self.started) * left / done / 60)} left"


def lines_of(crate):
    """How many lines of code, definitions and proofs a crate has."""
    found = 0
    for path in sources([crate]):
        for at, _, names in os.walk(f"{TOP}/{path}"):
            for name in names:
                with open(f"{at}/{name}", "rb") as file:
                    found += file.read().count(b"\n")
    return found


def prove(folder, names, tell):
    """Proves and builds the crates of a workspace, and calls tell with a line for each crate that is proved."""
    progress, said, refused, started = Progress(names), [], [], time.monotonic()
    with subprocess.Popen(["rt", "ci"], cwd=folder, stdin=subprocess.DEVNULL, stdout=subprocess.PIPE, stderr=subprocess.STDOUT, text=True, errors="replace") as rt:
        for line in rt.stdout:
            # (what rt says of a crate begins with a line of its own)
            said = [line] if line.startswith("== ") else [*said, line]
            crate, was_kept = note_proof(line, folder, started) or (None, False)
            if crate in progress.left:
                tell(progress.done(crate, was_kept))
            if re.match(r"rt: \w+ NOT PROVED", line):
                refused += said
    if rt.returncode:
        raise NotProved("".join(refused or said).replace(folder, TOP))


def keep_program(folder, started):
    """Makes the program that was built in a workspace this repository's own, as old as the sources that were proved: what has changed since is newer."""
    program = f"{TOP}/crates/s2ix/out/s2ix"
    os.makedirs(os.path.dirname(program), exist_ok=True)
    shutil.copy(f"{folder}/crates/s2ix/out/s2ix", f"{program}.new")
    with open(f"{program}.sources", "w", encoding="utf-8") as file:
        file.writelines(f"{path}\n" for path in ["crates.txt", *sources(with_below(["s2ix"]))])
    os.utime(f"{program}.new", (started, started))
    os.replace(f"{program}.new", program)


@contextlib.contextmanager
def proved(names, tell):
    """Proves and builds these crates and those below them in a workspace, which lasts as long as the context. While ./test runs, it is the workspace
    that S2IX_PROVED names, in which rt ci has just proved all crates."""
    wanted = with_below(names)
    if "S2IX_PROVED" in os.environ:
        yield os.environ["S2IX_PROVED"]
        return
    with tempfile.TemporaryDirectory(prefix="s2ix-workspace-") as folder:
        copy_crates(wanted, folder)
        if wanted:
            prove(folder, wanted, tell)
        yield folder
