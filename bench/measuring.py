"""What is measured: figures of both sides in one process, whole programs, and instructions."""
import collections
import glob
import os
import re
import resource
import subprocess
import sys
import tempfile

import making
from making import OUT, TOP, say

# A figure of one operation, ours and S2's: nanoseconds, milliseconds, bytes or instructions. Both are None if the time is too short to tell.
Figure = collections.namedtuple("Figure", "ours s2")
# What S2 doesn't have: the nanoseconds of one operation, the median of many and the most; or their mean, and None.
Alone = collections.namedtuple("Alone", "middle most")
# How many points some threads ask together in a second of the clock, and in a second of a processor.
Rates = collections.namedtuple("Rates", "clock processor")
# After so many random edits points are asked again.
CHANGES = 800_000
MOST_COUNTED = 100_000
# The Python that Debian's packages are for: another may come first on the path.
DEBIAN_PYTHON = "/usr/bin/python3"
# How often a script's lines are repeated, so that they take long beside a load.
REPEATS = 5
# Programs run until no least time has fallen by more than a fiftieth in so many turns, but at most so many turns.
STILL_TURNS, MOST_TURNS = 5, 30
SCRIPTS = ("load", "at", "meet 8", "labels 8", "meet 8 apart", "labels 8 apart", "meet 500", "meet 500 apart")
# The figures of the index have a name of these; the others don't depend on the pairs.
OF_INDEX = ("adds and build", "build of a table", "load of a dump", "edit with a query", "point", "8 cells", "500 cells", "bytes a pair")


# Those of many points by one call have a table of their own.
AT_ONCE = "points at once, "


def is_of_index(name):
    return name.startswith(OF_INDEX)


class Measured:
    """What was measured, by the name of each figure and the number of pairs."""

    def __init__(self, sizes):
        self.sizes = sizes
        self.times, self.programs, self.instructions, self.edits, self.at_once, self.files, self.clusters = {}, {}, {}, {}, {}, {}, {}
        self.doors, self.threads = {}, {}

    def measure_doors(self, seconds):
        for size in self.sizes:
            say(f"measuring {size:,} pairs from C and through the header for C++")
            for name, count, ours, s2 in session_lines([f"{OUT}/doors", str(size), str(seconds), "time"]):
                self.doors[name, size] = Figure(ours / count, s2 / count)

    def measure_threads(self, seconds):
        for size in self.sizes:
            say(f"measuring threads that ask one index of {size:,} pairs")
            for line in lines_of([f"{OUT}/threads", str(size), str(seconds)]):
                name, count, by_clock, by_processor = line.split("\t")
                self.threads[name, int(count), size] = Rates(float(by_clock), float(by_processor))

    def measure_sessions(self, seconds):
        for size in self.sizes:
            say(f"measuring {size:,} pairs in one process")
            with_ids = ["ids"] if size == self.sizes[0] else []
            for name, count, ours, s2 in session_lines([f"{OUT}/session", str(size), str(seconds), "time", *with_ids]):
                self.times[name, size] = Figure(ours / count, s2 / count)

    def measure_edits(self):
        for size in self.sizes:
            say(f"measuring edits and copies of {size:,} pairs")
            for line in lines_of([f"{OUT}/edits", str(size), str(CHANGES)]):
                name, middle, *most = line.split("\t")
                self.edits[name, size] = Alone(float(middle), float(most[0]) if most else None)

    def measure_programs(self):
        say("the program: ./s2ix, which is proved and built first if it is missing")
        making.run([f"{TOP}/s2ix", "--version"], stdout=subprocess.DEVNULL)
        for size in self.sizes:
            say(f"measuring whole programs over {size:,} pairs")
            with tempfile.TemporaryDirectory(prefix="s2ix-bench-") as folder:
                making.run([f"{OUT}/texts", str(size), folder])
                for name, figure in program_times(folder).items():
                    self.programs[name, size] = figure

    def measure_at_once(self):
        around = {**os.environ, "S2IX_LIBRARY": f"{OUT}/libs2ix.so"}
        for size in self.sizes:
            say(f"measuring many points at once over {size:,} pairs, from C and Python")
            found = set()
            with tempfile.TemporaryDirectory(prefix="s2ix-bench-") as folder:
                making.run([f"{OUT}/texts", str(size), folder])
                for words in ([f"{OUT}/at_once"], [DEBIAN_PYTHON, f"{TOP}/bench/at_once.py"]):
                    *figures, told = lines_of([*words, folder], env=around)
                    self.at_once.update({(name, size): float(figure) for name, figure in (line.split("\t") for line in figures)})
                    found.add(told)
            if len(found) > 1:
                sys.exit("bench: C and Python find other labels")

    def measure_files(self):
        say("measuring an index in a file")
        self.files = figures_of([DEBIAN_PYTHON, f"{TOP}/bench/in_a_file.py", OUT])

    def measure_clusters(self):
        say("measuring joins of frames, by one process and by three")
        self.clusters = figures_of([DEBIAN_PYTHON, f"{TOP}/bench/on_a_cluster.py"])

    def count_instructions(self):
        for size in self.sizes:
            if size <= MOST_COUNTED:
                say(f"counting instructions at {size:,} pairs")
                with_ids = ["ids"] if size == self.sizes[0] else []
                for name, figure in instructions([f"{OUT}/session", str(size), "0", "instructions", *with_ids]).items():
                    self.instructions[name, size] = figure


def lines_of(words, **how):
    """The lines that a program of the bench prints."""
    ran = subprocess.run(words, stdout=subprocess.PIPE, text=True, **how)
    if ran.returncode:
        sys.exit(f"bench: this failed: {' '.join(words)}")
    return ran.stdout.splitlines()


def figures_of(words):
    """The figures that a script of the bench prints over the library for C, by their names."""
    lines = lines_of(words, env={**os.environ, "S2IX_LIBRARY": f"{OUT}/libs2ix.so"})
    return {name: float(figure) for name, figure in (line.split("\t") for line in lines)}


def session_lines(words):
    """The figures that a session prints: name, operations of an order, and what ours and S2 took for an order."""
    for line in lines_of(words):
        name, count, ours, s2 = line.split("\t")
        if name != "nothing":
            yield name, int(count), float(ours), float(s2)


def commands(folder):
    return [f"{TOP}/crates/s2ix/out/s2ix", "run", "--load", f"{folder}/dump"], [f"{OUT}/script", f"{folder}/dump"]


def of_processor():
    """The seconds that the processor was at work for the processes that this one has waited for."""
    used = resource.getrusage(resource.RUSAGE_CHILDREN)
    return used.ru_utime + used.ru_stime


def milliseconds(words, script):
    before = of_processor()
    making.run(words, input=script, stdout=subprocess.DEVNULL)
    return (of_processor() - before) * 1000


def answers(words, script):
    """What a program answers, the lines of each answer in order."""
    ran = subprocess.run(words, input=script, stdout=subprocess.PIPE, check=True)
    return [sorted(answer.split(b"\n")) for answer in re.split(rb"(?m)^(?=end )", ran.stdout)]


def program_times(folder):
    """What each script takes beyond the load of the dump, ours and S2's: the least of some runs, in turns."""
    ours, s2 = commands(folder)
    least, noise = {}, {}
    for name in SCRIPTS:
        with open(f"{folder}/{name}", "rb") as file:
            script = file.read()
        if answers(ours, script) != answers(s2, script):
            sys.exit(f"bench: S2 and ours answer differently: the script {name}")
        turns = settled(lambda: (milliseconds(ours, script * REPEATS), milliseconds(s2, script * REPEATS)))
        least[name] = [min(side) for side in zip(*turns)]
        # (the middle one of the turns differs from the least by chance alone)
        noise[name] = [sorted(side)[len(side) // 2] - min(side) for side in zip(*turns)]
    load = least.pop("load")
    return {"load": Figure(*load), **{name: beyond(load, took, noise["load"], noise[name]) for name, took in least.items()}}


def settled(turn):
    """What turns take, ours and S2's, until the least times have settled."""
    turns = [turn() for _ in range(STILL_TURNS)]
    while len(turns) < MOST_TURNS:
        before = [min(side) for side in zip(*turns)]
        turns += [turn() for _ in range(STILL_TURNS)]
        if all(min(side) > 0.98 * least for side, least in zip(zip(*turns), before)):
            break
    return turns


def beyond(load, took, *noises):
    """What a script takes beyond the load, ours and S2's, unless it is at or below the noise of one of the two."""
    differences = [script - base for script, base in zip(took, load)]
    is_clear = all(difference > sum(noise) for difference, noise in zip(differences, zip(*noises)))
    return Figure(*differences) if is_clear else Figure(None, None)


def instructions(words):
    """What callgrind counts for one operation of each figure, less what an order costs that does nothing."""
    with tempfile.TemporaryDirectory(prefix="s2ix-bench-") as folder:
        options = ["--tool=callgrind", "-q", "--instr-atstart=no", f"--callgrind-out-file={folder}/counts"]
        counts = {name: count for name, count, _, _ in session_lines(["valgrind", *options, *words])}
        found = {}
        for path in glob.glob(f"{folder}/counts*"):
            with open(path, encoding="utf-8", errors="replace") as file:
                text = file.read()
            side = re.search(r"^desc: Trigger: Client Request: (\w+)\t(.*)$", text, re.M)
            total = re.search(r"^totals: (\d+)", text, re.M)
            if side and total:
                found[side[2], side[1]] = int(total[1])
    nothing = [found["nothing", side] for side in ("ours", "S2")]
    both = {name: [found[name, side] - base for side, base in zip(("ours", "S2"), nothing)] for name in counts if (name, "ours") in found}
    return {name: Figure(*(number / counts[name] for number in numbers)) for name, numbers in both.items()}
