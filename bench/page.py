"""What was measured, as tables in Markdown, and the page docs/reference/PERFORMANCE.md."""
import os
import platform
import re
import subprocess

import making
from measuring import AT_ONCE, is_of_index

UNITS = {"adds and build": "a pair", "build of a table": "a pair", "load of a dump": "a pair", "edit with a query": "an edit",
         "point": "a point", "8 cells": "a target", "500 cells": "a target"}
# Who asks for many points at once, and beside whom.
AT_ONCE_ROWS = {"C, 1": ("from C", "C, 1"), "C, 4": ("from C by four threads", "C, 1"), "Python, 1": ("from Python", "C, 1"),
                "Python, 4": ("from Python by four threads", "Python, 1")}
# Threads that ask by the same program over both.
S2, OURS = "S2, iterators", "ours, iterators"
FILES = {"FULL": "edits a second, `synchronous=\"FULL\"`", "NORMAL": "edits a second, `synchronous=\"NORMAL\"`", "in memory": "edits a second of an `Index`, which has no file",
         "open": "ms to open the file with 10,000 changes", "open compact": "ms to open it once `compact` has forgotten these"}


def digits(number):
    """A number with three digits that count."""
    return f"{number:,.0f}" if number >= 100 else f"{number:.1f}" if number >= 10 else f"{number:.2f}"


def ratio(figure):
    return f"{figure.ours / figure.s2:.3f}" if figure.ours < figure.s2 / 10 else f"{figure.ours / figure.s2:.2f}"


def cell(figure):
    """A cell of a table: the ratio, bold if S2 is ahead, and what it is made of."""
    if figure.ours is None:
        return "too short to tell"
    told = ratio(figure) if figure.ours <= figure.s2 else f"**{ratio(figure)}**"
    return f"{told} ({digits(figure.ours)} : {digits(figure.s2)})"


def names_of(figures, wanted=lambda name: True):
    """The names of figures, each once, in the order in which they were measured."""
    return [name for name in dict.fromkeys(name for name, _ in figures) if wanted(name)]


def table_of(figures, names, sizes, head):
    """A table with a row for each name and a column for each number of pairs."""
    yield f"| {head} | {' | '.join(f'{size:,}' for size in sizes)} |"
    yield f"|---|{'---|' * len(sizes)}"
    for name in names:
        cells = [cell(figures[name, size]) if (name, size) in figures else "" for size in sizes]
        yield f"| {named(name)} | {' | '.join(cells)} |"


def named(name):
    """A figure's name, and what one operation of it is."""
    unit = next((unit for start, unit in UNITS.items() if name.startswith(start)), "")
    return f"{name}, {unit}" if unit else name


def doors_table(measured):
    return table_of(measured.doors, names_of(measured.doors), measured.sizes, "ns, ours : S2")


def threads_table(measured):
    """For each name how many millions of points some threads ask together."""
    counts = sorted({count for _, count, _ in measured.threads})
    yield f"| millions of points a second, by {' · '.join(map(str, counts))} threads | {' | '.join(f'{size:,}' for size in measured.sizes)} |"
    yield f"|---|{'---|' * len(measured.sizes)}"
    for name in dict.fromkeys(name for name, _, _ in measured.threads):
        for words, rate in (("", "clock"), (", a processor's", "processor")):
            cells = [" · ".join(digits(getattr(measured.threads[name, count, size], rate) / 1e6) for count in counts) for size in measured.sizes]
            yield f"| {name}{words} | {' | '.join(cells)} |"


def index_table(measured):
    names = names_of(measured.times, lambda name: is_of_index(name) and not name.startswith(AT_ONCE))
    return table_of(measured.times, names, measured.sizes, "ns, ours : S2")


def at_once_table(measured):
    """Many points by one call: beside S2, and how many a second from C and from Python."""
    yield f"| | {' | '.join(f'{size:,}' for size in measured.sizes)} |"
    yield f"|---|{'---|' * len(measured.sizes)}"
    for name in names_of(measured.times, lambda name: name.startswith(AT_ONCE)):
        cells = [cell(measured.times[name, size]) for size in measured.sizes]
        yield f"| {name.removeprefix(AT_ONCE)}, ns a point, ours : S2 | {' | '.join(cells)} |"
    for name, (words, base) in AT_ONCE_ROWS.items():
        cells = [millions(measured.at_once[name, size], measured.at_once[base, size]) for size in measured.sizes]
        yield f"| {words}, millions of points a second | {' | '.join(cells)} |"


def millions(nanoseconds, base):
    """How many millions a second that is, and how many times as many as another's."""
    told = digits(1000 / nanoseconds)
    return told if nanoseconds == base else f"{told} ({digits(base / nanoseconds)})"


def alone(figure):
    """A figure that S2 doesn't have, in microseconds."""
    most = "" if figure.most is None else f" ({digits(figure.most / 1000)})"
    return digits(figure.middle / 1000) + most


def edits_table(measured):
    yield f"| µs, the median (the most) | {' | '.join(f'{size:,}' for size in measured.sizes)} |"
    yield f"|---|{'---|' * len(measured.sizes)}"
    for name in names_of(measured.edits):
        cells = [alone(measured.edits[name, size]) for size in measured.sizes]
        yield f"| {name} | {' | '.join(cells)} |"


def ids_table(measured):
    size = measured.sizes[0]
    yield "| ns, ours : S2 | |"
    yield "|---|---|"
    for name in names_of(measured.times, lambda name: not is_of_index(name)):
        yield f"| {name} | {cell(measured.times[name, size])} |"


def programs_table(measured):
    return table_of(measured.programs, names_of(measured.programs), measured.sizes, "ms, ours : S2")


def files_table(measured):
    yield "| `s2ix.Durable` | |"
    yield "|---|---|"
    for name, words in FILES.items():
        yield f"| {words} | {digits(measured.files[name])} |"


def clusters_table(measured):
    yield "| millions of points a second | `join` | `join_parts` |"
    yield "|---|---|---|"
    yield f"| `s2ix.frames`, one process | {digits(measured.clusters['frames.join'] / 1e6)} | |"
    for workers in sorted({int(name.split()[1]) for name in measured.clusters if " " in name}):
        cells = [digits(measured.clusters[f"{name} {workers}"] / 1e6) for name in ("join", "join_parts")]
        yield f"| `s2ix.clusters`, {workers} worker{'s' if workers > 1 else ''} | {' | '.join(cells)} |"


def instructions_table(measured):
    sizes = [size for size in measured.sizes if any(counted == size for _, counted in measured.instructions)]
    return table_of(measured.instructions, names_of(measured.instructions), sizes, "instructions, ours : S2")


def tables(measured):
    """All tables as one text."""
    parts = [
        doors_table(measured), threads_table(measured), index_table(measured), at_once_table(measured), edits_table(measured), ids_table(measured),
        programs_table(measured), files_table(measured), clusters_table(measured),
    ]
    if measured.instructions:
        parts.append(instructions_table(measured))
    return "\n\n".join("\n".join(part) for part in parts)


def ahead(measured):
    """Where S2 is ahead, a line for each figure."""
    for figures, start in ((measured.doors, ""), (measured.times, ""), (measured.programs, "the program, ")):
        for name in names_of(figures):
            told_sizes = [size for size in measured.sizes if (name, size) in figures and figures[name, size].ours is not None]
            behind = [size for size in told_sizes if figures[name, size].ours > figures[name, size].s2]
            by_size = figures is not measured.times or is_of_index(name)
            told = [ratio(figures[name, size]) + (f" at {size:,}" if by_size else "") for size in behind]
            if told:
                yield f"- {start}{name}: {', '.join(told)}{' pairs' if by_size else ''}"
    yield from ahead_by_threads(measured)


def ahead_by_threads(measured):
    """Where S2's threads ask more points a second than ours do by the same program."""
    for count in sorted({count for _, count, _ in measured.threads}):
        both = [(size, *(measured.threads[name, count, size].clock for name in (OURS, S2))) for size in measured.sizes]
        told = [f"{ours / s2:.2f} at {size:,}" for size, ours, s2 in both if ours < s2]
        if told:
            yield f"- points a second, {count} thread{'s' if count > 1 else ''} by iterators, ours to S2's: {', '.join(told)} pairs"


def said_by(*words):
    return subprocess.run(words, capture_output=True, text=True, check=True).stdout


def machine():
    """The processor with its caches, and the memory."""
    told = said_by("env", "LC_ALL=C", "lscpu")

    def find(name):
        return (re.search(rf"^{name}:\s+(.*)$", told, re.M) or [None, "unknown"])[1]

    with open("/proc/meminfo", encoding="utf-8") as file:
        kilobytes = int(re.search(r"MemTotal:\s+(\d+)", file.read())[1])
    caches = ", ".join(re.findall(r"^L(?:1d|2|3) cache:\s+([^(\n]*\w)", told, re.M))
    return f"{find('Model name')}, {os.cpu_count()} processors (caches of {caches} in all), {kilobytes / 2 ** 20:.0f} GB"


def system():
    with open("/etc/os-release", encoding="utf-8") as file:
        return re.search(r'^PRETTY_NAME="(.*)"', file.read(), re.M)[1] + f", {platform.machine()}"


def upstream(package):
    """The version that a package is made of."""
    return re.split(r"[+-]", making.version_of(package).rpartition(":")[2])[0]


def joined(lines):
    return "\n".join(lines)


def write(measured):
    """Writes docs/reference/PERFORMANCE.md."""
    behind = joined(ahead(measured)) or "Nowhere in this run."
    counted = ""
    if measured.instructions:
        counted = "\n".join(["", "## Instructions", "", COUNTED, "", *instructions_table(measured), ""])
    text = PAGE.format(
        machine=machine(), system=system(), s2=making.version_of("libs2-dev"), compiler=said_by("g++", "--version").splitlines()[0],
        doors=joined(doors_table(measured)), threads=joined(threads_table(measured)), index=joined(index_table(measured)), at_once=joined(at_once_table(measured)),
        edits=joined(edits_table(measured)),
        ids=joined(ids_table(measured)), programs=joined(programs_table(measured)), files=joined(files_table(measured)),
        clusters=joined(clusters_table(measured)), python=upstream("python3"), numpy=upstream("python3-numpy"), sqlite=upstream("libsqlite3-0"),
        pandas=upstream("python3-pandas"), dask=upstream("python3-dask"), processors=os.cpu_count(), ahead=behind, counted=counted)
    with open(f"{making.TOP}/docs/reference/PERFORMANCE.md", "w", encoding="utf-8") as file:
        file.write(text)


COUNTED = """Counted by callgrind for one operation, less what an order costs that does nothing. A ratio far below that of the time shows
that memory is waited for."""

PAGE = """# Beside S2

What a caller meets, from C++ by S2's names (`clients/cpp/s2ix.hpp`) and from C, beside Google's S2 over the same pairs and targets, by one
thread. Each figure is the ratio of ours to S2's, and what it is made of, ours : S2's. Below 1 ours is ahead; a bold ratio is above 1.

{doors}

- *VisitIntersectingCells*, *GetIntersectingLabels*: the same program over both, which hands over an `S2CellUnion`. Ours returns a
  `LabelSet`, one rising list, S2 absl's `flat_hash_set`; into a set that is passed, both fill absl's.
- *RangeIterator and ContentsIterator*: new ones for each point.
- *From C*: what is found goes into one buffer of the caller's. It is beside what S2's names do above.

## Threads that ask one index

{threads}

All threads ask one index, which S2 can't edit. *A processor's*: in a second for which a processor was at work for a thread; the other rows are
by the clock, so they show what else the machine did. The figures are the most of some runs of 50 ms. *Iterators*: a `RangeIterator` and a
`ContentsIterator` for each point. *Edited*: another thread adds a pair or takes it away each 10 ms. A copy that a thread asks is made anew
after each edit.

## Where S2 is ahead

{ahead}

## How it was measured

`bench/run --page` wrote this page. It measures this index and S2 in one process, and compares what they answer. Run it on your own machine: it
sets itself up, and says what it does.

- The machine: {machine}.
- The system: {system}.
- S2: Debian's `libs2-dev` {s2}. Debian's library has S2's checks for debugging in it (`S2_DCHECK`), so `S2CellId`, `S2CellUnion` and
  `S2CellIndex` are compiled from Debian's source, as the bench's own C++ is: with `-O2 -DNDEBUG` by {compiler}.
- Ours: a static library that the toolchain builds as it builds the program, by LLVM with `-O3`.

Unless a table says more, times are of the processor, and each is the least of many turns that S2 and ours take one after the other. The
difference of two times is *too short to tell* if it is not above their noise.

## Inside: the index

{index}

The pairs are nested delivery zones: each shop has three, of 1, 5 and 5 cells of the levels 11, 13 and 15, under a label of its own, and
shops lie in towns on all six faces. Points lie in zones. A target of 8 or of 500 cells lies in one town, or, *apart*, in zones all over the
world.

- *Adds and build*: pairs in no order become a store with its table, beside S2's `Add` for each pair and `Build`.
- *Build of a table*: a bag, whose pairs are sorted already, gets its table, beside the same `Add` and `Build`, which sorts.
- *Load*: a dump is read from memory into a store, beside a plain reader that tests nothing, and `Build`.
- *Edit with a query*: a pair is removed from a store or added to it, and a point asked. S2 has no edits: its index is built again.
- *Point*: `chain_at`, beside a `RangeIterator` and a `ContentsIterator`; `visit`, beside `VisitIntersectingCells`.
- *Labels*: `labels`, a new rising list, beside the `GetIntersectingLabels` that returns a new hash set.
- *Bytes*: what the allocator gave for bag and table of a store, which can be edited, beside S2's index.

## Many points at once

{at_once}

One call asks for a million points, which lie in zones too. The labels over them go into one list, point by point, and where the labels of each
point end into another.

- *Unsorted*: `at_many`, beside a `RangeIterator` that seeks each point, and a `ContentsIterator`.
- *Rising*: the same over points that were sorted before. S2's iterators are kept, and seek only if a point lies behind the next range.
- *From C*: `s2ix_labels_at_each` over the unsorted points, into lists that have room for all.
- *From Python*: `Index.labels_at_each` over them, by Debian's Python {python} with NumPy {numpy}. It returns new lists.
- *By four threads*: each asks a copy of its own for a quarter of the points.

The last four rows are by the clock, the best of nine calls. The figures in brackets are ratios: of four threads to one, and of Python to C.

## Edits and copies

{edits}

S2 has neither. Each edit is one call of the library for C, on a store that can undo it. A figure is the median of 50 calls or more, with the
most in brackets; one without brackets is a mean. Pairs are taken away and put back in turns. 50 cells of one town get a label of their own,
which is renamed, grows and goes. `set_label` redraws such a zone, half of it where it was, as one change. Before a *cold* copy 64 MB of other memory are written. Points are asked before and after 800,000 random
edits.

## Single cells and unions

{ids}

A list of 4,096 cells each: of all levels, leaves, and cells at the rims of faces. Unions are of two shapes of 1,000 cells each over one
region.

## Whole programs

{programs}

`s2ix run --load DUMP` beside a small C++ program over S2 that reads the same dump and script and tests neither. *Load* is a run with an
empty script, and at few pairs mostly the start of a process with S2's shared libraries. The others are what their scripts take beyond it:
100,000 points, 20,000 targets of 8 cells, 500 of 500.

## An index in a file

{files}

By Debian's Python {python} with SQLite {sqlite}, over 10,000 pairs: the best of several runs, by the clock, since an edit waits for the disk. Each edit
adds one pair by a call of its own, and is in the file when the call returns.

## On a cluster

{clusters}

By Debian's pandas {pandas} and Dask {dask}: the best of several runs, by the clock, from the call to the number of rows. A cluster is
Dask's `LocalCluster` on this machine of {processors} processors: workers are processes with a thread each, beside one that gives out the
work. It joins 12,000,000 points, which lie in the workers' memory in 48 partitions, and the labels stay there; one process joins 3,000,000
of them. Most points are in one or two of 100,000 zones, each a cell of level 11 to 14. `join_parts` cuts these into 16 indexes.
{counted}"""
