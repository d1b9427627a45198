"""Measures s2ix.Durable: what an edit costs that is kept in a file, and how long a file takes to open.

    S2IX_LIBRARY=path/to/libs2ix.so python3 bench/in_a_file.py FOLDER

FOLDER is on the disk that is measured. Each line that it prints is a figure's name, a tab and the figure, the best of RUNS. Times are by the
clock, since an edit waits for the disk."""
import os
import random
import sys
import tempfile
import time

sys.dont_write_bytecode = True
sys.path.insert(0, f"{os.path.dirname(os.path.dirname(os.path.realpath(__file__)))}/clients/python")
from s2ix import Durable, Index  # noqa: E402

PAIRS, CHANGES, RUNS = 10_000, 10_000, 5


def rows_of(chance, many):
    """Pairs of random cells of the levels 8 to 19, each under one of a hundred labels."""
    lows = [1 << 2 * (30 - chance.randrange(8, 20)) for _ in range(many)]
    return [(chance.randrange(6 << 61) & -(2 * low) | low, chance.randrange(100), 1) for low in lows]


def edits_a_second(index, rows):
    """How many edits an index makes in a second, each an add of one pair."""
    start = time.perf_counter()
    for cell, label, _ in rows:
        index.add(cell, label)
    return len(rows) / (time.perf_counter() - start)


def milliseconds(path):
    """How long a file takes to open."""
    start = time.perf_counter()
    Durable(path).close()
    return (time.perf_counter() - start) * 1000


def measured(folder):
    """The figures of one run."""
    chance = random.Random(1)
    held, added = rows_of(chance, PAIRS), rows_of(chance, CHANGES)
    figures, path = {}, f"{folder}/normal.db"
    with Index() as index:
        index.add_all(held)
        figures["in memory"] = edits_a_second(index, added)
    for synchronous, rows in (("FULL", added[: CHANGES // 10]), ("NORMAL", added)):
        with Durable(f"{folder}/{synchronous.lower()}.db", synchronous=synchronous) as index:
            index.add_all(held)
            index.forget()
            figures[synchronous] = edits_a_second(index, rows)
    figures["open"] = milliseconds(path)
    with Durable(path) as index:
        index.compact()
    figures["open compact"] = milliseconds(path)
    return figures


def main():
    [folder] = sys.argv[1:]
    runs = []
    for _ in range(RUNS):
        with tempfile.TemporaryDirectory(dir=folder) as room:
            runs.append(measured(room))
    for name in runs[0]:
        best = min if name.startswith("open") else max
        print(f"{name}\t{best(run[name] for run in runs)}")


if __name__ == "__main__":
    main()
