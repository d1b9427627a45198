"""Measures the log of s2ix.Durable at size: how long a file with many steps takes to open, what its questions cost, and its bytes a step.

    S2IX_LIBRARY=path/to/libs2ix.so python3 bench/in_a_log.py FOLDER [STEPS]

FOLDER is on the disk that is measured; there are 1,000,000 steps if STEPS is left out. Each line that it prints is a figure's name, a tab and
the figure. Times are by the clock, the best of RUNS."""
import os
import random
import sys
import tempfile
import time

sys.dont_write_bytecode = True
sys.path.insert(0, f"{os.path.dirname(os.path.dirname(os.path.realpath(__file__)))}/clients/python")
sys.path.insert(0, os.path.dirname(os.path.realpath(__file__)))
from in_a_file import PAIRS, rows_of  # noqa: E402
from s2ix import Durable  # noqa: E402

RUNS, BATCH = 5, 10_000


def best(action):
    """How many milliseconds an action takes at best."""
    took = []
    for _ in range(RUNS):
        start = time.perf_counter()
        action()
        took.append((time.perf_counter() - start) * 1000)
    return min(took)


def fill(path, steps, changes):
    """Makes a file of PAIRS pairs and so many steps, each of one pair: half of them take away what the other half added. Returns how many
    bytes a step has."""
    chance = random.Random(1)
    held = rows_of(chance, PAIRS)
    with Durable(path, synchronous="NORMAL", changes=changes, keep="newest") as index:
        index.add_all(held)
        before = index._file._asked("PRAGMA page_count")
        done = 0
        while done < steps:
            rows = rows_of(chance, BATCH // 2)
            for sign in (0, 1):
                lines, counts = [], {}
                for cell, label, _ in rows:
                    pair = f"{cell:016x}".rstrip("0"), label
                    held_now = counts.get(pair, index.count(cell, label))
                    counts[pair] = held_now + (1 - 2 * sign)
                    lines.append(f"change 1\n{pair[0]} {label} {held_now} {counts[pair]}\n")
                for first in range(0, len(lines), 1000):
                    some = lines[first : first + 1000]
                    index.apply(f"s2ix-journal 2\n{''.join(some)}end {len(some)}\n")
                    done += len(some)
        pages = index._file._asked("PRAGMA page_count") - before
        return pages * index._file._asked("PRAGMA page_size") / done


def measured(folder, steps, changes):
    path, figures = f"{folder}/log.db", {}
    start = time.perf_counter()
    figures["bytes a step"] = fill(path, steps, changes)
    figures["seconds to fill"] = time.perf_counter() - start
    figures["ms to open"] = best(lambda: Durable(path).close())
    figures["ms to open to read"] = best(lambda: Durable(path, read_only=True).close())
    with Durable(path, synchronous="NORMAL") as index, Durable(path, read_only=True) as follower:
        figures["steps"] = index.log(newest_first=True, most=1)[0].id
        figures["changes that can be undone"] = index.done_count()
        figures["ms of log(label) of ten steps"] = best(lambda: index.log(label=7, newest_first=True, most=10))
        cell = index.entries(figures["steps"])[0].cell
        figures["ms of log(cell) of ten steps"] = best(lambda: index.log(cell=cell, newest_first=True, most=10))
        figures["ms of log() of ten steps"] = best(lambda: index.log(newest_first=True, most=10))
        figures["ms of entries"] = best(lambda: index.entries(figures["steps"] // 2))
        chance = random.Random(2)
        figures["ms of as_of"] = best(lambda: index.as_of(chance.randrange(figures["steps"])).close())

        def followed():
            index.add(chance.randrange(1 << 60) << 1 | 1, 7)
            start = time.perf_counter()
            follower.refresh()
            return (time.perf_counter() - start) * 1000

        figures["ms of a refresh after an edit"] = min(followed() for _ in range(200))
        index.forget_older(1)
        start = time.perf_counter()
        follower.refresh()
        figures["ms of a refresh after forget_older"] = (time.perf_counter() - start) * 1000
    return figures


def main():
    folder, *rest = sys.argv[1:]
    steps = int(rest[0]) if rest else 1_000_000
    for changes in (100_000, 10_000):
        with tempfile.TemporaryDirectory(dir=folder) as room:
            for name, figure in measured(room, steps, changes).items():
                print(f"{name}, changes={changes}\t{figure}", flush=True)


if __name__ == "__main__":
    main()
