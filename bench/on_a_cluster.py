"""Measures joins of frames: how many points a second s2ix.frames joins in one process, and s2ix.clusters by one, two and three workers.

    S2IX_LIBRARY=path/to/libs2ix.so /usr/bin/python3 bench/on_a_cluster.py

It needs pandas and Dask with distributed; Debian's are those of /usr/bin/python3. Each line that it prints is a figure's name, a tab and the
figure, the best of RUNS. Times are by the clock, since workers are processes of their own. It exits with 1 if two joins have another number
of rows."""
import logging
import os
import sys
import time

sys.dont_write_bytecode = True
CLIENT = f"{os.path.dirname(os.path.dirname(os.path.realpath(__file__)))}/clients/python"
sys.path.insert(0, CLIENT)
import dask  # noqa: E402
import dask.dataframe  # noqa: E402
import distributed  # noqa: E402
import numpy  # noqa: E402
import pandas  # noqa: E402
from s2ix import Index, clusters, frames  # noqa: E402

POINTS, PARTITIONS, PAIRS, TOWNS, RUNS, WORKERS = 12_000_000, 48, 100_000, 400, 3, (1, 2, 3)
# A town is a cell of this level, and a zone a cell of one of those.
TOWN, ZONES = 8, range(11, 15)


def lowest(levels):
    """The lowest bit of cells of some levels."""
    return numpy.uint64(1) << (60 - 2 * numpy.asarray(levels)).astype("uint64")


def leaves_in_towns(chance, many):
    """Random leaves in the towns, which are the same ones each time."""
    low, towns = lowest(TOWN), numpy.random.default_rng(0).integers(0, 6 << 2 * TOWN, TOWNS).astype("uint64")
    # (the numbers of a town's leaves are odd, from 2 * low times its place on)
    own, leaves = towns[chance.integers(0, TOWNS, many)], chance.integers(0, int(low), many).astype("uint64")
    return (own * low + leaves) * numpy.uint64(2) + numpy.uint64(1)


def points_of(number):
    """The points of a partition, with another column."""
    many = POINTS // PARTITIONS
    return pandas.DataFrame({"leaf": leaves_in_towns(numpy.random.default_rng([1, number]), many), "parcel": numpy.arange(many) + number * many})


def zones():
    """The zones, each a cell under a label of its own."""
    chance = numpy.random.default_rng(2)
    low = lowest(chance.choice(ZONES, PAIRS))
    cells = leaves_in_towns(chance, PAIRS) & ~(low * numpy.uint64(2) - numpy.uint64(1)) | low
    return pandas.DataFrame({"cell": cells, "label": numpy.arange(PAIRS)})


def dump_of(zones):
    with Index() as index:
        index.add_all((cell, label, 1) for cell, label in zip(zones["cell"].tolist(), zones["label"].tolist()))
        return index.dump()


def best(join, many):
    """Joins so many points, and returns the most points a second, with how many rows there are."""
    rates, rows = [], set()
    for _ in range(RUNS):
        start = time.perf_counter()
        rows.add(join())
        rates.append(many / (time.perf_counter() - start))
    if len(rows) > 1:
        sys.exit(f"on a cluster: one join has different numbers of rows: {rows}")
    return max(rates), *rows


def on_a_cluster(workers, dump, rows):
    """The figures of both joins by so many workers, in whose memory the points lie; the answers are counted there."""
    with distributed.LocalCluster(
        n_workers=workers, threads_per_worker=1, processes=True, dashboard_address=None, memory_limit=0, silence_logs=logging.CRITICAL
    ) as cluster, distributed.Client(cluster):
        points = dask.dataframe.from_delayed([dask.delayed(points_of)(number) for number in range(PARTITIONS)], meta=points_of(0).head(0)).persist()
        distributed.wait(points)
        for name, join in {"join": lambda: clusters.join(points, dump), "join_parts": lambda: clusters.join_parts(points, rows)}.items():
            yield f"{name} {workers}", *best(lambda join=join: len(join()), POINTS)


def main():
    os.environ["PYTHONPATH"] = os.pathsep.join([CLIENT, *filter(None, [os.environ.get("PYTHONPATH")])])
    rows = zones()
    dump = dump_of(rows)
    # (a quarter of the points is enough for one process)
    first = pandas.concat([points_of(number) for number in range(PARTITIONS // 4)], ignore_index=True)
    with Index.load(dump) as index:
        rate, _ = best(lambda: len(frames.join(first, index)), len(first))
    print(f"frames.join\t{rate}", flush=True)
    counts = set()
    for workers in WORKERS:
        for name, rate, count in on_a_cluster(workers, dump, rows):
            print(f"{name}\t{rate}", flush=True)
            counts.add(count)
    if len(counts) > 1:
        sys.exit(f"on a cluster: the joins have different numbers of rows: {counts}")


if __name__ == "__main__":
    main()
