"""Measures many points by one call of the Python package.

    S2IX_LIBRARY=path/to/libs2ix.so python3 bench/at_once.py FOLDER

FOLDER has a dump and points, as bench/out/texts writes them. It prints the lines that bench/out/at_once prints, for Python."""
import os
import sys
import time
from array import array

sys.dont_write_bytecode = True
sys.path.insert(0, f"{os.path.dirname(os.path.dirname(os.path.realpath(__file__)))}/clients/python")
from s2ix import Index  # noqa: E402

RUNS, WORD = 9, 8


def read(path):
    with open(path, "rb") as file:
        return file.read()


def asked(index, points, threads):
    """The least time of a call for all points, in nanoseconds a point, and the labels that it returns."""
    times = []
    for _ in range(RUNS):
        start = time.perf_counter()
        _, labels = index.labels_at_each(points, threads)
        times.append(time.perf_counter() - start)
    return min(times) * 1e9 / len(points), labels


def main():
    if len(sys.argv) != 2:
        sys.exit("usage: bench/at_once.py FOLDER")
    folder = sys.argv[1]
    index, points = Index.load(read(f"{folder}/dump")), array("Q", read(f"{folder}/points"))
    found = set()
    for threads in (1, 4):
        nanoseconds, labels = asked(index, points, threads)
        print(f"Python, {threads}\t{nanoseconds:.2f}")
        found.add((len(labels), sum(labels.tolist())))
    if len(found) > 1:
        sys.exit("bench: four threads found other labels than one")
    print("found", *found.pop(), sep="\t")


if __name__ == "__main__":
    main()
