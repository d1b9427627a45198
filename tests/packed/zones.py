"""Writes zones.geojson and points.csv for tests/packages into a folder: shapes, some with holes, over the date line or around a pole, under
ids, and points near their rims. Each run writes the same.

    tests/packed/zones.py FOLDER"""
import csv
import json
import os
import random
import sys

TESTS = os.path.dirname(os.path.dirname(os.path.realpath(__file__)))
sys.dont_write_bytecode = True
sys.path[:0] = [TESTS, *(f"{os.path.dirname(TESTS)}/{package}" for package in ("clients/python", "places/python"))]
from of_places.shapes import collection, feature, points_near, shapes  # noqa: E402

ZONES, POINTS = 60, 2_000


def main():
    folder = sys.argv[1]
    chance = random.Random(75)
    geometries = shapes(chance, ZONES)
    with open(f"{folder}/zones.geojson", "w", encoding="utf-8") as file:
        json.dump(collection([feature(f"zone {place}", each, {"fee": place}) for place, each in enumerate(geometries)]), file)
    with open(f"{folder}/points.csv", "w", encoding="utf-8", newline="") as file:
        csv.writer(file).writerows([("latitude", "longitude"), *zip(*points_near(chance, geometries, POINTS))])


if __name__ == "__main__":
    main()
