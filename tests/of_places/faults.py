"""Bad input for zones, and the words of the shell."""
import csv
import io
import json
import os
import subprocess
import sys

from of_places.shapes import collection, feature
from s2ix import Index, TooManyPairs
from s2ix_places import Faulty, Zones, progress

SQUARE = {"type": "Polygon", "coordinates": [[[12, 41], [13, 41], [13, 42], [12, 42], [12, 41]]]}
TIE = {"type": "Polygon", "coordinates": [[[12, 41], [13, 42], [13, 41], [12, 42], [12, 41]]]}


def polygon(*ring):
    return {"type": "Polygon", "coordinates": [list(ring)]}


def refusal(call, *given, **named):
    """The class and the words of what a call raises."""
    try:
        call(*given, **named)
    except Exception as raised:  # noqa: BLE001
        return type(raised).__name__, str(raised)
    return "", ""


#: Geometries that are refused, each with a part of the words.
NO_SHAPES = [
    (None, "no geometry"), ([], "of type list"), ({}, "no type"), ({"type": "Point", "coordinates": [1, 2]}, "is a Point"),
    ({"type": "GeometryCollection", "geometries": []}, "is a GeometryCollection"), ({"type": "Polygon"}, "missing"),
    ({"type": "Polygon", "coordinates": []}, "nothing is inside"), ({"type": "Polygon", "coordinates": {}}, "of type dict"),
    ({"type": "MultiPolygon", "coordinates": SQUARE["coordinates"]}, "no list of a longitude and a latitude"),
    (polygon(1, 2, 3, 1), "no list of a longitude and a latitude"), (polygon([1, 2], [1], [2, 2], [1, 2]), "corner 1 is no list"),
    (polygon([1, 2], [1, "3"], [2, 2], [1, 2]), "corner 1 has a longitude or latitude that is no number"),
    (polygon([1, 2], [1, 10**400], [2, 2], [1, 2]), "corner 1 has a longitude or latitude that is no number"),
    (polygon([1, 2], [1, float("nan")], [2, 2], [1, 2]), "ring 0, corner 1"), (polygon([12, 41], [13, 41], [13, 42]), "open"),
    (polygon([41, 112], [42, 112], [42, 113], [41, 112]), "swapped"), (polygon([412, 11], [42, 12], [42, 13], [412, 11]), "longitude"),
    (polygon([12, 41], [13, 41], [12, 41]), "fewer than three"), (TIE, "cross"),
    (polygon([12, 41], [13, 41], [13, 41], [13, 42], [12, 41]), "one place"),
    ({"type": "MultiPolygon", "coordinates": [[[[0, 0]] * 100_000]] * 60}, "it has 6,000,000 corners, of at most 5,000,000"),
]

#: Properties that JSON can't spell, each with a part of the words.
UNSPELT = [
    ([], "no object, but of type list"), ("x", "of type str"), ({"a": object()}, "an object of type object at ['a']"),
    ({"a": [0, {1, 2}]}, "an object of type set at ['a'][1]"), ({"fee": float("nan")}, "the number nan at ['fee']"),
    ({"fee": {"max": [1, float("-inf")]}}, "the number -inf at ['fee']['max'][1]"), ({(1, 2): 3}, "keys must be str"),
]


def check_shapes(count):
    """Each shape that is none is refused by its reason, alone and within a collection, and nothing is lost."""
    with Zones() as zones:
        zones.put("dock", SQUARE, {"fee": 1})
        before = zones.geojson(), zones.index.dump(), zones.done_count()
        for shape, words in NO_SHAPES:
            kind, told = refusal(zones.put, "quay", shape)
            count.expect(f"refused: {words}", (kind, words in told, "'quay'" in told), ("Faulty", True, True))
            count.expect("nothing is lost", (zones.geojson(), zones.index.dump(), zones.done_count()), before)
        for id in (None, 7, b"dock", "\ud800"):
            count.expect(f"id {id!r}", refusal(zones.put, id, SQUARE)[0], "Faulty")
            count.expect(f"new id {id!r}", refusal(zones.rename, "dock", id)[0], "Faulty")
        for properties, words in UNSPELT:
            kind, told = refusal(zones.put, "quay", SQUARE, properties)
            count.expect(f"properties {words}", (kind, words in told, "'quay'" in told), ("Faulty", True, True))
        high = {"type": "Polygon", "coordinates": [[[*corner, float("nan")] for corner in SQUARE["coordinates"][0]]]}
        count.expect("a height of nan", "'geometry' has the number nan at ['coordinates'][0][0][2]" in refusal(zones.put, "quay", high)[1], True)
        for call in (zones.drop, zones.__getitem__, lambda id: zones.rename(id, "x"), lambda id: zones.restore(id, 1)):
            count.expect("an id of no zone", refusal(call, "nowhere"), refusal(call, "nowhere")[:1] + (refusal(call, "nowhere")[1],))
            count.expect("an id of no zone", refusal(call, "nowhere")[0], "NoZone")
        count.expect("it is just so", refusal(zones.put, "dock", SQUARE, {"fee": 1})[0], "NoChange")
        count.expect("which may be", zones.put("dock", SQUARE, {"fee": 1}, same_ok=True), zones["dock"].label)
        count.expect("a note in memory", refusal(zones.put, "quay", SQUARE, note="x")[0], "TypeError")
        for place in ((91, 0), (0, 181), (float("nan"), 0), (0, float("inf"))):
            count.expect(f"no place: {place}", (refusal(zones.at, *place)[0], refusal(zones.at_each, *[[0, each] for each in place])[0]), ("ValueError", "ValueError"))
        count.expect("swapped", "swapped" in refusal(zones.at, 139.7, 35.7)[1], True)
        count.expect("the place of a wrong point", refusal(zones.at_each, [0, 1, 95], [0, 0, 0])[1][:9], "place 2: ")
        count.expect("other lengths", refusal(zones.at_each, [0, 1], [0])[0], "ValueError")
        count.expect("nothing is lost", (zones.geojson(), zones.index.dump(), zones.done_count()), before)
    for limits in ({"max_cells": 0}, {"min_level": 31}, {"min_level": 3, "max_level": 2}, {"max_cells": 10**7}, {"pairs": 0}):
        count.expect(f"limits {limits}", refusal(Zones, **limits)[0], "NoLimits")


def check_sources(count, folder):
    """Files that are no zones, and collections with faulty features."""
    path = os.path.join(folder, "zones.geojson")
    texts = [("", "no JSON"), ("{", "no JSON"), ("x", "no JSON"), ("[" * 100_000, ""), ("3", "int"), ("null", "NoneType"), ('"x"', "str"), ("{}", "type is None"),
             ('{"type":"Topology"}', "Topology"), ('{"type":"FeatureCollection"}', "no list of features"), (b"\xff{}", "no JSON"),
             ('{"type":"FeatureCollection","features":[],"crs":{"type":"name","properties":{"name":"EPSG:25832"}}}', "EPSG:25832")]
    for text, words in texts:
        with open(path, "wb") as file:
            file.write(text if isinstance(text, bytes) else text.encode())
        kind, told = refusal(Zones.read, path)
        count.expect(f"no zones: {text[:40]!r}", (kind, words in told), ("NoGeoJson", True))
    count.expect("no file", refusal(Zones.read, os.path.join(folder, "none"))[0], "FileNotFoundError")
    faulty = collection([
        feature("a", SQUARE), feature("b", TIE), feature("a", SQUARE), feature(None, SQUARE), feature(7, SQUARE), 3, {"type": "Polygon"},
        {"type": "Feature", "id": "c", "geometry": SQUARE, "properties": 3}, feature("d", SQUARE)])
    with open(path, "w", encoding="utf-8") as file:
        json.dump(faulty, file)
    wanted = [(1, "b", "cross"), (2, "a", "feature 0 has the same id"), (3, None, "missing"), (4, None, "7, which is no text"), (5, None, "no object"),
              (6, None, "no Feature"), (7, "c", "properties")]
    for source in (path, faulty, faulty["features"], type("Frame", (), {"__geo_interface__": faulty})()):
        try:
            count.expect("all or none", Zones.read(source), "Faulty")
        except Faulty as refused:
            found = [(each.place, each.id, words in each.reason) for each, (_, _, words) in zip(refused.faults, wanted)]
            count.expect("faults", found, [(place, id, True) for place, id, _ in wanted])
            count.expect("the words list them", all(str(fault) in str(refused) for fault in refused.faults), True)
        with Zones.read(source, on_error="skip") as zones:
            count.expect("those without a fault", ([*zones], len(zones.skipped), zones.done_count()), (["a", "d"], 7, 0))
    with Zones.read(collection([feature("tie", TIE)]), mend=True) as zones:
        count.expect("mended", (zones.at(41.4, 12.1), zones.at(41.5, 12.9), zones.at(41.9, 12.5), zones["tie"].shape), (["tie"], ["tie"], [], TIE))
    count.expect("a policy", refusal(Zones.read, faulty, on_error="ignore")[0], "ValueError")
    with open(path, "w", encoding="utf-8") as file:
        file.write(json.dumps(collection([feature("a", SQUARE), feature("b", SQUARE, {"fee": {"max": "?"}})])).replace('"?"', "1e999"))
    told = refusal(Zones.read, path)[1]
    count.expect("an infinity", ("feature 1, 'b'" in told, "the number inf at ['fee']['max']" in told), (True, True))
    many = [feature(f"zone {k}", polygon([k, 41], [k + 1, 41], [k + 1, 42], [k, 42], [k, 41])) for k in range(10)]
    with Zones.read(collection(many), max_cells=16) as zones:
        each = len(zones.index) // 10
    try:
        count.expect("too many pairs", Zones.read(collection(many), max_cells=16, pairs=5 * each), "TooManyPairs")
    except TooManyPairs as refused:
        count.expect("which zone is too much", (refused.value in (f"zone {k}" for k in range(3, 7)), f"{refused.value!r} is too much" in str(refused)), (True, True))


def check_forms(count):
    """What went in comes out, by each way of naming a feature."""
    features = [{"type": "Feature", "geometry": SQUARE, "properties": {"n": k, "zone_id": f"z{k}", "é": [None, 1.0, True, {"x": "ü"}]}} for k in range(3)]
    with Zones.read(collection(features), id="zone_id") as zones:
        count.expect("out as in", zones.geojson(), collection(features))
        zones.rename("z1", "y")
        count.expect("a new id", zones.geojson()["features"][-1]["properties"]["zone_id"], "y")
        with Zones.read(zones.geojson(), id="zone_id") as again:
            count.expect("and in again", (again.geojson(), again["y"].properties["n"]), (zones.geojson(), 1))
    own = [{"type": "Feature", "id": each["properties"]["zone_id"], **{k: v for k, v in each.items() if k != "type"}} for each in features]
    with Zones.read(collection(own)) as zones, Zones.read(collection(features), lambda each: f"z{each['properties']['n']}") as other:
        count.expect("their own ids", (zones.geojson(), other.geojson()), (collection(own), collection(own)))
        count.expect("a zone is a feature", Zones.read(zones["z1"])["z1"], zones["z1"]._replace(label=0))
        count.expect("one of many", (zones.put_all(collection([*own, feature("new", SQUARE)])), zones.done_count(), len(zones)), ([], 1, 4))
        count.expect("all are just so", refusal(zones.put_all, collection(own))[0], "NoChange")
        count.expect("which may be", (zones.put_all(collection(own), same_ok=True), zones.done_count(), zones.undone_count()), ([], 1, 0))
    with Zones.read(collection([])) as zones:
        count.expect("no zones", ([*zones], zones.geojson(), zones.at(0, 0), [len(each) for each in zones.at_each([0.0], [0.0])]), ([], collection([]), [], [1, 0]))
    broken = collection([{"type": "Feature", "geometry": SQUARE, "properties": {}}])
    with Zones.read(broken, on_error="skip") as zones:
        count.expect("all are left out", (len(zones), [each.reason for each in zones.skipped]), (0, ["its id is missing"]))
        count.expect("no number isn't swapped", "swapped" in refusal(zones.at, float("nan"), 0)[1], False)
    kind, told = refusal(Zones.read, broken, lambda each: each["properties"]["n"])
    count.expect("a function that finds no id", (kind, "the function for ids raises KeyError" in told), ("Faulty", True))


def ran(*words, given=""):
    """What a word prints, tells and returns."""
    done = subprocess.run([sys.executable, "-m", "s2ix_places", *words], input=given, capture_output=True, text=True, check=False)
    return done.stdout, done.stderr, done.returncode


def check_words(count, folder):
    """The words of the shell."""
    path, names, points = (os.path.join(folder, name) for name in ("zones.geojson", "names.csv", "points.csv"))
    features = [{"type": "Feature", "geometry": SQUARE, "properties": {"zone_id": id}} for id in ('a "b"', "c,d")]
    with open(path, "w", encoding="utf-8") as file:
        json.dump(collection(features), file)
    dump, told, status = ran("cover", path, "--id", "zone_id", "--max-cells", "20", "--names", names)
    with Zones.read(path, "zone_id", 20) as zones:
        count.expect("cover", (dump, told, status), (zones.index.dump(), "", 0))
        with open(names, encoding="utf-8", newline="") as file:
            rows = list(csv.reader(file))
        count.expect("names", (rows[0], {int(label): id for label, id, _ in rows[1:]}), (["label", "id", "inner"], zones.names()))
    with open(os.path.join(folder, "zones.dump"), "w", encoding="utf-8") as file:
        file.write(dump)
    printed, told, status = ran("geojson", file.name, "--names", names)
    made = json.loads(printed)["features"]
    with Index.load(dump) as index:
        count.expect("geojson", ([(int(each["properties"]["cell"].ljust(16, "0"), 16), each["properties"]["label"]) for each in made], told, status),
                     ([(row.cell, row.label) for row in index], "", 0))
    count.expect("its names", {each["properties"]["zone"] for each in made}, {'a "b"', "c,d"})
    rows = "name,Lat,lon\nx,41.5,12.5\ny,40,12.5\n"
    with open(points, "w", encoding="utf-8") as file:
        file.write(rows)
    wanted = [["name", "Lat", "lon", "zone"], ["x", "41.5", "12.5", 'a "b"'], ["x", "41.5", "12.5", "c,d"], ["y", "40", "12.5", ""]]
    for words, given in ((points, ""), ("-", rows)):
        printed, told, status = ran("at", path, words, "--id", "zone_id", given=given)
        count.expect("at", (list(csv.reader(io.StringIO(printed))), told, status), (wanted, "", 0))
    kept = os.path.join(folder, "kept.db")
    with Zones.open(kept) as zones:
        zones.put_all(collection(features), lambda each: each["properties"]["zone_id"], note="all", progress=False)
    printed, told, status = ran("at", kept, points, "--column", "id")
    count.expect("at zones in a file", (list(csv.reader(io.StringIO(printed)))[1:], told, status), (wanted[1:], "", 0))
    count.expect("cover zones in a file", ran("cover", kept)[0][:7], "s2ix 2\n")
    printed, told, status = ran("map", kept, "--title", "Docks")
    count.expect("a map", (status, "<title>Docks" in printed or "libjs-leaflet" in told), (0 if printed else 1, True))
    check_refused_words(count, path)


def check_refused_words(count, path):
    """Words that are refused tell why on standard error, and print nothing."""
    for words, given, status, tells in [
        ((), "", 2, "usage"), (("fly",), "", 2, "usage"), (("cover", "none"), "", 1, "none"), (("cover", path), "", 1, "its id is missing"),
        (("geojson", "-"), "x", 1, "dump"), (("at", path, "-", "--id", "zone_id"), "a,b\n", 1, "no column latitude"),
        (("at", path, "-", "--id", "zone_id"), "lat,lon\n1,x\n", 1, "point 0"), (("cover", path, "--id", "zone_id", "--max-cells", "0"), "", 1, "cells"),
        (("at", path, "-", "--id", "zone_id"), "lat,lon\n99,1\n", 1, "swapped"), (("geojson", "-"), "s2ix 2\n04 1 1\n05 x 1\nend 2 2\n", 1, "line 3"),
    ]:
        printed, told, found = ran(*words, given=given)
        count.expect(f"refused words {words}", (found, tells in told, printed, "Traceback" in told), (status, True, "", False))


def check_progress(count):
    """How far reading is, told by a line from a second on."""
    clock, written = iter([0, 0.5, 1.5, 2, 12]), io.StringIO()
    kept = progress.time.monotonic, sys.stderr
    progress.time.monotonic, sys.stderr = lambda: next(clock), written
    try:
        items = list(progress._by_lines("abcd", "zones"))
    finally:
        progress.time.monotonic, sys.stderr = kept
    count.expect("progress", (items, written.getvalue()), ([*"abcd"], "zones: 1 of 4\nzones: 3 of 4\nzones: 4 of 4\n"))
    count.expect("no progress", list(progress.told([1, 2], "zones", False)), [1, 2])


def check_library(count, folder):
    """What is told if a library isn't there, or not that of S2."""
    script = "from s2ix_places import Zones\ntry:\n    Zones().put('a', %r)\nexcept OSError as raised:\n    print(raised)" % (SQUARE,)
    path = os.path.join(folder, "libs2ix_places.so")
    for named, words in ((os.path.join(folder, "none.so"), "none.so"), ("", "tools/build_places makes it")):
        around = {**os.environ, "S2IX_PLACES_LIBRARY": named}
        done = subprocess.run([sys.executable, "-c", script], env=around, capture_output=True, text=True, check=False)
        count.expect(f"no library {named!r}", (words in done.stdout, done.stderr), (True, ""))
    source = os.path.join(folder, "needy.c")
    with open(source, "w", encoding="utf-8") as file:
        file.write("int s2(void) { return 0; }\n")
    built = [["cc", "-shared", "-fPIC", source, "-Wl,-soname,libs2.so.none", "-o", os.path.join(folder, "libs2.so.none")],
             ["cc", "-shared", "-fPIC", source, "-Wl,--no-as-needed", os.path.join(folder, "libs2.so.none"), "-o", path]]
    if any(subprocess.run(words, capture_output=True, check=False).returncode for words in built):
        return
    os.remove(os.path.join(folder, "libs2.so.none"))
    around = {**os.environ, "S2IX_PLACES_LIBRARY": path}
    done = subprocess.run([sys.executable, "-c", script], env=around, capture_output=True, text=True, check=False)
    count.expect("no library of S2", ("apt-get install libs2-0" in done.stdout, done.stderr), (True, ""))
