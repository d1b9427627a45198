#!/usr/bin/env python3
"""Measures one tool over the zones and points of a folder, and prints its figures as JSON: bench/places/run starts it, a process for each.

Times are of the processor, of all processes of the tool together. Answers are compared with those of S2's own query, which lie in the folder."""
import contextlib
import io
import json
import os
import random
import resource
import shutil
import statistics
import subprocess
import sys
import tempfile
import time

import numpy

TOP = os.path.dirname(os.path.dirname(os.path.dirname(os.path.realpath(__file__))))
sys.path[:0] = [f"{TOP}/clients/python", f"{TOP}/places/python"]
# How often a zone is drawn anew, and how many points are asked one by one.
REDRAWS, ONE_BY_ONE = 15, 3_000
# The zone that is drawn anew, and those that a flat map can't have: one over the date line, and one around a pole.
DRAWN, ROUND = 7, 3


class Scene:
    """The zones and points of a folder, and the pairs of both that S2 finds, each as one number."""

    def __init__(self, folder):
        self.path = f"{folder}/zones.geojson"
        self.latitudes, self.longitudes = (numpy.fromfile(f"{folder}/{name}") for name in ("latitudes", "longitudes"))
        with open(self.path, encoding="utf-8") as file:
            self.features = json.load(file)["features"]
        ends, found = numpy.fromfile(f"{folder}/ends", "u8"), numpy.fromfile(f"{folder}/found", "u4")
        self.wanted = numpy.sort(self.pairs(numpy.repeat(numpy.arange(len(ends)), numpy.diff(ends, prepend=numpy.uint64(0)).astype(int)), found))

    def pairs(self, points, zones):
        return numpy.asarray(points, "i8") * len(self.features) + numpy.asarray(zones, "i8")

    def unlike(self, points, zones):
        """How many pairs differ from S2's, with those that a flat map can't have left out if there are none of these."""
        return len(numpy.setxor1d(self.pairs(points, zones), self.wanted))

    def redrawn(self):
        """The zone that is drawn anew, a little otherwise each time, and a point in it."""
        chance, [ring, *holes] = random.Random(1), self.features[DRAWN]["geometry"]["coordinates"]
        for _ in range(REDRAWS):
            moved = [[along + chance.uniform(-1e-6, 1e-6), up] for along, up in ring[:-1]]
            yield {"type": "Polygon", "coordinates": [[*moved, moved[0]], *holes]}


def memory():
    """What this process has in memory, in megabytes."""
    with open("/proc/self/statm", encoding="ascii") as file:
        return int(file.read().split()[1]) * resource.getpagesize() / 1e6


def seconds_of(work, *given, clock=time.process_time):
    """What some work takes, and its answer."""
    start = clock()
    answer = work(*given)
    return clock() - start, answer


def ours(scene, max_cells):
    """Zones in memory, exactly and by their coverings."""
    from s2ix import degrees
    from s2ix_places import Zones

    before = memory()
    load, zones = seconds_of(lambda: Zones.read(scene.path, max_cells=int(max_cells), progress=False))
    figures = {"load": load, "memory": memory() - before, "pairs": len(zones.index)}
    points = len(scene.latitudes)
    exact, (ends, labels) = min((seconds_of(zones.at_each, scene.latitudes, scene.longitudes) for _ in range(3)), key=lambda found: found[0])
    rough, (wide_ends, wide) = min((seconds_of(zones.at_each, scene.latitudes, scene.longitudes, False) for _ in range(3)), key=lambda found: found[0])
    number_of = numpy.zeros(int(wide.max()) + 1, "i8")
    for label in numpy.unique(wide).tolist():
        number_of[label] = int(zones.ids([label])[0])
    places = numpy.repeat(numpy.arange(points), numpy.diff(ends, prepend=0))
    _, under = zones.index.labels_at_each(degrees.leaf(scene.latitudes, scene.longitudes))
    of_rim = numpy.repeat(numpy.arange(points), numpy.diff(wide_ends, prepend=0))[under & 1 == 0]
    figures |= {"exact": points / exact, "rough": points / rough, "unlike": scene.unlike(places, number_of[labels])}
    figures |= {"wrong": 1 - len(labels) / len(wide), "rim": len(numpy.unique(of_rim)) / points}
    one = list(zip(scene.latitudes[:ONE_BY_ONE].tolist(), scene.longitudes[:ONE_BY_ONE].tolist()))
    figures["one"] = len(one) / seconds_of(lambda: [zones.at(*place) for place in one])[0]
    figures["redraw"] = redraws(scene, zones)
    return figures


def redraws(scene, zones):
    """How long a redraw takes until a point of it is answered, the median in milliseconds."""
    taken = []
    for shape in scene.redrawn():
        [along, up] = shape["coordinates"][0][0]
        taken.append(seconds_of(lambda: (zones.put(str(DRAWN), shape), zones.at(up, along)))[0])
    return statistics.median(taken) * 1e3


def ours_in_a_file(scene, max_cells):
    """Zones in a file."""
    from s2ix_places import Zones

    with tempfile.TemporaryDirectory() as folder, Zones.open(f"{folder}/zones.db", max_cells=int(max_cells)) as zones:
        load, _ = seconds_of(lambda: zones.put_all(scene.path, progress=False))
        return {"load": load, "redraw": redraws(scene, zones), "bytes": os.path.getsize(f"{folder}/zones.db") / 1e6}


def geopandas(scene):
    """The join of geopandas, whose edges are straight in longitudes and latitudes."""
    import warnings

    import geopandas

    warnings.simplefilter("ignore")
    points = geopandas.GeoDataFrame(geometry=geopandas.points_from_xy(scene.longitudes, scene.latitudes), crs=4326)
    before = memory()
    flat = len(scene.features) - ROUND
    load, zones = seconds_of(lambda: geopandas.read_file(scene.path).drop(index=[flat, flat + 1]))
    taken, joined = seconds_of(lambda: points.sjoin(zones, predicate="within"))
    figures = {"load": load, "memory": memory() - before, "exact": len(points) / taken}
    figures["unlike"] = unlike_flat(scene, joined.index, joined.zone_id.astype(int))
    one = points.iloc[:30]
    figures["one"] = len(one) / seconds_of(lambda: [one.iloc[k : k + 1].sjoin(zones, predicate="within") for k in range(len(one))])[0]
    from shapely.geometry import shape as shape_of

    def redraw(shape):
        zones.loc[DRAWN, "geometry"] = shape_of(shape)
        return one.iloc[:1].sjoin(zones, predicate="within")

    figures["redraw"] = statistics.median(seconds_of(redraw, shape)[0] for shape in scene.redrawn()) * 1e3
    return figures


def unlike_flat(scene, points, zones):
    """How many pairs differ from S2's but for the zones that a flat map can't have."""
    many = len(scene.features)
    wanted = scene.wanted[(scene.wanted % many < many - ROUND) | (scene.wanted % many == many - 1)]
    return len(numpy.setxor1d(scene.pairs(points, zones), wanted))


@contextlib.contextmanager
def server():
    """A server of PostgreSQL with PostGIS on a local socket, in a folder that is gone at the end; gives a connection."""
    import psycopg2

    [programs] = [path for path in ("/usr/lib/postgresql/15/bin",) if os.path.exists(f"{path}/initdb")]
    folder = tempfile.mkdtemp()
    user = ["runuser", "-u", "postgres", "--"] if os.geteuid() == 0 else []
    if user:
        shutil.chown(folder, "postgres")
    data, quiet = f"{folder}/data", {"check": True, "stdout": subprocess.DEVNULL}
    options = f"-k {folder} -c listen_addresses='' -c max_parallel_workers_per_gather=0 -c jit=off"
    try:
        subprocess.run([*user, f"{programs}/initdb", "-D", data, "-A", "trust", "-U", "postgres"], cwd=folder, **quiet)
        subprocess.run([*user, f"{programs}/pg_ctl", "-D", data, "-w", "-t", "300", "-l", f"{folder}/log", "-o", options, "start"], cwd=folder, **quiet)
        connection = psycopg2.connect(host=folder, user="postgres", dbname="postgres")
        connection.autocommit = True
        yield connection
        connection.close()
    finally:
        subprocess.run([*user, f"{programs}/pg_ctl", "-D", data, "-m", "fast", "-w", "stop"], cwd=folder, check=False, stdout=subprocess.DEVNULL)
        shutil.rmtree(folder, ignore_errors=True)


def postgis(scene, kind):
    """PostGIS with shapes on the sphere (`geography`) or on a flat map (`geometry`): a GiST index, in bulk, and by a prepared statement."""
    with server() as connection, connection.cursor() as cursor:
        pid = connection.get_backend_pid()

        def clock():
            with open(f"/proc/{pid}/stat", encoding="ascii") as file:
                parts = file.read().rsplit(")", 1)[1].split()
            return time.process_time() + (int(parts[11]) + int(parts[12])) / os.sysconf("SC_CLK_TCK")

        cursor.execute("CREATE EXTENSION postgis")
        features = scene.features if kind == "geography" else [*scene.features[:-ROUND], scene.features[-1]]
        figures = {"load": seconds_of(lambda: load_zones(cursor, features, kind), clock=clock)[0]}
        cursor.execute("SELECT pg_total_relation_size('zone')")
        figures["memory"] = cursor.fetchone()[0] / 1e6
        load_points(cursor, scene, kind)
        ask = "CREATE TEMP TABLE answer AS SELECT point.number, zone.id FROM point JOIN zone ON ST_Covers(zone.shape, point.place)"
        figures["exact"] = len(scene.latitudes) / seconds_of(lambda: cursor.execute(ask), clock=clock)[0]
        told = io.StringIO()
        cursor.copy_expert("COPY answer TO STDOUT WITH CSV", told)
        answer = numpy.loadtxt(io.StringIO(told.getvalue()), delimiter=",", dtype="i8").T
        figures["unlike"] = (scene.unlike if kind == "geography" else lambda *pairs: unlike_flat(scene, *pairs))(*answer)
        cursor.execute(f"PREPARE ask AS SELECT id FROM zone WHERE ST_Covers(shape, ST_SetSRID(ST_MakePoint($1, $2), 4326)::{kind})")
        places = list(zip(scene.longitudes[:ONE_BY_ONE].tolist(), scene.latitudes[:ONE_BY_ONE].tolist()))

        def one(place):
            cursor.execute("EXECUTE ask (%s, %s)", place)
            return cursor.fetchall()

        figures["one"] = len(places) / seconds_of(lambda: [one(place) for place in places], clock=clock)[0]
        change = f"UPDATE zone SET shape = ST_SetSRID(ST_GeomFromGeoJSON(%s), 4326)::{kind} WHERE id = %s"

        def redraw():
            for shape in scene.redrawn():
                cursor.execute(change, (json.dumps(shape), DRAWN))
                one(shape["coordinates"][0][0])

        figures["redraw"] = seconds_of(redraw, clock=clock)[0] / REDRAWS * 1e3
        return figures


def load_zones(cursor, features, kind):
    cursor.execute(f"CREATE TABLE zone (id int PRIMARY KEY, shape {kind})")
    put = f"INSERT INTO zone VALUES (%s, ST_SetSRID(ST_GeomFromGeoJSON(%s), 4326)::{kind})"
    cursor.executemany(put, [(int(each["id"]), json.dumps(each["geometry"])) for each in features])
    cursor.execute("CREATE INDEX ON zone USING gist (shape)")
    cursor.execute("ANALYZE zone")


def load_points(cursor, scene, kind):
    cursor.execute("CREATE TABLE place (number int, longitude float8, latitude float8)")
    rows = "".join(f"{number},{along!r},{up!r}\n" for number, (along, up) in enumerate(zip(scene.longitudes.tolist(), scene.latitudes.tolist())))
    cursor.copy_expert("COPY place FROM STDIN WITH CSV", io.StringIO(rows))
    cursor.execute(f"CREATE TABLE point AS SELECT number, ST_SetSRID(ST_MakePoint(longitude, latitude), 4326)::{kind} AS place FROM place")
    cursor.execute("ANALYZE point")


TOOLS = {"ours": ours, "file": ours_in_a_file, "geopandas": geopandas, "postgis": postgis}

if __name__ == "__main__":
    _, name, folder_of_scene, *words = sys.argv
    print(json.dumps(TOOLS[name](Scene(folder_of_scene), *words)))
