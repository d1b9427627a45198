"""Zones with what others make: shapes of shapely, frames of geopandas, the bar of tqdm, and the countries that geopandas ships. Each is left
out if Debian's package isn't installed."""
import contextlib
import importlib
import io
import json
import os
import random
import warnings

from of_places.shapes import collection, feature, points_near, shapes
from s2ix_places import Faulty, Zones, progress

# Capitals as geopandas names them, each in its country.
CAPITALS = {
    "Rome": "Italy", "Paris": "France", "Nairobi": "Kenya", "Ottawa": "Canada", "Canberra": "Australia", "Suva": "Fiji", "Moscow": "Russia",
    "Maseru": "Lesotho", "Khartoum": "Sudan", "Kyiv": "Ukraine", "Brasília": "Brazil", "Wellington": "New Zealand", "Tokyo": "Japan",
}


def check_beside(count):
    """All that is installed; a line says what isn't."""
    warnings.simplefilter("ignore")
    for check, needed in ((check_shapely, ["shapely"]), (check_tqdm, ["tqdm"]), (check_frames, ["geopandas", "rtree"]), (check_countries, ["geopandas"])):
        try:
            modules = [importlib.import_module(name) for name in needed]
        except ImportError as raised:
            print(f"python places: {raised.name} is not installed, so {check.__name__} is left out")
            continue
        check(count, modules[0])


def check_shapely(count, shapely):
    """A shape of shapely is put, and what stands becomes one again."""
    geometry = importlib.import_module("shapely.geometry")
    box = geometry.box(12, 41, 13, 42).difference(geometry.Point(12.5, 41.5).buffer(0.1))
    islands = geometry.MultiPolygon([geometry.box(k, 0, k + 0.5, 1) for k in range(3)])
    with Zones() as zones:
        zones.put("box", box, {"fee": 3})
        zones.put("islands", islands)
        count.expect("what was put", [geometry.shape(zones[id].shape).equals(shape) for id, shape in (("box", box), ("islands", islands))], [True, True])
        count.expect("its points", (zones.at(41.1, 12.1), zones.at(41.5, 12.5), zones.at(0.5, 1.2)), (["box"], [], ["islands"]))
        with Zones.read([zones["box"], zones["islands"]]) as again:
            count.expect("zones as features", (again.geojson(), again["box"].properties), (zones.geojson(), {"fee": 3}))
        tie = geometry.Polygon([(0, 0), (1, 1), (1, 0), (0, 1)])
        try:
            count.expect("a tie", zones.put("tie", tie), None)
        except Faulty as refused:
            count.expect("a tie", "cross" in str(refused), True)


def check_tqdm(count, tqdm):
    """The bar of tqdm tells how far reading is, from a second on, here from the start."""
    del tqdm
    kept, progress._FIRST = progress._FIRST, 0.0
    try:
        with contextlib.redirect_stderr(io.StringIO()) as told, Zones.read(collection([feature(str(k), shape) for k, shape in enumerate(shapes(random.Random(2), 30))])):
            pass
    finally:
        progress._FIRST = kept
    count.expect("a bar", ("zones: 100%" in told.getvalue(), "30/30" in told.getvalue()), (True, True))


def check_frames(count, geopandas):
    """A frame of geopandas becomes zones, in degrees or projected; its points are joined as its own join does; and zones become a frame."""
    from s2ix import frames

    chance = random.Random(4)
    made = [each for each in shapes(chance, 120) if all(abs(up) < 60 and abs(along) < 170 for ring in rings_of(each) for along, up in ring)]
    frame = geopandas.GeoDataFrame.from_features([feature(None, each, {"zone_id": f"z{k}", "fee": k}) for k, each in enumerate(made)], crs=4326)
    latitudes, longitudes = points_near(chance, made, 3_000)
    # (near a rim, the shortest line on the sphere is not that on a map)
    latitudes, longitudes = ([each + chance.uniform(-0.5, 0.5) for each in degrees] for degrees in (latitudes, longitudes))
    points = geopandas.GeoDataFrame({"name": range(3_000)}, geometry=geopandas.points_from_xy(longitudes, latitudes), crs=4326)
    with Zones.read(frame, id="zone_id", progress=False) as zones:
        count.expect("a frame as zones", (len(zones), zones["z7"].properties), (len(made), {"zone_id": "z7", "fee": 7}))
        joined, wanted = zones.join(points), points.sjoin(frame, predicate="within")
        found = {*zip(joined.name, joined.zone)} ^ {*zip(wanted.name, wanted.zone_id)}
        count.expect("its join", (len(found) <= len(wanted) // 200, len(wanted) > 300), (True, True))
        count.expect("frames.join", frames.join(points, zones).equals(joined), True)
        count.expect("points of another projection", zones.join(points.to_crs(3857)).zone.tolist(), joined.zone.tolist())
        with Zones.read(frame.to_crs(3857), id="zone_id", progress=False) as other:
            held = [sorted(other.at(*place)) == sorted(zones.at(*place)) for place in zip(latitudes[:300], longitudes[:300])]
            count.expect("zones of another projection", held.count(True) > 297, True)
        again = geopandas.GeoDataFrame.from_features(zones.geojson(), crs=4326)
        count.expect("zones as a frame", ([*again.zone_id], again.geometry.geom_equals(frame.geometry).all()), ([*frame.zone_id], True))


def rings_of(geometry):
    polygons = [geometry["coordinates"]] if geometry["type"] == "Polygon" else geometry["coordinates"]
    return [ring for polygon in polygons for ring in polygon]


def check_countries(count, geopandas):
    """The countries of Natural Earth: their faults are told, or mended; capitals lie in them; and what went in comes out."""
    folder = os.path.join(os.path.dirname(geopandas.__file__), "datasets")
    paths = [os.path.join(folder, name, f"{name}.shp") for name in ("naturalearth_lowres", "naturalearth_cities")]
    if not all(map(os.path.exists, paths)):
        print("python places: geopandas has no countries, so they are left out")
        return
    world, cities = map(geopandas.read_file, paths)
    with Zones.read(world, id="name", on_error="skip", progress=False) as zones:
        told = {each.id: each.reason for each in zones.skipped}
        count.expect("countries with faults", (len(zones) + len(told), len(told) < 4), (len(world), True))
        for id, words in {"Russia": "a longitude is beyond 180 degrees", "Sudan": "two edges cross"}.items():
            count.expect(f"the fault of {id}", told.get(id, words)[: len(words)], words)
    with Zones.read(world, id="name", mend=True, max_cells=64, progress=False) as zones:
        count.expect("countries with their faults mended", (sorted(zones), zones.skipped), (sorted(world.name), []))
        joined = zones.join(cities, zone="country")
        found = {name: country for name, country in zip(joined.name, joined.country) if name in CAPITALS}
        count.expect("capitals", {**CAPITALS, **found}, CAPITALS)
        count.expect("most capitals are there", len(found) >= len(CAPITALS) - 2, True)
        places = zones.at(-90, 0), zones.at(66, 180), zones.at(66, -180), zones.at(-17.8, 178)
        count.expect("a pole, and the date line", places, (["Antarctica"], ["Russia"], ["Russia"], ["Fiji"]))
        out = json.loads(json.dumps(zones.geojson()))
        given = [{key: each[key] for key in ("type", "geometry", "properties")} for each in json.loads(json.dumps(world.__geo_interface__))["features"]]
        count.expect("out as in", out == collection(given), True)
        with Zones.read(out, id="name", mend=True, max_cells=64, progress=False) as again:
            same = again.geojson() == out, again.index.dump() == zones.index.dump()
            count.expect("and in again", same, (True, True))
        outlines = zones.cells_geojson(outlines=True)
        with Zones.read(outlines, id="zone", progress=False) as around:
            count.expect("outlines of their cells", {country in around.at(place.y, place.x) for place, country in zip(joined.geometry, joined.country)}, {True})
