"""Random shapes and points for tests of places."""
import ctypes
import math
from array import array

from s2ix_places import library
from s2ix_places.shapes import Shape


def turned(latitude, longitude, distance, angle):
    """The place at a distance and an angle from another, both in degrees."""
    a, b, d, t = (math.radians(each) for each in (latitude, longitude, distance, angle))
    up = math.asin(max(-1, min(1, math.sin(a) * math.cos(d) + math.cos(a) * math.sin(d) * math.cos(t))))
    along = b + math.atan2(math.sin(t) * math.sin(d) * math.cos(a), math.cos(d) - math.sin(a) * math.sin(up))
    return math.degrees(up), (math.degrees(along) + 540) % 360 - 180


def star(chance, latitude, longitude, radius, corners):
    """A ring around a place, of corners at distances from half of the radius to the whole."""
    ring = []
    for k in range(corners):
        up, along = turned(latitude, longitude, radius * (0.5 + chance.random() / 2), 360 * k / corners)
        ring.append([along, up])
    return [*ring, ring[0]]


def polygon(chance, latitude, longitude, radius, corners=None):
    """The rings of a polygon around a place, maybe with a hole."""
    corners = corners or chance.randrange(3, 25)
    rings = [star(chance, latitude, longitude, radius, max(corners, 12))]
    if chance.random() < 0.3:
        rings.append(star(chance, latitude, longitude, radius * 0.3, 8)[::-1])
    return rings


def shape(chance, latitude, longitude, radius):
    """A geometry around a place: a polygon, or several beside each other."""
    if chance.random() < 0.8:
        return {"type": "Polygon", "coordinates": polygon(chance, latitude, longitude, radius)}
    places = [turned(latitude, longitude, 2.5 * radius, 120 * k) for k in range(3)]
    return {"type": "MultiPolygon", "coordinates": [polygon(chance, *place, radius) for place in places]}


def shapes(chance, many):
    """Many shapes that overlap, some of them over the date line and around the poles."""
    made = []
    for k in range(many):
        home = chance.choice([(48.8, 2.3), (48.8, 2.3), (0, 180), (-17, -179.9), (90, 0), (-90, 0), (89.9, 30)])
        latitude, longitude = turned(*home, chance.random() * 3, 360 * chance.random())
        made.append(shape(chance, latitude, longitude, 10 ** (chance.random() * 2 - 1.5)))
    return made


def feature(id, geometry, properties=None):
    return {"type": "Feature", "id": id, "properties": {} if properties is None else properties, "geometry": geometry}


def collection(features):
    return {"type": "FeatureCollection", "features": features}


def rings_in(geometry):
    """All rings of a geometry."""
    polygons = [geometry["coordinates"]] if geometry["type"] == "Polygon" else geometry["coordinates"]
    return [ring for rings in polygons for ring in rings]


def points_near(chance, geometries, many):
    """Latitudes and longitudes of points near the rims of shapes, at their corners, and anywhere about them."""
    latitudes, longitudes = [], []
    for _ in range(many):
        ring = chance.choice(rings_in(chance.choice(geometries)))
        place = chance.randrange(len(ring) - 1)
        (along, up), (to_along, to_up) = ring[place], ring[place + 1]
        share, near = chance.random(), chance.choice([0, 1e-15, 1e-12, 1e-9, 1e-6, 1e-3, 0.1, 1])
        if abs(to_along - along) > 180:
            to_along += math.copysign(360, along - to_along)
        if near:
            up += (to_up - up) * share
            along += (to_along - along) * share
        up, along = up + (chance.random() - 0.5) * near, along + (chance.random() - 0.5) * near
        latitudes.append(max(-90.0, min(90.0, up)))
        longitudes.append((along + 540) % 360 - 180 if abs(along) > 180 else along)
    return latitudes, longitudes


def held_by_s2(geometries, latitudes, longitudes):
    """For each point the places of the shapes that hold it, as s2ix_shapes_at_each tells it."""
    kept = [Shape(each) for each in geometries]
    handles = (ctypes.c_void_p * len(kept))(*(each.address for each in kept))
    points, room, number = [array("d", each) for each in (latitudes, longitudes)], 40 * len(latitudes), ctypes.c_size_t()
    ends, found = (ctypes.c_size_t * len(latitudes))(), (ctypes.c_uint32 * room)()
    addresses = points[0].buffer_info()[0], points[1].buffer_info()[0]
    call = library.load().s2ix_shapes_at_each
    call.argtypes = [ctypes.c_void_p, ctypes.c_size_t, *[ctypes.c_void_p] * 2, ctypes.c_size_t, *[ctypes.c_void_p] * 2, ctypes.c_size_t, ctypes.c_void_p]
    status = call(handles, len(kept), *addresses, len(latitudes), ends, found, room, ctypes.addressof(number))
    assert status == 0, status
    return [found[start:end] for start, end in zip([0, *ends], ends)]
