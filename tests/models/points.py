"""Points in degrees for tests: those at which a leaf is easily missed, and random ones of several kinds."""
import math

LEAF_LEVEL = 30
# Longitudes of the edges and the middles of faces.
TURNS = [0.0, -0.0, 45.0, -45.0, 90.0, -90.0, 135.0, -135.0, 180.0, -180.0]
# The latitude of the corners of the cube.
CORNER = math.degrees(math.atan(math.sqrt(0.5)))


def beside(number):
    """A number and its neighbours among the doubles."""
    return [number, math.nextafter(number, -math.inf), math.nextafter(number, math.inf)]


def hard():
    """Poles, middles, edges and corners of faces, the date line, zeros of both signs, the least numbers, and longitudes that go round."""
    yield from ((latitude, longitude) for latitude in (90.0, -90.0) for longitude in (*TURNS, 12.5, -77.25))
    yield from ((math.nextafter(latitude, 0), longitude) for latitude in (90.0, -90.0) for longitude in TURNS)
    yield from ((latitude, longitude) for latitude in (0.0, -0.0, 45.0, -45.0, 12.5, -77.25, 5e-324, -5e-324) for longitude in TURNS)
    corners = [near for turn in (45.0, 135.0, -45.0, -135.0) for near in beside(turn)]
    yield from ((latitude, longitude) for corner in (CORNER, -CORNER) for latitude in beside(corner) for longitude in corners)
    lines = [near for turn in (180.0, -180.0) for near in (math.nextafter(turn, 0), turn * (1 - 2**-40))]
    yield from ((latitude, longitude) for latitude in (0.0, 33.3, -60.1) for longitude in lines)
    rounds = [190.0, -190.0, 270.0, 360.0, -360.0, 540.0, 1e6 + 0.1, -1e300]
    yield from ((latitude, longitude) for latitude in (0.0, 51.5, -33.9) for longitude in rounds)
    yield from ((latitude, longitude) for latitude in (1e-300, 1e-17, -1e-17, 1e-9) for longitude in (5e-324, -1e-17, 90 + 1e-13, -1e-9))


def drawn(chance, many):
    """Random points of several kinds, all with longitudes from -180 to 180."""
    kinds = [anywhere, even, near_leaf_edge, near_face_edge, near_axis, short]
    return [kinds[place % len(kinds)](chance) for place in range(many)]


def anywhere(chance):
    return chance.uniform(-90, 90), chance.uniform(-180, 180)


def even(chance):
    """A point of the sphere, each as likely."""
    return math.degrees(math.asin(chance.uniform(-1, 1))), chance.uniform(-180, 180)


def near_leaf_edge(chance):
    """The corner of a cell, which doubles mostly miss by little."""
    level = chance.randrange(LEAF_LEVEL + 1)
    s, t = (chance.randrange((1 << level) + 1) / (1 << level) for _ in range(2))
    return degrees_of(*on_cube(chance.randrange(6), stretched(s), stretched(t)))


def near_face_edge(chance):
    side = chance.choice([-1, 1]) * (1 - chance.choice([0, 2**-53, 2**-50, 2**-40, 2**-33]))
    place = [side, chance.choice([chance.uniform(-1, 1), side, 0.0])]
    chance.shuffle(place)
    return degrees_of(*on_cube(chance.randrange(6), *place))


def near_axis(chance):
    """Close to a pole, the date line, the equator or a middle of a face."""
    little = chance.choice([-1, 1]) * 10 ** chance.uniform(-20, -1)
    line = chance.choice([(90.0, None), (-90.0, None), (None, 180.0), (None, -180.0), (0.0, None), (None, chance.choice(TURNS))])
    latitude, longitude = line
    latitude = chance.uniform(-90, 90) if latitude is None else max(-90.0, min(90.0, latitude + little))
    return latitude, chance.uniform(-180, 180) if longitude is None else max(-180.0, min(180.0, longitude + little))


def short(chance):
    """Numbers of few digits, as people write them."""
    digits = chance.randrange(8)
    return round(chance.uniform(-90, 90), digits), round(chance.uniform(-180, 180), digits)


def stretched(s):
    """A place on a face, from -1 to 1, of one that goes from 0 to 1 in steps of columns."""
    return (4 * s * s - 1) / 3 if s >= 0.5 else (1 - 4 * (1 - s) * (1 - s)) / 3


def on_cube(face, u, v):
    return [(1, u, v), (-u, 1, v), (-u, -v, 1), (-1, -v, -u), (v, -1, -u), (v, u, -1)][face]


def degrees_of(x, y, z):
    return math.degrees(math.atan2(z, math.hypot(x, y))), math.degrees(math.atan2(y, x))
