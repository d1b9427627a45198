"""Zones for tests of the map, their history, and a plain model that says which zones are at a place after a step, and since when."""
import itertools
import math
import random

# The middle of each city, as longitude and latitude.
CITIES = ((12.49, 41.89), (2.35, 48.86), (-3.70, 40.42), (13.40, 52.52), (21.01, 52.23))


def feature(known, polygons, properties=None):
    """A feature whose polygons are lists of rings without their last corner."""
    closed = [[[*ring, ring[0]] for ring in rings] for rings in polygons]
    geometry = {"type": "Polygon", "coordinates": closed[0]} if len(closed) == 1 else {"type": "MultiPolygon", "coordinates": closed}
    return {"type": "Feature", "id": known, "properties": properties, "geometry": geometry}


def city(numbers, middle, side, corners, size=0.012):
    """Rings that lie side by side, in a square of side x side, each with so many corners, a multiple of 4."""
    bend, wide = corners // 4, size / math.cos(math.radians(middle[1]))
    off = lambda at: at - side / 2 + numbers.uniform(-0.25, 0.25)  # noqa: E731
    joints = {(i, j): (middle[0] + off(i) * wide, middle[1] + off(j) * size) for i in range(side + 1) for j in range(side + 1)}
    lines = {}

    def line(one, other):
        if (other, one) in lines:
            return lines[other, one][::-1]
        if (one, other) not in lines:
            (x, y), (next_x, next_y) = joints[one], joints[other]
            parts, shake = [part / bend for part in range(1, bend)], lambda: numbers.gauss(0, size / 60)
            lines[one, other] = [(x + (next_x - x) * part + shake(), y + (next_y - y) * part + shake()) for part in parts]
        return lines[one, other]
    for i in range(side):
        for j in range(side):
            around = [(i, j), (i + 1, j), (i + 1, j + 1), (i, j + 1)]
            yield [corner for one, other in zip(around, [*around[1:], around[0]]) for corner in (joints[one], *line(one, other))]


def special():
    """Zones of the kinds that maps get wrong: with a hole, of parts, over the date line in three spellings, around each pole, with a corner
    on a pole, and with long edges."""
    box = lambda west, south, east, north: [(west, south), (east, south), (east, north), (west, north)]  # noqa: E731
    around = lambda latitude: [(longitude, latitude + longitude % 3) for longitude in range(-180, 180, 30)]  # noqa: E731
    return {
        "hole": [[box(-10, 10, 10, 30), box(-4, 16, 4, 24)]],
        "parts": [[box(-60, -10, -50, 0)], [box(-45, -10, -35, 0), box(-42, -7, -38, -3)]],
        "over": [[box(172, -20, -175, -10)]], "past": [[box(172, 5, 188, 15)]], "cut": [[box(170, 30, 180, 40)], [box(-180, 30, -170, 40)]],
        "north": [[around(72)]], "ring": [[around(-60), around(-75)]], "corner": [[[(30, 60), (100, 62), (60, 90)]]],
        "long": [[[(-120, 20), (-60, 50), (-120, 55)]]],
        "antarctic": [[[(-180, -80), (-90, -78), (0, -82), (90, -79), (180, -80), (180, -90), (-180, -90)]]],
    }


def history_of(numbers, zones, changes):
    """A first step that adds some zones, given by their ids as polygons, and so many changes of each kind, some of them back to a shape of
    before."""
    named = {known: feature(known, polygons, {"name": f"Zone {known}", "rate": 3}) for known, polygons in zones.items()}
    steps = [{"id": 1, "time": "2026-11-02T08:00:00Z", "note": "all zones", "who": "Ann", "added": [*named.values()]}]
    held, gone = dict(named), {}
    for number in range(2, changes + 2):
        time, who = f"2026-11-02T09:{number % 60:02}:30+00:00", numbers.choice(["Ann", "Ben", None])
        step = {"id": number, "time": time, "note": f"note {number}", "who": who}
        chosen = numbers.choice([*held])
        if number % 5 == 0 and gone:
            back = numbers.choice([*gone])
            step["added"] = [held.setdefault(back, gone.pop(back))]
        elif number % 5 == 1:
            gone[chosen] = held.pop(chosen)
            step["removed"] = [{"type": "Feature", "id": chosen, "properties": None, "geometry": None}]
        elif number % 5 == 2:
            held[chosen] = {**held[chosen], "properties": {**held[chosen]["properties"], "rate": number}}
            step["changed"] = [held[chosen]]
        else:
            pair = sorted({chosen, numbers.choice([*held])})
            redrawn = {each: moved(held[each]) if held[each] is named[each] else named[each] for each in pair}
            held.update(redrawn)
            step["changed"] = {"type": "FeatureCollection", "features": [*redrawn.values()]}
        steps.append(step)
    return steps


def moved(given):
    """A feature somewhat moved to the east and grown."""
    rings = polygons_of(given)
    xs, ys = zip(*rings[0][0])
    middle = ((min(xs) + max(xs)) / 2, (min(ys) + max(ys)) / 2)
    if max(map(abs, xs)) > 150 or max(map(abs, ys)) > 70:
        return {**given, "properties": {"name": f"Zone {given['id']}, again"}}
    def turned(x, y):
        return middle[0] + 1.2 * (x - middle[0]) + 0.2 * (max(xs) - min(xs)), middle[1] + 1.1 * (y - middle[1])
    return feature(given["id"], [[[turned(*corner) for corner in ring[:-1]] for ring in polygon] for polygon in rings], given["properties"])


def polygons_of(given):
    geometry = given["geometry"]
    return [geometry["coordinates"]] if geometry["type"] == "Polygon" else geometry["coordinates"]


def features_of(step, kind):
    listed = step.get(kind) or []
    return listed["features"] if isinstance(listed, dict) else listed


class Model:
    """What a history comes to after each step: for each zone its feature, the step since which it is so, and since which it is there."""

    def __init__(self, history):
        self.steps, held, self.held = history, {}, [{}]
        for step in history:
            held = dict(held)
            for each in features_of(step, "added"):
                held[each["id"]] = (each, step["id"], step["id"])
            for each in features_of(step, "changed"):
                held[each["id"]] = (each, step["id"], held[each["id"]][2])
            for each in features_of(step, "removed"):
                del held[each["id"]]
            self.held.append(held)
        self._plain = {}

    def at(self, step, latitude, longitude):
        """The zones at a place after so many steps, with the two steps of each; None if the place is too near a border to say."""
        near = [point(latitude + up * 2e-7, longitude + right * 2e-7) for up, right in ((0, 0), (0, 1), (0, -1), (1, 0), (-1, 0))]
        answers = [[known for known, (given, *_) in self.held[step].items() if self._is_within(given, place)] for place in near]
        return {known: self.held[step][known][1:] for known in answers[0]} if all(answer == answers[0] for answer in answers) else None

    def _is_within(self, given, place):
        """Whether a point is within a feature."""
        polygons = self._plain.get(id(given))
        if not polygons:
            polygons = self._plain[id(given)] = [[Ring(ring) for ring in rings] for rings in polygons_of(given)]
        return any(sum(ring.has(place) for ring in rings) % 2 for rings in polygons)


class Ring:
    """A ring on the sphere; it has the smaller of its sides."""

    def __init__(self, corners):
        self.points = [point(y, x) for x, y in corners]
        sums = [sum(corner[axis] for corner in self.points) for axis in range(3)]
        self.middle = [each / math.hypot(*sums) for each in sums]
        # How near to the middle the farthest corner is: no place of the ring is farther.
        self.least = min(dot(self.middle, corner) for corner in self.points)
        side = (0.0, 0.0, 1.0) if abs(self.middle[2]) < 0.7 else (1.0, 0.0, 0.0)
        self.outside = [0.8 * (s - dot(side, self.middle) * m) - 0.5 * m + 0.013 for s, m in zip(side, self.middle)]

    def has(self, place):
        """Whether an arc from a place to one far from the ring crosses its edges an odd number of times."""
        if dot(self.middle, place) < self.least:
            return False
        return sum(crosses(place, self.outside, *edge) for edge in zip(self.points, self.points[1:])) % 2 == 1


def point(latitude, longitude):
    y, x = math.radians(latitude), math.radians(longitude)
    return math.cos(y) * math.cos(x), math.cos(y) * math.sin(x), math.sin(y)


def turn(one, other, third):
    """Whether three points of the sphere turn left, as the sign of their determinant."""
    (a, b, c), (d, e, f), (g, h, i) = one, other, third
    return a * (e * i - f * h) - b * (d * i - f * g) + c * (d * h - e * g)


def dot(one, other):
    return sum(a * b for a, b in zip(one, other))


def crosses(one, other, start, end):
    first = turn(one, start, other)
    if first * turn(other, end, one) <= 0:
        return False
    return first * turn(start, other, end) > 0 and first * turn(end, one, start) > 0


def many_zones(count=2000, changes=40):
    """The history of so many zones of 48 corners in five cities."""
    numbers, side = random.Random(3), math.ceil(math.sqrt(count / len(CITIES)))
    rings = [ring for middle in CITIES for ring in itertools.islice(city(numbers, middle, side, 48), count // len(CITIES))]
    return history_of(numbers, {f"{at:04}": [[ring]] for at, ring in enumerate(rings)}, changes)
