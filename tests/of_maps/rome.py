"""A made-up day of delivery zones in Rome, for the picture of the map."""
import math
import random
from functools import partial

from of_maps import zone_model

# Quarters, each with about its middle, as latitude and longitude.
QUARTERS = {
    "Prati": (41.909, 12.462), "Borgo": (41.9035, 12.457), "Trastevere": (41.888, 12.469), "Testaccio": (41.876, 12.475),
    "Aventino": (41.881, 12.484), "Centro": (41.897, 12.474), "Campo Marzio": (41.906, 12.477), "Trevi": (41.901, 12.487),
    "Monti": (41.893, 12.494), "Esquilino": (41.893, 12.506),
    "Castro Pretorio": (41.905, 12.504), "San Lorenzo": (41.898, 12.517), "Parioli": (41.924, 12.493), "Flaminio": (41.922, 12.473),
    "Salario": (41.915, 12.502), "Nomentano": (41.912, 12.519), "San Giovanni": (41.883, 12.509), "Celio": (41.885, 12.495),
    "Ostiense": (41.866, 12.478), "Garbatella": (41.861, 12.492), "Monteverde": (41.875, 12.456), "Gianicolo": (41.889, 12.455),
    "Trionfale": (41.914, 12.446), "Appio": (41.871, 12.511),
    "Pigneto": (41.889, 12.531), "Vittoria": (41.923, 12.452),
}
MIDDLE, WIDE, HIGH = (41.894, 12.488), 0.058, 0.040


def ring_around(latitude, longitude, wide, high, corners=48):
    """An ellipse, as longitudes and latitudes."""
    turns = [2 * math.pi * at / corners for at in range(corners)]
    return [(longitude + wide * math.cos(turn), latitude + high * math.sin(turn)) for turn in turns]


def nearer(ring, one, other):
    """The part of a ring that is nearer to one place than to another, if a degree of longitude is three quarters of one of latitude."""
    def off(x, y):
        return 0.56 * (x - one[1]) ** 2 + (y - one[0]) ** 2 - 0.56 * (x - other[1]) ** 2 - (y - other[0]) ** 2
    part = []
    for start, end in zip(ring, [*ring[1:], ring[0]]):
        first, then = off(*start), off(*end)
        if first <= 0:
            part.append(start)
        if (first <= 0) != (then <= 0):
            at = first / (first - then)
            part.append((start[0] + at * (end[0] - start[0]), start[1] + at * (end[1] - start[1])))
    return part


def winding(ring):
    """The ring with bends in its long edges, the same on both sides of an edge."""
    bent = []
    for start, end in zip(ring, [*ring[1:], ring[0]]):
        ends = sorted([tuple(round(each, 7) for each in start), tuple(round(each, 7) for each in end)])
        numbers, far = random.Random(str(ends)), math.dist(*ends)
        pieces = max(1, round(far / 0.0012))
        (x, y), (next_x, next_y) = ends
        parts, shake = [at / pieces for at in range(1, pieces)], partial(numbers.gauss, 0, 0.00022)
        inner = [(x + (next_x - x) * part + shake(), y + (next_y - y) * part + shake()) for part in parts]
        bent += [start, *(inner if tuple(round(each, 7) for each in start) == ends[0] else inner[::-1])]
    return bent


def zone(known, name, ring, **properties):
    return zone_model.feature(known, [[ring]], {"name": name, **properties})


def history():
    """The day: all quarters, then a match, roadworks and a market."""
    quarters, edge = [], ring_around(*MIDDLE, WIDE, HIGH, 90)
    for number, (name, middle) in enumerate(QUARTERS.items(), 501):
        ring = edge
        for other in QUARTERS.values():
            if other != middle:
                ring = nearer(ring, middle, other)
        quarters.append(zone(f"R{number}", name, winding(ring), fee="2.50 €", depot="Roma Nord" if middle[0] > 41.9 else "Roma Sud"))
    match = zone("match", "Match day", ring_around(41.925, 12.462, 0.010, 0.0075), fee="5.00 €", until="23:30")
    works = zone("works", "Roadworks", ring_around(41.887, 12.503, 0.007, 0.0045), closed="Via Merulana")
    day = "2026-11-29T"
    return [
        {"id": 1, "time": f"{day}05:30:00Z", "note": "quarters as of December", "who": "Giulia", "added": quarters},
        {"id": 2, "time": f"{day}07:12:00Z", "note": "Via Merulana is closed", "who": "Marco", "added": [works]},
        {"id": 3, "time": f"{day}09:40:00Z", "note": "match at the Olimpico", "who": "Giulia", "added": [match]},
        {"id": 4, "time": f"{day}11:05:00Z", "note": "dearer in the match zone", "who": "Marco",
         "changed": [{**match, "properties": {**match["properties"], "fee": "6.00 €"}}]},
        {"id": 5, "time": f"{day}13:20:00Z", "note": "match zone moves; market opens", "who": "Giulia",
         "changed": [zone("match", "Match day", ring_around(41.918, 12.468, 0.0125, 0.0075), fee="6.00 €", until="23:30")],
         "removed": [works], "added": [zone("market", "Market", ring_around(41.8765, 12.4745, 0.006, 0.0045), fee="1.00 €")]},
        {"id": 6, "time": f"{day}22:55:00Z", "note": "match is over", "who": "Luca", "removed": [match]},
    ]
