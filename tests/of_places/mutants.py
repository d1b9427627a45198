"""Mutants of GeoJSON: texts of zones with one to four things changed, in their bytes, their words, their numbers or their parts."""
import json
import re

from of_places.shapes import collection, feature

BOX = [[12, 41], [13, 41], [13, 42], [12, 42], [12, 41]]
HOLE = [[12.2, 41.2], [12.2, 41.8], [12.8, 41.8], [12.8, 41.2], [12.2, 41.2]]
TIE = [[12, 41], [13, 42], [13, 41], [12, 42], [12, 41]]
LINE = [[[[170, -20], [180, -20], [180, -10], [170, -10], [170, -20]]], [[[-180, -20], [-170, -20], [-170, -10], [-180, -10], [-180, -20]]]]
POLE = [[-180, -60], [-90, -65], [0, -60], [90, -65], [180, -60], [180, -90], [-180, -90], [-180, -60]]
GEOMETRIES = [
    {"type": "Polygon", "coordinates": [BOX]}, {"type": "Polygon", "coordinates": [BOX, HOLE]}, {"type": "Polygon", "coordinates": [TIE]},
    {"type": "MultiPolygon", "coordinates": LINE}, {"type": "Polygon", "coordinates": [POLE]}, {"type": "MultiPolygon", "coordinates": [[BOX, HOLE], *LINE]},
    {"type": "Polygon", "coordinates": [[[*corner, 7.5] for corner in BOX]]},
]
SEEDS = [
    collection([feature("a", geometry, {"fee": 1.5, "é": ["x", {"y": None}]}), feature("b", GEOMETRIES[0])]) for geometry in GEOMETRIES
] + [{**collection([feature("a", GEOMETRIES[0])]), "crs": {"type": "name", "properties": {"name": "EPSG:4326"}}, "bbox": [12, 41, 13, 42]}]
NUMBERS = [0, -0.0, 90, -90, 180, -180, 181, -91, 1e-300, 5e-324, 1e308, 1 << 53, 10**30, 89.99999999999999, 179.99999999999997, 12, 13, 41, 42]
WORDS = ["null", "true", "-1", "1e999", "-1e-999", "NaN", "Infinity", "{}", "[]", '"x"', '"\\ud800"', "[[1,2]]", ",", "]", "}", ":", '"Polygon"', '"features"', "1" * 400]


def mutant(chance):
    """The bytes of a mutant. A text may be JSON no more, or spell no UTF-8."""
    tree = copied(chance.choice(SEEDS))
    for _ in range(chance.randrange(3)):
        chance.choice((change_number, change_number, change_part))(chance, tree)
    text = json.dumps(tree)
    for _ in range(chance.randrange(3) if chance.random() < 0.5 else 0):
        text = change_words(chance, text)
    return change_bytes(chance, text.encode()) if chance.random() < 0.2 else text.encode()


def copied(tree):
    return json.loads(json.dumps(tree))


def lists_in(tree):
    """All lists of a tree."""
    found = [tree] if isinstance(tree, list) else []
    for item in tree.values() if isinstance(tree, dict) else tree if isinstance(tree, list) else ():
        found += lists_in(item)
    return found


def objects_in(tree):
    """All objects of a tree."""
    found = [tree] if isinstance(tree, dict) else []
    for item in tree.values() if isinstance(tree, dict) else tree if isinstance(tree, list) else ():
        found += objects_in(item)
    return found


def change_number(chance, tree):
    """Another number for one of a corner, or a corner where another is, or beside it."""
    corners = [each for each in lists_in(tree) if each and not isinstance(each[0], (list, dict, str))]
    if not corners:
        return
    corner, other = chance.choice(corners), chance.choice(corners)
    kind = chance.randrange(5)
    if kind == 0:
        # (the other may have this one in it)
        corner[:] = copied(other)
    elif kind == 1:
        corner.reverse()
    elif kind == 2:
        place = chance.randrange(len(corner))
        if isinstance(corner[place], (int, float)):
            corner[place] += chance.choice([1, -1]) * 10.0 ** -chance.randrange(18)
    else:
        corner[chance.randrange(len(corner))] = chance.choice(NUMBERS)


def change_part(chance, tree):
    """An item of a list is dropped, doubled, turned, moved or nested; or one of an object is dropped or another's."""
    lists, objects = [each for each in lists_in(tree) if each], [each for each in objects_in(tree) if each]
    if not lists or chance.random() < 0.2 and objects:
        items = chance.choice(objects)
        key = chance.choice([*items])
        if chance.random() < 0.5:
            del items[key]
        else:
            items[key] = copied(chance.choice([*chance.choice(objects).values(), None, [], {}, 3, "x"]))
        return
    items = chance.choice(lists)
    place, kind = chance.randrange(len(items)), chance.randrange(6)
    if kind == 0:
        del items[place]
    elif kind == 1:
        items.insert(place, copied(items[chance.randrange(len(items))]))
    elif kind == 2:
        items.reverse()
    elif kind == 3:
        items[place] = copied(chance.choice(chance.choice(lists)))
    elif kind == 4:
        items[place] = [items[place]]
    else:
        items[:] = items * chance.choice([0, 2, 30])


def change_words(chance, text):
    """Some words of JSON dropped, or others put in."""
    parts = re.findall(r'"[^"]*"|[-+.\deE]+|.', text, re.S)
    place = chance.randrange(len(parts) + 1)
    parts[place : place + chance.randrange(3)] = [chance.choice([*WORDS, chance.choice(parts)])] * chance.randrange(3)
    return "".join(parts) or " "


def change_bytes(chance, text):
    """A byte changed, dropped or put in, or the text cut."""
    place, kind = chance.randrange(len(text)), chance.randrange(4)
    byte = bytes([chance.randrange(256)])
    return [text[:place] + byte + text[place + 1 :], text[:place] + text[place + 1 :], text[:place] + byte + text[place:], text[:place]][kind]
