"""A random walk over zones beside a plain model of them."""
import contextlib
import json
import os
import random
import sqlite3
import sys
import threading

from of_places.model import FileModel, Model
from of_places.shapes import held_by_s2, shapes
from s2ix import Durable, S2ixError
from s2ix_places import PlacesError, Zones
from s2ix_places.shapes import Shape

IDS = ["dock", "quay", "Rua São João", "", "7"]
# What a revert is refused for, which a plain model doesn't tell apart.
ALIKE = {"BelowZero": "Clash", "TooManyCopies": "Clash"}


class Stop(Exception):
    """What ends a group early."""


def outcome(call, *given):
    """What a call is refused for, or nothing."""
    try:
        call(*given)
    except (PlacesError, S2ixError, LookupError) as raised:
        return str(raised) if type(raised) is LookupError else ALIKE.get(type(raised).__name__, type(raised).__name__)
    return ""


class Walk:
    """Zones and their model, which go the same way."""

    def __init__(self, count, seed, zones, model):
        self.count, self.chance, self.zones, self.model = count, random.Random(seed), zones, model
        self.shapes = shapes(self.chance, 10)
        self.seen = set()

    def both(self, name, *given):
        """Does the same to both."""
        found, wanted = outcome(getattr(self.zones, name), *given), outcome(getattr(self.model, name), *self.plain(name, given))
        self.seen.add((name, wanted))
        self.count.expect(f"{name} {given}", found, wanted)

    @staticmethod
    def plain(name, given):
        return (given[0], (json.dumps(given[1]), json.dumps(given[2]))) if name == "put" else given

    def an_edit(self):
        """A put, a drop or a rename, as its name and what it is given."""
        id, kind = self.chance.choice(IDS), self.chance.randrange(6)
        if kind < 4:
            return "put", id, self.chance.choice(self.shapes), self.chance.choice([{}, {"fee": self.chance.randrange(3)}])
        return ("drop", id) if kind == 4 else ("rename", id, self.chance.choice(IDS))

    def a_step(self):
        kind, last = self.chance.randrange(20), len(getattr(self.model, "moments", self.model.done))
        if kind < 8:
            self.both(*self.an_edit())
        elif kind < 11:
            self.both("undo")
        elif kind < 13:
            self.both("redo")
        elif kind < 15:
            self.both("revert", self.chance.randrange(len(self.model.done) + 2))
        elif kind < 17:
            self.both("restore", self.chance.choice(IDS), self.chance.randrange(last + 3))
        elif kind < 19:
            self.a_group()
        elif self.chance.random() < 0.2:
            self.both("forget")
        elif self.chance.random() < 0.2:
            self.both("forget_older", self.chance.randrange(len(self.model.done) + 2))

    def a_group(self):
        edits, fails = [self.an_edit() for _ in range(self.chance.randrange(5))], self.chance.random() < 0.3
        before = self.model.undone
        try:
            with self.zones.group():
                for name, *given in edits:
                    outcome(getattr(self.zones, name), *given)
                if fails:
                    raise Stop
        except Stop:
            pass
        self.model.group([lambda name=name, given=given: getattr(self.model, name)(*self.plain(name, given)) for name, *given in edits], fails)
        if fails and isinstance(self.model, FileModel):
            # (a file keeps what could be redone before)
            self.model.undone = before

    def check(self):
        """What both say of what stands."""
        zones, model = self.zones, self.model
        found = {id: (zones[id].shape, zones[id].properties) for id in zones}
        wanted = {id: tuple(json.loads(text) for text in model.state(id)) for id in model.standing}
        self.count.expect("what stands", found, wanted)
        counts = len(zones), zones.done_count(), zones.undone_count(), sorted(zones.names().values())
        self.count.expect("counts", counts, (len(wanted), len(model.done), len(model.undone), sorted([*wanted] * 2)))
        by_label = {}
        for row in zones.index:
            by_label.setdefault(row.label & ~1, []).append((row.cell, row.count))
        cells = {id: [(cell, 1) for cell in Shape(shape).cells(zones.cover)] for id, (shape, _) in wanted.items()}
        self.count.expect("cells", {zones.ids([label])[0]: rows for label, rows in by_label.items()}, cells)

    def check_points(self):
        model, ids = self.model, [*self.model.standing]
        along, up = self.a_place()
        [held] = held_by_s2([json.loads(model.state(id)[0]) for id in ids], [up], [along])
        self.count.expect(f"at {up} {along}", sorted(self.zones.at(up, along)), sorted(ids[place] for place in held))
        steps = len(getattr(model, "moments", model.done))
        first, last = (self.chance.randrange(1, steps + 2) for _ in range(2))
        before, after = model.before(first), model.before(last)
        content = {id: [(step[id], model.content[step[id]]) if id in step else None for step in (before, after)] for id in {*before, *after}}
        found = self.zones.difference(first, last)
        wanted = {
            "added": {id for id, (was, now) in content.items() if was is None}, "removed": {id for id, (was, now) in content.items() if now is None},
            "changed": {id for id, (was, now) in content.items() if was and now and was[1] != now[1]},
        }
        self.count.expect("difference", {kind: {each["id"] for each in found[kind]["features"]} for kind in found}, wanted)
        was = {each["id"]: (json.dumps(each["geometry"]), json.dumps(each["properties"])) for each in self.zones.geojson(before=first)["features"]}
        self.count.expect("geojson before", was, {id: model.content[version] for id, version in before.items()})

    def a_place(self):
        """A place in or near a shape."""
        geometry = self.chance.choice(self.shapes)
        ring = (geometry["coordinates"] if geometry["type"] == "Polygon" else geometry["coordinates"][0])[0]
        (along, up), (to_along, to_up) = self.chance.choice(ring), self.chance.choice(ring)
        if abs(to_along - along) > 180:
            return along, up
        share = self.chance.random()
        return along + (to_along - along) * share, up + (to_up - up) * share


def check_walks(count, walks=5, steps=100):
    """Walks in memory."""
    seen = set()
    for seed in range(walks):
        with Zones(max_cells=12) as zones:
            walk = Walk(count, seed, zones, Model())
            go_on(walk, steps)
            seen |= walk.seen
    wanted = {("put", ""), ("put", "NoChange"), ("drop", ""), ("drop", "NoZone"), ("rename", ""), ("rename", "Clash"), ("undo", ""),
              ("redo", ""), ("redo", "NothingToRedo"), ("revert", ""), ("revert", "Clash"), ("revert", "NoSuchChange"), ("restore", ""),
              ("restore", "NoZone"), ("restore", "NoChange"), ("forget", ""), ("forget_older", "")}
    count.expect("what walks came to", wanted - seen, set())


def go_on(walk, steps):
    for _ in range(steps):
        walk.a_step()
        walk.check()
        if walk.chance.random() < 0.3:
            walk.check_points()


def check_file_walks(count, folder, walks=3, steps=60):
    """Walks in a file, which is opened again now and then, and which another follows."""
    for seed in range(walks):
        path = os.path.join(folder, f"walk {seed}.db")
        with contextlib.ExitStack() as opened:
            walk = Walk(count, seed, opened.enter_context(Zones.open(path, max_cells=12, who="ann")), FileModel())
            follower = opened.enter_context(Zones.open(path, read_only=True))
            for _ in range(steps):
                before = walk.model.standing
                walk.a_step()
                walk.model.log(max((each.id for each in walk.zones.log()), default=0), before)
                walk.check()
                if walk.chance.random() < 0.2:
                    walk.check_points()
                if walk.chance.random() < 0.1:
                    walk.zones.close()
                    walk.zones = opened.enter_context(Zones.open(path))
                    walk.check()
                if walk.chance.random() < 0.3:
                    follower.refresh()
                    count.expect("the follower", (follower.geojson(), follower.done_count()), (walk.zones.geojson(), walk.zones.done_count()))
            check_history(count, walk)
            count.expect("a follower writes nothing", outcome(follower.drop, "dock") in ("NotKept", "NoZone"), True)
            walk.zones.backup(f"{path}.copy")
            with Zones.open(f"{path}.copy") as copy:
                count.expect("a copy", copy.geojson(), walk.zones.geojson())


def check_history(count, walk):
    """The history, done step by step, leads to what stands."""
    standing = {}
    for step in walk.zones.history():
        for kind in ("added", "changed"):
            standing.update((each["id"], (each["geometry"], each["properties"])) for each in step[kind]["features"])
        for each in step["removed"]["features"]:
            del standing[each["id"]]
    count.expect("the history", standing, {id: (walk.zones[id].shape, walk.zones[id].properties) for id in walk.zones})


def check_files(count, folder):
    """What is refused of files, and that shapes and cells are in them together or not at all."""
    path, square = os.path.join(folder, "zones.db"), {"type": "Polygon", "coordinates": [[[1, 1], [2, 1], [2, 2], [1, 1]]]}
    with Zones.open(path, id="zone_id", max_cells=9, mend=True) as first, Zones.open(path) as second:
        count.expect("its settings", (second.id_name, second.cover, second.mend), ("zone_id", first.cover, True))
        first.put("dock", square, {"fee": 1}, note="new", who="ann")
        count.expect("another has written", outcome(second.put, "quay", square), "NotKept")
        count.expect("nothing is lost", ([*second], second.refresh(), [*second]), ([], True, ["dock"]))
        count.expect("a label of its own", (second.put("quay", square), first.refresh(), first.geojson() == second.geojson()), (2, True, True))
        with contextlib.suppress(Stop), first.group(note="no"):
            first.put("dock", square, {"fee": 2})
            first.put("pier", square)
            raise Stop
        count.expect("a group that failed", (first["dock"].properties, [*first], first.put("pier", square, note="pier") > 4), ({"fee": 1}, ["dock", "quay"], True))
        logged = [(each.note, each.who, each.is_undone) for each in first.log()]
        count.expect("the log", logged, [("new", "ann", False), (None, None, False), ("pier", None, False)])
        count.expect("by its id", (first.revert(id=first.log()[0].id), [*first]), (len(first.index.change(4)), ["quay", "pier"]))
        count.expect("restored", (first.restore("dock", before=first.log()[-1].id), sorted(first.at(1.2, 1.9))), (0, ["dock", "pier", "quay"]))
    for given in ({"id": "other"}, {"pairs": 3}):
        count.expect(f"other settings: {given}", outcome_of(Zones.open, path, **given) in ("ValueError", "NoLimits"), True)
    connection = sqlite3.connect(path)
    connection.execute("UPDATE places_version SET properties = '{}' WHERE label = 0")
    connection.commit()
    connection.close()
    with Zones.open(path) as zones:
        count.expect("a row that is spoilt", outcome(zones.__getitem__, "dock"), "Spoilt")
    with Durable(f"{path}.index", copies=1) as index:
        index.add("04", 7)
    count.expect("an index without zones", outcome_of(Zones.open, f"{path}.index"), "ValueError")
    count.expect("an index of more copies", outcome_of(Zones.open, folder), "OperationalError")


def outcome_of(call, *given, **named):
    """The class of what is raised."""
    try:
        call(*given, **named).close()
    except Exception as raised:  # noqa: BLE001
        return type(raised).__name__
    return ""


def square(longitude):
    """A square of one degree north of the equator."""
    ring = [[longitude, 0], [longitude + 1, 0], [longitude + 1, 1], [longitude, 1], [longitude, 0]]
    return {"type": "Polygon", "coordinates": [ring]}


def check_doubts(count, folder):
    """What an interrupt or a refusal leaves in doubt is looked up, and another thread waits for the end of a group."""
    path = f"{folder}/doubts.db"

    def interrupt(frame, *_):
        if frame.f_code is Zones._settle.__code__:
            sys.settrace(None)
            raise KeyboardInterrupt

    with Zones.open(path) as zones:
        for step, number in ((lambda: zones.put("a", square(0)), 1), (zones.undo, 0), (zones.redo, 1), (lambda: zones.rename("a", "b"), 1)):
            sys.settrace(interrupt)
            try:
                step()
                count.expect("that the interrupt came", False, True)
            except KeyboardInterrupt:
                pass
            finally:
                sys.settrace(None)
            with Zones.open(path, read_only=True) as other:
                found = [*zones], len(zones), zones.at(0.5, 0.5), zones.geojson()
                count.expect("zones after an interrupt", found, ([*other], number, other.at(0.5, 0.5), other.geojson()))
        count.expect("a note that UTF-8 can't spell", outcome_of(zones.put, "c", square(5), note="\ud800"), "UnicodeEncodeError")
        with Zones.open(path) as other:
            other.put("d", square(9))
        count.expect("another writer's zone", (zones.refresh(), [*zones], zones.at(0.5, 9.5)), (True, ["b", "d"], ["d"]))
        seen, begun = [], threading.Event()
        asker = threading.Thread(target=lambda: begun.wait() and seen.append((len(zones), "e" in zones)))
        asker.start()
        try:
            with zones.group():
                zones.put("e", square(20))
                begun.set()
                raise LookupError
        except LookupError:
            asker.join()
        count.expect("what another thread sees of a group", seen, [(2, False)])
