"""What the log of zones in a file says of each step, and what is left of it when it is shortened."""
import os
import sqlite3

from of_places.shapes import collection, feature
from of_places.walk import outcome, outcome_of, square
from s2ix_places import Zones


def steps(zones, **asked):
    """The kinds of steps with the zones that they changed."""
    return [(each.kind, [*each.zones]) for each in zones.log(**asked)]


def check_log(count, folder):
    """Each step is what was called, with the ids of its zones, for who wrote it, who opens the file again, and who follows."""
    path = os.path.join(folder, "log.db")
    with Zones.open(path, who="ann") as zones, Zones.open(path, read_only=True) as follower:
        zones.put("dock", square(1), note="new")
        zones.put("dock", square(2))
        zones.rename("dock", "quay")
        zones.put_all(collection([feature("pier", square(3)), feature("mole", square(5))]), progress=False)
        zones.drop("quay")
        zones.restore("quay", before=zones.log()[-1].id)
        zones.undo()
        zones.redo(who="bob")
        with zones.group(note="both"):
            zones.put("dock", square(7))
            zones.drop("pier")
            zones.put("brief", square(9))
            zones.drop("brief")
        zones.revert(id=zones.log()[-1].id)
        wanted = [("put", ["dock"]), ("put", ["dock"]), ("rename", ["dock", "quay"]), ("put_all", ["pier", "mole"]), ("drop", ["quay"]),
                  ("restore", ["quay"]), ("undo", ["quay"]), ("redo", ["quay"]), ("group", ["dock", "pier"]), ("revert", ["dock", "pier"])]
        found = [(kind, sorted(ids) if kind in ("group", "revert") else ids) for kind, ids in steps(zones)]
        count.expect("the log", found, wanted)
        count.expect("who and why", [(each.note, each.who) for each in zones.log()][7:9], [(None, "bob"), ("both", "ann")])
        count.expect("of a zone", [each.id for each in zones.log(zone="pier")], [4, 9, 10])
        count.expect("the last of a zone", [each.id for each in zones.log(zone="quay", newest_first=True, most=2)], [8, 7])
        count.expect("of no zone", zones.log(zone="nowhere"), [])
        count.expect("of who made it", steps(zones, who="bob"), [("redo", ["quay"])])
        with zones.group():
            zones.put("brief", square(9))
            zones.undo()
        zones.drop("mole")
        count.expect("a group that changes nothing is no step", (len(zones.log()), steps(zones)[-1]), (11, ("drop", ["mole"])))
        zones.forget()
        count.expect("what moved no zone", (zones.log()[-1].kind, zones.log()[-1].zones), ("forget", []))
        count.expect("a follower's log", (follower.refresh(), follower.log()), (True, zones.log()))
        last = zones.log()
    with Zones.open(path) as zones:
        count.expect("the log of a file that is opened again", zones.log(), last)
        count.expect("restored then", (zones.restore("mole", before=5), [*zones]), (8, ["quay", "pier", "mole"]))
    spoil(path, "UPDATE places_step SET kind = 'drop' WHERE step = 1")
    with Zones.open(path) as zones:
        count.expect("a step that is spoilt", outcome_of(zones.log), "Spoilt")


def spoil(path, words):
    connection = sqlite3.connect(path)
    connection.execute(words)
    connection.commit()
    connection.close()


def rows_of(path):
    """How many versions and steps of zones a file has."""
    connection = sqlite3.connect(path)
    found = [connection.execute(f"SELECT count(*) FROM {table}").fetchone()[0] for table in ("places_version", "places_step")]
    connection.close()
    return found


def check_compact(count, folder):
    """A log that is shortened, and changes that are forgotten: what stands and what the log leads to stays, and no other shape."""
    path = os.path.join(folder, "compact.db")
    with Zones.open(path) as zones, Zones.open(path, read_only=True) as follower:
        zones.put("dock", square(1))
        zones.put("quay", square(3))
        for fee in range(5):
            zones.put("dock", square(1), {"fee": fee})
        zones.undo()
        before = zones.geojson(), zones.at(0.5, 1.5), zones.geojson(before=6)
        zones.compact(before=6, note="old", who="ann")
        count.expect("what stands", (zones.geojson(), zones.at(0.5, 1.5), zones.geojson(before=6)), before)
        count.expect("what is left", (rows_of(path), [each.kind for each in zones.log()]), ([4, 2], ["put", "put", "undo", "forget_older", "compact"]))
        count.expect("who shortened it", zones.log()[-1][2:5], ("old", False, "ann"))
        count.expect("further back", outcome(zones.geojson, 3), "NoSuchChange")
        count.expect("what can be undone and redone", (zones.redo() > 0, zones["dock"].properties, zones.undo() > 0, zones.undo() > 0), (True, {"fee": 4}, True, True))
        count.expect("and is undone", zones["dock"].properties, {"fee": 2})
        count.expect("a follower", (follower.refresh(), follower.geojson()), (True, zones.geojson()))
        zones.compact()
        count.expect("all is forgotten", (outcome(zones.undo), zones.done_count(), zones["dock"].properties), ("NothingToUndo", 0, {"fee": 2}))
        count.expect("but for the log", (zones.log()[0].id, rows_of(path)), (6, [4, 2]))
        zones.compact(before=zones.log()[-1].id)
        count.expect("a short log", (rows_of(path)[0], zones["dock"].properties), (2, {"fee": 2}))
        zones.put("dock", square(1), {"fee": 9})
    with Zones.open(path) as zones:
        count.expect("opened again", (zones["dock"].properties, zones.undo() > 0, zones["dock"].properties), ({"fee": 9}, True, {"fee": 2}))
