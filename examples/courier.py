#!/usr/bin/env python3
"""A day of a delivery service: zones are laid, a courier is asked about, and one zone is withdrawn by its change. The next day goes on from
the first one's dump and journal. Prints courier.txt.

    S2IX_LIBRARY=path/to/libs2ix.so PYTHONPATH=clients/python examples/courier.py
"""
from s2ix import Index, NotHeld, token_of

CENTRE, STATION, CLOSED_ROADS = 1, 2, 3
COURIER = "4786596c4f1d6f9b"


def show(question, rows):
    print(question)
    for row in rows:
        print(f"  {token_of(row.cell)} zone {row.label}, {row.count}")


with Index() as zones:
    # Each edit is a change: these are the first to the fourth.
    print("the centre has", zones.add_union(["478659", "478657", "47865f"], CENTRE), "cells")
    print("the station has", zones.add_union(["4786596c", "47865964"], STATION), "cells")
    print("roads are closed in", zones.add("4786596c4f", CLOSED_ROADS), "cell")
    print("the station is counted twice:", zones.add("4786596c", STATION), "pair")

    show("where is the courier?", zones.at(COURIER))
    print("zones near the station:", *zones.labels(["4786596c", "47865964"]))

    print("the roads are open again:", zones.revert(3), "pair changed")
    show("where is the courier now?", zones.at(COURIER))

    try:
        zones.remove("4786596c4f", CLOSED_ROADS)
    except NotHeld:
        print("a second time is refused: none is held")
    print("the last change is undone:", zones.undo(), "pair is back")
    print("the station's region:", *map(token_of, zones.region(STATION)))
    # At night a program keeps both texts in a file.
    dump, journal = zones.dump(), zones.journal()
    print(dump, journal, sep="", end="")

with Index.load(dump, journal=journal) as zones:
    print("the next day", zones.done_count(), "changes can be taken back")
    print("the roads of the day before are open:", zones.revert(3), "pair changed")
    show("where is the courier?", zones.at(COURIER))
