"""What zones were at other moments, as the changes of the index tell it."""
from __future__ import annotations

from datetime import datetime
from typing import Any, Iterable, Mapping, NamedTuple, Optional, Sequence

from s2ix import Entry, Index
from s2ix.refusals import NoSuchChange

from s2ix_places.versions import Version

#: For the id of each zone that stands, the label of its version.
Standing = dict[str, int]


class Call(NamedTuple):
    """What a step was to whoever made it: the call, as `put` or `group`, and the ids of the zones that it changed."""

    kind: str
    ids: Sequence[str]


class ZoneStep(NamedTuple):
    """A step in the log of zones: its id, which no other ever has; when it was made, in UTC; its note; whether its change is undone; who
    made it; its kind, as `put`, `put_all`, `drop`, `rename`, `restore`, `group`, `undo`, `redo` or `revert`; the step that it took back or
    brought again; and the ids of the zones that it changed."""

    id: int
    time: datetime
    note: Optional[str]
    is_undone: bool
    who: Optional[str]
    kind: str
    of: Optional[int]
    zones: Sequence[str]


class Moved(NamedTuple):
    """The labels of the versions that a change took away, and of those that it put."""

    gone: set[int]
    come: set[int]


def moved_by(entries: Iterable[Entry]) -> Moved:
    """What a change moved, by its entries."""
    moved = Moved(set(), set())
    for entry in entries:
        (moved.gone if entry.before else moved.come).add(entry.label & ~1)
    return moved


def standing_before(index: Index, standing: Mapping[str, int], versions: Mapping[int, Version], step: int) -> Standing:
    """What stood before a change, if other things stand now; or what stands now, if the number is one more than the last. O(k) for k
    entries of that change and the later ones. Raises NoSuchChange."""
    last, found = index.done_count(), dict(standing)
    if not 1 <= step <= last + 1:
        raise NoSuchChange(f"no change has the number {step}: they are numbered from 1 to {last}")
    for number in range(last, step - 1, -1):
        gone, come = moved_by(index.change(number))
        for label in come:
            if found.get(versions[label].id) == label:
                del found[versions[label].id]
        for label in gone:
            found[versions[label].id] = label
    return found


def steps_of(index: Index, standing: Mapping[str, int], versions: Mapping[int, Version], id_name: Optional[str]) -> list[dict[str, Any]]:
    """What stood before the first change that can be undone, and what each change did since, as `Zones.history` tells it. O(n + k) for n
    zones and k entries of changes."""
    start = standing_before(index, standing, versions, 1)
    steps: list[dict[str, Any]] = [{"id": 0, **difference_of({}, start, versions, id_name)}]
    for number in range(1, index.done_count() + 1):
        steps.append({"id": number, **moved_difference(moved_by(index.change(number)), versions, id_name)})
    return steps


def moved_difference(moved: Moved, versions: Mapping[int, Version], id_name: Optional[str]) -> dict[str, dict[str, Any]]:
    """What a change did, as `difference_of`."""
    before, after = ({versions[label].id: label for label in labels} for labels in moved)
    return difference_of(before, after, versions, id_name)


def difference_of(
    before: Mapping[str, int], after: Mapping[str, int], versions: Mapping[int, Version], id_name: Optional[str]
) -> dict[str, dict[str, Any]]:
    """What differs from one moment to another, as three collections of features: `added`, `removed` and `changed`. Each has
    its zone's id as its own. A feature that changed is as it became, and its member `before` is the feature that it was."""

    def feature(label: int) -> dict[str, Any]:
        return {"id": versions[label].id, **versions[label].feature(id_name)}

    def features(standing: Mapping[str, int], other: Mapping[str, int]) -> dict[str, Any]:
        return collection([feature(label) for label in sorted(label for id, label in standing.items() if id not in other)])

    changed = []
    for label in sorted(label for id, label in after.items() if before.get(id, label) != label):
        was = before[versions[label].id]
        if not versions[was].looks_as(versions[label]):
            changed.append({**feature(label), "before": feature(was)})
    return {"added": features(after, before), "removed": features(before, after), "changed": collection(changed)}


def collection(features: list[dict[str, Any]]) -> dict[str, Any]:
    """A FeatureCollection of GeoJSON."""
    return {"type": "FeatureCollection", "features": features}
