"""Zones: the shapes that a team keeps, each with an id and properties, over an index of their cells."""
from __future__ import annotations

import importlib
import operator
import os
import threading
from contextlib import contextmanager
from functools import partial
from typing import TYPE_CHECKING, Any, Callable, Hashable, Iterable, Iterator, Optional, Sequence, TypeVar, Union

from s2ix import Index
from s2ix.given import Entries
from s2ix.logged import Moment
from s2ix.refusals import NoChange, S2ixError, TooManyPairs, named

from s2ix_places.cells_geojson import CellName, cells_geojson
from s2ix_places.features import IdOf, Read, Source, geometry_in, id_with_reason, read
from s2ix_places.history import Call, Moved, Standing, collection, difference_of, moved_by, standing_before, steps_of
from s2ix_places.joins import Columns, joined
from s2ix_places.points import labels_at, labels_at_each
from s2ix_places.progress import told
from s2ix_places.refusals import Clash, Fault, Faulty, NoZone, PlacesError
from s2ix_places.shape_set import ShapeSet
from s2ix_places.shapes import Cover, Shape, outline_of
from s2ix_places.versions import Version, Zone, drafted

if TYPE_CHECKING:
    from s2ix_places.durable_zones import DurableZones

_Zones = TypeVar("_Zones", bound="Zones")

#: What is said of a step, for the index: its note, and who makes it.
Said = dict[str, Any]


class Zones:
    """Zones under ids, which are any texts: each has a shape, which is a Polygon or MultiPolygon of GeoJSON, and properties. An index has
    their cells, so points are answered quickly; and it has their history: each `put`, `drop`, `rename` or `restore` is one change, also if
    no cell changes, and after `undo`, `redo` or `revert` ids, shapes and properties are those of that moment, as the cells are.

    The zone of an id is `zones["dock"]`, `"dock" in zones` tells whether it stands, and a loop goes over the ids. `index` is the index
    below: ask it, but don't edit it. A zone has an even label there for its rim cells, and the next one for those cells that lie within its
    shape. A zone that changes gets other labels.

    A refused call changes nothing. Each step may raise what one of the index does: Closed, JournalFull, OutOfMemory. Threads may share
    zones: a step waits for another thread's step or group, and a query waits for none. A group ends on the thread that it began on.

    >>> square = {"type": "Polygon", "coordinates": [[[12, 41], [13, 41], [13, 42], [12, 42], [12, 41]]]}
    >>> with Zones() as zones:
    ...     label = zones.put("dock", square, {"fee": 3})
    ...     zones.at(41.5, 12.5), zones.at(42.5, 12.5), zones["dock"].properties
    (['dock'], [], {'fee': 3})
    """

    def __init__(
        self, *, id: Optional[str] = None, max_cells: int = 32, min_level: int = 0, max_level: int = 30, mend: bool = False,
        pairs: int = 1_000_000, changes: int = 100_000, index: Optional[Index] = None,
    ) -> None:
        """Zones of which none stands yet. `id` is the property in which features have their id, if it isn't their own `id`. A zone is
        covered by at most `max_cells` cells, if S2 doesn't need more, of these levels: more cells make `at_each` quicker. With `mend`
        shapes are mended if that can be done: rings that cross themselves, or that are open. The index holds at most `pairs` pairs, one
        for each cell of a zone, and `changes` changes that can be undone. Raises NoLimits, OutOfMemory, and OSError if a library isn't
        found."""
        self.id_name, self.mend = id, mend
        self.cover = Cover(max_cells, min_level, max_level).check()
        self.index = Index(pairs, 1, changes) if index is None else index
        #: The features that `read` has left out, with `on_error="skip"`.
        self.skipped: list[Fault] = []
        self._pairs = pairs
        # The versions that stand or may come back; which of them stand, and whether that is to be looked up; and the shapes that were
        # asked for.
        self._versions: dict[int, Version] = {}
        self._known_standing: Standing = {}
        self._is_stale = False
        self._shapes = ShapeSet()
        self._next_label = 0
        # It is held during a step, and by the thread of a group.
        self._turn = threading.RLock()

    @classmethod
    def read(
        cls, source: Source, id: IdOf = None, max_cells: int = 32, *, min_level: int = 0, max_level: int = 30, mend: bool = False,
        on_error: str = "raise", progress: bool = True, pairs: int = 1_000_000, changes: int = 100_000,
    ) -> Zones:
        """The zones of a file of GeoJSON, by its path, or of anything with a `__geo_interface__`, as a frame of geopandas. `id` is the
        property that has a feature's id; or what finds it, as `lambda feature: str(feature["properties"]["number"])`; without it the id is
        the feature's own. Nothing of this can be undone. How far it is is told on standard error from one second on.

        All features become zones, or none: then Faulty lists each faulty one, by its place, its id and the reason. With `on_error="skip"`
        the faulty ones are left out, and `skipped` lists them. The rest is as for new zones. Raises NoGeoJson for what is no JSON or no
        GeoJSON, OSError for a file that can't be read, and TooManyPairs, with the id of the zone that was too much."""
        zones = cls(
            id=id if isinstance(id, str) else None, max_cells=max_cells, min_level=min_level, max_level=max_level, mend=mend, pairs=pairs,
            changes=changes,
        )
        try:
            zones.skipped = zones.put_all(source, id, on_error=on_error, progress=progress, same_ok=True)
            zones.forget()
        except BaseException:
            zones.close()
            raise
        return zones

    @classmethod
    def open(
        cls, path: Union[str, os.PathLike[str]], *, id: Optional[str] = None, max_cells: Optional[int] = None,
        min_level: Optional[int] = None, max_level: Optional[int] = None, mend: Optional[bool] = None, pairs: Optional[int] = None,
        changes: Optional[int] = None, read_only: bool = False, synchronous: str = "FULL", timeout: float = 5.0,
        who: Optional[str] = None,
    ) -> DurableZones:
        """The zones in a file, or a file of none if it isn't there. Each step is in it when its call returns, with the ids, shapes and
        properties, and comes back when the file is opened again, after a crash too. `put_all` reads zones into it.

        The file keeps `id`, how zones are covered and whether they are mended; what is given here holds while it is open. `pairs` and
        `changes` are the limits of a new file. The rest is as for `s2ix.Durable`: one process writes, and others follow with `read_only`
        and `refresh`. Raises what that does, as NoLimits for a file whose index has other limits; and ValueError for a file
        that has an index without zones, or another `id`."""
        kept: type[DurableZones] = importlib.import_module("s2ix_places.durable_zones").DurableZones
        settings = {"id": id, "max_cells": max_cells, "min_level": min_level, "max_level": max_level, "mend": mend}
        limits = {"pairs": pairs, "changes": changes}
        return kept(path, settings, limits, read_only=read_only, synchronous=synchronous, timeout=timeout, who=who)

    def __enter__(self: _Zones) -> _Zones:
        return self

    def __exit__(self, *_: object) -> None:
        self.close()

    def close(self) -> None:
        """Closes the index, and drops the shapes. From then on each step and each question about points raises Closed, but the zones that
        stood last may still be listed."""
        with self._turn:
            self.index.close()
            self._shapes.keep(set())

    def __reduce__(self) -> Any:
        """Zones in memory go to other processes as they stand, without their history."""
        with self._turn:
            versions = [self._versions[label] for label in self._labels()]
        return _again, (versions, self.id_name, self.cover, self.mend, self._pairs)

    def __repr__(self) -> str:
        return f"<s2ix_places.{type(self).__name__} over {self.index!r}>"

    # What stands.

    def __getitem__(self, id: str) -> Zone:
        """The zone of an id. Raises NoZone."""
        with self._turn: return self._version(id).zone()

    def __contains__(self, id: object) -> bool:
        with self._turn: return id in self._standing()

    def __iter__(self) -> Iterator[str]:
        """The ids of the zones, by rising labels: those that changed last come last."""
        versions = self._versions
        return iter([versions[label].id for label in self._labels()])

    def __len__(self) -> int:
        with self._turn: return len(self._standing())

    def ids(self, labels: Iterable[int]) -> list[str]:
        """The ids that labels stand for, as `at_each` returns them. Raises NoZone."""
        versions, numbers = self._versions, labels.tolist() if hasattr(labels, "tolist") else labels
        try:
            return [versions[label & ~1].id for label in numbers]
        except KeyError as raised:
            raise NoZone(f"no zone has the label {raised.args[0]}") from None

    def names(self) -> dict[int, str]:
        """The id of each label that stands, for `frames.join` with the index below."""
        return {label + part: self._versions[label].id for label in self._labels() for part in (0, 1)}

    # Points.

    def at(self, latitude: float, longitude: float) -> list[str]:
        """The ids of the zones that a point is in, given in degrees, those of the smallest cells first. A point on a rim is in the zone on
        one side only. Raises ValueError for what is no latitude or longitude, and Closed."""
        return self.ids(labels_at(self.index, self._shapes_with, latitude, longitude))

    def at_each(self, latitudes: Any, longitudes: Any, exact: bool = True, threads: int = 1) -> tuple[Any, Any]:
        """The labels of the zones that each of many points is in: how many labels there are up to each point and with it, and the labels of
        all, one point after the other, so those of the second point are `labels[ends[0]:ends[1]]`. `ids(labels)` are their ids.

        Latitudes and longitudes are arrays of NumPy, columns of pandas or lists, in degrees; arrays of doubles are read in place. The
        answer is arrays of NumPy if it is installed. Only points in a rim cell ask the shape of the zone. Without `exact` none does: then
        a point near a zone may be in it too. At most `threads` threads share the points. Raises ValueError for what is no latitude or
        longitude, with the place of the first."""
        return labels_at_each(self.index, self._shapes_with, latitudes, longitudes, exact, threads)

    def join(
        self, points: Any, columns: Optional[Columns] = None, zone: Hashable = "zone", how: str = "inner", exact: bool = True,
        threads: int = 1,
    ) -> Any:
        """The points of a DataFrame with the zones that they are in: a row for each point and each zone, in the order of the points, with
        the id in a new last column, as `s2ix.frames.join` has labels. The columns are those of latitudes and longitudes; without them they
        are `latitude` and `longitude`, or the points of a frame of geopandas. `how="left"` keeps points in no zone. A point with a missing
        latitude or longitude is in none. Raises KeyError for a column that isn't there, and what `at_each` does."""
        return joined(points, self, columns, zone, how, exact, threads)

    # Steps.

    def put(
        self, id: str, shape: Any, properties: Optional[dict[str, Any]] = None, *, max_cells: Optional[int] = None,
        mend: Optional[bool] = None, same_ok: bool = False, note: Optional[str] = None, who: Optional[str] = None,
    ) -> int:
        """Puts a zone under an id, in place of the one that was there if there was one; returns its label. The shape is a geometry of
        GeoJSON, a feature, or anything with a `__geo_interface__`. Properties are a dict, or else those of the feature; without either the
        zone has none from then on. `note` and `who` are for zones in a file, here and in each other step: in memory they raise TypeError.
        Raises Faulty for a shape, an id or properties that can't be a zone's, TooManyPairs, and NoChange if the zone is just so: with
        `same_ok` it stays then, and nothing is recorded."""
        geometry, own = geometry_in(shape)
        read = Read(0, id, geometry, (own or {}) if properties is None else properties)
        cover = self.cover if max_cells is None else self.cover._replace(max_cells=max_cells).check()
        faults: list[Fault] = []
        made = self._draft(read, cover, self.mend if mend is None else mend, faults)
        if made is None:
            raise Faulty(faults, 1)
        with self._turn:
            self._replace("put", [made], same_ok, self._said(note, who))
            return self._standing()[made[0].id]

    def put_all(
        self, source: Source, id: IdOf = None, *, on_error: str = "raise", progress: bool = True, same_ok: bool = False,
        note: Optional[str] = None, who: Optional[str] = None,
    ) -> list[Fault]:
        """Puts all zones of a source, as `read` does, as one change. Zones that are just so stay, and so do those that aren't in the
        source. Returns the faults of the features that were left out. `id` is as for `read`: without it, it is the property that was given
        for these zones, but a function isn't kept. Raises what `read` does, and NoChange if all zones are just so, or there is none, unless
        it returns faults: with `same_ok` all stays as it is then, and nothing is recorded."""
        if on_error not in ("raise", "skip"):
            raise ValueError(f"on_error is 'raise' or 'skip', not {on_error!r}")
        found, faults, many = read(source, self.id_name if id is None else id)
        drafts = [made for each in told(found, "zones", progress) if (made := self._draft(each, self.cover, self.mend, faults))]
        faults.sort()
        if faults and on_error == "raise":
            raise Faulty(faults, many)
        self._replace("put_all", drafts, same_ok or bool(faults), self._said(note, who))
        return faults

    def drop(self, id: str, *, note: Optional[str] = None, who: Optional[str] = None) -> None:
        """Takes a zone away. Raises NoZone."""
        with self._turn:
            self._move("drop", [self._version(id)], [], self._said(note, who))

    def rename(self, id: str, new: str, *, note: Optional[str] = None, who: Optional[str] = None) -> int:
        """Gives a zone another id, and returns its new label. Raises NoZone, Clash if a zone has the new id, and Faulty if it is no
        text."""
        new = self._id(new)
        with self._turn:
            version = self._version(id)
            if new in self._standing():
                raise Clash(f"a zone {new!r} stands already")
            return self._change("rename", [version], [version._replace(id=new)], self._said(note, who))[0]

    def restore(self, id: str, before: Moment, *, note: Optional[str] = None, who: Optional[str] = None) -> int:
        """Makes a zone what it was before a change, by its number as in `revert`: shape, properties and cells, whatever came later. This
        is a change of its own, and other zones stay as they are. Returns the zone's label. Raises NoSuchChange, NoZone if there was no
        zone of the id then, and NoChange if it is as it was."""
        with self._turn:
            was = self._standing_at(before).get(id)
            if was is None:
                raise NoZone(f"there was no zone {id!r} before {before}")
            now = self._standing().get(id)
            if was == now:
                raise NoChange
            self._move("restore", [] if now is None else [self._versions[now]], [self._versions[was]], self._said(note, who))
            return was

    def undo(self, *, note: Optional[str] = None, who: Optional[str] = None) -> int:
        """Takes the last change back; returns how many pairs of the index it had. Raises NothingToUndo."""
        with self._turn:
            number = self.index.done_count()
            moved = moved_by(self.index.change(number)) if number else Moved(set(), set())
            return self._step(partial(self.index.undo, **self._said(note, who)), lambda: moved)

    def redo(self, *, note: Optional[str] = None, who: Optional[str] = None) -> int:
        """Does the change again that was undone last; returns how many pairs it has. Raises NothingToRedo."""
        with self._turn:
            redo = partial(self.index.redo, **self._said(note, who))
            return self._step(redo, lambda: moved_by(self.index.change(self.index.done_count())))

    def revert(self, change: int, *, note: Optional[str] = None, who: Optional[str] = None) -> int:
        """Takes back a change, by its number, and leaves those that followed it; returns how many pairs changed. The changes that can be
        undone are numbered, the oldest as 1. Raises NoSuchChange; Clash if a zone that would come back has been put again since; and
        BelowZero if one that would go has changed since."""
        with self._turn:
            moved = moved_by(self.index.change(change))
            self._expect_free(moved)
            return self._step(partial(self.index.revert, change, **self._said(note, who)), lambda: moved)

    @contextmanager
    def group(self, *, note: Optional[str] = None, who: Optional[str] = None) -> Iterator[None]:
        """Makes one change of all that is done in a `with`. If the `with` ends with an exception, all that was done in it is undone."""
        said = self._said(note, who)
        with self._turn:
            try:
                with self._group(said):
                    yield
            except BaseException:
                self._is_stale = True
                raise

    def done_count(self) -> int:
        """How many changes can be undone."""
        return self.index.done_count()

    def undone_count(self) -> int:
        """How many changes can be redone."""
        return self.index.undone_count()

    def forget(self) -> None:
        """Keeps the zones and drops all changes: nothing is left to undo or redo."""
        with self._turn:
            self.index.forget()
            self._drop_versions(set(self._labels()))

    def forget_older(self, newest: int) -> None:
        """Drops all changes that can be undone but the newest, at most so many."""
        with self._turn:
            self.index.forget_older(newest)
            # (which versions those have that can be redone, the index doesn't tell)
            if not self.index.undone_count():
                kept = set(self._labels())
                for number in range(1, self.index.done_count() + 1):
                    kept.update(*moved_by(self.index.change(number)))
                self._drop_versions(kept)

    # GeoJSON.

    def geojson(self, before: Optional[Moment] = None) -> dict[str, Any]:
        """The zones as a FeatureCollection, with geometries and properties as they went in; or as they were before a change. Raises
        NoSuchChange."""
        return collection([self._versions[label].feature(self.id_name) for label in self._labels(before)])

    def difference(self, first: Moment, last: Optional[Moment] = None) -> dict[str, dict[str, Any]]:
        """What differs from the moment before one change to that before another, or to now, as three collections of features: `added`,
        `removed` and `changed`. Features that changed are as they became, and have a member `before`. Raises NoSuchChange."""
        with self._turn:
            after = self._standing_at(last)
            return difference_of(self._standing_at(first), after, self._versions, self.id_name)

    def history(self) -> list[dict[str, Any]]:
        """The changes that can be undone, the oldest first, and before them what stood then, as `map_page.page_of` takes them: dicts with
        an `id`, which is the number of a change, or 0 for what stood, and with the features that it `added`, `changed` and `removed`."""
        with self._turn:
            return steps_of(self.index, self._standing(), self._versions, self.id_name)

    def cells_geojson(self, outlines: bool = False) -> dict[str, Any]:
        """The cells of all zones as a FeatureCollection, for a look at them on a map: a feature for each cell, with its zone's id, its
        token, and whether it lies within; or, with `outlines`, one for each zone, with the outline of its cells. Raises PlacesError if the
        cells of a zone are the whole sphere, which has no outline: with few cells a zone of half the earth may have them all."""
        with self._turn:
            versions = [self._versions[label] for label in self._labels()]
            if outlines:
                features = [(version, outline_of(version.cells())) for version in versions]
                return collection([
                    {"type": "Feature", "geometry": geometry, "properties": {"zone": version.id, "cells": len(version.cells())}}
                    for version, geometry in features
                ])
            names = {version.label + part: CellName(version.id, bool(part)) for version in versions for part in (0, 1)}
            return cells_geojson(sorted(pair for version in versions for pair in version.pairs()), names)

    # How it is done.

    def _standing(self) -> Standing:
        """For the id of each zone that stands, its label."""
        if self._is_stale:
            with self._turn: self._look_up()
        return self._known_standing

    def _look_up(self) -> None:
        """Finds in the index which versions stand."""
        labels = {held.label & ~1 for held in self.index.held_labels()}
        self._known_standing = {self._versions[label].id: label for label in sorted(labels)}
        self._shapes.keep(labels)
        self._is_stale = False

    def _standing_at(self, before: Optional[Moment]) -> Standing:
        """What stood at a moment, or stands now."""
        standing = self._standing()
        if before is None:
            return standing
        return standing_before(self.index, standing, self._versions, operator.index(before))  # type: ignore[arg-type]

    def _labels(self, before: Optional[Moment] = None) -> list[int]:
        """The labels of the zones that stand, or stood before a change, rising."""
        with self._turn: return sorted(self._standing_at(before).values())

    def _version(self, id: str) -> Version:
        label = self._standing().get(id)
        if label is None:
            raise NoZone(f"no zone has the id {id!r}")
        return self._versions[label]

    def _shapes_with(self, labels: Sequence[int]) -> ShapeSet:
        """The set of shapes, with those of labels that stand, or stood when the index was asked."""
        missing = self._shapes.missing(labels)
        if missing:
            self._shapes.put({label: self._versions[label].shape() for label in missing})
        return self._shapes

    def _id(self, id: object) -> str:
        found, reason = id_with_reason(id)
        if found is None or reason is not None:
            raise Faulty([Fault(0, None, reason or "it has no id")], 1)
        return found

    def _draft(self, read: Read, cover: Cover, mend: bool, faults: list[Fault]) -> Optional[tuple[Version, Shape]]:
        """A version of what is read, without a label, and its shape; or None with a fault more."""
        id, reason = id_with_reason(read.id)
        try:
            if id is not None and reason is None:
                return drafted(id, read.geometry, read.properties, cover, mend)
        except PlacesError as raised:
            reason = str(raised)
        faults.append(Fault(read.place, id, reason or ""))
        return None

    def _replace(self, kind: str, drafts: Sequence[tuple[Version, Shape]], same_ok: bool, said: Said) -> None:
        """Puts drafts in place of what has their ids, but for those that are just so, as one change. Raises NoChange if all are just so,
        unless that is right."""
        with self._turn:
            standing, gone, new, shapes = self._standing(), [], [], []
            for version, shape in drafts:
                was = self._versions[standing[version.id]] if version.id in standing else None
                if was is not None and was.is_as(version):
                    continue
                gone += [] if was is None else [was]
                new.append(version)
                shapes.append(shape)
            if new:
                self._expect_room(gone, new)
                labels = self._change(kind, gone, new, said)
                self._shapes.put(dict(zip(labels, shapes)))
            elif not same_ok:
                raise NoChange

    def _expect_room(self, gone: Sequence[Version], new: Sequence[Version]) -> None:
        """Raises TooManyPairs, with the first zone that is too much."""
        many, were = len(self.index), {version.id: len(version.cells()) for version in gone}
        most = many - sum(were.values()) + sum(len(version.cells()) for version in new)
        if most <= self._pairs:
            return
        for version in new:
            many += len(version.cells()) - were.get(version.id, 0)
            if many > self._pairs:
                words = f"zone {version.id!r} is too much: with it the index would hold {many:,} pairs, of at most {self._pairs:,}"
                raise named(TooManyPairs, words, version.id)

    def _expect_free(self, moved: Moved) -> None:
        """Raises Clash if a change can't be taken back, since a zone that would come back stands in another version."""
        for label in moved.gone:
            id = self._versions[label].id
            if self._standing().get(id, label) not in (label, *moved.come):
                raise Clash(f"zone {id!r} stands as something else since: restore it, or drop it first")

    def _change(self, kind: str, gone: Sequence[Version], new: Sequence[Version], said: Said) -> list[int]:
        """Takes versions away and puts new ones, which get labels, as one change."""
        labels = range(self._next_label, self._next_label + 2 * len(new), 2)
        come = [version._replace(label=label) for label, version in zip(labels, new)]
        self._next_label = labels.stop
        self._versions.update(zip(labels, come))
        try:
            self._move(kind, gone, come, said, come)
        except BaseException:
            self._drop_unheld(come)
            raise
        return list(labels)

    def _drop_unheld(self, versions: Sequence[Version]) -> None:
        """Drops new versions if the index hasn't got them. (Else another writer may give their labels away.)"""
        for version in versions:
            try:
                is_held = self.index.count(*version.a_pair()) > 0
            except S2ixError:
                # (the index is closed)
                is_held = False
            if not is_held:
                self._versions.pop(version.label, None)

    def _move(self, kind: str, gone: Sequence[Version], come: Sequence[Version], said: Said, new: Sequence[Version] = ()) -> None:
        """Takes versions away and puts others, of which some are new, as one change, by a call of a kind."""
        entries = [(*pair, 1, 0) for version in gone for pair in version.pairs()]
        entries += [(*pair, 0, 1) for version in come for pair in version.pairs()]
        entries.sort()
        call = Call(kind, list(dict.fromkeys(version.id for version in (*gone, *come))))
        moved = Moved({version.label for version in gone}, {version.label for version in come})
        self._step(partial(self._record, entries, new, call, said), lambda: moved)

    def _record(self, entries: Entries, new: Sequence[Version], call: Call, said: Said) -> int:
        """Makes a change of the index, with new versions, for a call."""
        return self.index.record(entries, **said)

    @contextmanager
    def _group(self, said: Said) -> Iterator[None]:
        """A group of the index."""
        with self.index.group(**said):
            yield

    def _said(self, note: Optional[str], who: Optional[str]) -> Said:
        """The note for a step, and who makes it. In memory no step has them."""
        if note is not None or who is not None:
            raise TypeError("zones in memory keep no notes: those of Zones.open do")
        return {}

    def _step(self, make: Callable[[], int], moved: Callable[[], Moved]) -> int:
        """Makes a step of the index, and notes what stands then, by what it has moved. In doubt that is looked up."""
        was_stale, self._is_stale = self._is_stale, True
        try:
            changed = make()
        except S2ixError:
            self._is_stale = was_stale
            raise
        self._settle(*moved())
        self._is_stale = was_stale
        return changed

    def _settle(self, gone: Iterable[int], come: Iterable[int]) -> None:
        """Notes which of some versions stand now."""
        stand = {label: self.index.count(*self._versions[label].a_pair()) > 0 for label in {*gone, *come}}
        for label, is_there in stand.items():
            if not is_there and self._known_standing.get(self._versions[label].id) == label:
                del self._known_standing[self._versions[label].id]
        self._shapes.put(dict.fromkeys(label for label, is_there in stand.items() if not is_there))
        self._known_standing.update((self._versions[label].id, label) for label, is_there in stand.items() if is_there)

    def _drop_versions(self, kept: set[int]) -> None:
        """Drops the versions that nothing can bring back. (A query that runs goes on with those it has.)"""
        self._versions = {label: version for label, version in self._versions.items() if label in kept}


def _again(versions: list[Version], id_name: Optional[str], cover: Cover, mend: bool, pairs: int) -> Zones:
    """Zones of these versions, with their labels."""
    zones = Zones(id=id_name, max_cells=cover.max_cells, min_level=cover.min_level, max_level=cover.max_level, mend=mend, pairs=pairs)
    if versions:
        zones._versions = {version.label: version for version in versions}
        zones._next_label = versions[-1].label + 2
        zones._move("put_all", [], versions, {})
        zones.forget()
    return zones
