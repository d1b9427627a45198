"""Zones in a file: each step is in it when its call returns, with ids, shapes and properties."""
from __future__ import annotations

import os
import sqlite3
from contextlib import contextmanager
from datetime import datetime
from functools import partial
from typing import Any, Iterator, Optional, Sequence, Union

from s2ix import Cell, Durable, Logged
from s2ix.given import Entries
from s2ix.logged import Moment

from s2ix_places.history import Call, Standing, ZoneStep, difference_of, moved_by, moved_difference
from s2ix_places.version_table import VersionTable, drop_unreached, make_tables, put_call, put_versions
from s2ix_places.versions import Version
from s2ix_places.zones import Said, Zones

_DEFAULTS = {"id": None, "max_cells": 32, "min_level": 0, "max_level": 30, "mend": False, "pairs": 1_000_000}


class _Versions(dict[int, Version]):
    """Versions by their labels. One that isn't here is read from the file."""

    def __init__(self, table: VersionTable) -> None:
        super().__init__()
        self._table = table

    def __missing__(self, label: int) -> Version:
        found = self[label] = self._table.version(label)
        return found


class DurableZones(Zones):
    """The zones in a file, as `Zones.open` opens them. Each step may have a `note`, and `who` makes it; `log` lists the steps.

    A moment before a step is told by its id in the log, or as a time with its zone, and `geojson`, `difference` and `restore` reach as far
    back as the log does, beyond what can be undone. `history` is that of the whole log."""

    def __init__(
        self, path: Union[str, os.PathLike[str]], settings: dict[str, Any], limits: dict[str, Optional[int]], *, read_only: bool,
        synchronous: str, timeout: float, who: Optional[str],
    ) -> None:
        """See `Zones.open`."""
        self._durable = Durable(
            path, limits["pairs"], 1, limits["changes"], read_only=read_only, synchronous=synchronous, timeout=timeout, who=who
        )
        self._connection: Optional[sqlite3.Connection] = None
        try:
            self._table = VersionTable(os.fsdecode(path))
            super().__init__(**self._settings({**settings, "pairs": limits["pairs"]}, read_only), index=self._durable)
        except BaseException:
            self._durable.close()
            raise
        self._versions = _Versions(self._table)
        self._is_stale, self._next_label = True, self._table.last_label() + 2

    def _settings(self, given: dict[str, Any], read_only: bool) -> dict[str, Any]:
        """The settings of the file, which are made if it has none, with those that are given in their place."""
        chosen = {name: value for name, value in given.items() if value is not None}
        if not self._table.is_there():
            if read_only or len(self._durable):
                raise ValueError("the file has an index, but no zones")
            with self._durable.transaction(note="zones") as connection:
                make_tables(connection, {**_DEFAULTS, **chosen})
        kept = self._table.settings()
        if kept["id"] != chosen.get("id", kept["id"]):
            where = "the features' own ids" if kept["id"] is None else f"the property {kept['id']!r}"
            raise ValueError(f"the file has the ids of its zones from {where}, not from the property {chosen['id']!r}")
        return {**kept, **chosen}

    def close(self) -> None:
        """As `Zones.close`, and closes the file."""
        super().close()
        self._table.close()

    def log(
        self, *, zone: Optional[str] = None, cell: Optional[Cell] = None, who: Optional[str] = None, since: Optional[Moment] = None,
        before: Optional[Moment] = None, newest_first: bool = False, most: Optional[int] = None,
    ) -> list[ZoneStep]:
        """The steps in the file, the oldest first: all, or those that changed a zone, by its id, and else as `Durable.log`, which says what
        may be asked, what it costs, and what it raises."""
        ask = partial(self._durable.log, cell=cell, who=who, since=since, before=before, newest_first=newest_first, most=most)
        if zone is None:
            return [self._zone_step(each) for each in ask()]
        found = {each.id: each for label in self._table.labels_of(zone) for each in ask(label=label)}
        return [self._zone_step(found[id]) for id in sorted(found, reverse=newest_first)[:most]]

    def _zone_step(self, logged: Logged) -> ZoneStep:
        call = self._table.call(logged.id)
        if call is not None:
            return ZoneStep(*logged._replace(kind=call.kind), zones=call.ids)
        # (what was undone, brought again or taken back)
        moved = moved_by(self._durable.entries(logged.id))
        return ZoneStep(*logged, zones=list(dict.fromkeys(self._versions[label].id for labels in moved for label in sorted(labels))))

    def refresh(self) -> bool:
        """Brings the zones up to what the file holds now, and returns whether that is something new."""
        with self._turn:
            self._is_stale = True
            is_new = self._durable.refresh()
            self._next_label = max(self._next_label, self._table.last_label() + 2)
            return is_new

    def backup(self, path: Union[str, os.PathLike[str]]) -> None:
        """Copies the file to another path, as `Durable.backup` does."""
        self._durable.backup(path)

    def compact(self, *, before: Optional[Moment] = None, note: Optional[str] = None, who: Optional[str] = None) -> None:
        """Forgets all changes, and makes the file as small as it can be; the log stays, with the shapes that it leads to. With `before`,
        the id of a step or a time with its zone, it forgets only what was done before that, and takes those steps from the log, and the
        shapes that nothing leads to then: who follows may miss one until `refresh`. It costs and raises what `Durable.compact` does."""
        with self._turn:
            self._durable.compact(before=before, note=note, who=who)
            self._drop_versions(set(self._labels()))
            if before is not None and self._drop_unreached():
                self._durable.compact(before=before)

    def _drop_unreached(self) -> int:
        """Drops from the file what the log leads to no more; returns how many versions that were."""
        reached = set(self._labels())
        for number in range(1, self._durable.done_count() + 1):
            reached.update(*moved_by(self._durable.change(number)))
        [first] = self._durable.log(most=1)
        with self._durable.transaction() as connection:
            return drop_unreached(connection, first.id, reached)

    def revert(
        self, change: Optional[int] = None, *, id: Optional[int] = None, note: Optional[str] = None, who: Optional[str] = None
    ) -> int:
        """Takes back a change, by its number or by the id of its step in the log. Else as `Zones.revert`."""
        if id is None:
            return super().revert(0 if change is None else change, note=note, who=who)
        with self._turn:
            moved = moved_by(self._durable.entries(id))
            self._expect_free(moved)
            return self._step(lambda: self._durable.revert(change, id=id, note=note, who=who), lambda: moved)

    def history(self) -> list[dict[str, Any]]:
        """What stood before the first step in the log, and what each step did that moved a zone, an undo too, as `map_page.page_of` takes
        it: dicts with the `id` of the step, or 0, its `time`, `note` and `who`, and what it `added`, `changed` and `removed`."""
        with self._turn:
            logged = self._durable.log()
            start = self._standing_at(logged[0].id) if logged else {}
            steps: list[dict[str, Any]] = [{"id": 0, **difference_of({}, start, self._versions, self.id_name)}]
            for each in logged:
                moved = moved_by(self._durable.entries(each.id))
                if any(moved):
                    words = {"id": each.id, "time": each.time, "note": each.note, "who": each.who}
                    steps.append({**words, **moved_difference(moved, self._versions, self.id_name)})
            return steps

    def _standing_at(self, before: Optional[Moment]) -> Standing:
        if before is None:
            return self._standing()
        with self._durable.as_of(before if isinstance(before, datetime) else before - 1) as then:
            labels = {held.label & ~1 for held in then.held_labels()}
        return {self._versions[label].id: label for label in labels}

    def _drop_versions(self, kept: set[int]) -> None:
        """Drops versions from memory alone, since the log still tells of them."""
        versions = _Versions(self._table)
        versions.update((label, version) for label, version in self._versions.items() if label in kept)
        self._versions = versions

    def _said(self, note: Optional[str], who: Optional[str]) -> Said:
        return {"note": note, "who": who}

    def _record(self, entries: Entries, new: Sequence[Version], call: Call, said: Said) -> int:
        if self._connection is not None:
            put_versions(self._connection, new)
            return self._durable.record(entries)
        with self._durable.transaction(**said) as connection:
            put_versions(connection, new)
            put_call(connection, call)
            changed = self._durable.record(entries)
        return changed

    @contextmanager
    def _group(self, said: Said) -> Iterator[None]:
        if self._connection is not None:
            with self._durable.group():
                yield
            return
        first, before = self._next_label, dict(self._standing())
        try:
            with self._durable.transaction(**said) as self._connection:
                yield
                after = self._standing()
                changed = [id for id in {**before, **after} if before.get(id) != after.get(id)]
                # (a group that changes nothing is no step)
                if changed:
                    put_call(self._connection, Call("group", changed))
        except BaseException:
            for label in range(first, self._next_label, 2):
                self._versions.pop(label, None)
            raise
        finally:
            self._connection = None
