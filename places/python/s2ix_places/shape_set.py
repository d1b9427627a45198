"""A set of shapes under labels, which is ready to tell which points they hold, exactly."""
from __future__ import annotations

import ctypes
import threading
import weakref
from array import array
from ctypes import addressof
from typing import Mapping, Optional, Sequence

from s2ix_places.library import NO_SHAPE, load
from s2ix_places.shapes import Shape, expect

# Into so many cells the set cuts a shape: a point in one is tested against the few edges there.
_CELLS = 50


class ShapeSet:
    """Shapes under labels. Threads may share it: they ask side by side."""

    __slots__ = ("_address", "_labels", "_turn", "__weakref__")

    def __init__(self) -> None:
        made = ctypes.c_void_p()
        expect(load().s2ix_shape_set_new(_CELLS, addressof(made)))
        # (what it is known to have, it has, unless another thread is about to take it away)
        self._address, self._labels, self._turn = made.value, set[int](), threading.Lock()
        weakref.finalize(self, load().s2ix_shape_set_free, made.value)

    def missing(self, labels: Sequence[int]) -> list[int]:
        """Those of some labels that the set has not."""
        has = self._labels
        return [label for label in labels if label not in has]

    def put(self, shapes: Mapping[int, Optional[Shape]]) -> None:
        """Puts shapes under labels, in place of those that are there, or takes away what is under a label; all or none."""
        labels = array("I", shapes)
        handles = (ctypes.c_void_p * len(shapes))(*(None if shape is None else shape.address for shape in shapes.values()))
        with self._turn:
            self._labels.difference_update(label for label, shape in shapes.items() if shape is None)
            expect(load().s2ix_shape_set_put(self._address, labels.buffer_info()[0], addressof(handles), len(shapes)))
            self._labels.update(label for label, shape in shapes.items() if shape is not None)

    def keep(self, labels: set[int]) -> None:
        """Takes away all but some labels."""
        gone = self._labels - labels
        if gone:
            self.put(dict.fromkeys(gone))

    def hold(self, labels: Sequence[int], latitude: float, longitude: float) -> Optional[list[bool]]:
        """Whether a point lies in the shape of each of some labels; None if the set has one of these no more."""
        place, many = array("d", (latitude, longitude)), len(labels)
        points_of, labels_of, inside = array("I", bytes(4 * many)), array("I", labels), (ctypes.c_bool * many)()
        start, _ = place.buffer_info()
        given = start, start + place.itemsize, 1, points_of.buffer_info()[0], labels_of.buffer_info()[0], many, addressof(inside)
        return list(inside) if self.hold_each(*given) else None

    def hold_each(
        self, latitudes: int, longitudes: int, points: int, points_of: int, labels_of: int, pairs: int, inside: int
    ) -> bool:
        """The same for many pairs, by the addresses that s2ix_shape_set_hold_each takes; False if the set has one of the labels no more."""
        wrong = ctypes.c_size_t()
        given = latitudes, longitudes, points, points_of, labels_of, pairs, inside, addressof(wrong)
        status = load().s2ix_shape_set_hold_each(self._address, *given)
        if status == NO_SHAPE:
            return False
        expect(status)
        return True
