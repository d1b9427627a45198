"""The S2 cell index that can be edited, from Python: `Index` holds labelled cells, and its methods edit, undo and ask.

Cells are S2's 64-bit ids or their tokens. Each refusal is a class under S2ixError. Threads may share an index. `s2ix.cells` and
`s2ix.unions` ask about cells without an index, and `s2ix.degrees` finds the leaf of a point. `Durable` is an index in a file. `s2ix.frames`
and `s2ix.clusters` join frames of pandas and of Dask with an index: import them by name. `python3 -m s2ix` shows a session, and
`python3 -m s2ix --help` the page FROM_PYTHON.md.
"""
from __future__ import annotations

from importlib import import_module
from typing import TYPE_CHECKING, Any

from s2ix import cells, degrees, unions
from s2ix.index import Index
from s2ix.refusals import (
    BelowZero, Closed, Coarser, JournalFull, Mismatch, NoCell, NoChange, NoDifference, NoDump, NoJournal, NoLabel, NoLimits, NoRange,
    NoRoom, NoSpan, NoSuchChange, NoSuchLabel, NotHeld, NothingToRedo, NothingToUndo, OutOfMemory, S2ixError, TooFewChanges, TooFine,
    TooManyCopies, TooManyPairs, Unsorted,
)
from s2ix.rows import Entry, HeldLabel, Range, Row
from s2ix.tokens import Cell, cell_of, is_cell, token_of

if TYPE_CHECKING:
    from s2ix.durable import Durable, Logged
    from s2ix.form import LaterForm, NotKept, Spoilt

__version__ = "1.1.0"

__all__ = [
    "BelowZero", "Cell", "Closed", "Coarser", "Durable", "Entry", "HeldLabel", "Index", "JournalFull", "LaterForm", "Logged", "Mismatch",
    "NoCell", "NoChange", "NoDifference", "NoDump", "NoJournal", "NoLabel", "NoLimits", "NoRange", "NoRoom", "NoSpan", "NoSuchChange",
    "NoSuchLabel", "NotHeld", "NotKept", "NothingToRedo", "NothingToUndo", "OutOfMemory", "Range", "Row", "S2ixError", "Spoilt",
    "TooFewChanges", "TooFine", "TooManyCopies", "TooManyPairs", "Unsorted", "cell_of", "cells", "degrees", "is_cell", "token_of", "unions",
]


def __getattr__(name: str) -> Any:
    """What is of modules that need sqlite3: these are imported when it is first asked for."""
    for module, names in ("durable", ("Durable", "Logged")), ("form", ("LaterForm", "NotKept", "Spoilt")):
        if name in names:
            return getattr(import_module(f"s2ix.{module}"), name)
    raise AttributeError(f"module {__name__!r} has no attribute {name!r}")


def __dir__() -> list[str]:
    return sorted({*globals(), *__all__})
