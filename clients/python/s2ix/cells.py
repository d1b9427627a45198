"""Questions about cells, without an index. A cell is a number or a token; each function raises NoCell for what is no cell, and names it.

>>> [hex(cell) for cell in edge_neighbors("1")]
['0xb000000000000000', '0x3000000000000000', '0x5000000000000000', '0x9000000000000000']
"""
from __future__ import annotations

import ctypes
from typing import Any, NamedTuple

from s2ix import library
from s2ix.given import MOST_U8, MOST_U32, check, check_natural, number_of
from s2ix.refusals import NoCell, TooFine, expect
from s2ix.tokens import Cell, is_cell, no_cell
from s2ix.unions import listed


class Square(NamedTuple):
    """A cell as a square of the grid of its level on its face: its column, its row, its face (0 to 5), its level (0 to 30), and how what
    lies in it is turned (bit 0: i and j are swapped, bit 1: both are inverted)."""

    i: int
    j: int
    face: int
    level: int
    orientation: int


def path(cell: Cell) -> str:
    """The path for people: the face, a slash, and the child positions from level 1 down.

    >>> path("1"), path("1c"), path("15")
    ('0/', '0/3', '0/22')
    """
    number, text, many = number_of(cell), (ctypes.c_uint8 * 32)(), ctypes.c_size_t()
    _expect(library.load().s2ix_cell_path(number, ctypes.addressof(text), ctypes.addressof(many)), number)
    return str(bytes(text)[: many.value], "ascii")


def parent(cell: Cell, level: int) -> int:
    """The cell of a level (0 to 30) that a cell lies in, itself at its own level. Raises NoCell for a finer level too.

    >>> hex(parent("15", 0)), hex(parent("15", 1)), hex(parent("15", 2))
    ('0x1000000000000000', '0x1400000000000000', '0x1500000000000000')
    """
    level = check(level, MOST_U8, NoCell)
    return _told(ctypes.c_uint64, "s2ix_cell_parent", number_of(cell), level)


def child(cell: Cell, position: int) -> int:
    """The child at a position, 0 to 3 along the curve. Raises NoCell for a leaf and for another position too.

    >>> [hex(child("1", position)) for position in range(4)]
    ['0x400000000000000', '0xc00000000000000', '0x1400000000000000', '0x1c00000000000000']
    """
    position = check(position, MOST_U8, NoCell)
    return _told(ctypes.c_uint64, "s2ix_cell_child", number_of(cell), position)


def level(cell: Cell) -> int:
    """The level, 0 for a whole face to 30 for a leaf.

    >>> level("1"), level("15"), level("0000000000000001")
    (0, 2, 30)
    """
    return _told(ctypes.c_uint8, "s2ix_cell_level", number_of(cell))


def face(cell: Cell) -> int:
    """The face, 0 to 5: the first three bits of a cell's number.

    >>> face("1"), face("b")
    (0, 5)
    """
    return _told(ctypes.c_uint8, "s2ix_cell_face", number_of(cell))


def is_leaf(cell: Cell) -> bool:
    """Whether a cell is of level 30. It is False of a number that is no cell's.

    >>> is_leaf(1), is_leaf("1"), is_leaf(0)
    (True, False, False)
    """
    return bool(library.load().s2ix_cell_is_leaf(number_of(cell)))


def range_min(cell: Cell) -> int:
    """The cell's first leaf along the curve.

    >>> hex(range_min("0c"))
    '0x800000000000001'
    """
    return _told(ctypes.c_uint64, "s2ix_cell_range_min", number_of(cell))


def range_max(cell: Cell) -> int:
    """The cell's last leaf along the curve.

    >>> hex(range_max("0c"))
    '0xfffffffffffffff'
    """
    return _told(ctypes.c_uint64, "s2ix_cell_range_max", number_of(cell))


def contains(cell: Cell, other: Cell) -> bool:
    """Whether each leaf of the other cell is one of the cell's. It is False if a number is no cell's.

    >>> contains("1", "04"), contains("04", "04"), contains("04", "1")
    (True, True, False)
    """
    return bool(library.load().s2ix_cell_contains(number_of(cell), number_of(other)))


def intersects(cell: Cell, other: Cell) -> bool:
    """Whether two cells share a leaf: then one contains the other. It is False if a number is no cell's.

    >>> intersects("04", "1"), intersects("04", "0c")
    (True, False)
    """
    return bool(library.load().s2ix_cell_intersects(number_of(cell), number_of(other)))


def common_level(cell: Cell, other: Cell) -> int:
    """The level of the smallest cell that contains both. Raises NoCell for cells of two faces too.

    >>> common_level("04", "0c"), common_level("04", "01")
    (0, 1)
    """
    number, second, level = number_of(cell), number_of(other), ctypes.c_uint8()
    _expect(library.load().s2ix_cell_common_level(number, second, ctypes.addressof(level)), number, second)
    return level.value


def next_cell(cell: Cell) -> int:
    """The next cell of its level along the curve; the first of face 0 comes after the last of face 5.

    >>> hex(next_cell("1c")), hex(next_cell("b"))
    ('0x2400000000000000', '0x1000000000000000')
    """
    return _told(ctypes.c_uint64, "s2ix_cell_next", number_of(cell))


def edge_neighbors(cell: Cell) -> list[int]:
    """The four cells of its level that share an edge with a cell: down, right, up, left."""
    number, cells = number_of(cell), (ctypes.c_uint64 * 4)()
    _expect(library.load().s2ix_cell_edge_neighbors(number, ctypes.addressof(cells)), number)
    return list(cells)


def border(cell: Cell, level: int) -> list[int]:
    """The cells of a level outside a cell that share an edge with a cell of that level inside it: each once, rising, at most 1024.
    O(n log n) for n cells. Raises NoCell, Coarser, TooFine for a level above 30, or more than 8 finer than the cell, or OutOfMemory.

    >>> [hex(cell)[2] for cell in border("1", 0)], len(border("1", 1))
    (['3', '5', '9', 'b'], 8)
    """
    level = check_natural(level, MOST_U8, TooFine, "level")
    number = number_of(cell)
    try:
        return listed(library.load().s2ix_cell_border, number, level)
    except NoCell:
        raise no_cell(number) from None


def to_face_ij(cell: Cell) -> Square:
    """The square of a cell.

    >>> to_face_ij("15")
    Square(i=3, j=3, face=0, level=2, orientation=0)
    """
    number, square = number_of(cell), library.Square()
    _expect(library.load().s2ix_cell_to_face_ij(number, ctypes.addressof(square)), number)
    return Square(square.i, square.j, square.face, square.level, square.orientation)


def from_face_ij(face: int, i: int, j: int, level: int) -> int:
    """The cell of a square. Raises NoCell for a face above 5, a level above 30, or a column or row of 2^level or more.

    >>> hex(from_face_ij(face=0, i=3, j=3, level=2))
    '0x1500000000000000'
    """
    square = [check(number, most, NoCell) for number, most in ((face, MOST_U8), (i, MOST_U32), (j, MOST_U32), (level, MOST_U8))]
    cell = ctypes.c_uint64()
    expect(library.load().s2ix_cell_from_face_ij(*square, ctypes.addressof(cell)))
    return cell.value


def _told(kind: Any, name: str, cell: int, *given: int) -> int:
    """The number that a call tells, of a kind of C."""
    told = kind()
    status = getattr(library.load(), name)(cell, *given, ctypes.addressof(told))
    if status:
        _expect(status, cell)
    return told.value  # type: ignore[no-any-return]


def _expect(status: int, *numbers: int) -> None:
    """Raises the class of a status, unless that is 0. NoCell has the first of some numbers that is no cell's."""
    wrong = [number for number in numbers if not is_cell(number)] if status == NoCell.status else []
    if wrong:
        raise no_cell(wrong[0])
    expect(status)
