"""The order of the leaves along S2's curve, from the squares of the finest grid. It needs no library, and whole arrays go through it too.

The curve enters a square at one corner and leaves it at a neighbouring one. It goes through the four quadrants in order of their positions,
0 to 3. How a square is turned is told by two bits: bit 0 exchanges column and row, bit 1 counts both from the other end."""
from __future__ import annotations

import functools
from typing import Any

# How many levels a look-up goes down. Six look-ups lead from a face to a leaf.
_LEVELS = 5
_MOST = (1 << _LEVELS) - 1
# The position of each quadrant, column first, in a square that is not turned; and by which bits the quadrant of each position is
# turned against its square.
_POSITIONS = ((0, 1), (3, 2))
_TURNS = (1, 0, 0, 3)


def _quadrant(turned: int, position: int) -> tuple[int, int, int]:
    """The column and the row of the quadrant at a position of a square, and by which bits it is turned against that."""
    column, row = next((i, j) for i in (0, 1) for j in (0, 1) if _POSITIONS[i][j] == position)
    if turned & 2:
        column, row = 1 - column, 1 - row
    if turned & 1:
        column, row = row, column
    return column, row, _TURNS[position]


_QUADRANTS = [[_quadrant(turned, position) for position in range(4)] for turned in range(4)]


def leaf_of(face: int, i: int, j: int) -> int:
    """The leaf at a column and a row, 0 to 2^30 - 1 each, of a face, 0 to 5. None of them is checked.

    >>> hex(leaf_of(2, 0, 2**30 - 1))
    '0x4aaaaaaaaaaaaaab'
    """
    number: int = _number(_table(), face, i, j)
    return 2 * number + 1


def square_of(cell: int) -> tuple[int, int, int, int]:
    """The face of a cell, the column and the row of its first leaf on each side, and how many leaves lie along its side. It is not checked.

    >>> square_of(0x4aaaaaaaaaaaaaab)
    (2, 0, 1073741823, 1)
    """
    lowest = cell & -cell
    face, turned, i, j = cell >> 61, cell >> 61 & 1, 0, 0
    level = 30 - (lowest.bit_length() - 1) // 2
    for low in range(59, 59 - 2 * level, -2):
        column, row, turn = _QUADRANTS[turned][cell >> low & 3]
        i, j, turned = 2 * i + column, 2 * j + row, turned ^ turn
    side = 1 << 30 - level
    return face, i * side, j * side, side


def leaves_of(numpy: Any, faces: Any, columns: Any, rows: Any) -> Any:
    """The same for arrays of 64-bit numbers with a sign, as an array of 64-bit numbers without one."""
    return 2 * _number(_array(numpy), faces, columns, rows).view(numpy.uint64) + 1


def _number(table: Any, face: Any, i: Any, j: Any) -> Any:
    """A leaf's number without its last bit, by a table of either kind."""
    number, found = face, face & 1
    for low in range(30 - _LEVELS, -1, -_LEVELS):
        found = table[(found & 3) << 2 * _LEVELS | (i >> low & _MOST) << _LEVELS | j >> low & _MOST]
        number = number << 2 * _LEVELS | found >> 2
    return number


@functools.lru_cache(maxsize=None)
def _table() -> list[int]:
    """For each turn of a square and each of its squares some levels down: the positions on the way there, and how that square is turned."""
    return [_way(turned, i, j) for turned in range(4) for i in range(_MOST + 1) for j in range(_MOST + 1)]


@functools.lru_cache(maxsize=None)
def _array(numpy: Any) -> Any:
    """The same as an array."""
    return numpy.array(_table(), numpy.int16)


def _way(turned: int, i: int, j: int) -> int:
    """An item of the table: above the two low bits the positions, in these how the square is turned."""
    number = 0
    for low in reversed(range(_LEVELS)):
        column, row = i >> low & 1, j >> low & 1
        if turned & 1:
            column, row = row, column
        if turned & 2:
            column, row = 1 - column, 1 - row
        position = _POSITIONS[column][row]
        number, turned = 4 * number + position, turned ^ _TURNS[position]
    return 4 * number + turned
