"""Unions of cells, without an index: sets of leaves, given as cells in any order, repeated or not.

A list that is returned is normal: it rises, no cell lies within another, and no four are all the children of one. Each function first puts
what it is given into that form, in O(n log n) for n cells. Each raises OutOfMemory, or NoCell with the first number that is no cell's and
its place; the places of a second list count on from the first.

>>> [hex(cell) for cell in normalise(["1c", "14", "0c", "04"])]
['0x1000000000000000']
"""
from __future__ import annotations

import ctypes
from array import array
from typing import Callable

from s2ix import library
from s2ix.given import MOST_U64, Cells, cells_in, check, number_of, wrong_cell
from s2ix.refusals import NoCell, NoRoom, NoSpan, expect
from s2ix.tokens import Cell, no_cell


def normalise(cells: Cells) -> list[int]:
    """The normal list of the same leaves: never longer than the list.

    >>> [hex(cell) for cell in normalise(["0c", "04", "01", "0c"])]
    ['0x400000000000000', '0xc00000000000000']
    """
    start, many, _kept = cells_in(cells)
    try:
        return listed(library.load().s2ix_union_normalise, start, many)
    except NoCell:
        raise wrong_cell((start, many)) from None


def from_leaves(start: int, limit: int) -> list[int]:
    """The leaves with numbers from `start` to below `limit`: at most 184 cells. Bounds are odd, 1 to 0xc000000000000001, and equal ones
    give no cells. Raises NoSpan or OutOfMemory.

    >>> [hex(cell) for cell in from_leaves(0x0800000000000001, 0x1800000000000001)]
    ['0xc00000000000000', '0x1400000000000000']
    """
    span = check(start, MOST_U64, NoSpan), check(limit, MOST_U64, NoSpan)
    return listed(library.load().s2ix_union_from_leaves, *span)


def union(first: Cells, second: Cells) -> list[int]:
    """The leaves of either union.

    >>> [hex(cell) for cell in union(["04", "0c"], ["1c", "14"])]
    ['0x1000000000000000']
    """
    return _of_two(library.load().s2ix_union_union, first, second)


def intersection(first: Cells, second: Cells) -> list[int]:
    """The leaves of both unions.

    >>> [hex(cell) for cell in intersection("1", ["04", "24"])]
    ['0x400000000000000']
    """
    return _of_two(library.load().s2ix_union_intersection, first, second)


def difference(first: Cells, second: Cells) -> list[int]:
    """The leaves of the first union without those of the second.

    >>> [hex(cell) for cell in difference("1", ["04", "0c"])]
    ['0x1400000000000000', '0x1c00000000000000']
    """
    return _of_two(library.load().s2ix_union_difference, first, second)


def contains(cells: Cells, cell: Cell) -> bool:
    """Whether each leaf of a cell is one of the union's.

    >>> contains(["04", "0c", "14", "1c"], "1"), contains(["04", "0c"], "1")
    (True, False)
    """
    return _is_so(library.load().s2ix_union_contains, cells, cell)


def intersects(cells: Cells, cell: Cell) -> bool:
    """Whether some leaf of a cell is one of the union's.

    >>> intersects(["04", "0c"], "1"), intersects(["04", "0c"], "14")
    (True, False)
    """
    return _is_so(library.load().s2ix_union_intersects, cells, cell)


def leaf_count(cells: Cells) -> int:
    """How many leaves the union has: 2^60 for each face.

    >>> leaf_count(["0000000000000001", "0000000000000003"]), leaf_count("1") == 2**60
    (2, True)
    """
    start, many, _kept = cells_in(cells)
    count = ctypes.c_uint64()
    status = library.load().s2ix_union_leaf_count(start, many, ctypes.addressof(count))
    if status == NoCell.status:
        raise wrong_cell((start, many))
    expect(status)
    return count.value


def listed(call: Callable[..., int], *given: int) -> list[int]:
    """The cells that a call puts into a buffer, which is taken again if it was too short."""
    room, number = 256, ctypes.c_size_t()
    while True:
        words = array("Q", bytes(8 * room))
        status = call(*given, words.buffer_info()[0], room, ctypes.addressof(number))
        if status != NoRoom.status:
            expect(status)
            return words[: number.value].tolist()
        room = number.value


def _of_two(call: Callable[..., int], first: Cells, second: Cells) -> list[int]:
    start, many, _kept = cells_in(first)
    other, more, _also_kept = cells_in(second, many)
    try:
        return listed(call, start, many, other, more)
    except NoCell:
        raise wrong_cell((start, many), (other, more)) from None


def _is_so(call: Callable[..., int], cells: Cells, cell: Cell) -> bool:
    start, many, _kept = cells_in(cells)
    number, answer = number_of(cell), ctypes.c_bool()
    status = call(start, many, number, ctypes.addressof(answer))
    if status == NoCell.status:
        refusal = wrong_cell((start, many))
        raise refusal if refusal.place is not None else no_cell(number)
    expect(status)
    return answer.value
