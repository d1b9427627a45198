"""Cells as numbers and as tokens."""
from __future__ import annotations

import operator
import re
from typing import Union

from s2ix.refusals import NoCell, S2ixError, named

#: A cell: its number, or a token that spells it.
Cell = Union[int, str]

_is_spelled = re.compile("[0-9a-fA-F]{1,16}").fullmatch
# The bits that may be a cell's lowest: those at even places, up to that of a whole face.
_LOWEST_BITS = 0x1555555555555555


def is_cell(number: int) -> bool:
    """Whether a number is a cell's: its face is 0 to 5, and its lowest bit marks a level from 0 to 30. What is no whole number is a
    TypeError.

    >>> is_cell(0x1C00000000000000), is_cell(2)
    (True, False)
    """
    number = operator.index(number)
    return 0 < number < 6 << 61 and (number & -number) & _LOWEST_BITS != 0


def cell_of(text: str) -> int:
    """The number of the cell that a token spells: 1 to 16 hexadecimal digits of either case, where missing digits on the right are zeros.

    Another text raises NoCell.

    >>> hex(cell_of("1c"))
    '0x1c00000000000000'
    """
    if not _is_spelled(text):
        raise named(NoCell, f"{text!r} is no token of 1 to 16 hexadecimal digits", text)
    number = int(text.ljust(16, "0"), 16)
    if not is_cell(number):
        raise named(NoCell, f"{text!r} is no token of a cell", text)
    return number


def token_of(cell: int) -> str:
    """The canonical token of a cell: its number in lower-case hexadecimal digits without the zeros at the end.

    A number that is no cell's raises NoCell.

    >>> token_of(0x1C00000000000000)
    '1c'
    """
    number = operator.index(cell)
    if not is_cell(number):
        raise no_cell(number)
    return f"{number:016x}".rstrip("0")


def no_cell(number: int, kind: str = "cell") -> S2ixError:
    """The refusal of a number that is no cell's, or no leaf's."""
    return named(NoCell, f"{number:#x} is no number of a {kind}", number)
