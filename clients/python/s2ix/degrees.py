"""Leaves from degrees, as S2 finds them, and the corners of cells. This needs neither an index nor the library. It is not proved, but
tested beside S2.

S2 puts a point on the unit sphere, divides it by its longest coordinate so that it lies on a face of a cube, and stretches the face by a
square root, so that cells become more alike in size. All this is done in doubles and in S2's order, so that each id is S2's.

>>> hex(leaf(41.9028, 12.4964))
'0x132f61a6161a1b21'
"""
from __future__ import annotations

import importlib
import math
import sys
from typing import Any, Protocol, Union, overload

from s2ix import curve
from s2ix.tokens import Cell, cell_of, is_cell, no_cell

# How many radians a degree has, and how many leaves lie across a face.
_RADIANS = math.pi / 180
_ACROSS = 1 << 30
# A point is near the edge of its leaf if it is closer than this part of the leaf's width, 2 millionths of a metre. Sines that are wrong by
# four units in their last place move it by less than a fiftieth of that.
_NEAR = 2**-12
# How many points of an array go through NumPy at once.
_MANY = 1 << 15


class Array(Protocol):
    """An array of NumPy, or what it makes one of, as a column of pandas."""

    def __array__(self) -> Any: ...


@overload
def leaf(latitude: float, longitude: float) -> int: ...
@overload
def leaf(latitude: Union[float, Array], longitude: Union[float, Array]) -> Any: ...
def leaf(latitude: Any, longitude: Any) -> Any:
    """The leaf that contains a point, given in degrees: the id of `S2CellId(S2LatLng::FromDegrees(latitude, longitude))`.

    Latitudes are -90 to 90. Longitudes are any finite number, and go round, as in an S2LatLng that is not normalised first: 190 is where
    -170 is. Raises ValueError for NaN, an infinity or another latitude, and TypeError for what is no number.

    Of arrays it returns an array of unsigned 64-bit numbers of their shape, with the same leaves as for single numbers; a number beside an
    array is used for each of its items. If an item is refused, so are all, and the ValueError names the first by its place, counted from 0
    row by row. A masked item counts as NaN.

    >>> hex(leaf(90, 0)), leaf(0, 190) == leaf(0, -170)
    ('0x5000000000000001', True)
    >>> leaf(90.5, 0)
    Traceback (most recent call last):
    ValueError: 90.5 is no latitude, which is -90 to 90
    """
    if getattr(latitude, "ndim", 0) or getattr(longitude, "ndim", 0):
        return _leaves(latitude, longitude)
    if isinstance(latitude, list) or isinstance(longitude, list):
        raise TypeError("lists go in as numpy.array")
    if not -90 <= latitude <= 90:
        raise _refusal("latitude", latitude)
    if not -sys.float_info.max <= longitude <= sys.float_info.max:
        raise _refusal("longitude", longitude)
    return _leaf(float(latitude), float(longitude))


def corners(cell: Cell, parts: int = 1) -> list[tuple[float, float]]:
    """The corners of a cell, each a latitude and a longitude in degrees, in S2's order: they turn left around the cell. With more `parts`
    each side is cut into so many of the same number of leaves, and their ends are listed too: sides of great cells bend on a map.

    Longitudes are -180 to 180. That of a corner on the date line is 180 or -180, as the cell lies, and a corner at a pole has the
    longitude of the middle of its cell. A whole face has corners on both sides of the date line, or goes around a pole. Raises NoCell, and
    ValueError for parts that aren't 1 or a power of two, or more than the leaves of a side.

    >>> corners("1")
    [(-35.264389682754654, -45.0), (-35.264389682754654, 45.0), (35.264389682754654, 45.0), (35.264389682754654, -45.0)]
    """
    number = cell_of(cell) if isinstance(cell, str) else cell
    if not is_cell(number):
        raise no_cell(number)
    face, i, j, side = curve.square_of(number)
    if not 0 < parts <= side or parts & parts - 1:
        raise ValueError(f"{parts} parts of a side of {side} leaves")
    step, along = side // parts, range(parts)
    squares = [(i + step * k, j) for k in along] + [(i + side, j + step * k) for k in along]
    squares += [(i + side - step * k, j + side) for k in along] + [(i, j + side - step * k) for k in along]
    _, middle = _place(face, i + side / 2, j + side / 2, 0)
    return [_place(face, column, row, middle) for column, row in squares]


def _place(face: int, i: float, j: float, middle: float) -> tuple[float, float]:
    """The latitude and longitude at the low ends of a column and a row, beside a middle whose side of the date line it takes."""
    u, v = _along(i), _along(j)
    x, y, z = ((1, u, v), (-u, 1, v), (-u, -v, 1), (-1, -v, -u), (v, -1, -u), (v, u, -1))[face]
    if x == y == 0:
        return math.copysign(90, z), middle
    # (0.0 for -0.0)
    latitude = math.degrees(math.atan2(z, math.sqrt(x * x + y * y))) + 0.0
    if y == 0 and x < 0:
        return latitude, math.copysign(180, middle)
    return latitude, math.degrees(math.atan2(y, x)) + 0.0


def _along(whole: float) -> float:
    """Where the low end of a column lies on a face, which goes from -1 to 1."""
    share = whole / _ACROSS
    return (4 * share * share - 1) / 3 if share >= 0.5 else (1 - 4 * (1 - share) * (1 - share)) / 3


def _leaf(latitude: float, longitude: float) -> int:
    phi, theta = _RADIANS * latitude, _RADIANS * longitude
    width = math.cos(phi)
    x, y, z = math.cos(theta) * width, math.sin(theta) * width, math.sin(phi)
    sizes = abs(x), abs(y), abs(z)
    axis = (0 if sizes[0] > sizes[2] else 2) if sizes[0] > sizes[1] else (1 if sizes[1] > sizes[2] else 2)
    depth = (x, y, z)[axis]
    face = axis if depth >= 0 else axis + 3
    right, up = _sides(x, y, z)[face]
    return curve.leaf_of(face, _column(right / depth), _column(up / depth))


def _sides(x: Any, y: Any, z: Any) -> tuple[tuple[Any, Any], ...]:
    """The coordinates along the columns and along the rows of each face."""
    return (y, z), (-x, z), (-x, -y), (z, y), (z, -x), (-y, -x)


def _column(u: float) -> int:
    """The column, or the row, of a place on a face, which goes from -1 to 1."""
    root = 0.5 * math.sqrt(1 + 3 * abs(u))
    # (as S2's, an exact half goes to the even number)
    return max(0, min(_ACROSS - 1, round(_ACROSS * (root if u >= 0 else 1 - root) - 0.5)))


def _leaves(latitude: Any, longitude: Any) -> Any:
    numpy = importlib.import_module("numpy")
    latitudes, longitudes = numpy.broadcast_arrays(_numbers(numpy, latitude), _numbers(numpy, longitude))
    leaves = numpy.empty(latitudes.shape, numpy.uint64)
    latitudes, longitudes, flat = latitudes.reshape(-1), longitudes.reshape(-1), leaves.reshape(-1)
    _expect(numpy, "latitude", latitudes, numpy.abs(latitudes) <= 90)
    _expect(numpy, "longitude", longitudes, numpy.isfinite(longitudes))
    for start in range(0, len(flat), _MANY):
        part = slice(start, start + _MANY)
        flat[part] = _part(numpy, latitudes[part], longitudes[part])
    return leaves


def _numbers(numpy: Any, given: Any) -> Any:
    """What is given as an array of doubles. Texts, complex numbers and objects are a TypeError."""
    if isinstance(given, numpy.ma.MaskedArray):
        given = given.astype(numpy.float64, casting="same_kind").filled(numpy.nan)
    return numpy.asarray(given).astype(numpy.float64, casting="same_kind", copy=False)


def _part(numpy: Any, latitudes: Any, longitudes: Any) -> Any:
    """The leaves of some points. NumPy's sines may differ in their last bits from libm's, which S2 takes. That matters only for a point
    near an edge of its leaf, and each such point goes through by itself."""
    phi, theta = _RADIANS * latitudes, _RADIANS * longitudes
    width = numpy.cos(phi)
    point = x, y, z = numpy.cos(theta) * width, numpy.sin(theta) * width, numpy.sin(phi)
    sizes = numpy.abs(x), numpy.abs(y), numpy.abs(z)
    axes = numpy.where(sizes[0] > sizes[1], numpy.where(sizes[0] > sizes[2], 0, 2), numpy.where(sizes[1] > sizes[2], 1, 2))
    depths = numpy.choose(axes, point)
    faces = numpy.where(depths >= 0, axes, axes + 3)
    # (NumPy's sines of great numbers may be far off)
    near, squares = numpy.abs(longitudes) > 360, []
    for sides in zip(*_sides(x, y, z)):
        u = numpy.choose(faces, sides) / depths
        root = 0.5 * numpy.sqrt(1 + 3 * numpy.abs(u))
        exact = _ACROSS * numpy.where(u >= 0, root, 1 - root) - 0.5
        whole = numpy.rint(exact)
        near |= numpy.abs(exact - whole) > 0.5 - _NEAR
        squares.append(numpy.clip(whole, 0, _ACROSS - 1).astype(numpy.int64))
    leaves = curve.leaves_of(numpy, faces, *squares)
    for place in numpy.flatnonzero(near).tolist():
        leaves[place] = _leaf(float(latitudes[place]), float(longitudes[place]))
    return leaves


def _expect(numpy: Any, name: str, numbers: Any, are_right: Any) -> None:
    """Raises the refusal of the first number that is wrong."""
    if not are_right.all():
        place = int(numpy.argmin(are_right))
        raise _refusal(name, float(numbers[place]), f"place {place}: ")


def _refusal(name: str, number: Any, before: str = "") -> ValueError:
    """The refusal of a latitude or a longitude."""
    return ValueError(f"{before}{number!r} is no {name}, which is {'-90 to 90' if name == 'latitude' else 'a finite float'}")
