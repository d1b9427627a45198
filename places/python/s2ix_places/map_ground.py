"""What the page of the map takes from Debian's packages: Leaflet, and countries to lie beneath the zones."""
import pathlib
import re
import struct
from typing import Iterator, List, Union

# Where Leaflet may be: in a wheel's package, and where Debian's package has it.
_LEAFLET = (pathlib.Path(__file__).parent / "leaflet", pathlib.Path("/usr/share/javascript/leaflet"))
COUNTRIES = pathlib.Path("/usr/lib/python3/dist-packages/geopandas/datasets/naturalearth_lowres/naturalearth_lowres.shp")
# Corners of countries are rounded to hundredths of degrees.
_COAST_UNITS = 100
# The names under which a folder may have each of Leaflet's files, the smallest first.
_NAMES = {"leaflet.js": ("leaflet.min.js", "leaflet.js"), "leaflet.css": ("leaflet.css",)}
# Leaflet's licence asks to stand in each copy.
LICENCE = """Leaflet, a JS library for interactive maps. http://leafletjs.com
Copyright (c) 2010-2019 Vladimir Agafonkin, (c) 2010-2011 CloudMade. All rights reserved.

Redistribution and use in source and binary forms, with or without modification, are permitted provided that the following conditions
are met:

1. Redistributions of source code must retain the above copyright notice, this list of conditions and the following disclaimer.

2. Redistributions in binary form must reproduce the above copyright notice, this list of conditions and the following disclaimer in
   the documentation and/or other materials provided with the distribution.

THIS SOFTWARE IS PROVIDED BY THE COPYRIGHT HOLDERS AND CONTRIBUTORS "AS IS" AND ANY EXPRESS OR IMPLIED WARRANTIES, INCLUDING, BUT NOT
LIMITED TO, THE IMPLIED WARRANTIES OF MERCHANTABILITY AND FITNESS FOR A PARTICULAR PURPOSE ARE DISCLAIMED. IN NO EVENT SHALL THE
COPYRIGHT HOLDER OR CONTRIBUTORS BE LIABLE FOR ANY DIRECT, INDIRECT, INCIDENTAL, SPECIAL, EXEMPLARY, OR CONSEQUENTIAL DAMAGES
(INCLUDING, BUT NOT LIMITED TO, PROCUREMENT OF SUBSTITUTE GOODS OR SERVICES; LOSS OF USE, DATA, OR PROFITS; OR BUSINESS INTERRUPTION)
HOWEVER CAUSED AND ON ANY THEORY OF LIABILITY, WHETHER IN CONTRACT, STRICT LIABILITY, OR TORT (INCLUDING NEGLIGENCE OR OTHERWISE)
ARISING IN ANY WAY OUT OF THE USE OF THIS SOFTWARE, EVEN IF ADVISED OF THE POSSIBILITY OF SUCH DAMAGE."""


def leaflet_paths(folder: Union[str, pathlib.Path, None] = None) -> "dict[str, pathlib.Path]":
    """Where leaflet.js and leaflet.css lie: in a folder, or else in this package, if it is of a wheel, or where Debian's package has them.
    Raises FileNotFoundError, which says what to install, if one isn't there."""
    place = pathlib.Path(folder) if folder else next((each for each in _LEAFLET if each.is_dir()), _LEAFLET[-1])
    paths = {}
    for name, spellings in _NAMES.items():
        found = next((place / each for each in spellings if (place / each).is_file()), None)
        if not found:
            raise FileNotFoundError(f"the map needs Leaflet, but {place} has no {name}: apt-get install libjs-leaflet, or leaflet=FOLDER")
        paths[name] = found
    return paths


def leaflet_files(folder: Union[str, pathlib.Path, None] = None) -> "dict[str, str]":
    """The texts of leaflet.js and leaflet.css, fit to stand in a page. Raises what `leaflet_paths` does, and ValueError if a text would end the
    element that it stands in."""
    texts = {}
    for name, found in leaflet_paths(folder).items():
        text = re.sub(r"(?m)^//# sourceMappingURL=.*$", "", found.read_text("utf-8"))
        if re.search(r"</(?:script|style)|<!--", text, re.IGNORECASE):
            raise ValueError(f"{found} can't stand in a page: it has the end of an element or the start of a comment")
        texts[name] = text
    # (pictures of controls that the page doesn't have)
    texts["leaflet.css"] = re.sub(r"background-image:\s*url\([^)]*\);?", "", texts["leaflet.css"])
    return texts


def coasts() -> "List[List[int]]":
    """The rings of the countries, each as a longitude, a latitude, and from there on differences, in hundredths of degrees; none if they
    aren't installed."""
    return [_differences(ring) for ring in _rings(COUNTRIES.read_bytes())] if COUNTRIES.is_file() else []


def _rings(text: bytes) -> Iterator["List[tuple[float, float]]"]:
    """The rings of a shapefile of polygons."""
    at = 100
    while at < len(text):
        (words,) = struct.unpack_from(">i", text, at + 4)
        kind, *_, parts, points = struct.unpack_from("<i4d2i", text, at + 8)
        if kind == 5:
            starts = struct.unpack_from(f"<{parts}i", text, at + 52)
            numbers = struct.unpack_from(f"<{2 * points}d", text, at + 52 + 4 * parts)
            corners = list(zip(numbers[::2], numbers[1::2]))
            for first, end in zip(starts, [*starts[1:], points]):
                yield corners[first:end]
        at += 8 + 2 * words


def _differences(ring: "List[tuple[float, float]]") -> List[int]:
    numbers, before = [], (0, 0)
    for corner in ring:
        here = (round(corner[0] * _COAST_UNITS), round(corner[1] * _COAST_UNITS))
        if here != before:
            numbers += [here[0] - before[0], here[1] - before[1]]
            before = here
    return numbers
