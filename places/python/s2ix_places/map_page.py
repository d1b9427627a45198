"""One HTML page that shows zones on a map, step by step through their history. It opens without a server and without a network."""
import base64
import hashlib
import html
import json
import pathlib
import re
from typing import Any, Iterable, Mapping, Optional, Union

from . import map_ground, map_history

_HERE = pathlib.Path(__file__).parent
# The scripts of the page, in the order in which they run, after Leaflet.
_SCRIPTS = ("map_shapes.js", "map_layers.js", "map_ground.js", "map_names.js", "map_page.js")
# An address of tiles: of the parts in braces Leaflet knows these.
_TILES = re.compile(r"https?://(?:[^{}\s]|\{(?:z|x|y|-y|s|r)\})*")
# The least step of a longitude or latitude in the page: 1e-7 degrees, about a centimetre.
_UNITS = 10_000_000


def page_of(history: Iterable[Mapping[str, Any]], *, title: str = "Zones", name: str = "name", tiles: Optional[str] = None,
            attribution: str = "", leaflet: Union[str, pathlib.Path, None] = None, coasts: bool = True) -> str:
    """Gives the text, in ASCII, of a page that shows the zones after any step of their history.

    `history` is the steps in their order. Each is a dict (or another mapping) with

        id        a text or a whole number, which no other step has; the page speaks of 'change 7' if it is 7
        time      when it was made: a datetime, a text, or None
        note      a text or None
        who       a text or None
        added     GeoJSON features: the zones that there are from this step on, and that weren't there before
        changed   GeoJSON features: the zones that have another shape or other properties from this step on, as they are then
        removed   GeoJSON features: the zones that there are no longer; of each only its id is read, so its geometry may be None

    Only `id` must be there. Each of the last three is a list (or another iterable) of features, or a FeatureCollection. A feature is

        {"type": "Feature", "id": "north", "properties": {"name": "North", ..}, "geometry": {"type": "Polygon", "coordinates": ..}}

    with the zone's id, a text; its properties, a dict or None; and its shape, a Polygon or a MultiPolygon of longitudes and latitudes
    in degrees. Rings may run in either direction, over the date line or around a pole, and may be cut at 180 degrees or run on past it;
    as in S2, an edge is the shortest line between its corners, and a ring has the smaller of its two sides. Within a step a zone is
    named once. If the history doesn't begin with no zones, its first step adds those that there were. A shape that comes again, as by
    an undo, is in the page once.

        page_of([
            {"id": 1, "time": "2026-11-29T18:00:00Z", "note": "first zones", "who": "Ann", "added": [north, south]},
            {"id": 2, "time": "2026-11-29T18:05:00Z", "note": "north grows", "who": "Ben", "changed": [wider_north]},
            {"id": 3, "time": None, "note": None, "who": None, "removed": [south]},
        ])

    `title` stands over the page. `name` is the property with the name of a zone; one without it goes by its id. `tiles` is an address as
    'https://tile.example.org/{z}/{x}/{y}.png', from where the browser takes tiles of a Web Mercator map, with `attribution` as their
    credit, a plain text; without `tiles` the page asks for nothing from outside. `leaflet` is the folder with leaflet.js and leaflet.css,
    if not where the wheel or Debian's libjs-leaflet has them. `coasts` draws the countries of Debian's python3-geopandas beneath the zones,
    if they are installed.

    All texts are shown as they are: none is read as HTML. Coordinates are rounded to 1e-7 degrees, a centimetre. A click is answered on
    the sphere with these coordinates; at a border itself it may name either side. The map reaches to 85 degrees north and south.

    Raises ValueError, with the step and the zone, if a feature is none, its id no text, its geometry no polygon, a coordinate out of
    range, a zone added that is there, or changed or removed that isn't, or if `tiles` is no such address; and FileNotFoundError, which
    says what to install, without Leaflet. It takes about a second for 2,000 zones of 50 corners.
    """
    files = map_ground.leaflet_files(leaflet)
    if tiles is not None and not _TILES.fullmatch(tiles):
        raise ValueError(f"tiles are an address as https://tile.example.org/{{z}}/{{x}}/{{y}}.png, and not {tiles!r}")
    data = {"title": title, "tiles": tiles, "attribution": attribution, "units": _UNITS, **map_history.read(history, name, _UNITS),
            "coasts": map_ground.coasts() if coasts and not tiles else []}
    script = "".join((_HERE / part).read_text("utf-8") for part in _SCRIPTS)
    texts = {"licence": map_ground.LICENCE, "title": _escaped(title), "leaflet style": files["leaflet.css"],
             "leaflet": _in_strings(files["leaflet.js"]), "style": (_HERE / "map_page.css").read_text("utf-8"),
             "script": _in_strings(f'"use strict";\n{script}'), "data": _in_script(data)}
    texts["rules"] = _rules(texts, tiles)
    return _filled(_in_html((_HERE / "map_page.html").read_text("utf-8")), texts)


def _escaped(text: str) -> str:
    """A text as HTML; what no page can hold, as half of a surrogate pair, becomes a sign for it."""
    return _in_html(html.escape(text))


def _in_html(text: str) -> str:
    """HTML in ASCII."""
    return text.encode("ascii", "xmlcharrefreplace").decode()


def _in_strings(script: str) -> str:
    """A script in ASCII, if all else stands in its strings and comments."""
    return script.encode("ascii", "backslashreplace").decode()


def _in_script(data: Any) -> str:
    """JSON that may stand within an element of a page: ASCII, and no sign of it begins or ends an element or a comment."""
    text = json.dumps(data, separators=(",", ":"), allow_nan=False)
    return text.replace("<", "\\u003c").replace(">", "\\u003e").replace("&", "\\u0026")


def _rules(texts: Mapping[str, str], tiles: Optional[str]) -> str:
    """What the browser may run and load: these scripts and styles as they are, and pictures for tiles."""
    def hashed(*names: str) -> str:
        digests = (hashlib.sha256(texts[name].encode()).digest() for name in names)
        return " ".join(f"'sha256-{base64.b64encode(digest).decode()}'" for digest in digests)
    pictures = "img-src data: http: https:" if tiles else "img-src data:"
    return f"default-src 'none'; script-src {hashed('leaflet', 'script')}; style-src {hashed('leaflet style', 'style')}; {pictures}"


def _filled(template: str, texts: Mapping[str, str]) -> str:
    """The template with a text at each place; what such a text holds is no place."""
    first, *rest = template.split("<!-- ")
    parts = [first]
    for piece in rest:
        name, after = piece.split(" -->", 1)
        parts += [texts[name], after]
    return "".join(parts)
