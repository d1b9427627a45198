"""The words of the shell: what each reads, and what it prints."""
from __future__ import annotations

import argparse
import csv
import importlib
import json
import pathlib
import sqlite3
import sys
from array import array
from typing import IO, Optional, Sequence

from s2ix import S2ixError

from s2ix_places.cells_geojson import CellName, cells_geojson, pairs_in
from s2ix_places.refusals import PlacesError
from s2ix_places.zones import Zones

# What columns of points may be called, in small letters.
_LATITUDES, _LONGITUDES = ("latitude", "lat", "y"), ("longitude", "lon", "lng", "long", "x")
# How a file of SQLite begins.
_DATABASE = b"SQLite format 3\0"
# The columns of a file of names.
_COLUMNS = ["label", "id", "inner"]


def main(words: Sequence[str]) -> int:
    """Carries out some words; returns 0, or 1 after a fault, which is told on standard error."""
    given = _parser().parse_args(words)
    try:
        given.work(given)
        sys.stdout.flush()
    except BrokenPipeError:
        # (who reads has enough, and Python is not to tell of it at its end)
        sys.stdout = None  # type: ignore[assignment]
    except (PlacesError, S2ixError, OSError, ValueError, sqlite3.Error) as raised:
        print(f"s2ix_places: {raised}", file=sys.stderr)
        return 1
    return 0


def _parser() -> argparse.ArgumentParser:
    # (raw, so that the path of the page stays in one piece)
    parser = argparse.ArgumentParser(
        prog="python3 -m s2ix_places", description="Zones from GeoJSON: their cells, points in them, and maps.", epilog=f"{_page()} says more.",
        formatter_class=argparse.RawDescriptionHelpFormatter,
    )
    words = parser.add_subparsers(dest="word", required=True, metavar="WORD")
    cover = words.add_parser("cover", help="prints the dump of the cells of zones", description=(
        "Prints the dump of the cells of zones, which the program s2ix and s2ix.Index.load read. Zone k has label 2 k for its rim cells, "
        "and 2 k + 1 for cells that lie within it."))
    _add_zones(cover)
    cover.add_argument("--names", metavar="FILE", help="writes the id of each label to a file, as CSV")
    cover.set_defaults(work=_cover)
    at = words.add_parser("at", help="prints which zones points are in", description=(
        "Prints points with the zones that they are in, exactly: a row for each point and zone, and one for a point in none."))
    _add_zones(at)
    at.add_argument("points", help="a file of CSV with columns latitude and longitude, or - for standard input")
    at.add_argument("--column", default="zone", help="the column that the ids come into (zone)")
    at.set_defaults(work=_at)
    page = words.add_parser("map", help="prints a page with zones on a map", description=(
        "Prints a page of HTML that shows zones on a map, step by step through their history. It opens without a server."))
    _add_zones(page)
    page.add_argument("--title", default="Zones", help="what stands over the page (Zones)")
    page.add_argument("--name", default="name", metavar="PROPERTY", help="the property with the name of a zone (name)")
    page.add_argument("--tiles", metavar="ADDRESS", help="where tiles of a background are, as https://tile.example.org/{z}/{x}/{y}.png")
    page.add_argument("--attribution", default="", help="the credit of the tiles")
    page.set_defaults(work=_map)
    geojson = words.add_parser("geojson", help="prints cells as GeoJSON", description="Prints the cells of a dump as GeoJSON, without S2.")
    geojson.add_argument("dump", help="a file with a dump, or - for standard input")
    geojson.add_argument("--names", metavar="FILE", help="reads the id of each label from a file, as cover writes it")
    geojson.set_defaults(work=_geojson)
    return parser


def _page() -> pathlib.Path:
    """The page PLACES.md, which is beside this file in a package, and among the docs of the repository."""
    here = pathlib.Path(__file__).resolve().parent
    beside = here / "PLACES.md"
    return beside if beside.exists() else here.parents[2] / "docs" / "PLACES.md"


def _add_zones(parser: argparse.ArgumentParser) -> None:
    parser.add_argument("zones", help="a file of GeoJSON, or one of Zones.open, for which --id to --skip don't count")
    parser.add_argument("--id", metavar="PROPERTY", help="the property that has a feature's id; without it the feature's own id")
    parser.add_argument("--max-cells", type=int, default=32, metavar="N", help="at most so many cells for a zone (32)")
    parser.add_argument("--min-level", type=int, default=0, metavar="L", help="cells of this level and finer ones (0)")
    parser.add_argument("--max-level", type=int, default=30, metavar="L", help="cells of this level and coarser ones (30)")
    parser.add_argument("--mend", action="store_true", help="mends shapes, as rings that cross themselves")
    parser.add_argument("--skip", action="store_true", help="leaves faulty features out, and tells them on standard error")


def _zones(given: argparse.Namespace) -> Zones:
    """The zones of a file of either kind."""
    with open(given.zones, "rb") as file:
        if file.read(len(_DATABASE)) == _DATABASE:
            return Zones.open(given.zones, read_only=True)
    zones = Zones.read(
        given.zones, given.id, given.max_cells, min_level=given.min_level, max_level=given.max_level, mend=given.mend,
        on_error="skip" if given.skip else "raise",
    )
    for fault in zones.skipped:
        print(f"s2ix_places: left out: {fault}", file=sys.stderr)
    return zones


def _cover(given: argparse.Namespace) -> None:
    with _zones(given) as zones:
        if given.names is not None:
            with open(given.names, "w", encoding="utf-8", newline="") as file:
                writer = csv.writer(file, lineterminator="\n")
                writer.writerow(_COLUMNS)
                writer.writerows((label, id, label & 1) for label, id in zones.names().items())
        sys.stdout.write(zones.index.dump())


def _at(given: argparse.Namespace) -> None:
    with _zones(given) as zones, _opened(given.points) as file:
        reader = csv.reader(file)
        header: list[str] = next(reader, [])
        latitude, longitude = (_column(header, names) for names in (_LATITUDES, _LONGITUDES))
        rows = [row for row in reader if row]
        ends, labels = zones.at_each(_doubles(rows, latitude), _doubles(rows, longitude))
        ids = zones.ids(labels)
        writer = csv.writer(sys.stdout, lineterminator="\n")
        writer.writerow([*header, given.column])
        start = 0
        for row, end in zip(rows, ends):
            writer.writerows([*row, id] for id in ids[start:end] or [""])
            start = end


def _opened(path: str) -> IO[str]:
    return sys.stdin if path == "-" else open(path, encoding="utf-8-sig", newline="")


def _column(header: list[str], names: Sequence[str]) -> int:
    """The place of a column that has one of some names."""
    found = [place for name in names for place, column in enumerate(header) if column.strip().lower() == name]
    if not found:
        raise ValueError(f"the points have no column {names[0]}: their columns are {', '.join(header) or 'none'}")
    return found[0]


def _doubles(rows: list[list[str]], column: int) -> array[float]:
    """The numbers of a column."""
    numbers = array("d")
    for place, row in enumerate(rows):
        try:
            numbers.append(float(row[column]))
        except (ValueError, IndexError):
            raise ValueError(f"point {place} has no number in column {column + 1}: {','.join(row)}") from None
    return numbers


def _map(given: argparse.Namespace) -> None:
    page_of = importlib.import_module("s2ix_places.map_page").page_of
    with _zones(given) as zones:
        page = page_of(zones.history(), title=given.title, name=given.name, tiles=given.tiles, attribution=given.attribution)
    sys.stdout.write(page)


def _geojson(given: argparse.Namespace) -> None:
    with _opened(given.dump) as file:
        pairs = pairs_in(file.read())
    json.dump(cells_geojson(pairs, _names_in(given.names)), sys.stdout, separators=(",", ":"))
    print()


def _names_in(path: Optional[str]) -> dict[int, CellName]:
    """The names of labels in a file that `cover` has written."""
    if path is None:
        return {}
    with open(path, encoding="utf-8", newline="") as file:
        rows = list(csv.reader(file))
    if rows[:1] != [_COLUMNS] or any(len(row) != 3 for row in rows):
        raise ValueError(f"{path} has no names: its columns are not {', '.join(_COLUMNS)}")
    return {int(label): CellName(id, inner == "1") for label, id, inner in rows[1:]}
