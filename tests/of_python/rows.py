"""Rows in memory, added and taken by the Python package: what each format means, and which are no rows. tests/python_client and
tests/python_frames run this."""
import ctypes
import sys
from array import array

from s2ix import Index, library

FIRST, SECOND, LAST = 0x0400000000000000, 0x0C00000000000000, 0xB400000000000000
u8, u32, u64, i32, i64 = ctypes.c_uint8, ctypes.c_uint32, ctypes.c_uint64, ctypes.c_int32, ctypes.c_int64
IN_MEMORY = "rows in memory have each a cell of 8 bytes, a label of 4 and a count of 4, in one row, not {!r}"
# The fields of packed rows, as NumPy writes them.
FIELDS = [("cell", "u8"), ("label", "u4"), ("count", "u4")]
# The rows that most checks add, and those with a count too many.
ROWS, MORE = [(SECOND, 7, 1), (FIRST, 9, 2), (LAST, 7, 3)], [(SECOND, 7, 2), (FIRST, 9, 3), (LAST, 7, 4)]


def refusal_of(call, *given):
    """What a call answers, or the name and the words of what it raises."""
    try:
        return call(*given)
    except Exception as raised:  # noqa: BLE001
        return type(raised).__name__, str(raised)


def taken(given):
    """What an index holds after rows are added to it, and after they are taken from one more of each."""
    with Index() as added, Index() as left:
        left.add_all(MORE)
        answers = added.add_all(given), left.remove_all(given)
        return answers, sorted(map(tuple, added)), sorted(map(tuple, left))


def expect_rows(count, name, given):
    """Rows that are added, and taken from others."""
    count.expect(f"rows of {name}", refusal_of(taken, given), ((3, 3), sorted(ROWS), sorted((cell, label, 1) for cell, label, _ in ROWS)))


def expect_none(count, name, given, words):
    """What is no rows is a TypeError, by either call, and nothing changes."""
    with Index() as index:
        index.add_all(ROWS)
        found = refusal_of(index.add_all, given), refusal_of(index.remove_all, given), sorted(map(tuple, index)), index.done_count()
    count.expect(f"no rows of {name}", found, (("TypeError", words), ("TypeError", words), sorted(ROWS), 1))


def struct_of(name, fields, base=ctypes.Structure):
    return type(name, (base,), {"_fields_": fields})


def check_formats(count):
    """Memory of ctypes and of arrays."""
    cell, label, number = ("cell", u64), ("label", u32), ("count", u32)
    packed = (library.PackedRow * 3)(*ROWS)
    apart = (library.PackedRow * 6)(*(row for each in ROWS for row in (each, (1, 1, 1))))
    signed = (struct_of("Signed", [("cell", i64), label, number]) * 3)(*ROWS)
    for name, given in {
        "ctypes": packed, "a view": memoryview(packed), "a view to read": memoryview(packed).toreadonly(), "every second": memoryview(apart)[::2],
        "a sign that no cell has": signed, "rows": ROWS,
    }.items():
        expect_rows(count, name, given)
    other = ctypes.BigEndianStructure if sys.byteorder == "little" else ctypes.LittleEndianStructure
    for name, item in {
        "another order of fields": struct_of("Other", [label, number, cell]), "another order of names": struct_of("Swapped", [cell, number, label]),
        "another order of bytes": struct_of("Bytes", [cell, label, number], other), "two numbers": struct_of("Two", [("cell", u64), ("label", u64)]),
        "signed labels": struct_of("Labels", [cell, ("label", i32), number]), "signed counts": struct_of("Counts", [cell, label, ("count", i32)]),
        "floats": struct_of("Floats", [("cell", ctypes.c_double), label, number]), "other names": struct_of("Names", [cell, label, ("copies", u32)]),
        "more fields": struct_of("More", [cell, label, number, ("note", u64)]), "less": struct_of("Less", [("cell", u32), ("label", u32), ("count", u64)]),
        "a union": struct_of("Union", [cell, ("words", u32 * 4)], ctypes.Union), "pairs in rows": u64 * 2, "bytes": u8 * 16,
    }.items():
        given = (item * 2)()
        expect_none(count, name, given, IN_MEMORY.format(memoryview(given).format))
        expect_none(count, f"a view of {name}", memoryview(given), IN_MEMORY.format(memoryview(given).format))
    for given in (array("Q", [FIRST, 7]), b"0123456789abcdef", bytearray(16), memoryview(packed).cast("B")):
        expect_none(count, type(given).__name__, given, IN_MEMORY.format(memoryview(given).format))


def check_arrays_of_rows(count):
    """Arrays of NumPy: of rows as they lie, and of the same fields by name."""
    import numpy

    rows = numpy.array(ROWS, FIELDS)
    spread = numpy.dtype({"names": ["cell", "label", "count"], "formats": ["u8", "u4", "u4"], "offsets": [8, 4, 0]})
    tokens = numpy.array([("0c", 7, 1), ("04", 9, 2), ("b4", 7, 3)], [("cell", "O"), *FIELDS[1:]])
    for name, given in {
        "NumPy": rows, "an array of records": rows.view(numpy.recarray), "fields without names": rows.astype("u8,u4,u4"),
        "steps": numpy.repeat(rows, 2)[::2], "memory to read": numpy.frombuffer(rows.tobytes(), rows.dtype), "falling places": rows[::-1],
        "another order of bytes": rows.astype([(field, f">{kind}") for field, kind in FIELDS]), "fields before each other": rows.astype(spread),
        "objects": rows.astype([(field, "O") for field, _ in FIELDS]), "tokens": tokens,
        "cells with a sign": rows.astype([("cell", "i8"), *FIELDS[1:]]), "wide labels": rows.astype([(field, "i8") for field, _ in FIELDS]),
        "short labels": rows.astype([FIELDS[0], ("label", "u1"), ("count", "i2")]),
    }.items():
        expect_rows(count, name, given)
        if given.dtype.names == ("cell", "label", "count") and name != "tokens":
            for order in (["label", "cell", "count"], ["count", "label", "cell"], ["label", "count", "cell"], ["cell", "count", "label"]):
                others = [("index", "i8"), *((field, given.dtype[field]) for field in order), ("day", "M8[s]"), ("note", "O")]
                other = numpy.zeros(len(given), others)
                for field in order:
                    other[field] = given[field]
                expect_rows(count, f"{name}, ordered as {', '.join(order)}", other)
    wide = numpy.zeros(len(rows), [(field, "i8") for field in ("label", "count", "cell")])
    for field in wide.dtype.names:
        wide[field] = rows[field]
    check_wrong_values(count, wide)


def check_arrays_of_others(count):
    """Arrays of NumPy that are no rows."""
    import numpy

    rows, named = numpy.array(ROWS, FIELDS), "rows have the fields cell, label and count, not {}"
    for name, given in {
        "texts": numpy.array(["abcd", "efgh"]), "complex": numpy.array([1 + 2j]), "bytes": numpy.array([b"0123456789abcdef"]),
        "long floats": numpy.array([1.5], numpy.longdouble), "nothing known": numpy.zeros(2, "V16"), "no texts": numpy.zeros(0, "U4"),
        "cells": numpy.array([FIRST, SECOND], "u8"), "two rows of cells": numpy.array([[FIRST, SECOND]], "u8"),
        "an order that differs": memoryview(rows.astype(FIELDS[1:] + FIELDS[:1])),
    }.items():
        expect_none(count, name, given, IN_MEMORY.format(memoryview(given).format))
    over = numpy.dtype({"names": ["cell", "label", "all"], "formats": ["u8", "u4", "u8"], "offsets": [0, 8, 8]})
    for name, given, words in (
        ("a pair", numpy.array([(1, 2)], "i8,i8"), named.format("f0, f1")),
        ("wide numbers without names", rows.astype("i8,i8,i8"), named.format("f0, f1, f2")),
        ("no count", rows[["cell", "label"]], named.format("cell, label")),
        ("fields of fields", numpy.zeros(1, [("cell", "u8"), ("pair", FIELDS[1:])]), named.format("cell, pair")),
        ("fields over each other", numpy.zeros(1, over), named.format("cell, label, all")),
        ("floats", rows.astype([("cell", "f8"), *FIELDS[1:]]), "the field cell of rows has integers of 64 bits, not float64"),
        ("short cells", numpy.zeros(1, [("cell", "u4"), *FIELDS[1:]]), "the field cell of rows has integers of 64 bits, not uint32"),
        ("rows with a mask", numpy.ma.array(rows), "rows are in a plain array, not in a masked one"),
        ("rows in a square", rows.astype(FIELDS[1:] + FIELDS[:1]).reshape(3, 1), "rows lie in one row, not in an array of 2 dimensions"),
    ):
        expect_none(count, name, given, words)
    for kind in ("f4", "?", "M8[s]", "m8[s]", "U1", "S4"):
        words = f"the field {{}} of rows has integers, not {numpy.dtype(kind)}"
        expect_none(count, f"labels of {kind}", numpy.zeros(1, [FIELDS[0], ("label", kind), FIELDS[2]]), words.format("label"))
        expect_none(count, f"counts of {kind}", numpy.zeros(1, [*FIELDS[:2], ("count", kind)]), words.format("count"))


def check_wrong_values(count, rows):
    """Numbers that are no cell's, label's or count's are refused with their row."""
    with Index() as index:
        for field, number, wanted in (
            ("cell", 2, ("NoCell", "row 1: 0x2 is no number of a cell")), ("label", -1, ("NoLabel", "row 1: a number is no label's")),
            ("label", 2**31, ("NoLabel", f"row 1: {2**31} is no label")), ("label", 2**32, ("NoLabel", "row 1: a number is no label's")),
            ("count", -1, ("ValueError", "copies below 0: -1")), ("count", 2**32, ("TooManyCopies", "row 1: a count would pass the limit")),
        ):
            wrong = rows.copy()
            wrong[field][1:] = number
            count.expect(f"a {field} of {number}", (refusal_of(index.add_all, wrong), len(index)), (wanted, 0))


def check_frames_of_rows(count):
    """The records of frames of pandas, whichever order their columns have."""
    import pandas

    frame = pandas.DataFrame(ROWS, columns=["cell", "label", "count"]).astype({"cell": "uint64"}).assign(note="x", day=pandas.Timestamp(7))
    tokens = frame.assign(cell=["0c", "04", "b4"])
    for name, given in {
        "frame": frame, "nullable frame": frame.astype({"label": "Int64", "count": "UInt32"}), "frame of tokens": tokens,
        "frame of short numbers": frame.astype({"label": "uint8"}),
    }.items():
        for columns in (["cell", "label", "count"], ["label", "cell", "count"], ["count", "note", "cell", "day", "label"]):
            for index in (False, True):
                expect_rows(count, f"a {name} of {', '.join(columns)}, with its index: {index}", given[columns].to_records(index=index))
    without, floats = frame[["label", "cell"]].to_records(index=False), frame.astype({"label": float}).to_records()
    expect_none(count, "a frame without counts", without, "rows have the fields cell, label and count, not label, cell")
    expect_none(count, "a frame of floats", floats, "the field label of rows has integers, not float64")
