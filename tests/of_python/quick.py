"""The module `_quick` beside ctypes: the same answers and refusals, nothing leaked, and no harm by wrong arguments. tests/python_client runs
this if the module is built."""
import contextlib
import copy
import gc
import itertools
import sys
from array import array

from s2ix import Index, Row, library

FIRST, SECOND, FACE, LEAF = 0x0400000000000000, 0x0C00000000000000, 0x1000000000000000, 0x0400000000000001
ROWS = [(FIRST, 7, 2), (SECOND, 7, 1), (FACE, 3, 1), (LEAF, 2147483647, 4294967295)]
# More leaves than a room has rows at first, and more than are read without memory.
MANY = range(LEAF, LEAF + 16 * 3000, 16)


@contextlib.contextmanager
def by_ctypes():
    """Indexes that are opened meanwhile ask by ctypes."""
    is_quick = library.is_quick
    library.is_quick = lambda: False
    try:
        yield
    finally:
        library.is_quick = is_quick


def filled():
    index = Index()
    index.add_all([*ROWS, *((leaf, 9, 1) for leaf in MANY)])
    return index


class Number(int):
    pass


class Text(str):
    pass


class Cells(list):
    pass


class Whole:
    def __index__(self):
        return LEAF


def outcome_of(call, *given):
    """What a call answers, with all types in it, or all that its refusal tells."""
    try:
        answer = call(*given)
    except Exception as raised:  # noqa: BLE001
        return type(raised).__name__, str(raised), getattr(raised, "value", None), getattr(raised, "place", None)
    items = answer if isinstance(answer, list) else [answer]
    return answer, type(answer), {type(item) for item in items}, {type(part) for item in items if isinstance(item, tuple) for part in item}


def cells_given():
    """What may be given for a cell or for many, right and wrong, each as a function that makes it."""
    numbers = [LEAF, FIRST, FACE, 1, 0, 2, -1, 6 << 61, (1 << 63) + 1, (1 << 64) - 1, 1 << 64, True, 1.5, None, Number(LEAF), Whole()]
    tokens = ["0400000000000001", "04", "1", "1C", "1c", "0C", "b000000000000001", "", "x", "0x4", " 04", "04\n", "+4", "0", "g", "@", "`", "G", "c4"]
    tokens += ["04" * 8, "04" * 9, "\u0664", "\U00010041", "\ud800", "\0", "4\0", "\u00e1", Text("04"), b"04"]
    for one in [*numbers, *tokens]:
        yield lambda one=one: one
        yield lambda one=one: [one]
        yield lambda one=one: (FIRST, one, "x")
    for words in ([], [FIRST], [SECOND, "04"], [FIRST, SECOND, FACE, 2, 0], [FIRST] * 64, [FIRST] * 65, ["04"] * 64 + [-1], list(MANY), list(MANY) + ["x"]):
        for form in (list, tuple, set, iter, Cells):
            yield lambda words=words, form=form: form(words)
    for words in ([], [FIRST], [FIRST, FACE], [FIRST, 2], MANY):
        for form in (lambda words: words, memoryview, lambda words: memoryview(words).toreadonly(), lambda words: memoryview(words)[::2]):
            yield lambda words=words, form=form: form(array("Q", words))
    yield lambda: array("q", [FIRST])
    yield lambda: Row(FIRST, FACE, SECOND)
    yield lambda: [[FIRST]]
    yield dict
    yield object


def check_answers(count, quick, plain):
    """Whatever is asked, both ways answer alike."""
    for place, make in enumerate(cells_given()):
        for name in ("at", "meet", "labels"):
            count.expect(f"{name} of form {place}: {make()!r}"[:100], outcome_of(getattr(quick, name), make()), outcome_of(getattr(plain, name), make()))
        pair = make(), 7
        count.expect(f"count of form {place}: {make()!r}"[:100], outcome_of(quick.count, *pair), outcome_of(plain.count, *pair))
    for label in (7, 3, 0, -1, 2**31 - 1, 2**31, 2**32 - 1, 2**32, 2**32 + 7, 2**64, True, 7.0, "7", None, Number(7), Whole()):
        count.expect(f"count under {label!r}", outcome_of(quick.count, FIRST, label), outcome_of(plain.count, FIRST, label))
        count.expect(f"whether {label!r} is held", outcome_of(quick.__contains__, ("04", label)), outcome_of(plain.__contains__, ("04", label)))


class Calls:
    """Calls that may not be made."""

    def __getattr__(self, name):
        return self

    def __call__(self, *given):
        raise AssertionError("this is asked by ctypes")


def check_used(count):
    """Plain questions don't go by ctypes."""
    with filled() as index:
        calls, ask_at = index._calls, index._ask_at
        try:
            index._calls = index._ask_at = Calls()
            found = index.at(LEAF + 2), index.at("0400000000000003"), index.meet(SECOND), index.meet(["0c"]), index.meet(array("Q", [SECOND]))
            found += index.labels(("0c",)), index.labels(memoryview(array("Q", [SECOND]))), index.count("04", 7), (FACE, 3) in index, len(index.meet(FIRST))
        finally:
            index._calls, index._ask_at = calls, ask_at
    over, beside = [Row(FIRST, 7, 2), Row(FACE, 3, 1)], [Row(SECOND, 7, 1), Row(FACE, 3, 1)]
    count.expect("without ctypes", found, (*[over] * 2, *[beside] * 3, *[[3, 7]] * 2, 2, True, 3003))


def ask_all(index):
    """Each kind of question, answered and refused."""
    asker = index._asker
    for cells in (FIRST, "04", [FIRST, "0c"], (LEAF,) * 70, [FIRST, -1], ["x"], [2] * 70, None):
        index.at(LEAF), asker.at(cells), asker.meet(cells), asker.labels(cells), asker.count(cells, 7), asker.count(FIRST, cells)
    index.meet(array("Q", [FIRST])), index.labels(memoryview(array("Q", [FIRST, SECOND]))), index.count(LEAF, 2147483647)


def check_kept(count):
    """Nothing is kept that isn't wanted, and nothing is dropped that is."""
    with filled() as index:
        def counts():
            gc.collect()
            return [sys.getrefcount(each) for each in (Row, type(index._asker), index._handle, tuple)]

        ask_all(index)
        before, blocks = counts(), sys.getallocatedblocks()
        for _ in range(300):
            ask_all(index)
            Index().at(LEAF)
        # (Python itself has some blocks more or less; of what is asked there would be thousands)
        count.expect("references and blocks of memory", (counts(), abs(sys.getallocatedblocks() - blocks) < 200), (before, True))
        asker = index._asker
    count.expect("an Asker of a closed index", [asker.at(LEAF), asker.meet([]), asker.labels(LEAF), asker.count(FIRST, 7)], [None] * 4)
    del index
    gc.collect()
    count.expect("an Asker whose index is gone", asker.at(LEAF), None)


def check_wrong(count):
    """Wrong arguments of the module's own calls are refused."""
    with Index() as index:
        asker, handle = index._asker, index._handle
        right = (handle, index._at_handle, Row, 1, 1, 1, 1)
        wrong = [right[:many] for many in range(7)] + [(*right, 1), (*right[:2], int, *right[3:]), (*right[:2], (), *right[3:]), (handle, "1", *right[2:])]
        for given in wrong:
            count.expect(f"an Asker of {given!r}"[:80], outcome_of(type(asker), *given)[0], "TypeError")
        for call, *given in itertools.chain(
            ((call, *given) for call in (asker.count, asker.meet_in, asker.labels_in) for given in ((), (1,), (1, 2, 3))),
            ((call, *given) for call in (asker.meet_in, asker.labels_in) for given in (("1", 1), (1, "1"), (1, 1.5))),
            ((call, *given) for call in (asker.at, asker.meet, asker.labels) for given in ((), (1, 2))),
            ((call, asker) for call in (copy.copy, copy.deepcopy)),
        ):
            count.expect(f"{call!r} of {given!r}"[:80], outcome_of(call, *given)[0], "TypeError")


def check_quick(count):
    """All checks of this file."""
    with filled() as quick, by_ctypes(), filled() as plain:
        count.expect("who asks", (quick._asker is None, plain._asker is None), (False, True))
        check_answers(count, quick, plain)
    check_answers(count, quick, plain)
    check_used(count)
    check_kept(count)
    check_wrong(count)
