"""The tests of refused calls: each is run once for each growth that it asks for, with that growth refused.

Such a test makes what it needs, and then makes its calls. Where a call gives up, the test prints 'refused: ' and the call's error, looks
that everything is as it was, and makes the call again, which must answer as it does with memory. A test without memory for what it
needs ends with a line that says so.
"""
import glob
import os
import re
import resource
import subprocess

TOP = os.path.dirname(os.path.dirname(os.path.dirname(os.path.realpath(__file__))))
WELL, NO_SET_UP = "\ntest result: ok\n", "no memory for the set-up"
# A step of a store tells of which kind its error is; a sink in memory that has no room for a text fails.
TOLD = re.compile(r"refused: (OutOfMemory|(Edit|Undo|Redo)\(OutOfMemory\)|Write)\n")
# A crate, a test of what a call needs, the same test with the call, and how many growths the call asks for: a bag's changed face takes
# nine, for its pairs, for five short lists of its parts and bundles, and for the counts of sharers of the pairs, of a bundle and of the
# parts; a face that loses its last pair takes four. A text of nine pairs asks for as many as one of a pair. A copy of a table asks for four
# lists of its parts, and shares what is in these. A copy of a store asks for none. The first step beside it asks for these four lists and for
# the count of the new table's sharers, and for two growths less, since the copied lists have room. A step of a store on one face asks for
# as many beside five other faces as without them, or after a copy that is gone.
COUNTED = [
    ("s2ix_bag_tests", "refused_growths::nothing", "refused_growths::an_empty_bag", 0),
    ("s2ix_bag_tests", "refused_growths::a_bag", "refused_growths::a_copied_bag", 0),
    ("s2ix_bag_tests", "refused_growths::a_bag_and_a_change", "refused_growths::a_changed_bag", 13),
    ("s2ix_text_tests", "refused_growths::a_dump_of_a_pair", "refused_growths::a_dump_of_nine_pairs", 0),
    ("s2ix_text_tests", "refused_growths::a_change_of_a_pair", "refused_growths::a_change_of_nine_pairs", 0),
    ("s2ix_table_tests", "refused_growths::a_bag", "refused_growths::a_face_of_a_bag", 0),
    ("s2ix_table_tests", "refused_growths::a_table_in_parts", "refused_growths::a_copied_table_in_parts", 4),
    ("s2ix_edit_tests", "refused_tests::refused_regions", "refused_tests::refused_regions_after_a_forget", 0),
    ("s2ix_edit_tests", "refused_tests::refused_regions", "refused_tests::refused_regions_after_older_are_forgotten", 0),
    ("s2ix_edit_tests", "refused_growths::a_store_of_a_face", "refused_growths::an_edit_of_a_face", 26),
    ("s2ix_edit_tests", "refused_growths::an_edit_of_a_face", "refused_growths::an_undo_of_a_face", 24),
    ("s2ix_edit_tests", "refused_growths::an_undo_of_a_face", "refused_growths::a_redo_of_a_face", 22),
    ("s2ix_edit_tests", "refused_growths::a_store_of_six_faces", "refused_growths::a_copied_store_of_six_faces", 0),
    ("s2ix_edit_tests", "refused_growths::a_copied_store_of_six_faces", "refused_growths::an_edit_beside_a_copy", 29),
    ("s2ix_edit_tests", "refused_growths::a_store_of_six_faces", "refused_growths::an_edit_after_a_copy", 26),
    ("s2ix_edit_tests", "refused_growths::a_store_of_six_faces", "refused_growths::an_edit_beside_five_faces", 26),
    ("s2ix_edit_tests", "refused_growths::an_edit_beside_five_faces", "refused_growths::an_undo_beside_five_faces", 24),
    ("s2ix_edit_tests", "refused_growths::an_undo_beside_five_faces", "refused_growths::a_redo_beside_five_faces", 22),
]


def crates():
    """The crates that have such tests, in modules that are named for it."""
    return sorted({os.path.dirname(os.path.dirname(path)) for path in glob.glob(f"{TOP}/crates/*/src/refused*_tests.rt")})


def program_of(crate):
    """The built tests of a crate."""
    return f"{crate}/out/{os.path.basename(crate)}_tests"


def names(crate):
    """Each such test of a crate by its module and name, from the sources."""
    for path in sorted(glob.glob(f"{crate}/src/refused*_tests.rt")):
        with open(path, encoding="utf-8") as file:
            found = re.findall(r"#\[test\]\nfn (\w+)\(", file.read())
        yield from (f"{os.path.basename(path)[:-3]}::{name}" for name in found)


def keep_no_core():
    resource.setrlimit(resource.RLIMIT_CORE, (0, 0))


def run(room, program, name, growth):
    """Runs a test of a program with a growth refused. Says its status, what it wrote, what it said on standard error, and how many growths it asked for."""
    counts = f"{room.path}/counts"
    if os.path.exists(counts):
        os.remove(counts)
    shim = {"LD_PRELOAD": room.shim, "REFUSE_COUNTS": counts, "REFUSE_GROWTH": str(growth)}
    ran = subprocess.run([program, name], stdin=subprocess.DEVNULL, capture_output=True, env=shim, timeout=600, preexec_fn=keep_no_core)
    many = None
    if os.path.exists(counts):
        with open(counts, encoding="ascii") as file:
            many = int(file.read().split()[0])
    return ran.returncode, ran.stdout.decode(), ran.stderr.decode(), many


def refuse(room, program, name):
    """Refuses each growth of a program's test in turn. Says in how many of the runs a call gave up, and in how many what it needs."""
    calls, set_ups, growth = 0, 0, 0
    while True:
        growth += 1
        status, output, words, many = run(room, program, name, growth)
        if many is not None and many < growth:
            room.expect(f"{name}: no growth was refused: {status} {output!r} {words!r}", (status, output, words) == (0, WELL, ""))
            return calls, set_ups
        if status == 0:
            gave_up = TOLD.fullmatch(output.removesuffix(WELL))
            calls += gave_up is not None
            is_well = output == WELL or gave_up is not None and output.endswith(WELL)
        else:
            is_well = NO_SET_UP in words and "refused: " not in output
            set_ups += is_well
        room.expect(f"{name}: growth {growth} is refused: {status} {output!r} {words!r}", is_well)


def refuse_tests(room, crate):
    """Refuses each growth of each test of a crate. Says in how many runs a call gave up."""
    program, refused = program_of(crate), 0
    if not os.access(program, os.X_OK):
        room.expect(f"there is no {program}: ./test builds it", False)
        return 0
    for name in names(crate):
        calls, _ = refuse(room, program, name)
        room.expect(f"{name}: none of its calls gave up", calls > 0)
        refused += calls
    room.expect(f"{crate}: it has no test", refused > 0)
    return refused


def growths_of(room, program, name):
    """How many growths a test asks for if none is refused."""
    status, output, words, many = run(room, program, name, 0)
    room.expect(f"{name}: {status} {output!r} {words!r}", (status, output, words) == (0, WELL, "") and many is not None)
    return many or 0


def count_growths(room):
    """Counts the growths of some calls."""
    for crate, needed, called, right in COUNTED:
        program = program_of(f"{TOP}/crates/{crate}")
        many = growths_of(room, program, called) - growths_of(room, program, needed)
        room.expect(f"{called}: its call asks for {many} growths, not {right}", many == right)


def refuse_calls(room):
    """Counts the growths of some calls, and refuses those of each crate's tests. Says in how many runs a call gave up."""
    count_growths(room)
    room.expect("no crate has tests of refused calls", crates() != [])
    return sum(refuse_tests(room, crate) for crate in crates())
