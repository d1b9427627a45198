"""The session of README and the examples of docs/FORMATS.md: scripts and texts, and what the plain model of tests/ answers, with which
tests/model compares the program."""
import os
import sys

sys.path.insert(0, f"{os.path.dirname(os.path.dirname(os.path.realpath(__file__)))}/tests")
from models import plain_readers  # noqa: E402
from models.plain_model import Model  # noqa: E402

# README's session: each line, and what it says.
FIRST = {
    "addunion 9 04 0c": "Zone 9 is laid over the cells `04` and `0c`: two pairs have changed.",
    "add 04 3": "`04` gets label 3 too.",
    "meet 04": "Which pairs share a leaf with `04`? Two: each is printed as its cell, its label and its count.",
    "revert 1": "Change 1, the zone, is taken back. The later change stays.",
    "dump": "All pairs that are held, as a text that can be read back.",
}
# The scripts of an example, by its name: what comes before it, and its lines, each with a remark after ';'. A line of its own begins anew.
SESSIONS = {
    "edits": ((), """
        add 1 7
        add 04 9 2; one pair changed, by two copies
        remove 04 9
        addunion 3 1c 14 0c 04; the children of 1: their normal union is one cell
        drop 3
        relabel 7 9; 1:7 lost its count, and 1:9 gained it
        undo
        redo
        forget"""),
    "grown": ((), """
        add 1d 3
        grow 3 1; 1c overlaps 1d, so only the neighbours of 1c are added
        region 3"""),
    "normal": ((), """
        add 04 1
        add 0c 1
        add 14 1 5
        add 1c 1
        normal 1; four pairs went, and that of their parent came
        region 1"""),
    "reverted": ((), """
        addunion 9 04 0c
        add 04 3
        revert 1; label 3 stays
        revert 3; the third change took the first one back: label 9 is back"""),
    "queries of pairs": (("add 1 7", "add 04 9"), """
        at 0000000000000001
        at 2000000000000001
        meet 0c
        meet 1c 04 04
        labels 04 5"""),
    "queries of cells": (("add 1 1", "add 04 2"), """
        region 2
        common 1 2
        only 1 2
        region 3; a label that isn't held has no cells
        path 1
        path 1d
        neighbors 04
        face 1d"""),
}
# The last line of each script is refused by the name; with the limits on pairs, counts and changes before the script.
REFUSED = {
    "LineTooLong": "#" * 65537, "BadCommand": "Add 04 9", "BadArguments": "add 04", "BadToken": "add 2 5", "BadLabel": "add 04 2147483648",
    "BadCount": "add 04 9 0", "BadLevel": "grow 4 31", "BadNumber": "revert 0", "NotLeaf": "at 04", "JournalFull": "--max-changes 1: add 1 1, add 3 1",
    "NoSuchLabel": "relabel 6 9", "NotHeld": "remove 04 9", "TooFine": "add 04 2, grow 2 10", "NoSuchChange": "revert 1",
    "BelowZero": "add 04 9 2, remove 04 9, revert 1", "NoChange": "add 04 9, relabel 9 9", "TooManyCopies": "--max-count 3: add 04 9 3, add 04 9",
    "TooManyPairs": "--max-pairs 1: add 1 1, add 3 1", "NothingToUndo": "undo", "NothingToRedo": "redo",
}
# Texts that are no dump, and texts that are no journal, by their faults; '/' is a line feed.
FAULTY_DUMPS = {
    "Truncated": "s2ix 2/04 9 1/", "BadHeader": "s2ix 3/end 0 0/", "BadEnd": "s2ix 2/04 9 1/end 1 2/", "BadLine": "s2ix 2/04  9 1/end 1 1/",
    "BadToken": "s2ix 2/040 9 1/end 1 1/", "BadLabel": "s2ix 2/04 09 1/end 1 1/", "BadCount": "s2ix 1/04 9 65536/end 1 65536/",
    "Unsorted": "s2ix 2/04 9 1/04 9 1/end 2 2/", "TrailingBytes": "s2ix 2/end 0 0/x/",
}
FAULTY_JOURNALS = {
    "Truncated": "s2ix-journal 2/change 1/", "BadHeader": "s2ix-journal 3/end 0/", "BadEnd": "s2ix-journal 2/change 1/04 9 0 1/end 2/",
    "BadLine": "s2ix-journal 2/change 2/04 9 0 1/end 1/", "BadToken": "s2ix-journal 2/change 1/040 9 0 1/end 1/",
    "BadLabel": "s2ix-journal 2/change 1/04 09 0 1/end 1/", "BadCount": "s2ix-journal 2/change 0/end 1/",
    "NoDifference": "s2ix-journal 2/change 1/04 9 0 0/end 1/", "Unsorted": "s2ix-journal 2/change 2/04 9 0 1/04 9 1 2/end 1/",
    "TrailingBytes": "s2ix-journal 2/end 0/x/",
}

# Files of the examples of commands, and the commands that need no other file.
TEXTS = {"before": "s2ix 2/end 0 0/", "after": "s2ix 2/04 3 3/end 1 3/", "loose": "s2ix 2/040 9 1/end 1 1/"}
COMMANDS = ("check after", "check loose", "replay before journal", "rewind after journal", "replay after journal", "diff before after",
            "run --load loose", "run --load before --journal journal")
CHANGES = ("add 04 9 2", "add 04 3", "relabel 9 3")


class Different(Exception):
    """An example is not answered as its page says."""


def after(lines, **limits):
    """The model after some lines, and the answer to the last one."""
    model, answer = Model(**limits), []
    for line in lines:
        answer, _ = model.answer(line.encode())
    return model, answer


def typed():
    """README's session as it is typed. tests/packages reads it, and the block after it, and has each package print that."""
    return ["```", "./s2ix run <<'END'", *FIRST, "END", "```"]


def line_by_line():
    """The lines of README's session, each with its answer and what it says."""
    model = Model()
    yield from ["| Line | Answer | What it says |", "|---|---|---|"]
    for line, told in FIRST.items():
        answer = ", ".join(f"`{each}`" for each in model.answer(line.encode())[0])
        yield f"| `{line}` | {answer} | {told} |"


def printed():
    """What README's session prints."""
    model = Model()
    return ["```", *[each for line in FIRST for each in model.answer(line.encode())[0]], "```"]


def session(name):
    """The lines of a session, each with its answer."""
    before, script = SESSIONS[name]
    model, _ = after(before)
    yield "```"
    for line in script.strip().split("\n"):
        asked, _, remark = line.strip().partition("; ")
        answer = ", ".join(model.answer(asked.encode())[0])
        yield f"{asked:<26}{answer:<11}{remark}".rstrip() if remark else f"{asked:<26}{answer}"
    yield "```"


def answer_to(line, before):
    """The one answer to a line after some others, as it is printed."""
    return ["```", *after([*before, line])[1], "```"]


def refused_by(name):
    """The example of a refusal of a line."""
    script = REFUSED[name]
    option, _, lines = script.rpartition(": ")
    word, _, number = option.removeprefix("--max-").partition(" ")
    kept = {"count": "copies"}.get(word, word)
    _, answer = after(lines.split(", "), **({kept: int(number)} if option else {}))
    if answer != [f"no {name}"]:
        raise Different(f"{script} is answered {answer}, not by {name}")
    shown = ", ".join(f"`{line}`" for line in lines.split(", "))
    return f"with `{option}`: {shown}" if option else f"{len(script):,} times `#`" if name == "LineTooLong" else shown


def fault_of(name, faulty, read):
    """The example of a fault of a text, with the number of its line; '' if there is none."""
    if name not in faulty:
        return ""
    _, fault = read(faulty[name].replace("/", "\n").encode())
    if not fault or fault[0] != name:
        raise Different(f"{faulty[name]} has the fault {fault}, not {name}")
    return f"`{faulty[name]}`: {fault[1]}"


def dump_fault(name):
    return fault_of(name, FAULTY_DUMPS, plain_readers.read_dump)


def journal_fault(name):
    return fault_of(name, FAULTY_JOURNALS, plain_readers.read_journal)


def printed_by(command):
    """What a command prints over the files of the examples."""
    texts = {name: text.replace("/", "\n").encode() for name, text in TEXTS.items()}
    texts["journal"] = "".join(f"{line}\n" for line in after([*CHANGES, "journal"])[1]).encode()
    word, *files = [part for part in command.split() if not part.startswith("--")]
    given = [texts[file] for file in files]
    if word == "diff":
        return plain_readers.compared(*given)
    if len(given) > 1 and word == "run":
        return plain_readers.resumed(*given)
    if word == "run":
        return plain_readers.loaded(*given, plain_readers.MOST_PAIRS, plain_readers.MOST_COUNT)
    return plain_readers.check(*given) if word == "check" else plain_readers.moved(*given, word == "rewind")


def commands():
    """Commands, what each prints, and its status."""
    rows = [(f"s2ix {command}", printed_by(command).decode().strip().replace("\n", ", ")) for command in COMMANDS]
    _, answer = after(["undo"])
    rows = [("", "output"), *rows, ("printf 'undo\\nadd 1 1\\n' | s2ix run --stop", *answer), ("s2ix check nothere", "")]
    status = {"": "3", "output": "status"}
    yield from ["```", *[f"{asked:<44}{told:<44}{status.get(told, str(int(told.startswith('no ')))):}" for asked, told in rows], "```"]
