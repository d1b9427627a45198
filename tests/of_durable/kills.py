"""Kills writers of s2ix.Durable, and follows them, beside a plain model that knows each step that was answered. `tests/durable` runs it.

The model has a state after each step: what is held, what can be undone and redone, and the log. What is opened after a kill is as after the
last step that was answered, or one later, if that was in flight; and so is what a follower sees."""
import os
import random
import select
import signal
import time

from models.plain_model import Model
from models.random_lines import Writer
from of_durable.tools import FIRST, child, outcome_of, rest_of, shown
from s2ix import Durable

IS_LONG = os.environ.get("S2IX_LONG", "") not in ("", "0")
KILLS, MOMENTS = (500, 1_000) if IS_LONG else (60, 150)
FOLLOWED, KEPT = 2_000, 40


def text(lines):
    return "".join(f"{line}\n" for line in lines)


class Writing:
    """A model of an index in a file: its states, and the log, a kind, a note and who for each step."""

    def __init__(self):
        self.model, self.log, self.dumps = Model(), [], [text(Model().dump())]

    def copy(self):
        made = Writing()
        made.model.history, made.model.cursor = list(self.model.history), self.model.cursor
        made.log, made.dumps = list(self.log), list(self.dumps)
        return made

    def shown(self):
        return text(self.model.dump()), text(self.model.journal()), len(self.model.history) - 1 - self.model.cursor

    def do(self, line, number):
        """Makes a step of a line; one that is refused is none."""
        model = self.model
        if line.startswith("join "):
            many = int(line.split()[1])
            if not 1 < many <= model.cursor:
                return
            kept, undone = model.history[: model.cursor - many + 1], model.history[model.cursor + 1 :]
            now = model.history[model.cursor]
            kept += [now] if now != kept[-1] else []
            model.history, model.cursor = kept + undone, len(kept) - 1
            self.put("join", number)
            return
        if line.startswith("older "):
            many = int(line.split()[1])
            if many < model.cursor:
                model.history, model.cursor = model.history[model.cursor - many :], many
                self.put("forget_older", number)
            return
        _, is_refused = model.answer(line.encode())
        if not is_refused:
            self.put(line.split()[0], number)

    def put(self, kind, number):
        self.log.append((kind, f"step {number}", f"hand {number % 3}"))
        self.dumps.append(text(self.model.dump()))


KINDS = {"add_union": "addunion", "drop_label": "drop", "normalise_label": "normal"}


def made(index, line, number):
    """Makes the step in an index."""
    said = {"note": f"step {number}", "who": f"hand {number % 3}"}
    word, *rest = line.split()
    if word == "join":
        return outcome_of(index.join, int(rest[0]), **said) if 1 < int(rest[0]) else None
    if word == "older":
        return index.forget_older(int(rest[0]), **said)
    return index.line(line, **said)


def logged(index, since=0):
    """What the log of an index has, as the model says it."""
    return [(KINDS.get(each.kind, each.kind), each.note, each.who) for each in index.log(since=since)]


def drawn(writer, chance):
    """A line that changes an index, or tries to."""
    way = chance.random()
    if way < 0.06:
        return chance.choice(["forget", f"join {chance.randrange(2, 5)}", f"older {chance.randrange(30)}"])
    return chance.choice(["undo", "undo", "redo"]) if way < 0.35 else " ".join(writer.edit())


def plan(seed, ahead, many):
    """Random lines that follow on one another, carried out by a model."""
    chance = random.Random(seed)
    writer, lines = Writer(chance, ahead.model), []
    for _ in range(many):
        lines.append(drawn(writer, chance))
        ahead.do(lines[-1], len(lines) - 1)
    return lines


def check_kills(count, folder, kills=KILLS):
    """A writer is killed at random moments. What is opened then is as after the last step that it answered, or the next one; its log has
    each step once; and a follower that was open all the time sees the same. The next writer goes on from it."""
    path, chance, model = f"{folder}/killed.db", random.Random(7), Writing()
    Durable(path).close()
    in_flight, follower = 0, None
    for kill in range(kills):
        lines = plan(kill, model.copy(), 60)

        def write(start, lines=lines, kill=kill):
            with Durable(path, synchronous=("FULL", "NORMAL")[kill % 2]) as index:
                for number, line in enumerate(lines):
                    made(index, line, number)
                    os.write(start, b".")

        if follower is not None:
            follower.close()
        with child(write) as (pid, end):
            follower = Durable(path, read_only=True)
            select.select([end], [], [], 10)
            time.sleep(chance.random() * 0.02)
            os.kill(pid, signal.SIGKILL)
            done = len(rest_of(end))
        many = len(model.log)
        for number, line in enumerate(lines[:done]):
            model.do(line, number)
        after = model.copy()
        if done < len(lines):
            after.do(lines[done], done)
        with Durable(path) as index:
            found = shown(index), logged(index, many + 1)
        before, later = ((each.shown(), each.log[many:]) for each in (model, after))
        count.expect(f"kill {kill} after {done} lines", found in (before, later), True)
        outcome_of(follower.refresh)
        count.expect(f"the follower of kill {kill}", (shown(follower), logged(follower, many + 1)), found)
        if found != before:
            model, in_flight = after, in_flight + 1
    count.expect("that kills came between steps", in_flight < kills, True)
    with Durable(path, read_only=True) as index:
        count.expect("the whole log after the kills", logged(index), model.log)
        check_moments(count, index, model, chance)
    follower.close()
    return in_flight


def check_moments(count, index, model, chance):
    """The index of random moments is as the model was then, and each step changed what lies between."""
    steps = index.log()
    for _ in range(MOMENTS):
        number = chance.randrange(len(model.dumps))
        moment = number
        if number and chance.random() < 0.5:
            moment = steps[number - 1].time
            number = max(each.id for each in steps if each.time == moment)
        with index.as_of(moment) as then:
            count.expect(f"the index of {moment}", then.dump(), model.dumps[number])
            if number:
                with index.as_of(number - 1) as before:
                    count.expect(f"what step {number} changed", index.entries(number), before.difference(then))


def check_follower(count, folder):
    """A follower beside a writer in another process sees its states in their order, and the last of them."""
    path, states, model = f"{folder}/followed.db", [], Writing()
    Durable(path).close()
    lines = []
    chance = random.Random(11)
    writer = Writer(chance, model.model)
    states.append((model.shown()[0], 0))
    for number in range(FOLLOWED):
        lines.append(drawn(writer, chance))
        model.do(lines[-1], number)
        states.append((model.shown()[0], model.model.cursor))

    def write(start):
        with Durable(path, synchronous="NORMAL") as index:
            for number, line in enumerate(lines):
                made(index, line, number)
                os.write(start, b".")

    with child(write) as (_, end), Durable(path, read_only=True) as follower:
        at, seen, done, is_open = 0, 0, 0, True
        while is_open:
            while is_open and select.select([end], [], [], 0)[0]:
                piece = os.read(end, 65536)
                done, is_open = done + len(piece), bool(piece)
            seen += follower.refresh()
            found = follower.dump(), follower.done_count()
            later = next((place for place in range(at, len(states)) if states[place] == found), None)
            if later is None or later < done - 1 and found not in states[done - 1 :]:
                count.expect(f"a state after step {at}, of {done}", found, "one of the writer's")
                break
            at = later
            count.passed += 1
        count.expect("the steps that were done", done, FOLLOWED)
        count.expect("the last state", (shown(follower), logged(follower)), (model.shown(), model.log))
        count.expect("nothing new", follower.refresh(), False)
        steps = [follower.undo, follower.redo, follower.forget, follower.clear, lambda: follower.add(FIRST, 1), lambda: follower.join(2)]
        count.expect("edits of a follower", [outcome_of(step) for step in steps] + [outcome_of(follower.line, "add 1 1")], ["NotKept"] * 7)
        count.expect("questions of a follower", (follower.line("dump"), outcome_of(follower.forget_older, 0)), (follower.dump(), "NotKept"))
    return seen


# How one step of each transaction goes: a row of a caller's table, and what the index has.
def check_transactions(count, folder, kills=KEPT):
    """A writer with a table of its own is killed: the row of a step is there exactly if the step is."""
    path, chance = f"{folder}/lent.db", random.Random(13)
    with Durable(path) as index, index.transaction() as connection:
        connection.execute("CREATE TABLE mine (label INTEGER)")

    def write(start):
        with Durable(path, synchronous="NORMAL") as index:
            for label in range(index.done_count(), index.done_count() + 300):
                with index.transaction(note=str(label)) as connection:
                    connection.execute("INSERT INTO mine VALUES (?)", (label,))
                    index.add(FIRST, label)
                    index.add(FIRST, label)
                os.write(start, b".")

    many = 0
    for kill in range(kills):
        with child(write) as (pid, end):
            select.select([end], [], [], 10)
            time.sleep(chance.random() * 0.02)
            os.kill(pid, signal.SIGKILL)
            done = many + len(rest_of(end))
        with Durable(path) as index, index.transaction() as connection:
            rows = [label for (label,) in connection.execute("SELECT label FROM mine")]
            labels = [each.label for each in index.held_labels()]
            count.expect(f"rows after kill {kill}", (rows, [index.count(FIRST, label) for label in labels]), (labels, [2] * len(labels)))
            count.expect(f"steps after kill {kill}", len(rows) in (done, done + 1), True)
        many = len(rows)
