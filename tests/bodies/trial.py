"""Tries wrong bodies: the checks of a crate with some of them in it, and the verdict on each."""
import dataclasses
import os
import re
import subprocess
import tempfile

import kept
import workspace
from bodies.edits import Body, files_of
from bodies.told import Told

# What the prover says of a goal that an answer names and that an edit took away.
GONE = re.compile(r"\.Goals` has no `")
# The goals of single steps, as that a sum fits its type. A body with other steps has others, which may be true and want an answer.
OF_STEP = re.compile(r"(overflow|nonzero|bounds|slice_bounds|offset_bounds)[_-]")


def words_of(crate, libraries, is_short):
    """The words of a check of a crate, but for the functions, over the libraries of a workspace. In a short one each search has half of its counts."""
    words = [f"{kept.kit()}/bin/rattle", "check", "--crate-name", crate, "src/lib.rt", "--jobs", "1"] + ["--margin"] * is_short
    return words + workspace.words_over(workspace.CRATES[crate], libraries)


class Crate:
    """The checks of one crate, over the libraries of a workspace and what the checks before left in a folder, and how many they were; whether they
    are short; and whether the function as it stands is tried too."""

    def __init__(self, name, libraries, before, is_short, compares):
        self.name, self.libraries, self.before, self.is_short, self.compares, self.checks = name, libraries, before, is_short, compares, 0

    def check(self, bodies):
        """What the prover tells of the crate with these wrong bodies in it."""
        self.checks += 1
        texts = {}
        for body in bodies:
            texts = body.applied(texts)
        with tempfile.TemporaryDirectory(prefix="wrong-bodies-") as room:
            for path, text in {**files_of(self.name), **texts}.items():
                os.makedirs(os.path.dirname(f"{room}/{path}"), exist_ok=True)
                with open(f"{room}/{path}", "w", encoding="utf-8") as file:
                    file.write(text)
            words = [*words_of(self.name, self.libraries, self.is_short), "--incremental", self.before]
            words += [word for body in bodies for function in body.functions for word in ("--only", function)]
            ran = subprocess.run(words, cwd=room, stdin=subprocess.DEVNULL, stdout=subprocess.PIPE, stderr=subprocess.STDOUT, text=True)
        return Told(bodies, texts, ran.stdout)

    def told_of(self, bodies):
        """Each of these bodies, with what a check told. That check tells of the body, or tries it alone."""
        left, groups = list(bodies), []
        while left:
            groups.append(choose(left))
            left = [body for body in left if body not in groups[-1]]
        while groups:
            chosen = groups.pop(0)
            told = self.check(chosen)
            untold = [body for body in chosen if len(chosen) > 1 and not told.tells_of(body)]
            if len(untold) < len(chosen):
                groups += [untold] * bool(untold)
                yield from ((body, told) for body in chosen if body not in untold)
            else:
                groups += [chosen[: len(chosen) // 2], chosen[len(chosen) // 2 :]]


def is_same(one, other):
    """Whether two names may be those of one function, which a body names with its type or module or without."""
    return one == other or one.endswith(f"::{other}") or other.endswith(f"::{one}")


def choose(bodies):
    """Those of the bodies that one check can try: no two of one function, nor of one place."""
    chosen, functions, texts = [], set(), {}
    if bodies[0].is_alone:
        return bodies[:1]
    for body in bodies:
        applied = None if body.is_alone else body.applied(texts)
        if applied is not None and not any(is_same(one, other) for one in functions for other in body.functions):
            chosen, functions, texts = [*chosen, body], functions | {*body.functions}, applied
    return chosen


@dataclasses.dataclass
class Verdict:
    """Whether a body is refused, and why; whether only an answer by hand could tell; the goals that fail while their answers are left out; and
    the goals that refuse it, each with its function, or those of which only an answer by hand could tell."""

    is_refused: bool
    words: str
    is_by_hand: bool = False
    doubted: frozenset = frozenset()
    goals: frozenset = frozenset()


def listed(names):
    return ", ".join(f"`{name}`" for name in sorted(names))


def counted(goals):
    """Of some goals, each with its function, the names of those that are of no single step."""
    return frozenset(goal for _, goal in goals if not OF_STEP.match(goal))


def judge(body, told):
    """The verdict on a body by a check that tried it, or None if answers that don't fit are now left out for another check."""
    paths = [(function, told.paths(function)) for function in body.functions]
    if not paths or any(len(found) != 1 for _, found in paths):
        return Verdict(False, f"no function, or more than one, is called {body.functions}; the check said: {told.said[-300:].strip()}")
    failing = [(function, path) for function, (path,) in paths if path in told.failing()]
    goals = frozenset((function, goal) for function, path in failing for goal in told.open_goals(path))
    misfits = [misfit for _, path in failing for misfit in told.misfits(path)]
    # (if the goal of an answer is gone, it may be one that fails, by another name)
    body.is_renamed |= any(GONE.search(words) for _, _, words in misfits)
    if counted(goals) and not body.left_out and not body.is_renamed:
        false = frozenset(it for it in goals if counted([it]))
        return Verdict(True, f"`search` did not prove {listed(counted(goals))}", goals=false)
    if body.leaves_out(misfits, told):
        return None
    if misfits:
        source, at, words = misfits[0]
        goals |= {(function, goal) for function, path in failing for goal in told.unfit_goals(path)}
        return Verdict(True, f"./{source}:{at}: {words}", is_by_hand=True, goals=goals)
    if goals:
        words = f"neither its answer nor `search` proves {listed(goal for _, goal in goals)}"
        return Verdict(True, words, is_by_hand=True, doubted=counted(goals), goals=goals)
    if all(told.functions[path] == "proved" for _, (path,) in paths):
        answers = {str(name) for names in body.left_out.values() for name in names}
        return Verdict(False, "the prover does not refuse it" + f" once it leaves out the answers {listed(answers)}" * bool(answers))
    return Verdict(False, "no goal of its own function fails")


def settle(crate, verdicts):
    """Settles the goals that are doubted: one is false if the search proves it of the function as it stands, with the same answers left out."""
    doubted = {body: verdict for body, verdict in verdicts.items() if verdict.doubted and not body.by_hand}
    plain = {}
    for body in doubted:
        functions = tuple(body.functions)
        left_out = plain.setdefault(functions, Body(crate.name, "as it stands", functions=list(functions))).left_out
        for answers, names in body.left_out.items():
            left_out[answers] = left_out.get(answers, frozenset()) | names
    left = {}
    for body, told in crate.told_of(plain.values()):
        if told.tells_of(body):
            left[tuple(body.functions)] = {goal for function in body.functions for path in told.paths(function) for goal in told.open_goals(path)}
    for body, verdict in doubted.items():
        # (by another name it may be a goal that the search doesn't prove of the function as it stands)
        false = verdict.doubted - left.get(tuple(body.functions), verdict.doubted)
        if false and not body.is_renamed:
            goals = frozenset((function, goal) for function, goal in verdict.goals if goal in false)
            verdicts[body] = Verdict(True, f"`search` did not prove {listed(false)}", goals=goals)


def try_all(crate, bodies):
    """The verdict on each of a crate's wrong bodies."""
    verdicts = {body: Verdict(False, "it cannot be applied") for body in bodies if body.applied({}) is None}
    left = [body for body in bodies if body not in verdicts]
    while left:
        told = {body: judge(body, told) for body, told in crate.told_of(left)}
        verdicts |= {body: verdict for body, verdict in told.items() if verdict}
        left = [body for body, verdict in told.items() if not verdict]
    if crate.compares:
        settle(crate, verdicts)
    return verdicts
