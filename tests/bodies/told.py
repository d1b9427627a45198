"""What the prover tells of wrong bodies: which of their functions have a goal that fails, and which goals these are."""
import re

from bodies.edits import declarations, text_of

# What it says of each goal that its search leaves.
OPEN_GOAL = re.compile(r"^note: (src/\S+?):(\d+):\d+: .*?(?:not proved|no proof).*?\(`([^`]+)`\)", re.M)
# What it says of a search in an answer that fails, and how an answer begins that is only a search.
NO_PROOF = re.compile(r"no proof of|found no proof|does not follow")
ONLY_SEARCH = re.compile(r"^\S+ c =\s+(?:search|grind|omega|cc)\b", re.M)
# The last word of each path in a type.
LAST_WORDS = re.compile(r"\w+(?!\w*::)")


class Told:
    """What a check of some bodies told: which functions have a goal of their own that fails, the goals that the search left, and the answers
    that don't fit."""

    def __init__(self, bodies, texts, said):
        self.bodies, self.texts, self.said = bodies, texts, said
        self.functions = dict(re.findall(r"^fn (\S+): (.*)$", said, re.M))

    def paths(self, function):
        return [path for path in self.functions if path.endswith(f"::{function}")]

    def folders(self, body):
        """The folders of the proof files of a body's functions, as patterns."""
        return [folder_of(path) for function in body.functions for path in self.paths(function)]

    def failing(self):
        """The functions with a goal of their own that fails; the others are proved, or wait for one that they call."""
        return {path for path, told in self.functions.items() if re.match("not proved|no proof: expected", told)}

    def open_goals(self, path):
        """The goals of a function that the search did not prove: the prover's own, and those whose whole answer is a search."""
        named = re.search(r"`search` did not prove (.*?)(; it calls|$)", self.functions[path])
        goals = set(re.findall("`([^`]+)`", named[1]) if named else [])
        goals |= {goal for source, at, goal in OPEN_GOAL.findall(self.said) if path in self.paths_at(source, int(at))}
        answers = [self.declared_at(source, at) for source, at, words in self.errors(folder_of(path)) if NO_PROOF.search(words)]
        return goals | {goal for goal, answer in answers if ONLY_SEARCH.search(answer)}

    def misfits(self, path):
        """The errors in a function's proof files. If there are none and one body has the check to itself, the errors in all, as in lemmas."""
        return self.errors(folder_of(path)) or (self.errors(r"proofs/(?:\S+/)?") if len(self.bodies) == 1 else [])

    def unfit_goals(self, path):
        """The goals of a function whose answers don't fit."""
        answers = [self.declared_at(source, at) for source, at, _ in self.errors(folder_of(path)) if source.endswith("/Answers.antt")]
        return {name for name, answer in answers if name and f" : goal.{name}" in answer}

    def errors(self, folder):
        """The errors in the proof files of a folder: of each the file, the line and the words."""
        found = re.findall(rf"^\./({folder}[^/\n]+):(\d+):\d+: error: (.*(?:\n  .*)*)", self.said, re.M)
        return [(source, int(at), " ".join(words.split())) for source, at, words in found]

    def declared_at(self, source, at):
        """The name of the declaration in which a line of a proof file stands, or None, and the text of the declaration."""
        for name, part in declarations(self.text_of(source)):
            at -= part.count("\n") + 2
            if at <= 0:
                return name, part
        return None, ""

    def text_of(self, source):
        return text_of(self.bodies[0].crate, source, self.texts)

    def tells_of(self, body):
        """Whether the check tells if a goal of a body's own functions fails. It doesn't if one of them waits for another function, or if a
        function fails that no body names."""
        paths = [self.paths(function) for function in body.functions]
        named = {path for other in self.bodies for function in other.functions for path in self.paths(function)}
        if self.failing() - named or any(len(found) != 1 for found in paths):
            return False
        failing = [path for path, in paths if path in self.failing()]
        return any(self.open_goals(path) or self.misfits(path) for path in failing) or all(self.functions[path] == "proved" for path, in paths)

    def paths_at(self, source, at):
        """The functions that a line of a file may stand in: those of its name, and of its impl or trait alone where one of them has its name."""
        name, head = function_at(self.text_of(source), at)
        paths = [path for path in self.functions if is_in_file(path, source) and path.split("::")[-1] == name]
        return [path for path in paths if (re.findall(r"::([A-Z]\w*)::\w+$", path) or [""])[0] in owners(head)] or paths


def folder_of(path):
    """The folder of a function's proof files, as a pattern."""
    return re.escape(f"proofs/{'/'.join(path.split('::')[1:])}/")


def is_in_file(path, source):
    """Whether the function of a path may stand in a file: crate::edits::add::plan in src/edits/add.rt, crate::cost::Cost::none in src/cost.rt."""
    modules = re.sub(r"(^|/)(lib|main|mod)$", "", source.removeprefix("src/").removesuffix(".rt")).split("/")
    # (behind the modules come the type or trait of a method, and the name of the function)
    return [word for word in path.split("::")[1:-1] if re.fullmatch("[a-z][a-z0-9_]*", word)] == [word for word in modules if word]


def function_at(text, at):
    """The name of the function in which a line of a file stands, and the head of its impl or trait. A function begins with its docs and attributes:
    the prover names it by the line of the first one."""
    lines = text.split("\n")
    while at < len(lines) and re.match(r"\s*(#\[|//|$)", lines[at - 1]):
        at += 1
    above = lines[:at]
    while above and not re.search(r"\bfn \w+", above[-1]):
        above.pop()
    if not above:
        return None, ""
    # (what stands at the left has none)
    heads = [line for line in above if re.match(r"(pub(\(\w+\))? )?(unsafe )?(impl|trait)\b", line)] if above[-1].startswith(" ") else []
    return re.search(r"\bfn (\w+)", above[-1])[1], heads[-1] if heads else ""


def owners(head):
    """What paths may call an impl or a trait with this head: 'impl FaceList {' is FaceList, 'impl Clone for FaceList {' FaceListClone, and
    'impl From<OutOfMemory> for UndoError {' UndoErrorFromOutOfMemory."""
    named = re.sub(r"^.*?\b(impl(<([^<>]|<[^<>]*>)*>)?|trait)|'\w+|[:{] .*| \{$", "", head)
    trait, _, kind = named.rpartition(" for ")
    kind, *_ = LAST_WORDS.findall(kind) or [""]
    words = LAST_WORDS.findall(trait)
    return {kind + "".join(words[:count]) for count in range(min(1, len(words)), len(words) + 1)}
