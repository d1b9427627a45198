"""Wrong bodies as they are written: crates/NAME/wrong-bodies/*.edit, and the files of a crate that they change."""
import dataclasses
import functools
import glob
import os
import re

import workspace

TOP = workspace.TOP
# What the prover says of the declarations that wait for one that it refused.
WAITING = re.compile(r"(?:was|were) not checked: (.*)")


@functools.cache
def files_of(crate):
    """The texts of a crate's files, by their paths within it, as they are when this is first asked: each check and each sum is of these."""
    found = {}
    for part in workspace.sources([crate]):
        for at, _, names in os.walk(f"{TOP}/{part}"):
            for name in names:
                with open(f"{at}/{name}", encoding="utf-8") as file:
                    found[os.path.relpath(f"{at}/{name}", f"{TOP}/crates/{crate}")] = file.read()
    return found


@dataclasses.dataclass(eq=False)
class Body:
    """A wrong body: its crate, its name, its file, the functions that it changes, the lines that say which clauses refuse it, its replacements of
    text, each with its file, whether it wants a check to itself, why its goal is false if only an answer by hand can tell, and all of the edit
    that a verdict rests on. Of each file of answers it has the names of those that the next check leaves out."""

    crate: str
    name: str
    path: str = ""
    functions: list = dataclasses.field(default_factory=list)
    clauses: list = dataclasses.field(default_factory=list)
    changes: list = dataclasses.field(default_factory=list)
    is_alone: bool = False
    by_hand: str = ""
    edit: str = ""
    left_out: dict = dataclasses.field(default_factory=dict)
    is_renamed: bool = False

    def applied(self, texts):
        """The texts of the crate's files with this body in them, or None if a text to replace doesn't occur exactly once."""
        texts = dict(texts)
        for source, old, new in self.changes:
            text = text_of(self.crate, source, texts)
            if text.count(old) != 1:
                return None
            texts[source] = text.replace(old, new)
        for answers, names in self.left_out.items():
            texts[answers] = without(text_of(self.crate, answers, texts), names)
        return texts

    def begin_anew(self):
        """Leaves no answer out, as before the first check."""
        self.left_out, self.is_renamed = {}, False

    def leaves_out(self, misfits, told):
        """Leaves out the answers that don't fit, and the declarations that wait for them. Returns whether any of these is new."""
        before = sum(map(len, self.left_out.values()))
        for source, at, words in misfits:
            if source.endswith("/Answers.antt"):
                waiting = WAITING.search(words)
                names = [told.declared_at(source, at)[0]] + [name.split(" ")[0] for name in (waiting[1].split(", ") if waiting else [])]
                self.left_out[source] = self.left_out.get(source, frozenset()).union(names)
                # (without its own answers another function would be tried for more than its own body)
                self.is_alone |= not any(re.match(folder, source) for folder in told.folders(self))
        return sum(map(len, self.left_out.values())) > before


def body_at(path):
    """The wrong body of an edit."""
    body = Body(path.split("/")[-3], os.path.basename(path).removesuffix(".edit"), path)
    with open(path, encoding="utf-8") as file:
        for word, _, text in (line.rstrip("\n").partition(": ") for line in file):
            if word == "function":
                body.functions.append(text)
            elif word == "clause":
                body.clauses.append(text)
            elif word == "alone":
                body.is_alone = True
            elif word == "by hand":
                body.by_hand = text
            elif word == "file":
                source = text
            elif word == "old":
                old = text
            elif word.startswith("new"):
                body.changes.append((source, old, text))
    body.edit = repr((body.functions, body.changes, body.is_alone))
    return body


def bodies_of(crate):
    """The wrong bodies of a crate, by name."""
    return [body_at(path) for path in sorted(glob.glob(f"{TOP}/crates/{crate}/wrong-bodies/*.edit"))]


def text_of(crate, path, texts):
    """The text of a crate's file: from `texts` if it is there, else from the repository."""
    return texts[path] if path in texts else files_of(crate)[path]


def declarations(text):
    """The parts of a proof file, each with the name that it declares, or None."""
    parts = re.split(r"\n\n(?=\S)", text)
    named = [re.search(r"^(?:pub |abbrev |unfoldable )*(?!--)(\S+) : ", part, re.M) for part in parts]
    return [(name[1] if name else None, part) for name, part in zip(named, parts)]


def without(text, names):
    """A proof file without the declarations of these names, or without any if one of the names is None."""
    return "" if None in names else "\n\n".join(part for name, part in declarations(text) if name not in names)
