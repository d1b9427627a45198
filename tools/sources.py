"""What pages repeat of the sources: public items with their docs and clauses, definitions with their comments, wrong bodies.

The sources are laid out by rt fmt, so an item begins at its indentation and goes on until the next line there that is no bracket: nothing
here parses Rattle."""
import functools
import glob
import os
import re
from dataclasses import dataclass, field

import workspace

TOP = workspace.TOP
ITEM = re.compile(r"(?:pub(?:\([^)]*\))? )?(?:unsafe |final |const (?=fn)|extern \"C\" )*(fn|struct|enum|trait|const|static|type|impl|ghost|mod|use)\b(?: (?:use )?(\w+))?")


def read(path):
    with open(f"{TOP}/{path}", encoding="utf-8") as file:
        return file.read()


@dataclass
class Item:
    """A function, a type, a trait, a constant, or a member of one of these."""
    kind: str
    name: str
    path: str
    lines: list
    doc: str
    comment: str
    derives: list
    owner: str = ""
    trait: str = ""
    is_of_trait: bool = False
    members: list = field(default_factory=list)

    @property
    def crate(self):
        return self.path.split("/")[1]

    @property
    def is_public(self):
        return bool(re.match(r"\s*pub ", self.lines[0]))

    @functools.cached_property
    def head(self):
        """The lines in front of the clauses and the body."""
        found = []
        for line in self.lines:
            if re.match(r"\s*(requires|ensures)\b", line) or line.strip() in ("{", "{}"):
                break
            found.append(line)
            if re.search(r"[{;]$", line) and self.kind in ("fn", "struct", "enum", "trait", "impl"):
                break
        return found

    @property
    def signature(self):
        """The head on one line: `fn child(self, position: u8) -> Option<CellId>`."""
        text = " ".join(line.strip() for line in self.head)
        text = re.sub(r"\( | \)", lambda found: found[0].strip(), text).replace(",)", ")")
        return re.sub(r"^(pub |final )+|\s*[{;]$|\s*\{\}$", "", text).strip()

    @functools.cached_property
    def clauses(self):
        """The clauses of a function: the word, the name, or '', and the text of each."""
        found = []
        for line in self.lines[len(self.head):]:
            if line.strip() in ("{", "{}"):
                break
            if re.match(r"\s*(requires|ensures)\b", line):
                found.append(line.strip())
            elif found and not line.strip().startswith("//"):
                found[-1] += " " + line.strip()
        parts = [re.match(r"(\w+) ?(\w*) ?\{ ?(.*?) ?\};?$", text.strip()) for text in found]
        return [part.groups() for part in parts if part]


def prose(lines):
    """The paragraphs of a doc comment, without its code and its tables; a link is the name that it shows."""
    text = "\n".join(re.sub(r"^\s*//[/!] ?", "", line) for line in lines)
    text = re.sub(r"^```.*?^```$", "", text, flags=re.M | re.S)
    parts = [" ".join(part.split()) for part in text.split("\n\n") if not part.lstrip().startswith("|")]
    return re.sub(r"\[(`[^`]*`)\](\([^)]*\))?", r"\1", " ".join(part for part in parts if part))


def items_at(lines, indent, path):
    """The items that begin at an indentation, each with the comments above it."""
    docs, comments, derives, found, item = [], [], [], [], None
    for line in lines:
        is_here = line[:indent].strip() == "" and line[indent:indent + 1].strip() != ""
        text = line[indent:]
        if not is_here or (item and text[0] in "{})]"):
            if item:
                item.lines.append(line)
            elif not line.strip():
                comments = []
            continue
        item = None
        if text.startswith("///"):
            docs.append(line)
        elif text.startswith("//"):
            comments.append(text.removeprefix("//").strip())
        elif text.startswith("#"):
            derives += re.findall(r"\w+", re.sub(r";.*", "", text)) if re.match(r"#\[derive", text) else []
        else:
            kind, name = (ITEM.match(text) or re.match(r"()(?:pub )?(\w*)", text)).groups()
            item = Item(kind, name or "", path, [line], prose(docs), " ".join(comments), derives)
            found.append(item)
            docs, comments, derives = [], [], []
    return found


def owner_of(head):
    """The type and the trait of an impl's head: 'impl Reader for Meter<'_, T>' is of Meter and Reader."""
    text = re.sub(r"^impl(<([^<>]|<[^<>]*>)*>)? ", "", head)
    trait, _, kind = text.rpartition(" for ")
    return re.search(r"(\w+)(?:<.*|[^\w<]*)$", kind)[1], trait


@functools.cache
def items_of(crate):
    """All items of a crate's sources, the members of impls and traits after their heads."""
    found = []
    for path in sorted(glob.glob(f"{TOP}/crates/{crate}/src/**/*.rt", recursive=True)):
        path = os.path.relpath(path, TOP)
        for item in items_at(read(path).split("\n"), 0, path):
            found.append(item)
            if item.kind in ("impl", "trait", "struct", "enum"):
                body = [line for line in item.lines[len(item.head):] if line != "}"]
                item.members = items_at(body, 4, path)
            if item.kind in ("impl", "trait"):
                item.owner, item.trait = owner_of(item.signature) if item.kind == "impl" else (item.name, "")
                for member in item.members:
                    member.owner, member.trait, member.is_of_trait = item.owner, item.trait, item.kind == "trait"
                found += item.members
    return found


def given_out(crate):
    """What a crate's lib.rt gives out: pairs of the crate or module that has it, and the name."""
    found = []
    for source, names in re.findall(r"^pub use (\w+)(?:::\w+)*::(\{[^}]*\}|\w+);", read(f"crates/{crate}/src/lib.rt"), re.M):
        found += [(source, name) for name in re.findall(r"\w+", names)]
    return found


def item_named(crate, name):
    """The public item of a name in a crate, or in the room whose it is."""
    own = [item for item in items_of(crate) if item.name == name and item.is_public and not item.owner.removeprefix(name) and item.kind != "mod"]
    if own:
        return own[0]
    rooms = [source for source, given in given_out(crate) if given == name and source in workspace.CRATES]
    return item_named(rooms[0], name) if rooms else None


@dataclass
class Definition:
    name: str
    type: str
    sentence: str
    path: str


def law_sentence(path, name):
    """The doc of the law that says a definition: that of its name, or else the one with a clause on it alone."""
    laws = [item for item in items_of(path.split("/")[1]) if item.kind == "fn" and item.path.endswith("/laws.rt")]
    own = re.sub(r"(?<=[a-z])(?=[A-Z])", "_", name).lower()
    found = [law for law in laws if law.name == own] or [law for law in laws if name in [text for _, _, text in law.clauses]]
    return found[0].doc if found else ""


def shared_sentence(path, name, kind, before):
    """The sentence of a definition without a comment of its own: that of a law, or of the definition before it if it is of the same type or
    begins with the same name."""
    said = law_sentence(path, name)
    if said or not before:
        return said
    is_like = kind == before.type or len(os.path.commonprefix([name, before.name])) > 2
    return before.sentence if is_like else ""


@functools.cache
def definitions_of(path):
    """What a file of specs/ is about, and its definitions, each with the comment above it, or the title above it."""
    about, comment, found, is_open = "", [], [], False
    for line in read(path).split("\n"):
        defined = re.match(r"(?:(?:abbrev|unfoldable) pub|pub record) (\S+)(.*)", line)
        if line.startswith("-- ----"):
            comment, is_open = [line.removeprefix("-- ----").strip()], False
        elif line.startswith("-- "):
            comment, is_open = [*(comment if is_open else []), line[3:]], True
        elif defined:
            name, kind = defined.groups()
            said = " ".join(comment) or shared_sentence(path, name, kind, found[-1] if found else None)
            found.append(Definition(name, kind, said, path))
            comment, is_open = [], False
        elif is_open and not found and not about:
            about, comment, is_open = " ".join(comment), [], False
        else:
            is_open = False
    return about, found


@functools.cache
def spec_files(crate):
    paths = sorted(glob.glob(f"{TOP}/crates/{crate}/specs/**/*.antt", recursive=True))
    return [path for path in (os.path.relpath(path, TOP) for path in paths) if not path.endswith("/Lib.antt")]


@functools.cache
def imports_of(path):
    """The names of definitions that a source file imports: each with the crate, the file and the name there."""
    found = {}
    for crate, file, names in re.findall(r"ghost use Rattle\.(\w+)\.specs\.(\w+)\.\{([^}]*)\}", read(path)):
        for name in names.split(","):
            name, _, alias = name.strip().partition(" as ")
            found[alias or name] = (crate, file, name)
    return found


def definition_of(path, word):
    """The definition that a word of a source file's clauses is, if it is one of this repository."""
    crate, file, name = imports_of(path).get(word, (None, None, None))
    if crate not in workspace.CRATES:
        return None
    here = f"crates/{crate}/specs/{file}.antt"
    files = [here] if os.path.exists(f"{TOP}/{here}") else []
    candidates = [found for spec in [*files, *spec_files(crate)] for found in definitions_of(spec)[1] if found.name == name]
    return candidates[0] if candidates else None


@dataclass
class WrongBody:
    name: str
    crate: str
    functions: list
    changes: list


@functools.cache
def wrong_bodies():
    """The wrong bodies of all crates, those of must-fail too: the functions that each names, and what it replaces in which files."""
    found = []
    for path in sorted(glob.glob(f"{TOP}/crates/*/wrong-bodies/*.edit") + glob.glob(f"{TOP}/crates/*/must-fail/*.edit")):
        with open(path, encoding="utf-8") as file:
            parts = [line.rstrip("\n").partition(": ") for line in file]
        body = WrongBody(os.path.basename(path).removesuffix(".edit"), path.split("/")[-3], [], [])
        for word, _, text in parts:
            if word == "function":
                body.functions.append(text)
            elif word == "file":
                source = text
            elif word == "old":
                body.changes.append((source, text))
        found.append(body)
    return found
