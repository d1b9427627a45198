"""What pages repeat of the sources, made from them.

Of README its session, by the plain model, and its ratios, from PERFORMANCE; of ADDING where the sources name its examples; of ARCHITECTURE
the crates; of CALLS all after its introduction, from the public items of the eight doors and their rooms; of DEFINITIONS the index, from
the comments above the definitions; of FORMATS the instructions, the examples and when each refusal comes; of FROM_S2 the names that docs
give; of PROMISES the column of wrong bodies; of CONTRACTS all after its introduction, from the clauses, the laws and the wrong bodies. Each
page is made of the page that is there, since a part of it is written by hand."""
import fnmatch
import functools
import os
import re
import textwrap

import places
import sessions
import sources
import workspace

HOUSES = ("s2id_core", "s2id_cube", "s2id_union", "s2ix_bag", "s2ix_table", "s2ix_edit", "s2ix_text", "s2ix_cli")
# Public modules of doors whose items are called by the module's name.
MODULES = {"s2id_cube": ("curve",)}
QUIET_TRAITS = ("Drop", "Model")
# After these lines all of a page is made.
CALLS_MADE = "*All below this line is made by `tools/make_pages` from the sources of the doors and their rooms.*"
INDEX_MADE = "*All below this line is made by `tools/make_pages` from the comments above the definitions in `crates/*/specs`.*"
CONTRACTS_MADE = "*All below this line is made by `tools/make_pages` from the contracts, the docs of laws, and the wrong bodies of all crates.*"
# The words by which the sources name the examples of docs/ADDING.md.
EXAMPLES = {
    "an edit": r"\bGrow\b|\bgrow_named\b|grow_adds_a_copy_each|[\"']grow\b|\bgrow [A-Z0-9]|\bs2ix_grow\b|def grow\b|size_t grow\(",
    "a refusal": r"\bTooFine\b|\basks_too_fine\b|\bS2IX_TOO_FINE\b",
    "a query": r"^(?:\w+ )*region_of :|\bfn region(?:_of)?\b|\bRegion\b(?! *[.])|[\"']region[ \"']|\bregion [A-Z0-9]|c\.region_of|\bs2ix_region\b|def region\b| region\(std",
    "a refused query": r"\bNotLeaf\b|\bnot_leaf_name\b|\bat_(step|stays|prints)\b|\brun_at\b",
    "a step": r"\b(Forget|after_forget)\b|[\"']forget\b|fn forget|\bs2ix_forget\w*|def forget\w*| forget\w*\(std",
}
# How many wrong bodies a row of docs/PROMISES.md names; of more it has the number.
MOST_NAMED = 8
# What README tells of speed, and how the row of docs/reference/PERFORMANCE.md begins that has the figures.
SPEEDS = {
    "which pairs lie over a point": "point, chain_at,",
    "the same for a million points in one call": "unsorted, ns a point,",
    "which pairs meet a region of 8 cells": "8 cells, visit,",
    "which pairs meet a region of 500 cells": "500 cells, visit,",
    "to build the index": "adds and build,",
    "to load it from its text": "load of a dump,",
    "one edit, and a query after it": "edit with a query,",
    "bytes a pair": "bytes a pair",
}


def wrapped(text, first="", more=""):
    """Lines of at most 140 characters, of which none but the first begins as an item of a list does."""
    text = re.sub(r" (?=(?:[-+*#>]|\d+[.)])(?: |$))", "\0", text)
    lines = textwrap.wrap(text, 140, initial_indent=first, subsequent_indent=more, break_long_words=False, break_on_hyphens=False)
    return [line.replace("\0", " ") for line in lines]


def quoted(names):
    return ", ".join(f"`{name}`" for name in names)


# ---- docs/reference/CALLS.md


def words_of_condition(item, text):
    """What the definitions that a condition cites say, and the ghost members of the call's own trait."""
    ghosts = {member.name: member.comment for member in sources.items_of(item.crate) if member.kind == "ghost" and member.owner == item.owner}
    told = []
    for word in dict.fromkeys(re.findall(r"(?<![.\w])[A-Za-z_]\w*", text)):
        found = sources.definition_of(item.path, word)
        sentence = found.sentence if found else ghosts.get(word)
        if sentence:
            told.append(f"`{word}`: {re.sub('^[A-Z](?=[a-z]* )', lambda first: first[0].lower(), sentence)}")
    return "; ".join(told).rstrip(".")


def call_lines(item, name):
    """A call: its signature, its doc, its conditions and the names of its clauses."""
    lines = wrapped(f"`{item.signature.removeprefix('fn ').replace(item.name, name, 1)}`: {item.doc}", "- ", "  ")
    for word, clause, text in item.clauses:
        if word == "requires":
            words = words_of_condition(item, text)
            lines += wrapped(f"Condition{f' `{clause}`' if clause else ''}: `{text}`{f'. ({words}.)' if words else '.'}", "  - ", "    ")
    named = [clause for word, clause, _ in item.clauses if word == "ensures" and clause]
    return lines + (wrapped(f"Clauses: {quoted(named)}.", "  - ", "    ") if named else [])


def traits_of(item):
    """The traits of std and of this repository that a type has, by its derives and its impls."""
    found = [name for name in item.derives if name not in ("derive", "derive_where", *QUIET_TRAITS)]
    for impl in sources.items_of(item.crate):
        if impl.kind == "impl" and impl.owner == item.name and impl.trait and impl.trait not in QUIET_TRAITS:
            given = [member.signature.removeprefix("type ").rstrip(";") for member in impl.members if member.kind == "type" and member.name == "Item"]
            found.append(impl.trait + (f"<{given[0]}>" if given else ""))
    return list(dict.fromkeys(found))


def part_lines(item):
    """The public fields of a struct or the variants of an enum, with their docs; those of a variant's own fields come after its own."""
    for part in item.members:
        lines = [line.strip() for line in part.lines]
        shown = " ".join(line for line in lines if not line.startswith("//")).strip(" ,").removeprefix("pub ").replace(", }", " }")
        docs = filter(None, [part.doc, sources.prose([line for line in lines if line.startswith("///")])])
        if part.kind != "ghost" and "ghost " not in shown and (item.kind == "enum" or part.is_public):
            yield from wrapped(": ".join([f"`{shown}`", *[" ".join(docs)]]).rstrip(": "), "- ", "  ")


def type_lines(item, mark):
    """A type or a trait: its doc, its parts, its traits and its calls."""
    kind, _, name = item.signature.rstrip(";").partition(" ")
    lines = ["", f"{mark} `{name}`{' (a trait)' if kind == 'trait' else ''}", "", *wrapped(f"{item.doc} In `{item.path.removeprefix('crates/')}`."), ""]
    if item.kind in ("struct", "enum"):
        traits = traits_of(item)
        lines += [*part_lines(item), "", *(wrapped(f"Traits: {quoted(traits)}.") if traits else []), ""]
    if item.kind == "trait":
        seen = [f"`{member.name}` ({member.comment.rstrip('.')})" for member in item.members if member.kind == "ghost" and member.comment]
        lines += wrapped(f"Contracts speak of {', '.join(seen)}.", "- ", "  ") if seen else []
    for call in sources.items_of(item.crate):
        if call.owner == item.name and not call.trait and call.kind == "fn" and is_offered(call):
            lines += call_lines(call, call.name)
    for impl in sources.items_of(item.crate):
        if impl.kind == "impl" and impl.owner == item.name and impl.doc:
            lines += wrapped(f"`{impl.trait}`: {impl.doc}", "- ", "  ")
    return lines


def plain_lines(items):
    """Functions and constants that belong to no type."""
    lines = []
    for item, name in items:
        if item.kind == "fn":
            lines += call_lines(item, name)
        else:
            shown = re.sub(r" = (?!\w+;).*|;$", "", item.signature.replace(item.name, name, 1))
            lines += wrapped(f"`{shown}`: {item.doc}", "- ", "  ")
    return lines


def has_calls(item):
    """Whether a type has calls of its own to show."""
    return item.kind == "trait" or any(call.owner == item.name and call.kind == "fn" and call.is_public for call in sources.items_of(item.crate))


def group_lines(items, mark):
    """What one crate gives out: the types that have calls, the functions and constants, and then the other types."""
    plain = [(item, name) for item, name in items if item.kind in ("fn", "const", "static")]
    types = [item for item, _ in items if item.kind in ("struct", "enum", "trait", "type")]
    lines = [line for item in types if has_calls(item) for line in type_lines(item, mark)]
    lines += ["", f"{mark} Functions", "", *plain_lines(plain)] if plain else []
    return lines + [line for item in types if not has_calls(item) for line in type_lines(item, mark)]


def doc_lines(crate):
    """The doc of a crate, paragraph by paragraph."""
    lines = [line for line in sources.read(f"crates/{crate}/src/lib.rt").split("\n") if line.startswith("//!")]
    for part in "\n".join(lines).split("\n//!\n"):
        yield from [*wrapped(sources.prose(part.split("\n"))), ""]


def door_items(door):
    """What a door gives out, by the crate that has it, its own first: pairs of the item and its name."""
    found = {}
    for _, name in sources.given_out(door):
        item = sources.item_named(door, name)
        found.setdefault(item.crate, []).append((item, name))
    for module in MODULES.get(door, ()):
        inside = [item for item in sources.items_of(door) if item.path.endswith(f"/src/{module}.rt") and item.is_public and item.kind != "use"]
        found[door] += [(item, f"{module}::{item.name}") for item in inside]
    return {crate: found[crate] for crate in [door, *workspace.CRATES] if crate in found}


def door_lines(door, seen):
    """A door: its doc, and what it gives out that no door before it does."""
    lines = ["", f"## {door}", "", *doc_lines(door)]
    items = door_items(door)
    for crate in items:
        new = [(item, name) for item, name in items[crate] if (crate, name) not in seen]
        own = [] if crate == door or not new else ["", f"### Room {crate}", "", *doc_lines(crate)]
        lines += [*own, *group_lines(new, "###" if crate == door else "####")]
    again = [f"{name}` of `{seen[(crate, name)]}" for crate in items for _, name in items[crate] if (crate, name) in seen]
    seen.update({(crate, name): door for crate in items for _, name in items[crate] if (crate, name) not in seen})
    return [*lines, "", *(wrapped(f"This door gives out {quoted(again)} too.") if again else [])]


def rooms():
    """The crates of houses that are no doors."""
    return [crate for crate in workspace.CRATES if re.match(rf"({'|'.join(HOUSES)})_", crate) and not re.search("_(samples|tests)$", crate)]


def room_lines(seen):
    """What rooms have that no door gives out, for the crates above them."""
    for crate in rooms():
        names = [name for source, name in sources.given_out(crate) if source not in workspace.CRATES and (crate, name) not in seen]
        if names:
            yield from ["", f"### Room {crate}", *group_lines([(sources.item_named(crate, name), name) for name in names], "####")]


def contents_lines():
    """The doors, each with the first sentence of its doc."""
    for door in HOUSES:
        yield from wrapped(f"[{door}](#{door}): {re.match('.*?[.](?= |$)', ' '.join(doc_lines(door)))[0]}", "- ", "  ")


def calls_page(page):
    """docs/reference/CALLS.md: the introduction that is written by hand, the doors, and what is between the crates."""
    seen, lines = {}, [page.split(CALLS_MADE)[0].rstrip("\n"), "", CALLS_MADE, "", *contents_lines()]
    for door in HOUSES:
        lines += door_lines(door, seen)
    lines += ["", "## Between the crates", "", "Rooms offer these to the crates above them; no door gives them out.", *room_lines(seen)]
    return re.sub(r"\n{3,}", "\n\n", "\n".join(lines)).rstrip("\n") + "\n"


# ---- docs/reference/DEFINITIONS.md


def index_lines(crate):
    """The definitions of a crate, by file: what the file is about, and the names under each comment."""
    for path in sources.spec_files(crate):
        about, definitions = sources.definitions_of(path)
        by_sentence = {}
        for found in definitions:
            by_sentence.setdefault(found.sentence, []).append(found.name)
        if definitions:
            yield from ["", *wrapped(f"`{path.removeprefix('crates/')}`{': ' + about if about else ''}"), ""]
        for sentence, names in by_sentence.items():
            yield from wrapped(quoted(names) + (f": {sentence}" if sentence else ""), "- ", "  ")


def definitions_page(page):
    """docs/reference/DEFINITIONS.md: the index of definitions."""
    lines = [page.split(INDEX_MADE)[0].rstrip("\n"), "", INDEX_MADE]
    for crate in workspace.CRATES:
        made = [] if re.search("_(samples|tests)$", crate) else [*index_lines(crate)]
        lines += ["", f"### {crate}", *made] if made else []
    return "\n".join(lines) + "\n"


# ---- docs/FROM_S2.md


def name_lines():
    """S2's names and ours, as the docs of public items tell them: `id()` is `CellId::raw`."""
    yield from ["| S2 | Here | Crate |", "|---|---|---|"]
    for crate in [crate for crate in product_crates() if not re.match("s2ix_(text|cli|edit)", crate)]:
        for item in sources.items_of(crate):
            said = re.search(r"\(S2's ((?:[^()]|\([^()]*\))*)\)", item.doc)
            if said and item.kind in ("fn", "struct", "trait") and is_offered(item):
                owner = f"{item.owner}::" if item.kind == "fn" and item.owner else ""
                yield f"| {said[1]} | `{owner}{item.name}` | `{next(door for door in HOUSES if crate.startswith(door))}` |"


def from_s2_page(page):
    """docs/FROM_S2.md: S2's names and ours."""
    return with_made(page, "names", name_lines())


# ---- docs/PROMISES.md and docs/reference/CONTRACTS.md


@functools.cache
def functions_of(crate):
    """The functions of a crate, with its constants and the clauses of its impls, which wrong bodies change too."""
    return [item for item in sources.items_of(crate) if item.kind in ("fn", "const", "static") or (item.kind == "ghost" and item.trait)]


def path_ends(item):
    """The paths that a function has for the prover, of which the first one is its own: crate::meter::MeterReader::node is that of Reader in 'impl
    Reader for Meter'."""
    modules = re.sub(r"(^|/)(lib|main|mod)$", "", item.path.split("/src/")[1].removesuffix(".rt")).split("/")
    words = re.findall(r"\w+(?!\w*::)", item.trait)
    kind = item.owner[:1].upper() + item.owner[1:]
    owners = [kind + "".join(words[:count]) for count in range(len(words), min(1, len(words)) - 1, -1)]
    return ["::".join(["", *filter(None, [*modules, owner, item.name])]) for owner in owners]


def is_changed(item, change):
    """Whether what an edit replaces lies in a function."""
    source, old = change
    text, own = sources.read(f"crates/{item.crate}/{source}"), "\n".join(item.lines)
    return item.path.endswith(f"/{source}") and text.find(own) <= text.find(old) < text.find(own) + len(own)


@functools.cache
def bodies_by_function():
    """The names of the wrong bodies that change each function."""
    found = {}
    for body in sources.wrong_bodies():
        for item in functions_of(body.crate):
            named = any(end.endswith(f"::{function}") for function in body.functions for end in path_ends(item))
            if named or (not body.functions and any(is_changed(item, change) for change in body.changes)):
                found.setdefault(id(item), []).append(body.name)
    return found


@functools.cache
def used_by(crate):
    """What each function of a crate uses, by names: pairs of the owner, '' for none, '*' for any, and the name."""
    fields = {(item.name, field.name): field.lines[0] for item in sources.items_of(crate) if item.kind == "struct" for field in item.members}
    found = {}
    for item in functions_of(crate):
        text = "\n".join(line for line in item.lines[1:] if not line.strip().startswith("//"))
        names = {(owner.replace("Self", item.owner), name) for owner, name in re.findall(r"(?<![.\w:])(?:(\w+)::)?(\w+)\b", text)}
        names -= {("", parameter) for parameter in re.findall(r"(\w+): ", " ".join(item.head))}
        names |= {("*", name) for name in re.findall(r"\.(\w+)\(", text)}
        for field, name in re.findall(r"\bself\.(\w+)\.(\w+)\(", text):
            names |= {(kind, name) for kind in re.findall(r"[A-Z]\w+", fields.get((item.owner, field), ""))}
        found[id(item)] = names
    return found


@functools.cache
def crates_under(crate):
    """A crate and those that it is built on."""
    return {*workspace.with_below([crate])}


def is_used(item, by):
    """Whether a function uses another, of its own crate or of one below: by its path, by a field of its own type, or as a private method of
    its crate."""
    if item.crate not in crates_under(by.crate):
        return False
    uses = used_by(by.crate)[id(by)]
    is_private_method = item.owner and not item.is_public and not item.trait and item.crate == by.crate
    return (item.owner, item.name) in uses or bool(is_private_method and ("*", item.name) in uses)


def trait_of(item):
    """The name of the trait that an item is of, or ''."""
    return item.trait.split("<")[0].split("::")[-1]


def is_named(item, owner, name):
    """Whether a path of a row names a function: `Store::edit`, `laws::cloned_.._are_the_same`, `changed_faces`."""
    is_law = item.path.endswith("/laws.rt")
    if not fnmatch.fnmatch(item.name, name.replace("..", "*")) or is_law != (owner == "laws"):
        return False
    return is_law or (owner in (item.owner, trait_of(item)) if owner else not item.owner)


@functools.cache
def product_crates():
    """The crates that a program may be built on: all but those of samples and of tests."""
    return [crate for crate in workspace.CRATES if not re.search("_(samples|tests)$", crate)]


@functools.cache
def product_functions():
    return [item for crate in product_crates() for item in functions_of(crate)]


def is_of_kind(item, kind):
    """Whether a function is one that a type or a trait has; a trait's are also those of its impls."""
    return kind in (item.owner, trait_of(item)) and item.kind != "ghost"


def readings_of(word, owner):
    """What a word of a row may be, the first reading that is anything: a crate or a type stands for all that it offers."""
    kind, _, name = word.rpartition("::")
    every = [item for item in product_functions() if item.kind != "ghost"]
    if word in workspace.CRATES:
        return [[item for item in functions_of(word) if is_offered(item)]]
    if kind in workspace.CRATES:
        return [[item for item in functions_of(kind) if is_offered(item) and is_named(item, "", name)]]
    if not kind and word[0].isupper() and not word.isupper():
        return [[item for item in product_functions() if is_of_kind(item, word)]]
    found = [[item for item in every if is_named(item, reading, name)] for reading in ([kind] if kind else [owner, ""])]
    found += [] if kind else [[item for item in every if item.name == name]]
    return [[item for item in items if is_offered(item)] for items in found] + found


def words_of(cells):
    """The calls that a row of the table names, each with the functions that it is: those of a trait of a type first. A name alone is of the
    type named last, or of no type, or else of any."""
    text, owner = re.sub(r"\([^)]*\)", "", cells[1]), ""
    for trait, kind in re.findall(r"`(\w+)` of `(\w+)`", text):
        yield f"{trait} of {kind}", [item for item in product_functions() if item.owner == kind and trait_of(item) == trait]
    for word in re.findall(r"`([\w:.]+)`", re.sub(r"`\w+` of `\w+`", "", text)):
        kind = word.rpartition("::")[0]
        yield word, next(filter(None, readings_of(word, owner)), [])
        owner = word if word[0].isupper() and not kind else owner if kind in ("", "laws") else kind


def calls_of(cells):
    """The functions that a row names."""
    return [item for _, found in words_of(cells) for item in found]


def calls_by_name(rows):
    """The functions that some row names one by one, and not as a part of a crate or of a type."""
    named = [(word, found) for cells in rows.values() for word, found in words_of(cells)]
    return {id(item) for word, found in named if "::" in word or " of " in word or word not in workspace.CRATES and word[0].islower() for item in found}


def unknown_in(cells):
    """What a row names as a call, a law or a clause, and is none."""
    known = {name for item in calls_of(cells) for _, name, _ in item.clauses}
    yield from (word for word, found in words_of(cells) if not found)
    yield from (name for part in re.findall(r"\(([^)]*)\)", cells[1]) for name in re.findall(r"`(\w+)`", part) if name not in known)


def reached(calls, among):
    """These functions, and those of some others that they use, by way of these others too."""
    found = {id(item): item for item in calls}
    left = list(calls)
    while left:
        by = left.pop()
        new = {id(item): item for item in among if id(item) not in found and is_used(item, by)}
        found.update(new)
        left += new.values()
    return found


def bodies_of(cells, named):
    """The wrong bodies of a row: those that change a call that it names, or what such a call uses and no row names."""
    crates = {item.crate for item in calls_of(cells)}
    every = [item for item in product_functions() if item.crate in crates]
    changed = reached(calls_of(cells), [item for item in every if id(item) not in named])
    found = [bodies_by_function().get(id(item), ()) for item in every if id(item) in changed]
    return list(dict.fromkeys(name for names in found for name in names))


def column_of(cells, named):
    """What the column of wrong bodies has in a row."""
    names = bodies_of(cells, named)
    return quoted(names) if len(names) <= MOST_NAMED else str(len(names))


def is_offered(item):
    """Whether a function is a call that its crate offers; a law is one."""
    return item.is_public or item.is_of_trait or bool(item.trait)


def shown_name(item):
    """A function by its type: `Store::edit`, of a trait's as `Reader::node` of `Meter`."""
    owner = "laws" if item.path.endswith("/laws.rt") else trait_of(item) or item.owner
    return f"`{owner + '::' if owner else ''}{item.name}`{f' of `{item.owner}`' if item.trait else ''}"


def is_listed(item):
    """Whether the list of a crate has a function though no wrong body changes it: one with a contract of its own."""
    return is_offered(item) and item.kind == "fn" and (item.clauses or not item.trait)


def contract_lines(crate):
    """The calls of a crate with their clauses, its laws with what they say, and the wrong bodies of each; with a private function the calls
    that come to it."""
    private = [item for item in functions_of(crate) if not is_offered(item)]
    ways = [(item, reached([item], private)) for item in functions_of(crate) if is_offered(item)]
    told = {}
    for item in functions_of(crate):
        names = bodies_by_function().get(id(item), ())
        if names or is_listed(item):
            clauses = quoted([name for word, name, _ in item.clauses if word == "ensures" and name]) if is_offered(item) else ""
            by = ", ".join(shown_name(call) for call, way in ways if id(item) in way and call is not item)
            said = f": {item.doc.rstrip('.')}" if item.path.endswith("/laws.rt") else ""
            head = shown_name(item) + (f" ({clauses})" if clauses else "") + (f", for {by}" if by else "") + said
            told.setdefault(head, {}).update(dict.fromkeys(names))
    for head, names in told.items():
        yield from wrapped(head + (f". Rejected: {quoted(names)}" if names else ""), "- ", "  ")


def rows_of(page):
    """The rows of the table of promises by the line that each is on: promise, calls, wrong bodies."""
    lines = enumerate(page.split("\n"))
    return {at: [cell.strip() for cell in line[1:-1].split("|")] for at, line in lines if re.match(r"\| (?!Promise)", line)}


def unnamed(page):
    """The calls and laws that no row of the table names."""
    named = {id(item) for cells in rows_of(page).values() for item in calls_of(cells)}
    return [item for item in product_functions() if item.kind == "fn" and is_offered(item) and not item.trait and id(item) not in named]


def promises_page(page):
    """docs/PROMISES.md: the table, with the wrong bodies of each row in their column."""
    lines, rows = page.split("\n"), rows_of(page)
    named = calls_by_name(rows)
    for at, cells in rows.items():
        lines[at] = f"| {' | '.join([*cells[:2], column_of(cells, named)])} |".replace("|  |", "| |")
    return "\n".join(lines)


def contracts_page(page):
    """docs/reference/CONTRACTS.md: the contracts by crate."""
    lines = [page.split(CONTRACTS_MADE)[0].rstrip("\n"), "", CONTRACTS_MADE]
    for crate in product_crates():
        made = [*contract_lines(crate)]
        lines += ["", f"### {crate}", "", *made] if made else []
    return "\n".join(lines) + "\n"


# ---- docs/ARCHITECTURE.md


def first_sentence(text):
    """The first sentence of a text; the two dots of `TOKEN..` end none."""
    return re.match(r".*?(?<!\.)\.(?= |$)|.*", text)[0]


def crate_doc(crate):
    """The first sentence of a crate's doc."""
    file = next(file for file in ("lib", "main") if os.path.exists(f"{workspace.TOP}/crates/{crate}/src/{file}.rt"))
    lines = sources.read(f"crates/{crate}/src/{file}.rt").split("\n")
    return first_sentence(sources.prose(line for line in lines if line.startswith("//!")))


def crate_lines(crates):
    """A line for each crate, with the first sentence of its doc; a room lies below its door."""
    for crate in crates:
        is_room = crate in product_crates() and any(crate.startswith(f"{door}_") for door in HOUSES)
        yield from wrapped(f"`{crate}`: {crate_doc(crate)}", "  - " if is_room else "- ", "    " if is_room else "  ")


def product_lines():
    """The houses, each with its door first, and then the program and the example."""
    houses = [crate for door in HOUSES for crate in [door, *[room for room in product_crates() if room.startswith(f"{door}_")]]]
    return crate_lines([*houses, *[crate for crate in product_crates() if crate not in houses]])


def with_made(page, name, lines):
    """A page with what is made of one name in it."""
    begin, end = f"<!-- {name}: made by tools/make_pages -->", "<!-- end -->"
    before, _, rest = page.partition(f"{begin}\n")
    return f"{before}{begin}\n" + "\n".join(lines).rstrip("\n") + f"\n{end}" + rest.partition(end)[2]


def map_page(page):
    """docs/ARCHITECTURE.md: the crates."""
    tests = [crate for crate in workspace.CRATES if crate not in product_crates()]
    page = with_made(page, "crates", product_lines())
    return with_made(page, "crates of tests", crate_lines(tests))


# ---- docs/ADDING.md


def place_lines(word):
    """Where the sources name something: a line for each crate."""
    for group, shown in places.places(word):
        yield from wrapped(f"`{group}`: {', '.join(shown)}", "- ", "  ")


def adding_page(page):
    """docs/ADDING.md: where the sources name each of its examples."""
    for name, word in EXAMPLES.items():
        page = with_made(page, name, place_lines(word))
    return page


# ---- README.md


def ratio_of(figure):
    """The ratio of ours to S2's in a figure of docs/reference/PERFORMANCE.md; one that is printed as 0.000 isn't 0."""
    ratio = re.match(r"\**([\d.]+)", figure.strip())[1]
    return ratio if float(ratio) else f"below {ratio[:-1]}1"


def speed_lines():
    """Ratios of ours to S2's, from the rows of docs/reference/PERFORMANCE.md that are named so."""
    lines = sources.read("docs/reference/PERFORMANCE.md").split("\n")
    yield from ["| | 1,000 pairs | 10,000 | 100,000 | 1,000,000 |", "|---|---|---|---|---|"]
    for told, begins in SPEEDS.items():
        rows = [line for line in lines if line.startswith(f"| {begins}")]
        if not rows:
            raise LookupError(f"docs/reference/PERFORMANCE.md has no row '{begins}' for README: look at SPEEDS in tools/made_pages.py")
        yield f"| {told} | {' | '.join(map(ratio_of, rows[0].split('|')[2:-1]))} |"


def readme_page(page):
    """README.md: its session, and what it tells of speed."""
    made = {"what is typed": sessions.typed(), "line by line": sessions.line_by_line(), "what is printed": sessions.printed(), "speed": speed_lines()}
    for name, lines in made.items():
        page = with_made(page, name, lines)
    return page


# ---- docs/FORMATS.md


def instruction_lines():
    """The instructions of a script, as the help of `run` lists them."""
    rows = re.findall(r'^            \w+ +"(\w+)" "(.*?)" "(.*?)",$', sources.read("crates/s2ix_cli_words/src/instructions.rt"), re.M)
    return ["```", *["".join(row) for row in rows], "```"]


def reason_lines(types, example):
    """A table of refusals: the variants of some enums, with what their docs say, and an example of each."""
    yield from ["| Name | When | Example |", "|---|---|---|"]
    enums = [item for name in types for crate in product_crates() for item in sources.items_of(crate) if item.kind == "enum" and item.name == name]
    for part in [part for item in enums for part in item.members if part.name != "OutOfMemory"]:
        yield f"| `{part.name}` | {part.doc.rstrip('.')} | {example(part.name)} |".replace("|  |", "| |")


def refusal_lines():
    """The refusals of lines, in the order in which they decide."""
    fields = [*reason_lines(("LineFault",), sessions.refused_by)]
    steps = [*reason_lines(("EditError", "UndoError", "RedoError"), sessions.refused_by)][2:]
    return [*fields, f"| `NotLeaf` | At `at`, the cell is not a leaf | {sessions.refused_by('NotLeaf')} |", *steps]


def formats_page(page):
    """docs/FORMATS.md: the instructions, the answers of examples, and when each refusal comes."""
    paired, dumped = ["add 1 7", "add 04 9"], ["add 1 7", "add 04 9 2"]
    made = {"instructions": instruction_lines(), **{name: sessions.session(name) for name in sessions.SESSIONS},
            "ranges": sessions.answer_to("ranges", paired), "refusals": refusal_lines(), "a dump": sessions.answer_to("dump", dumped),
            "faults of dumps": reason_lines(("DumpFault",), sessions.dump_fault), "a journal": sessions.answer_to("journal", sessions.CHANGES),
            "faults of journals": reason_lines(("JournalFault",), sessions.journal_fault), "an export": sessions.answer_to("export", dumped),
            "commands": sessions.commands()}
    for name, lines in made.items():
        page = with_made(page, name, lines)
    return page


# ---- all of them

PAGES = {
    "README.md": readme_page, "docs/ADDING.md": adding_page, "docs/ARCHITECTURE.md": map_page, "docs/FORMATS.md": formats_page, "docs/FROM_S2.md": from_s2_page,
    "docs/PROMISES.md": promises_page, "docs/reference/CALLS.md": calls_page, "docs/reference/CONTRACTS.md": contracts_page,
    "docs/reference/DEFINITIONS.md": definitions_page,
}


def stale():
    """The pages that are not as this makes them, with what it makes of each."""
    for path, made in PAGES.items():
        page = sources.read(path)
        if made(page) != page:
            yield path, made(page)
