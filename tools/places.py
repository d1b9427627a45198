"""Where the sources, the clients and the tests name something: the files, and in each the definitions, lemmas and functions whose lines do."""
import glob
import os
import re

import sources
import workspace

# What begins a definition or a lemma, a function or a type, a function of C or of C++, a function of Python.
BEGINS = {
    ".antt": re.compile(r"(?:(?:abbrev|unfoldable|pub|record|private) )*([^\s(:]+)"),
    ".rt": re.compile(r"\s*(?:pub(?:\([^)]*\))? |const |final |unsafe )*(?:fn|enum|struct|const|static|trait|macro_rules!) (\w+)"),
    ".c": re.compile(r"#define (\w+)| +([A-Z]\w+) = | {0,2}(?:[\w:<>*&]+ )*[*&]?(\w+)\("),
    "": re.compile(r"\s*(?:def |class )?(\w+)(?:\(| =|:)"),
}
# How the names of files end that begin their functions as others do.
LIKE = {".py": "", ".h": ".c", ".hpp": ".c", ".cpp": ".c"}
SILENT = re.compile(r"\s*(//|--|#(?!define)|use |ghost use |pub use |mod |pub mod |import |from |\"\"\")")


def begins(line, suffix):
    """The name of what begins at a line, if anything does."""
    if suffix == ".antt" and (not line.strip() or line[0] == " "):
        return None
    if suffix == ".c" and (line.rstrip().endswith(";") and " " not in line.split("(")[0].strip() or re.match(r"\s*(return|if|for|while|EXPECT)\b", line)):
        return None
    if not suffix and not re.match(r"\s*(def|class) |[A-Z_]+ =", line):
        return None
    found = BEGINS[suffix].match(line)
    return next(filter(None, found.groups()), None) if found else None


def names_in(path, word):
    """The names of what has a line with a word in it, in a file; '' stands for the file's top."""
    suffix, name, found = os.path.splitext(path)[1], "", {}
    suffix = LIKE.get(suffix, suffix)
    text = sources.read(path)
    if suffix == ".c":
        text = re.sub(r"/\*.*?\*/", "", text, flags=re.S)
    for line in text.split("\n"):
        if SILENT.match(line):
            continue
        name = begins(line, suffix) or name
        if re.search(word, line):
            found[name] = None
    return list(found)


def files_of(crate):
    paths = [path for part in workspace.PARTS for path in glob.glob(f"{workspace.TOP}/crates/{crate}/{part}/**/*.*", recursive=True)]
    return sorted(os.path.relpath(path, workspace.TOP) for path in paths if path.endswith((".rt", ".antt")))


def files_beside(folder):
    """The programs in a folder beside the crates: of Python, C and C++, and those without a suffix."""
    paths = [os.path.relpath(path, workspace.TOP) for path in sorted(glob.glob(f"{workspace.TOP}/{folder}/**", recursive=True))]
    return [path for path in paths if os.path.isfile(f"{workspace.TOP}/{path}") and re.search(r"\.(py|c|h|cpp|hpp)$|/[^.]+$", path)]


def shown_at(path, names):
    """A file with these names, from the crate's folder on; of the proof of one function only its folder."""
    inside = path.split("/", 2)[2] if path.startswith("crates/") else path
    if re.match(r"proofs/.*/(Answers|Invariants)\.antt$", inside):
        return f"`{os.path.dirname(inside)}`"
    told = [name for name in names if name]
    return f"`{inside}`" + (f" ({', '.join(f'`{name}`' for name in told)})" if told else "")


def places(word):
    """Pairs of a crate above ids, or a folder beside the crates, and what its files have: each file with the names of what has a line."""
    groups = {crate: files_of(crate) for crate in workspace.CRATES if crate.startswith("s2ix")}
    groups |= {folder: files_beside(folder) for folder in ("include", "clients", "tests", "tools")}
    for group, paths in groups.items():
        shown = [shown_at(path, names) for path in paths for names in [names_in(path, word)] if names]
        if shown:
            yield group, list(dict.fromkeys(shown))
