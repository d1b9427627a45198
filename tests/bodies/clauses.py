"""Which clause refuses a wrong body: what the names of the prover's goals say, and the lines `clause: NAME` of an edit, which record it.

A goal is named for what it proves. Here it goes by the clause's name; an `ensures` without one is `ensures`. What a function proves on its way has a
clause too: `invariant NAME` of a type's ghost fields, `requires NAME of FUNCTION` of a call, `loop NAME` of a loop's invariant or end. A body
that changes several functions says of which: `clause: NAME of FUNCTION`.

If the prover gives up before it splits a contract, it names the whole of it. So `ensures` agrees with each clause that its function ensures."""
import re

import made_pages
from bodies.trial import OF_STEP


def function_of(crate, name):
    """The function of a crate that a body names by the end of its path, as tools/sources reads it, or None."""
    found = [item for item in made_pages.functions_of(crate) if any(end.endswith(f"::{name}") for end in made_pages.path_ends(item))]
    return found[0] if found else None


def clause_of(goal, ensured):
    """The clause that a goal is of, in a function that ensures clauses of these names ('' for none)."""
    named = (re.findall(r"-clause-(\w+)", goal) or [""])[-1]
    if re.match(r"returns\b", goal):
        return named or (ensured[0] if len(ensured) == 1 else "") or "ensures"
    if goal.startswith("invariant_of-"):
        return f"invariant {named}".strip()
    call = re.match(r"(\w+)(?:-\S+)?-requires\b", goal)
    if call:
        return " ".join(filter(None, ["requires", named, "of", call[1]]))
    loop = re.match(r"(\S+?)-(?:init|preserved|smaller)\b", goal)
    return f"loop {loop[1].removeprefix('loop-')}" if loop else goal


def told_by(body, verdict):
    """The clauses that a verdict names, each with its function; the goals of single steps are of none."""
    found = set()
    for function, goal in [(function, goal) for function, goal in verdict.goals if not OF_STEP.match(goal)]:
        item = function_of(body.crate, function)
        ensured = [name for word, name, _ in item.clauses if word == "ensures"] if item else []
        found.add((function, clause_of(goal, ensured)))
    return found


def recorded(body):
    """The clauses that a body's own lines name, each with its function."""
    if len(body.functions) == 1:
        return {(body.functions[0], line) for line in body.clauses}
    return {(function, clause) for clause, _, function in (line.rpartition(" of ") for line in body.clauses)}


def shown(body, found):
    """Clauses as a body's lines name them, each with its function, in order."""
    return sorted(clause if len(body.functions) == 1 else f"{clause} of {function}" for function, clause in found)


def is_ensured(clause):
    """Whether a clause is one that a function ensures, or all of these."""
    return bool(re.fullmatch(r"\w+", clause)) and clause != "invariant"


def agrees(named, told):
    """Whether a clause, with its function, is among those that the prover names, or one of them is the whole contract and the other a part of it."""
    function, clause = named
    others = {other for of, other in told if of == function and is_ensured(other)}
    return named in told or ("ensures" in others and is_ensured(clause)) or (clause == "ensures" and bool(others))


def fault(body, verdict, is_strict):
    """What is wrong with the lines of a body that is refused, or ''. One line that agrees with the prover is enough, unless a strict trial wants that of
    each. If only an answer by hand can tell, a person may choose among the clauses that are left."""
    told, said = told_by(body, verdict), recorded(body)
    wrong = {named for named in said if not agrees(named, told)}
    if not wrong or (wrong != said and not is_strict) or (verdict.is_by_hand and not told):
        return ""
    says, names = (", ".join(shown(body, found)) or "none" for found in (wrong, told))
    return f"its line says that {says} refuses it, and the prover names {names}; --record writes that"


def to_record(body, verdict):
    """The lines that a body should have. If only an answer by hand can tell and several clauses are left, a person says which one refuses it."""
    told = told_by(body, verdict)
    if verdict.is_by_hand and len(told) != 1:
        return body.clauses
    return shown(body, told)


def record(body, verdict):
    """Writes the lines of a body that is refused into its edit. Returns whether they are others than before."""
    lines = to_record(body, verdict)
    if lines == body.clauses:
        return False
    with open(body.path, encoding="utf-8") as file:
        text = file.read().split("\n")
    text = [line for line in text if not line.startswith("clause: ")]
    at = max(number for number, line in enumerate(text) if line.startswith("function: ")) + 1
    with open(body.path, "w", encoding="utf-8") as file:
        file.write("\n".join([*text[:at], *(f"clause: {line}" for line in lines), *text[at:]]))
    body.clauses = lines
    return True
