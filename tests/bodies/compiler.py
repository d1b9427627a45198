"""Whether wrong bodies compile. This is asked of all before any is tried: one that doesn't would show only at its own check, up to an hour later.

A check of no function reads a crate as the compiler does and proves nothing. One such check takes all bodies whose edits fit into one text, even
if several change one function, or want a trial to themselves. If the compiler finds errors, it reads one by one the bodies of those functions in which
the errors lie, and then the others in halves. Only a body that doesn't compile by itself is at fault: two that don't compile together may be sound.

The verdict on a body doesn't rest on what is found here: a body that doesn't compile is never tried, and so never counts as refused."""
import concurrent.futures
import re
import tempfile

from bodies.edits import Body
from bodies.told import function_at
from bodies.trial import Crate

# What the compiler says of a fault in the code, and how the last line begins once it has handed the crate to the prover.
FAULT = re.compile(r"^(src/\S+?):(\d+):\d+: error.*", re.M)
HANDED_ON = re.compile(r"^only=", re.M)


class NotCompiled(Exception):
    """A wrong body doesn't compile, or its edit doesn't fit the crate's text. The text says which body, and the compiler's words."""


def ask(bodies, libraries, lanes):
    """Raises NotCompiled as soon as it finds a wrong body that doesn't compile; `bodies` has those of each crate."""
    for body in (body for all_of in bodies.values() for body in all_of):
        if body.applied({}) is None:
            raise NotCompiled(f"wrong body {body.crate}/{body.name}: FAILED: it cannot be applied")
    asked = [lanes.submit(ask_of, crate, group, libraries) for crate, all_of in bodies.items() for group in groups_of(all_of)]
    for ended in concurrent.futures.as_completed(asked):
        if ended.result():
            for other in asked:
                other.cancel()
            body, words = ended.result()
            raise NotCompiled(f"wrong body {body.crate}/{body.name}: FAILED: it doesn't compile:\n{words}")


def ask_of(crate, group, libraries):
    """What first_fault finds of a group of a crate's bodies, over the libraries of a workspace."""
    with tempfile.TemporaryDirectory(prefix="wrong-bodies-") as before:
        return first_fault(Crate(crate, libraries, before, False, False), group)


def groups_of(bodies):
    """A crate's bodies in groups whose edits fit into one text."""
    left, groups = list(bodies), []
    while left:
        group, texts = [], {}
        for body in left:
            applied = body.applied(texts)
            if applied is not None:
                group, texts = [*group, body], applied
        groups.append(group)
        left = [body for body in left if body not in group]
    return groups


def first_fault(crate, bodies):
    """The first body of a group of a crate's that doesn't compile by itself, with the compiler's words, or None."""
    told = crate.check([Body(crate.name, "together", functions=[""], changes=[change for body in bodies for change in body.changes])])
    faults = [] if HANDED_ON.search(told.said) else list(FAULT.finditer(told.said))
    if not faults:
        return None
    if len(bodies) == 1:
        return bodies[0], "\n".join(fault[0] for fault in faults)
    named = {function_at(told.text_of(fault[1]), int(fault[2]))[0] for fault in faults}
    near = [body for body in bodies if named & {function.split("::")[-1] for function in body.functions}]
    others = [body for body in bodies if body not in near]
    halves = others[: len(others) // 2], others[len(others) // 2 :]
    parts = [*([body] for body in near), *(half for half in halves if half)]
    return next(filter(None, (first_fault(crate, part) for part in parts)), None)
