"""The gate's wrong bodies: few of them, which together name each clause once.

Of a function that its crate offers, each clause that some wrong body names is named once; of a function beneath, which has wrong bodies since it
decides something that no clause above says by itself, one clause is. A body without a line `clause:` is always in the gate. No list is kept:
the lines in the edits say it all, and the same lines choose the same bodies."""
import made_pages
from bodies import clauses


def names_of(body):
    """What a body names for the gate: clauses of offered functions, and functions beneath."""
    found = set()
    for function, clause in clauses.recorded(body):
        item = clauses.function_of(body.crate, function)
        path = made_pages.path_ends(item)[0] if item else function
        found.add((path, clause if item and made_pages.is_offered(item) else ""))
    return found


def chosen(bodies):
    """Of a crate's wrong bodies those that the gate tries: in turn the one that names the most of what is left, and of these one that the prover
    refuses by itself, in the company of others, and whose name comes first."""
    named = {body: names_of(body) for body in bodies}
    taken, left = [body for body in bodies if not named[body]], set().union(*named.values())
    while left:
        best = min(bodies, key=lambda body: (-len(named[body] & left), bool(body.by_hand), body.is_alone, body.name))
        taken.append(best)
        left -= named[best]
    for body in reversed(list(taken)):
        others = set().union(*(named[other] for other in taken if other is not body))
        if named[body] and named[body] <= others:
            taken.remove(body)
    return [body for body in bodies if body in taken]


def unnamed(crate, bodies):
    """The clauses of a crate's offered functions that no line of its wrong bodies names, each with its function."""
    named = set().union(*map(names_of, bodies))
    for item in made_pages.functions_of(crate):
        for word, name, _ in item.clauses if made_pages.is_offered(item) and item.kind == "fn" else ():
            if word == "ensures" and (made_pages.path_ends(item)[0], name or "ensures") not in named:
                yield made_pages.shown_name(item).replace("`", ""), name or "ensures"
