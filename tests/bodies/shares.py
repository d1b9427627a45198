"""A crate's wrong bodies in shares, which are tried side by side over one proof of the functions as they stand."""
import tempfile
import threading
import time

from bodies import clauses
from bodies.edits import Body
from bodies.trial import Crate, try_all

# How many of a crate's wrong bodies a share has at most. Fewer to a share end sooner, side by side; more to a share are tried in fewer checks.
MOST = 30


def in_shares(bodies):
    """A crate's wrong bodies in shares of at most MOST. Those of one function go to different shares, since each wants a check of its own."""
    number = -(-len(bodies) // MOST)
    dealt = sorted(bodies, key=lambda body: body.functions)
    return [dealt[first::number] for first in range(number)]


class Trial:
    """The trial of a crate's wrong bodies: first a check of the functions that they change, as these stand, and then the shares, whose checks begin
    with what that check left in a folder. If the trial is short, so is each check of a body whose functions a short check proves as they stand. A body
    that is refused for other clauses than its lines say is tried once more, by itself in whole checks."""

    def __init__(self, name, bodies, libraries, is_short, compares):
        self.name, self.bodies, self.libraries, self.is_short, self.compares = name, bodies, libraries, is_short, compares
        self.folder = tempfile.TemporaryDirectory(prefix=f"wrong-bodies-{name}-")
        self.shares, self.untried, self.unproved = in_shares(bodies), {*bodies}, set()
        self.is_strict, self.tried_again = not is_short, set()
        self.seconds, self.checks, self.counting = 0, 0, threading.Lock()

    def crate(self, is_short):
        return Crate(self.name, self.libraries, self.folder.name, is_short, self.compares)

    def check_plain(self):
        """Checks the functions as they stand."""
        started = time.monotonic()
        functions = sorted({function for body in self.bodies for function in body.functions})
        told = self.crate(self.is_short).check([Body(self.name, "as it stands", functions=functions)])
        self.unproved = {function for function in functions if any(told.functions[path] != "proved" for path in told.paths(function))}
        # (a check in which a function fails that no body changes tells of no body)
        self.is_short &= told.failing() <= {path for function in functions for path in told.paths(function)}
        self.count(started, 1)

    def is_short_for(self, body):
        """Whether the checks of a body are short."""
        return self.is_short and not self.unproved & {*body.functions} and body not in self.tried_again

    def try_share(self, share, plain):
        """The verdict on each body of a share, once the check of the functions as they stand has ended."""
        plain.result()
        verdicts = {}
        for is_short in (True, False):
            started, crate = time.monotonic(), self.crate(is_short)
            verdicts |= try_all(crate, [body for body in share if self.is_short_for(body) == is_short])
            self.count(started, crate.checks)
        return {body: self.try_again(body) if self.is_doubtful(body, verdicts[body]) else verdicts[body] for body in share}

    def is_doubtful(self, body, verdict):
        """Whether a body is refused for other clauses than its lines say, perhaps because of the others in its check or of half of the counts."""
        return verdict.is_refused and bool(clauses.fault(body, verdict, self.is_strict))

    def try_again(self, body):
        """The verdict on a body that is tried once more, by itself in whole checks."""
        started, crate = time.monotonic(), self.crate(False)
        self.tried_again.add(body)
        body.begin_anew()
        verdict = try_all(crate, [body])[body]
        self.count(started, crate.checks)
        return verdict

    def count(self, started, checks):
        """Counts checks that have ended, and the seconds of a lane that they took."""
        with self.counting:
            self.seconds += time.monotonic() - started
            self.checks += checks

    def end(self, told):
        """Notes that a share with these bodies has ended; after the last one it removes the folder. Returns whether this was the last."""
        self.untried -= {*told}
        if not self.untried:
            self.folder.cleanup()
        return not self.untried
