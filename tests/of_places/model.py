"""A plain model of zones: what stands, and what can be undone and redone, as versions under ids."""


class Model:
    """Zones as a dict from ids to versions; a version is a number, and `content` has what each is of."""

    def __init__(self):
        self.standing, self.content = {}, []
        self.done, self.undone = [], []
        self.open = None

    def state(self, id):
        return self.content[self.standing[id]]

    def record(self, after):
        """Goes to what stands after a change, or raises NoChange."""
        if after == self.standing:
            raise LookupError("NoChange")
        (self.done if self.open is None else self.open).append((self.standing, after))
        self.standing, self.undone = after, []

    def new(self, id, content):
        self.content.append(content)
        return {id: len(self.content) - 1}

    def put(self, id, content):
        if id in self.standing and self.state(id) == content:
            raise LookupError("NoChange")
        self.record({**self.standing, **self.new(id, content)})

    def drop(self, id):
        self.known(id)
        self.record({other: version for other, version in self.standing.items() if other != id})

    def rename(self, id, new):
        self.known(id)
        if new in self.standing:
            raise LookupError("Clash")
        rest = {other: version for other, version in self.standing.items() if other != id}
        self.record({**rest, **self.new(new, self.state(id))})

    def known(self, id):
        if id not in self.standing:
            raise LookupError("NoZone")

    def before(self, step):
        if not 1 <= step <= len(self.done) + 1:
            raise LookupError("NoSuchChange")
        return self.done[step - 1][0] if step <= len(self.done) else self.standing

    def restore(self, id, step):
        was = self.before(step)
        if id not in was:
            raise LookupError("NoZone")
        self.record({**self.standing, id: was[id]})

    def undo(self):
        if not self.done:
            raise LookupError("NothingToUndo")
        self.undone.append(self.done.pop())
        self.standing = self.undone[-1][0]

    def redo(self):
        if not self.undone:
            raise LookupError("NothingToRedo")
        self.done.append(self.undone.pop())
        self.standing = self.done[-1][1]

    def revert(self, step):
        if not 1 <= step <= len(self.done):
            raise LookupError("NoSuchChange")
        before, after = self.done[step - 1]
        back = {id: version for id, version in before.items() if after.get(id) != version}
        gone = {id: version for id, version in after.items() if before.get(id) != version}
        rest = {id: version for id, version in self.standing.items() if gone.get(id) != version}
        if any(self.standing.get(id) != version for id, version in gone.items()) or any(id in rest for id in back):
            raise LookupError("Clash")
        self.record({**rest, **back})

    def group(self, steps, fails):
        """Does steps as one change, or undoes them again; each then could be redone by itself."""
        start, self.open = self.standing, []
        for step in steps:
            try:
                step()
            except LookupError:
                pass
        edits, self.open = self.open, None
        if fails:
            self.standing = start
            if edits:
                self.undone = edits[::-1]
        elif self.standing != start:
            self.done.append((start, self.standing))

    def forget(self):
        self.done, self.undone = [], []

    def forget_older(self, newest):
        self.done = self.done[max(len(self.done) - newest, 0):]


class FileModel(Model):
    """The same in a file, where a moment is told by the id of a step, and reaches beyond what can be undone."""

    def __init__(self):
        super().__init__()
        # What stood before each step.
        self.moments = []

    def log(self, last, before):
        """Notes what stood before the steps up to the last id."""
        self.moments += [before] * (last - len(self.moments))

    def before(self, step):
        if not 1 <= step <= len(self.moments) + 1:
            raise LookupError("NoSuchChange")
        return self.moments[step - 1] if step <= len(self.moments) else self.standing
