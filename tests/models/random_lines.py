"""Random lines of scripts, over what a model of the program holds."""
from models.plain_cells import LEAF_LEVEL, children_at, level_of, neighbors_of, parent_at, token_of
from models.plain_model import Model

LABELS = [0, 1, 2, 30, 2147483647]
SPACES = [" ", " ", " ", "\t", "  ", "\u2003", "\x0b \x85"]


class Writer:
    """A generator of lines over what a model holds, with these labels."""

    def __init__(self, chance, model, labels=LABELS):
        self.chance, self.model, self.labels = chance, model, labels

    def cell(self):
        """A cell: one that is held, one near it, or one of any level near the corners and the middle of a face."""
        held = [cell for cell, _ in self.model.counts]
        if held and self.chance.random() < 0.7:
            return self.near(self.chance.choice(held))
        face, level = self.chance.choice([0, 0, 5, 5, 1, 2, 3, 4]), self.chance.choice([0, 1, 1, 2, 3, 5, 12, 29, 30])
        number = face
        for _ in range(level):
            number = 4 * number + self.chance.choice([0, 0, 3, 3, 1, 2])
        return (2 * number + 1) << 2 * (LEAF_LEVEL - level)

    def near(self, cell):
        level = level_of(cell)
        way = self.chance.randrange(6)
        if way == 0:
            return self.chance.choice(neighbors_of(cell))
        if way == 1:
            return parent_at(cell, self.chance.randrange(level + 1))
        if way == 2 and level < LEAF_LEVEL:
            return self.chance.choice(children_at(cell, level + 1))
        if way == 3:
            return self.chance.choice(children_at(cell, min(level + 3, LEAF_LEVEL)))
        return cell

    def leaf(self):
        cell = self.cell()
        leaves = children_at(cell, LEAF_LEVEL)
        return leaves[self.chance.choice([0, -1, self.chance.randrange(len(leaves))])]

    def label(self):
        return self.chance.choice(self.labels)

    def held_pair(self):
        pairs = list(self.model.counts)
        return self.chance.choice(pairs) if pairs and self.chance.random() < 0.8 else (self.cell(), self.label())

    def token(self, cell):
        """A cell as a script may write it: canonical, in capitals, or with zeros at its end."""
        token = token_of(cell)
        return self.chance.choice([token, token, token.upper(), token.ljust(16, "0"), token.ljust(min(16, len(token) + 1), "0")])

    def tokens(self):
        cells = [self.cell() for _ in range(self.chance.randrange(1, 7))]
        if self.chance.random() < 0.3 and level_of(cells[0]) < LEAF_LEVEL:
            cells += children_at(cells[0], level_of(cells[0]) + 1)
        self.chance.shuffle(cells)
        return list(map(self.token, cells))

    def number(self, number):
        return self.chance.choice([str(number), str(number), f"{number:03}", f"{number:010}"])

    def level(self, label):
        """A level near that of the label's coarsest cell, so that the plain search ends soon; or one that is too fine."""
        coarsest = min((level_of(cell) for cell, each in self.model.counts if each == label), default=0)
        return max(0, coarsest + self.chance.choice([-2, -1, 0, 0, 1, 2, 3, 9, 25]))

    def change(self):
        """The number of a change that stands, or at times of none."""
        cursor = self.model.cursor
        return self.chance.choice([cursor, self.chance.randrange(cursor + 2), 1 + self.chance.randrange(cursor + 1)])

    def edit(self):
        word = self.chance.choice(["add"] * 6 + ["remove"] * 4 + ["addunion"] * 3 + ["revert"] * 3 + "drop relabel relabel grow grow normal".split())
        label = self.label()
        if word == "revert":
            return [word, self.number(self.change())]
        if word in ("add", "remove"):
            cell, label = self.held_pair()
            copies = self.chance.choice([None, None, None, 1, 2, 2, 3, 70_000, 4_294_967_294])
            return [word, self.token(cell), self.number(label), *([] if copies is None else [self.number(copies)])]
        further = {"addunion": self.tokens, "relabel": lambda: [self.number(self.label())], "grow": lambda: [self.number(self.level(label))]}
        return [word, self.number(label), *further.get(word, list)()]

    def query(self):
        word = self.chance.choice("at meet meet labels ranges region common only path neighbors face dump journal export".split())
        if word == "at":
            return [word, self.token(self.chance.choice([self.leaf] * 7 + [self.cell])())]
        if word in ("meet", "labels"):
            return [word, *self.tokens()]
        if word in ("path", "neighbors", "face"):
            return [word, self.token(self.cell())]
        return [word, *[self.number(self.label()) for _ in range({"region": 1, "common": 2, "only": 2}.get(word, 0))]]

    def fields(self):
        way = self.chance.random()
        if way < 0.55:
            return self.edit()
        if way < 0.70:
            return [self.chance.choice(["undo"] * 4 + ["redo"] * 3)]
        return self.query() if way < 0.97 else self.chance.choice([["forget"], ["#", "nothing"], []])

    def line(self):
        """A line of a script, at times with a field spoilt, left out or given twice."""
        fields = self.fields()
        if fields and self.chance.random() < 0.08:
            place = self.chance.randrange(len(fields))
            fields[place : place + 1] = self.chance.choice([[], fields[place : place + 1] * 2, ["0"], ["x"], ["4294967296"], ["99999999999"], [fields[place] + "\udcff"]])
        line = "".join(self.chance.choice(SPACES) + field for field in fields)
        return (line if self.chance.random() < 0.1 else line.lstrip()).encode(errors="surrogateescape")


def start_of(chance):
    """The pairs of a small collection."""
    writer = Writer(chance, Model())
    return sorted({(writer.cell(), writer.label()) for _ in range(12)})
