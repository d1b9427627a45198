"""Cells of the curve, written plainly: a cell is its face and its child positions from level 1 down; sides and neighbours go by corners
on the cube."""
import re

LEAF_LEVEL = 30
# The quadrants (column, row) that the positions 0 to 3 have, where a cell is turned by 0 to 3: bit 0 exchanges both, bit 1 turns both round.
QUADRANTS = [
    [(0, 0), (0, 1), (1, 1), (1, 0)],
    [(0, 0), (1, 0), (1, 1), (0, 1)],
    [(1, 1), (1, 0), (0, 0), (0, 1)],
    [(1, 1), (0, 1), (0, 0), (1, 0)],
]
# How each position turns what lies in it.
TURNS = [1, 0, 0, 3]
LIMIT = 1 << LEAF_LEVEL


def level_of(cell):
    return LEAF_LEVEL - ((cell & -cell).bit_length() - 1) // 2


def is_cell(number):
    lowest = number & -number
    return 0 < lowest <= 1 << 2 * LEAF_LEVEL and lowest.bit_length() % 2 == 1 and number >> 61 < 6


def first_leaf(cell):
    return cell - (cell & -cell) + 1


def last_leaf(cell):
    return cell + (cell & -cell) - 1


def end_of(cell):
    """The first leaf after a cell: where no leaf is, the number that follows the last one's in steps of 2."""
    return last_leaf(cell) + 2


def parent_at(cell, level):
    lowest = 1 << 2 * (LEAF_LEVEL - level)
    return cell & -lowest & ~lowest | lowest if level < level_of(cell) else cell


def children_at(cell, level):
    """The cells of a level that lie in a cell of at most that level, rising."""
    step = 1 << 2 * (LEAF_LEVEL - level)
    return range(first_leaf(cell) - 1 + step, end_of(cell) - 1, 2 * step)


def positions_of(cell):
    return [cell >> (2 * (LEAF_LEVEL - level) + 1) & 3 for level in range(1, level_of(cell) + 1)]


def square_of(cell):
    """A cell's face, column and row in squares of its own level, level, and how what lies in it is turned."""
    face = cell >> 61
    column, row, turned = 0, 0, face & 1
    for position in positions_of(cell):
        right, up = QUADRANTS[turned][position]
        column, row, turned = 2 * column + right, 2 * row + up, turned ^ TURNS[position]
    return face, column, row, level_of(cell), turned


def cell_at(face, column, row, level):
    """The cell of a square."""
    number, turned = face, face & 1
    for k in reversed(range(level)):
        position = QUADRANTS[turned].index((column >> k & 1, row >> k & 1))
        number, turned = 4 * number + position, turned ^ TURNS[position]
    return (2 * number + 1) << 2 * (LEAF_LEVEL - level)


def on_cube(face, right, up):
    """The point of the cube at a place of a face, where both go from -LIMIT to LIMIT."""
    return [
        (LIMIT, right, up),
        (-right, LIMIT, up),
        (-right, -up, LIMIT),
        (-LIMIT, -up, -right),
        (up, -LIMIT, -right),
        (up, right, -LIMIT),
    ][face]


def place_on(face, point):
    """The place of a face that a point of the cube has, or None where it isn't on the face."""
    x, y, z = point
    if [x, y, z, -x, -y, -z][face] != LIMIT:
        return None
    return [(y, z), (-x, z), (-x, -y), (-z, -y), (-z, x), (y, x)][face]


def neighbors_of(cell):
    """The cells over the sides of a cell: down, right, up, left."""
    face, column, row, level, _ = square_of(cell)
    size = 2 * LIMIT >> level
    left, low = column * size - LIMIT, row * size - LIMIT
    corners = [(left, low), (left + size, low), (left + size, low + size), (left, low + size)]
    return [over_side(face, *corners[k], *corners[(k + 1) % 4], level, cell) for k in range(4)]


def over_side(face, right, up, next_right, next_up, level, cell):
    """The other cell of the level that has the side between two corners."""
    ends = on_cube(face, right, up), on_cube(face, next_right, next_up)
    for other in range(6):
        places = [place_on(other, end) for end in ends]
        if None not in places:
            for found in beside(other, *places, level):
                if found != cell:
                    return found
    raise AssertionError("each side has two cells")


def beside(face, place, other, level):
    """The cells of a level on a face that have the side between two of its places."""
    size = 2 * LIMIT >> level
    left, low = min(place[0], other[0]), min(place[1], other[1])
    lower = (left, low - size) if place[1] == other[1] else (left - size, low)
    for right, up in ((left, low), lower):
        if -LIMIT <= right < LIMIT and -LIMIT <= up < LIMIT:
            yield cell_at(face, (right + LIMIT) // size, (up + LIMIT) // size, level)


def token_of(cell):
    return f"{cell:016x}".rstrip("0")


def cell_spelled(field):
    """The cell that a field of a script spells, or None."""
    if not re.fullmatch(rb"[0-9a-fA-F]{1,16}", field):
        return None
    number = int(field.ljust(16, b"0"), 16)
    return number if is_cell(number) else None


def normal(cells):
    """The fewest cells with the leaves of some, rising."""
    kept = []
    for cell in sorted(set(cells), key=lambda each: (first_leaf(each), level_of(each))):
        if kept and last_leaf(cell) <= last_leaf(kept[-1]):
            continue
        kept.append(cell)
        while len(kept) >= 4 and are_siblings(kept[-4:]):
            kept[-4:] = [parent_at(kept[-1], level_of(kept[-1]) - 1)]
    return kept


def are_siblings(cells):
    level = level_of(cells[0])
    return level > 0 and list(children_at(parent_at(cells[0], level - 1), level)) == cells


def common(first, second):
    """The leaves that two normal unions share, as a normal union."""
    return normal([a if last_leaf(a) <= last_leaf(b) and first_leaf(b) <= first_leaf(a) else b for a in first for b in second if do_meet(a, b)])


def without(first, second):
    """The leaves of one normal union that another has not, as a normal union."""
    left = []
    for cell in first:
        if any(contains(other, cell) for other in second):
            continue
        if not any(do_meet(other, cell) for other in second):
            left.append(cell)
        else:
            left += without(children_at(cell, level_of(cell) + 1), second)
    return normal(left)


def contains(cell, other):
    return first_leaf(cell) <= first_leaf(other) and last_leaf(other) <= last_leaf(cell)


def do_meet(cell, other):
    return first_leaf(cell) <= last_leaf(other) and first_leaf(other) <= last_leaf(cell)
