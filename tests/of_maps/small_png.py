"""Makes a PNG of a page smaller: it keeps the 256 colours that most of its points have, and gives each other point the nearest of them."""
import collections
import struct
import zlib

COLOURS = 256


def small(png):
    """A PNG of RGB or RGBA in 8 bits, without interlace, as one of a palette; what shines through is lost."""
    width, height, points = read(png)
    shown = {}
    for colour, _ in collections.Counter(points).most_common():
        shown.setdefault(coarse(colour), colour)
    palette = [*shown.values()][:COLOURS]
    place = {near: nearest_of(palette, colour) for near, colour in shown.items()}
    rows = (bytes(place[coarse(point)] for point in points[at:at + width]) for at in range(0, width * height, width))
    parts = ((b"IHDR", struct.pack(">2I5B", width, height, 8, 3, 0, 0, 0)), (b"PLTE", b"".join(map(bytes, palette))),
             (b"IDAT", zlib.compress(b"".join(b"\0" + row for row in rows), 9)), (b"IEND", b""))
    sums = (struct.pack(">I", zlib.crc32(name + text)) for name, text in parts)
    return png[:8] + b"".join(struct.pack(">I", len(text)) + name + text + check for (name, text), check in zip(parts, sums))


def coarse(colour):
    """A colour without what the eye doesn't tell."""
    return tuple(channel >> 3 for channel in colour)


def nearest_of(palette, colour):
    """The place of the colour of a palette that is nearest to another."""
    return min(range(len(palette)), key=lambda at: sum((a - b) ** 2 for a, b in zip(palette[at], colour)))


def read(png):
    """The width and height of a PNG, and the colours of its points."""
    at, parts = 8, {}
    while at < len(png):
        length, name = struct.unpack_from(">I4s", png, at)
        parts[name] = parts.get(name, b"") + png[at + 8:at + 8 + length]
        at += 12 + length
    width, height, _, kind = struct.unpack_from(">2I2B", parts[b"IHDR"])
    size = {2: 3, 6: 4}[kind]
    rows, before, points = zlib.decompress(parts[b"IDAT"]), bytes(width * size), []
    for start in range(0, len(rows), 1 + width * size):
        before = unfiltered(rows[start], bytearray(rows[start + 1:start + 1 + width * size]), before, size)
        points += [tuple(before[each:each + 3]) for each in range(0, len(before), size)]
    return width, height, points


def unfiltered(kind, row, above, size):
    """A row as it was before its filter."""
    for at, value in enumerate(row):
        left, up = row[at - size] if at >= size else 0, above[at]
        corner = above[at - size] if at >= size else 0
        row[at] = value + (0, left, up, (left + up) // 2, nearest(left, up, corner))[kind] & 255
    return row


def nearest(left, up, corner):
    """Which of three points is nearest to what they would go on to."""
    guess = left + up - corner
    return min((left, up, corner), key=lambda each: abs(guess - each))
