"""Routes: the record and its text form, a line a point."""

import struct

from nuthkolla import files
from nuthkolla.numbers import NotANumber, from_text, is_finite, to_text
from nuthkolla.refusals import ROUTE_RECORD
from nuthkolla.text import BYTE_ORDER_MARK, BadText, fields_of

BITS = 31  # of each of the two maps
POINTS = 2 * BITS


class BadRoute(Exception):
    """A route's record that is refused."""

    def __init__(self, number):
        super().__init__(f"refused {number}: {ROUTE_RECORD[number]}")
        self.number = number


# ---- the record: points by their bits, each north, east, altitude and cruise speed as bits of f32s. Bits 0 to 30 are those of the first
# map; 31 and up are bits 0 to 30 of the second.


def route_bytes(points):
    first = sum(1 << bit for bit in points if bit < BITS)
    second = sum(1 << bit - BITS for bit in points if bit >= BITS)
    maps = [first | 1 << BITS, second] if second else [first]
    words = [word for bit in sorted(points) for word in points[bit]]
    return struct.pack(f"<{len(maps) + len(words)}I", *maps, *words)


def word_at(data, place):
    if len(data) < place + 4:
        raise BadRoute(5)
    return struct.unpack_from("<I", data, place)[0]


def bits_of(map_, from_):
    return [from_ + bit for bit in range(BITS) if map_ >> bit & 1]


def points_at(data, place, bits):
    """The points behind the maps, and the place after them."""
    end = place + 16 * len(bits)
    if len(data) < end:
        raise BadRoute(5)
    points = {bit: struct.unpack_from("<4I", data, place + 16 * n) for n, bit in enumerate(bits)}
    if not all(is_finite(word) for point in points.values() for word in point):
        raise BadRoute(11)
    return points, end


def read_route(data):
    """The points of a record, and the bytes that it has."""
    first = word_at(data, 0)
    if not first >> BITS:
        if first == 0:
            raise BadRoute(10)
        return points_at(data, 4, bits_of(first, 0))
    second = word_at(data, 4)
    if second >> BITS or second == 0:
        raise BadRoute(6)
    return points_at(data, 8, bits_of(first, 0) + bits_of(second, BITS))


def read_older_route(data, place):
    """As a display with the older program reads a record, for which bit 31 is unnamed: the points, and the place after them."""
    map_ = word_at(data, place)
    if map_ >> BITS:
        raise BadRoute(6)
    if map_ == 0:
        raise BadRoute(10)
    return points_at(data, place + 4, bits_of(map_, 0))


# ---- the text form


def route_points(name):
    """The points of a route's file."""
    try:
        return read_route_text(files.read_text_file(name))
    except BadText as problem:
        raise files.Failure(f"{files.named(name)}, {problem}") from None


def route_text(points):
    lines = []
    for bit in sorted(points):
        north, east, altitude, cruise = map(to_text, points[bit])
        lines.append(f"point {bit} at={north},{east} altitude={altitude} cruise={cruise}\n")
    return "".join(lines)


def read_point(words):
    """A point's bit and its four numbers."""
    if len(words) < 2 or words[0] != "point" or not words[1].isdecimal() or int(words[1]) >= POINTS:
        raise ValueError("a line begins with point and its bit, 0 to 61")
    fields = fields_of(words[2:])
    unknown = fields.keys() - {"at", "altitude", "cruise"}
    if unknown:
        raise ValueError(f"a point has no {sorted(unknown)[0]}")
    at = fields.get("at", "0,0").split(",")
    if len(at) != 2:
        raise ValueError("at has two numbers, north and east")
    numbers = tuple(map(from_text, [*at, fields.get("altitude", "0"), fields.get("cruise", "0")]))
    if not all(map(is_finite, numbers)):
        raise ValueError("a number of a point is not finite")
    return int(words[1]), numbers


def read_route_text(text):
    """The points of a route's text; # starts a comment."""
    points = {}
    for n, line in enumerate(text.removeprefix(BYTE_ORDER_MARK).splitlines(), 1):
        words = line.partition("#")[0].split()
        if not words:
            continue
        try:
            bit, numbers = read_point(words)
        except (ValueError, NotANumber) as problem:
            raise BadText(n, problem) from None
        if bit in points:
            raise BadText(n, f"point {bit} is given twice")
        points[bit] = numbers
    if not points:
        raise BadText(1, "a route has a point")
    return points
