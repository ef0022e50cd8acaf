"""Elements of an SVG page, and scales."""

import math
import xml.etree.ElementTree as ET


def short(number):
    """A coordinate with at most one decimal."""
    return f"{number:.1f}".removesuffix(".0") if isinstance(number, float) else str(number)


def add(parent, tag, css, text=None, **attributes):
    """A child with a class. A name's _ stands for -, and its numbers are rounded."""
    written = {name.replace("_", "-"): short(v) for name, v in attributes.items()}
    element = ET.SubElement(parent, tag, {"class": css, **written} if css else written)
    element.text = text
    return element


def line(parent, css, x1, y1, x2, y2, **attributes):
    return add(parent, "line", css, x1=float(x1), y1=float(y1), x2=float(x2), y2=float(y2), **attributes)


def label(parent, css, x, y, text, **attributes):
    return add(parent, "text", css, text, x=float(x), y=float(y), **attributes)


def frame(parent, css, box):
    left, top, right, bottom = box
    return add(parent, "rect", css, x=left, y=top, width=right - left, height=bottom - top)


def clipped(parent, name, box):
    """A group of which only what lies in a box is seen."""
    frame(add(add(parent, "defs", None), "clipPath", None, id=name), None, box)
    return add(parent, "g", None, clip_path=f"url(#{name})")


def path(parent, css, points, **attributes):
    """A line through points."""
    return paths(parent, css, [points], **attributes)


def paths(parent, css, lines, **attributes):
    """Lines through points, as one element; none where there are none."""
    d = "".join(line_text([(short(float(x)), short(float(y))) for x, y in points]) for points in lines)
    return add(parent, "path", css, d=d, **attributes) if d else None


def line_text(points):
    """A line through points as a path has it: level and upright parts by one coordinate."""
    parts = [f"M{points[0][0]},{points[0][1]}"]
    for (x, y), (to_x, to_y) in zip(points, points[1:]):
        parts.append(f"H{to_x}" if to_y == y else f"V{to_y}" if to_x == x else f"L{to_x},{to_y}")
    return "".join(parts)


def cross(parent, css, x, y, size):
    d = f"M{short(x - size)},{short(y - size)}l{2 * size},{2 * size}m0,{-2 * size}l{-2 * size},{2 * size}"
    return add(parent, "path", css, d=d)


def square(parent, css, x, y, size):
    return add(parent, "rect", css, x=float(x - size), y=float(y - size), width=2 * size, height=2 * size)


HATCHING = 8  # between its lines, across the page


def hatched(parent, css, box, **attributes):
    """A frame, with slanting lines in it where there is room."""
    left, top, right, bottom = box
    add(parent, "rect", css, x=left, y=top, width=right - left, height=bottom - top, **attributes)
    if right - left < HATCHING:
        return
    d, along = "", HATCHING * math.ceil((left + top) / HATCHING)
    while along < right + bottom:
        x, to_x = max(left, along - bottom), min(right, along - top)
        d += f"M{short(float(x))},{short(float(along - x))}L{short(float(to_x))},{short(float(along - to_x))}"
        along += HATCHING
    add(parent, "path", "hatching", d=d)


def head(parent, css, tip, way, size):
    """The head of an arrow: its tip, and the way that it points, of length 1."""
    (x, y), (dx, dy) = tip, way
    back = (x - size * dx, y - size * dy)
    sides = [(back[0] - side * size * dy / 2, back[1] + side * size * dx / 2) for side in (1, -1)]
    return path(parent, css, [(x, y), *sides, (x, y)])


def steps(low, high, most):
    """Round numbers from low to high, at most so many."""
    span = high - low
    size = 10.0 ** math.floor(math.log10(span / most))
    step = next(size * m for m in (1, 2, 5, 10) if span / (size * m) <= most)
    first = math.ceil(low / step - 1e-9)
    return [n * step for n in range(first, math.floor(high / step + 1e-9) + 1)]


# A span has at least this share of its numbers' size, so that its ends and what is between them differ.
LEAST_SPAN = 1e-9


class Scale:
    """From a span of values to a span of the page."""

    def __init__(self, values, page):
        low, high = values
        room = LEAST_SPAN * max(abs(low), abs(high), LEAST_SPAN)
        self.low, self.high = (low, high) if high - low > room else (low - room, high + room)
        self.start, self.end = page

    def __call__(self, value):
        share = (value - self.low) / (self.high - self.low)
        return self.start + share * (self.end - self.start)

    def within(self, value):
        return self.low <= value <= self.high


def usual_span(values, others=()):
    """The span of values without those that lie far off, and of the others that are near them."""
    ordered = sorted(values)
    left_out = max(len(ordered) // 20, len(ordered) > 5)
    low, high = ordered[left_out], ordered[-1 - left_out]
    room = 2 * max(high - low, 20.0)
    near = [v for v in [*ordered, *others] if low - room <= v <= high + room]
    return min(near), max(near)
