"""The map of the page: the track over ground, what the calls aim at, and in words what is not on the map."""

import collections
import math
import textwrap

from nuthkolla.flight import aims, finite_values
from nuthkolla.svg import LEAST_SPAN, Scale, add, clipped, cross, frame, head, label, line, path, short, square, steps, usual_span
from nuthkolla.words import MOST_LISTED, listed, of_calls

# More numbers, or circles with heads, than this on the map would hide it.
MOST_NAMES = 40
# So many of the page's units between two heads on the track.
BETWEEN_HEADS = 110.0
# Beyond this a double no longer tells metres from each other.
FARTHEST = 1e12
NOTE_WIDTH = 76  # letters


class Ground:
    """The map's scales, in a box (left, top, right, bottom) of the page: equal metres east and north.

    recordings: the moments and the configuration of one, or of one and of a second beside it; route: the places of a route's points.
    """

    def __init__(self, recordings, box, ahead=None, route=()):
        self.recordings, self.box, self.ahead, self.route = recordings, box, ahead, route
        self.aimed = {}
        for recording in recordings:
            for aim, places in aims(*recording).items():
                self.aimed.setdefault(aim, []).extend(places)
        places = [m.place for flown, _ in recordings for m in flown if m.place]
        corners = list(route)
        for at, _, radius in self.aimed:
            corners += [(at[0] + side, at[1] + side) for side in (-(radius or 0), radius or 0)]
        corners += ahead.places if ahead else []
        self.scale_to(places or corners or [(0.0, 0.0)], corners)

    @property
    def flown(self):
        """The moments of the first recording."""
        return self.recordings[0][0]

    def scale_to(self, places, corners):
        """The places that are not far off the others, and of the corners those that are near them."""
        left, top, right, bottom = self.box
        (south, north), (west, east) = (
            usual_span([p[axis] for p in places], [c[axis] for c in corners]) for axis in (0, 1)
        )
        metres = max((north - south) / (bottom - top), (east - west) / (right - left), 0.05) * 1.12
        metres = max(metres, LEAST_SPAN * max(map(abs, (south, north, west, east))))
        middle_n, middle_e = (south + north) / 2, (west + east) / 2
        half_n, half_e = metres * (bottom - top) / 2, metres * (right - left) / 2
        self.metres = metres
        self.east = Scale((middle_e - half_e, middle_e + half_e), (left, right))
        self.north = Scale((middle_n - half_n, middle_n + half_n), (bottom, top))

    def within(self, place):
        return place is not None and self.north.within(place[0]) and self.east.within(place[1])

    def __call__(self, place):
        """The page's place of a place north and east."""
        return self.east(place[1]), self.north(place[0])

    def circle(self, radius):
        """A loiter's radius on the page; 0 where its circle would be far larger than the map."""
        size = radius / self.metres
        return size if 0 < size <= 4 * (self.box[3] - self.box[1]) else 0.0


def draw_map_axes(page, ground):
    left, top, right, bottom = ground.box
    for v in steps(ground.east.low, ground.east.high, 7):
        line(page, "grid", ground.east(v), top, ground.east(v), bottom)
        label(page, "soft middle", ground.east(v), bottom + 18, f"{v:g}")
    for v in steps(ground.north.low, ground.north.high, 9):
        line(page, "grid", left, ground.north(v), right, ground.north(v))
        label(page, "soft end", left - 7, ground.north(v) + 4, f"{v:g}")
    label(page, "ink name", left, top - 12, "Track over ground, north is up")
    label(page, "ink middle", (left + right) / 2, bottom + 38, "metres east")
    x, y = left - 56, (top + bottom) / 2
    label(page, "ink middle", x, y, "metres north", transform=f"rotate(-90 {x} {y})")


# ---- aims


def direction(leg):
    """A leg's direction, of length 1; none for a leg without a length."""
    length = math.hypot(*leg)
    return (leg[0] / length, leg[1] / length) if length else None


def leg_ends(at, unit, places, reach):
    """The part of a leg's line that was flown, and its point where that is near: metres along the leg from the point."""
    along = [(p[0] - at[0]) * unit[0] + (p[1] - at[1]) * unit[1] for p in places]
    along = [d for d in along if abs(d) <= FARTHEST] + ([0.0] if reach else [])
    return (min(along), max(along)) if along else None


def draw_leg(group, at, leg, places, ground):
    unit = direction(leg)
    inside = ground.within(at)
    near = [p for p in places if ground.within(p)]
    ends = unit and leg_ends(at, unit, near, inside)
    if not ends:
        return
    tail, tip = (ground((at[0] + d * unit[0], at[1] + d * unit[1])) for d in ends)
    line(group, "aim leg", *tail, *tip)
    if inside:
        x, y = ground(at)
        head(group, "head", (x + 9 * unit[1], y - 9 * unit[0]), (unit[1], -unit[0]), 14)


def draw_circle(group, at, radius, ground, heads):
    """A loiter's circle, where heads are wanted with some that show its sense: clockwise, seen from above."""
    (x, y), size = ground(at), ground.circle(radius)
    if size:
        add(group, "circle", "aim loiter", cx=x, cy=y, r=size)
    add(group, "path", "aim centre", d=f"M{short(x - 6)},{short(y)}h12m-6,-6v12")
    for turn in (math.radians(60), math.radians(180), math.radians(300)):
        if heads and size > 10:
            tip = (x + size * math.sin(turn), y - size * math.cos(turn))
            head(group, "head", tip, (math.cos(turn), math.sin(turn)), 11)


def draw_aims(group, ground):
    """Every leg and circle; of very many circles every so many have heads."""
    circles = [aim for aim in ground.aimed if not aim.leg and ground.within(aim.at)]
    with_heads = set(circles[:: -(-len(circles) // MOST_NAMES) or 1])
    for aim, places in ground.aimed.items():
        if aim.leg:
            draw_leg(group, aim.at, aim.leg, places, ground)
        elif ground.within(aim.at):
            draw_circle(group, aim.at, aim.radius, ground, aim in with_heads)


def draw_aim_numbers(group, ground):
    """The aims' numbers in the order of their first calls: beside a leg's point, below a circle."""
    if len(ground.aimed) > MOST_NAMES:
        return
    numbers = collections.defaultdict(list)
    for number, (at, _, radius) in enumerate(ground.aimed, 1):
        if ground.within(at):
            numbers[at, radius].append(number)
    left, _, right, _ = ground.box
    for (at, radius), found in numbers.items():
        (x, y), words = ground(at), listed(found)
        if radius:
            x = min(max(x, left + 80), right - 80)
            label(group, "ink name over middle", x, y + ground.circle(radius) + 18, f"{words} loiter, {radius:.3g} m")
        else:
            label(group, "ink name over", x + 10, y - 9, words)


def draw_route(group, ground):
    """The points of a route, with their numbers."""
    for number, place in enumerate(ground.route, 1):
        if ground.within(place):
            x, y = ground(place)
            path(group, "route", [(x, y - 6), (x + 6, y), (x, y + 6), (x - 6, y), (x, y - 6)])
            label(group, "ink name over end", x - 8, y + 15, f"P{number}")


# ---- the track


def tracks(ground, flown):
    """The track in parts: a command of another kind, or a place that is not on the map, ends a part."""
    parts = [[]]
    for moment in flown:
        if moment.law and ground.within(moment.place):
            parts[-1].append(ground(moment.place))
        elif not moment.refused and moment.answer.kind != "prime":
            parts.append([])
    return [part for part in parts if len(part) > 1]


def draw_heads(group, part, css="way"):
    """Heads along the track that show which way it was flown."""
    walked = BETWEEN_HEADS / 2
    for (x, y), (after_x, after_y) in zip(part, part[1:]):
        length = math.hypot(after_x - x, after_y - y)
        walked += length
        if length > 0 and walked >= BETWEEN_HEADS:
            walked = 0.0
            head(group, css, (after_x, after_y), ((after_x - x) / length, (after_y - y) / length), 10)


def draw_point(group, moment, ground):
    """The point of an accepted waypoint call, by its law; a ring round it where it is idle."""
    x, y = ground(moment.place)
    if moment.idle:
        add(group, "circle", "ring idle", cx=x, cy=y, r=6)
    if moment.law == "hold":
        square(group, "point hold", x, y, 3)
    elif moment.law == "fallback":
        add(group, "circle", "point fallback", cx=x, cy=y, r=3)
    else:
        add(group, "circle", "point energy", cx=x, cy=y, r=1.9)


def draw_beside(group, ground):
    """The track of a second recording."""
    for flown, _ in ground.recordings[1:]:
        for part in tracks(ground, flown):
            path(group, "other", part)
            draw_heads(group, part, "other way")


def draw_track(group, ground):
    for part in tracks(ground, ground.flown):
        path(group, "line track", part)
        draw_heads(group, part)
    for moment in ground.flown:
        if moment.law and ground.within(moment.place):
            draw_point(group, moment, ground)
    for moment in ground.flown:
        if moment.refused and ground.within(moment.place):
            cross(group, "place refused", *ground(moment.place), 5)


def draw_ends(group, ground):
    placed = [m for m in ground.flown if m.law and ground.within(m.place)]
    for word, css, aside, found in (("first", "", 8, placed[:1]), ("last", " end", -8, placed[-1:])):
        for m in found:
            x, y = ground(m.place)
            label(group, f"ink small over{css}", x + aside, y + 4, f"{word}: call {m.number}")


def draw_ahead(group, ground):
    """The turn to come at a call, from its place on, with a head at its end."""
    points = [ground(place) for place in ground.ahead.places if ground.within(place)] if ground.ahead else []
    if len(points) < 2:
        return
    path(group, "ahead", points)
    (x, y), (after_x, after_y) = points[-2:]
    length = math.hypot(after_x - x, after_y - y)
    if length > 0:
        head(group, "tip", (after_x, after_y), ((after_x - x) / length, (after_y - y) / length), 12)
    label(group, "ink small over", *points[0], f"ahead of call {ground.ahead.number}")


def draw_map(page, ground):
    draw_map_axes(page, ground)
    group = clipped(page, "map", ground.box)
    draw_aims(group, ground)
    draw_track(group, ground)
    draw_beside(group, ground)
    draw_route(group, ground)
    draw_ahead(group, ground)
    draw_aim_numbers(group, ground)
    draw_ends(group, ground)
    frame(page, "frame", ground.box)


# ---- what is not on the map


def aim_notes(ground, recording):
    """Of the aims of a recording; numbers are those on the map."""
    own = aims(*recording)
    outside = [(n, aim) for n, aim in enumerate(ground.aimed, 1) if aim in own and not ground.within(aim.at)]
    notes = []
    for n, (at, leg, radius) in outside[:MOST_LISTED]:
        what = "leg through" if leg else f"loiter, {radius:.3g} m, round"
        notes.append(f"aim {n}, a {what} {at[0]:g} m north, {at[1]:g} m east")
    if outside[MOST_LISTED:]:
        notes.append(f"{len(outside) - MOST_LISTED} more aims")
    for radius in {aim.radius for aim in own if aim.radius and not ground.circle(aim.radius)}:
        notes.append(f"circles of {radius:.3g} m, far larger than the map")
    return notes


def map_notes(ground, recording):
    """In words: the calls and the aims of a recording that are not on the map."""
    asked = [m for m in recording[0] if m.call.kind == "waypoint"]
    waypoints = [m for m in asked if not ground.within(m.place)]
    notes = [
        of_calls([m for m in waypoints if m.place is None], "with a position that is not finite"),
        of_calls([m for m in waypoints if m.place], "with a position far off the others"),
        of_calls([m for m in recording[0] if m.refused and m.call.kind != "waypoint"], "refused, of a kind that reports no position"),
        *aim_notes(ground, recording),
        of_calls([m for m in asked if not finite_values(m.call.numbers["at"])], "with an aim that is not finite"),
    ]
    return [note for note in notes if note]


def route_notes(ground):
    """In words: the points of the route that are not on the map."""
    far = [n for n, place in enumerate(ground.route, 1) if not ground.within(place)]
    return [f"of the route P{listed(far)}"] if far else []


def told_counts(ground):
    """How many points and refused places are told and not drawn, for whoever counts them."""
    told = [m for m in ground.flown if (m.law or m.refused) and not ground.within(m.place)]
    counts = collections.Counter(m.law or "refused" for m in told)
    counts["idle"] = sum(m.idle for m in told)
    return {f"data_{name}": counts[name] for name in ("energy", "hold", "fallback", "idle", "refused")}


def draw_notes(page, ground, left, top):
    """Lines below the map: how far the turn to come goes, and what is not on the map; the place after them."""
    group = add(page, "g", "told", **told_counts(ground))
    notes = map_notes(ground, ground.recordings[0])
    heads = [(f"The turn to come at call {ground.ahead.number}", [ground.ahead.words])] if ground.ahead else []
    for title, lines in heads + ([("Not on the map", notes)] if notes else []):
        label(group, "ink name", left, top, title)
        for note in lines:
            for n, text in enumerate(textwrap.wrap(note, NOTE_WIDTH)):
                top += 18
                label(group, "ink small", left + (12 if n else 0), top, text)
        top += 26
    return top
