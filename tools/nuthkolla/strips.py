"""The page's strips over time: marks of calls, the setpoint with its limits, and what the sensors report."""

import math
import textwrap
from collections.abc import Callable
from typing import NamedTuple

from nuthkolla.flight import LONGEST_STEP, in_force, off_scale, runs
from nuthkolla.numbers import is_finite, value
from nuthkolla.svg import Scale, add, cross, frame, hatched, label, line, paths, square, steps, usual_span
from nuthkolla.words import of_calls

STRIP_HEIGHT, STRIP_GAP = 112, 34
MOST_TICKS, HALF_LETTER = 9, 3.6
NOTE_WIDTH = 58  # letters


# ---- the quantities


def limit_under(limit, call):
    """The limit under the call's cap, where it has one that is a number."""
    bits = call.numbers.get("cap", ())
    cap = value(bits[0]) if bits else math.nan
    return limit if math.isnan(cap) or cap < 0 else min(limit, cap)


def roll_limits(of, moment):
    return (-math.degrees(of["max_bank_rad"]), math.degrees(of["max_bank_rad"])) if moment.law else None


def pitch_limits(of, moment):
    """A hold's pitch is the trim, whatever the limits."""
    if moment.law in (None, "hold"):
        return None
    down, up = (limit_under(of[name], moment.call) for name in ("max_pitch_down_rad", "max_pitch_up_rad"))
    return -math.degrees(down), math.degrees(up)


def thrust_limits(of, moment):
    """A hold's thrust is the cruise thrust, whatever the limits."""
    return None if moment.law in (None, "hold") else (of["min_thrust"], max(of["max_thrust"], of["min_thrust"]))


def setpoint(at, shown):
    """The number of an answer at a place, as it is shown; a rate setpoint has thrust alone."""

    def number(moment):
        answer = moment.answer
        if answer.kind not in ("plane", "waypoint") and not (answer.kind == "rate" and at == 2):
            return None
        bits = answer.numbers[3 if answer.kind == "rate" else at]
        return shown(value(bits)) if is_finite(bits) else None

    return number


def distance(moment):
    """Metres off the leg or the loiter's tangent, of a waypoint's answer that is not idle."""
    bits = moment.answer.numbers[3] if moment.law and not moment.idle else None
    return value(bits) if bits is not None and is_finite(bits) else None


def no_limits(of, moment):
    return None


def no_demand(moment):
    return None


class Strip(NamedTuple):
    """One quantity over time. answer: whether it is part of answers, which stay in force, or reported with each call."""

    name: str
    title: str
    unit: str
    answer: bool
    number: Callable
    limits: Callable = no_limits
    demand: Callable = no_demand


STRIPS = [
    Strip("roll", "Roll, degrees, right (starboard) is positive", "°", True, setpoint(0, math.degrees), roll_limits),
    Strip("pitch", "Pitch, degrees, nose up is positive", "°", True, setpoint(1, math.degrees), pitch_limits),
    Strip("thrust", "Thrust, share of full thrust", "", True, setpoint(2, float), thrust_limits),
    Strip("off", "Off the line, metres, starboard is positive", " m", True, distance),
    Strip(
        "height",
        "Height, metres",
        " m",
        False,
        lambda m: m.number_of("position", 2),
        demand=lambda m: m.number_of("altitude"),
    ),
    Strip(
        "airspeed",
        "Airspeed, metres a second",
        " m/s",
        False,
        lambda m: m.number_of("airspeed"),
        demand=lambda m: m.number_of("cruise"),
    ),
]


# ---- a strip


class Column:
    """Where the strips stand: left and right edge, the scale of time, a strip's height and the gap above it.

    guard: whether the stall guard stands after each call.
    """

    def __init__(self, flown, guard, left, right, height=STRIP_HEIGHT, gap=STRIP_GAP):
        self.flown, self.guard, self.left, self.right = flown, guard, left, right
        self.height, self.gap = height, gap
        self.time = Scale((0.0, max(flown[-1].along, 1.0)), (left, right))

    def box(self, top, height):
        return self.left, top, self.right, top + height


def draw_spans(page, column, top, bottom):
    """Grey where the answers were holds; a dotted line where a call was refused."""
    held = runs([m for m in column.flown if not m.refused], lambda m: 1 if m.law == "hold" else None)
    ends = [(column.time(run.steps[0][0]), column.time(run.end)) for run in held]
    corners = [(first, max(last, first + 1.0)) for first, last in ends]
    paths(page, "span", [[(first, top), (last, top), (last, bottom), (first, bottom)] for first, last in corners])
    refused = [column.time(moment.along) for moment in column.flown if moment.refused]
    paths(page, "refused through", [[(x, top), (x, bottom)] for x in refused])


def draw_guard(page, column, top, bottom):
    """Where the stall guard stands, which keeps an energy step's thrust at its top; with its first call and how many there are."""
    stands = dict(zip((m.number for m in column.flown), column.guard))
    for run in runs(column.flown, lambda m: m.number if stands[m.number] else None):
        first, last = column.time(run.steps[0][0]), column.time(run.end)
        box = (first, top, max(last, first + 1.0), bottom)
        hatched(page, "guard", box, data_first=run.steps[0][1], data_calls=len(run.steps))


def strip_span(strip, limits, numbers, demands):
    """The least and the greatest that a strip shows: its limits, and what is not far off the rest."""
    if strip.name == "thrust":
        return -0.05, 1.05
    if strip.unit == "°":
        shown = [v for v in numbers if abs(v) <= 180]
    else:
        shown = usual_span(numbers or demands, demands) if numbers or demands else ()
    ends = [end for pair in limits for end in pair] + list(shown) or [0.0]
    room = max(0.12 * (max(ends) - min(ends)), 1.0)
    return min(ends) - room, max(ends) + room


def stairs(run, column, scale):
    """Points of a line that keeps each number until the next time, the last call's to the end."""
    end = column.time.high if run.steps[-1][0] == column.flown[-1].along else run.end
    points = []
    for n, (time, number) in enumerate(run.steps):
        if n == 0 or number != run.steps[n - 1][1]:
            points += [(column.time(time), scale(number))] * 2
        points[-1] = (column.time(run.steps[n + 1][0] if n + 1 < len(run.steps) else end), scale(number))
    return points


def end_label(page, column, y, text):
    label(page, "ink small", column.right + 6, y + 4, text)


def draw_limits(page, strip, column, limits, scale):
    """limits: (moment, pair or none) of each answer in force."""
    pairs = {m.number: pair for m, pair in limits if pair and all(map(scale.within, pair))}
    if not pairs:
        return
    for side in (0, 1):
        found = runs([m for m, _ in limits], lambda m: pairs.get(m.number, (None, None))[side])
        paths(page, "limit", [stairs(run, column, scale) for run in found])
    low, high = list(pairs.values())[-1]
    if abs(scale(low) - scale(high)) < 14:
        end_label(page, column, scale(high), f"limits {low:.3g}, {high:.3g}{strip.unit}")
        return
    for end in (low, high):
        end_label(page, column, scale(end), f"limit {end:.3g}{strip.unit}")


def draw_demand(page, strip, column, scale):
    found = runs([m for m in column.flown if m.call.kind != "prime"], lambda m: inside(strip.demand(m), scale))
    paths(page, "demand", [stairs(run, column, scale) for run in found])
    if found:
        last = found[-1].steps[-1][1]
        end_label(page, column, scale(last), f"demand {last:.3g}{strip.unit}")


def inside(number, scale):
    return number if number is not None and scale.within(number) else None


def outside_words(numbers, scale):
    count = sum(not scale.within(v) for v in numbers)
    return f"; {count} call{'s' * (count > 1)} outside" if count else ""


def draw_strip(page, strip, column, configuration, top):
    # A prime takes no time and reports nothing.
    flown = in_force(column.flown) if strip.answer else [m for m in column.flown if m.call.kind != "prime"]
    of = {name: value(bits) for name, bits in configuration.items()}
    limits = [(m, strip.limits(of, m)) for m in flown]
    numbers, demands = ([v for v in map(part, flown) if v is not None] for part in (strip.number, strip.demand))
    box = column.box(top, column.height)
    bottom = box[3]
    span = strip_span(strip, [pair for _, pair in limits if pair], numbers, demands)
    scale = Scale(span, (bottom, top))
    draw_spans(page, column, top, bottom)
    for v in steps(scale.low, scale.high, 6):
        line(page, "grid", column.left, scale(v), column.right, scale(v))
        label(page, "soft end", column.left - 7, scale(v) + 4, f"{v:g}")
    group = add(page, "g", f"strip-{strip.name}")
    if strip.name == "thrust":
        draw_guard(group, column, top, bottom)
    draw_limits(group, strip, column, limits, scale)
    draw_demand(group, strip, column, scale)
    found = runs(flown, lambda m: inside(strip.number(m), scale))
    paths(group, f"line {strip.name}", [stairs(run, column, scale) for run in found])
    label(page, "ink", column.left, top - 9, strip.title + outside_words(numbers, scale))
    frame(page, "frame", box)
    return scale


# ---- the band of marks


def refusal_groups(column):
    """Refused calls whose marks nearly touch: the page's place of each, and the refusals' numbers."""
    groups = []
    for moment in column.flown:
        if moment.refused:
            x = column.time(moment.along)
            if groups and x - groups[-1][0][-1] < 16:
                groups[-1][0].append(x)
                groups[-1][1].append(moment.answer.refusal)
            else:
                groups.append(([x], [moment.answer.refusal]))
    return groups


def draw_refusal_marks(page, column, y):
    for places, numbers in refusal_groups(column):
        for x in places:
            cross(page, "mark refused", x, y, 4)
        text = ", ".join(map(str, dict.fromkeys(numbers)))
        label(page, "ink small", places[-1] + 8, y + 4, text)


def draw_law_marks(page, column, held, fell_back, idle):
    """The places of the rows; the last is that before it where no call is idle."""
    for moment in column.flown:
        x = column.time(moment.along)
        if moment.law == "hold":
            square(page, "mark hold", x, held, 3)
        elif moment.law == "fallback":
            add(page, "circle", "mark fallback", cx=x, cy=fell_back, r=3)
        if moment.idle:
            add(page, "circle", "mark idle ring", cx=x, cy=idle, r=4)


def draw_band(page, column, top):
    """A mark for each refused call, each hold, each fallback and each idle call; the place of its lower edge."""
    some_idle = any(moment.idle for moment in column.flown)
    names = ["refused", "held", "fell back", *["idle"] * some_idle]
    rows = [top + 13 + 19 * n for n in range(len(names))]
    box = column.box(top, 19 * len(names) + 6)
    words = "refused, held, fell back or idle" if some_idle else "refused, held or fell back"
    label(page, "ink name", column.left, top - 12, f"Calls that were {words}")
    for name, y in zip(names, rows):
        label(page, "soft end", column.left - 7, y + 4, name)
    for y in rows[1:]:
        line(page, "grid", column.left, y - 10, column.right, y - 10)
    draw_refusal_marks(page, column, rows[0])
    draw_law_marks(page, column, rows[1], rows[2], rows[-1])
    frame(page, "frame", box)
    return box[3]


# ---- the axis of time


def ticks(column):
    """Round seconds, as they are written, each with its place along the axis; in a step that is drawn shorter there is one at most."""
    apart = steps(column.time.low, column.time.high, MOST_TICKS)[1]
    found = [("0", 0.0)]
    for before, moment in zip(column.flown, column.flown[1:]):
        passed, drawn = moment.time - before.time, moment.along - before.along
        first, last = math.floor(before.time / apart) + 1, math.floor(moment.time / apart)
        for n in range(max(first, last) if passed > 2 * drawn else first, last + 1):
            place, text = before.along + drawn * (n * apart - before.time) / passed, f"{n * apart:.10g}"
            if column.time(place) - column.time(found[-1][1]) > HALF_LETTER * len(text + found[-1][0]) + 4:
                found.append((text, place))
    return found


def off_scale_words(flown):
    """In words: where the axis is not to scale."""
    refused, long = off_scale(flown)
    notes = [
        of_calls(refused, "with a refused time step, counted as 0 s and drawn as the step before"),
        of_calls(long, f"with a time step of over {LONGEST_STEP} usual ones, drawn as a usual one"),
    ]
    return [part for note in notes if note for part in textwrap.wrap(f"Time is not to scale: {note}", NOTE_WIDTH)]


def draw_time_axis(page, column, bottom):
    """Seconds, below them the number of the call at that time, by which the desk program's lines go, and words; their lowest place."""
    for seconds, along in ticks(column):
        number = max(m.number for m in column.flown if m.along <= along + 1e-6)
        x = column.time(along)
        line(page, "tick", x, bottom, x, bottom + 5)
        label(page, "soft middle", x, bottom + 18, seconds)
        label(page, "soft middle", x, bottom + 36, f"{number}")
    label(page, "ink", column.right + 14, bottom + 18, "seconds")
    label(page, "ink", column.right + 14, bottom + 36, "call")
    lowest = bottom + 36
    for words in off_scale_words(column.flown):
        lowest += 18
        label(page, "ink small", column.left, lowest, words)
    return lowest


def draw_over_time(page, column, configuration, top):
    """The band, every strip and the axis, from a place down; the places of the last strip's lower edge and of the last words."""
    top = draw_band(page, column, top)
    for strip in STRIPS:
        top += column.gap
        draw_strip(page, strip, column, configuration, top)
        top += column.height
    return top, draw_time_axis(page, column, top)
