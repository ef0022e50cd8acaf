"""The sheet that ./desk draw makes: its title, the map, the strips over time and the legend."""

import textwrap
import xml.etree.ElementTree as ET

from nuthkolla import refusals
from nuthkolla.flight import stall_guard
from nuthkolla.ground import Ground, draw_map, draw_notes
from nuthkolla.strips import Column, draw_over_time
from nuthkolla.style import style
from nuthkolla.svg import add, cross, hatched, head, label, line, square

WIDTH = 1240
MAP = (78, 110, 560, 780)  # left, top, right, bottom
STRIPS_LEFT, STRIPS_RIGHT = 668, 1120
TOP = MAP[1]
LETTER = 7.5  # about the width of a letter of the legend
HEAD_WIDTH = 145  # letters


def summary(flown):
    counts = {law: sum(m.law == law for m in flown) for law in ("energy", "fallback", "hold")}
    refused = sum(m.refused for m in flown)
    other = len(flown) - refused - sum(counts.values())
    time = flown[-1].time
    words = [f"{len(flown)} call{'s' * (len(flown) > 1)} in {f'{time:.0f}' if time < 1e9 else f'{time:g}'} s"]
    idle = sum(m.idle for m in flown)
    laws = f"{counts['energy']} energy, {counts['fallback']} fallback, {counts['hold']} hold"
    words += [f"waypoint answers: {laws}" + (f", {idle} of them idle" if idle else "")]
    words += [f"{other} other answers", f"{refused} refused"]
    return "; ".join(words)


def stopped_head(ending):
    """What stands before all else of a recording that was not read to its end."""
    return [f"The replay stopped early: {ending}"] if ending else []


# ---- the legend


def legend_items(flown, ahead):
    """What each sign means: how it is drawn beside a place, and its words."""
    numbers = sorted({m.answer.refusal for m in flown if m.refused})
    reasons = "; ".join(f"{n}: {refusals.CALL[n]}" for n in numbers)
    to_come = [(lambda g, x, y: line(g, "ahead", x, y, x + 28, y), "the turn to come")] if ahead else []
    return to_come + [
        (lambda g, x, y: add(g, "circle", "energy", cx=x + 14, cy=y, r=2.5), "waypoint call, energy law"),
        (lambda g, x, y: add(g, "circle", "fallback", cx=x + 14, cy=y, r=3), "fallback: no usable airspeed, or no cruise speed above 0"),
        (lambda g, x, y: square(g, "hold", x + 14, y, 3.5), "hold: trim pitch, cruise thrust (grey)"),
        (lambda g, x, y: add(g, "circle", "ring", cx=x + 14, cy=y, r=6), "idle: ground speed below 1 m/s, or a leg without length"),
        (lambda g, x, y: head(g, "way", (x + 19.0, y), (1.0, 0.0), 10), "direction of flight"),
        (lambda g, x, y: line(g, "limit", x, y, x + 28, y), "limits of waypoint answers"),
        (lambda g, x, y: line(g, "demand", x, y, x + 28, y), "height, cruise speed demanded"),
        (lambda g, x, y: hatched(g, "guard", (x, y - 6, x + 28, y + 6)), "stall guard stands"),
        (lambda g, x, y: line(g, "aim", x, y, x + 28, y), "leg or loiter circle that calls aim at, numbered in their order"),
        (lambda g, x, y: cross(g, "refused", x + 14, y, 4), f"refused call ({reasons})" if reasons else "refused call"),
    ]


def draw_legend(page, flown, ahead, top):
    """Rows of signs and words from a place down; the place of the last row."""
    x, y = MAP[0], top
    for draw, words in legend_items(flown, ahead):
        width = 38 + LETTER * len(words)
        if x > MAP[0] and x + width > WIDTH - 20:
            x, y = MAP[0], y + 26
        draw(page, x, y)
        label(page, "ink", x + 36, y + 4, words)
        x += width + 26
    return y


# ---- the page


def plain_text(text):
    """Text that an XML page can hold: other characters become question marks."""
    printable = "".join(c if c.isprintable() else "?" for c in text)
    return printable.encode("utf-8", "replace").decode("utf-8")


def draw_head(page, ending, words):
    """Below the title: why the replay ended early, and what the flight has."""
    lines = [part for told in stopped_head(ending) for part in textwrap.wrap(told, HEAD_WIDTH)] + [words]
    for n, told in enumerate(lines):
        label(page, "ink" if told == words else "ink name", MAP[0], 56 + 15 * n if len(lines) > 1 else 66, told)


def draw_page(title, configuration, flown, ending, ahead=None):
    """The whole page, as an XML element. ending: in words why the replay ended early; empty where it did not."""
    title = plain_text(title)
    page = ET.Element("svg", {"xmlns": "http://www.w3.org/2000/svg", "role": "img"})
    add(page, "title", None, title)
    add(page, "desc", None, "; ".join([*stopped_head(ending), summary(flown)]))
    add(page, "style", None, style())
    paper = add(page, "rect", "paper", width=WIDTH)
    label(page, "ink title", MAP[0], 40, title)
    draw_head(page, ending, summary(flown))
    ground = Ground([(flown, configuration)], MAP, ahead)
    draw_map(page, ground)
    noted = draw_notes(page, ground, MAP[0], MAP[3] + 70)
    column = Column(flown, stall_guard(configuration, flown), STRIPS_LEFT, STRIPS_RIGHT)
    _, lowest = draw_over_time(page, column, configuration, TOP)
    height = draw_legend(page, flown, ahead, max(lowest + 30, noted + 10)) + 30
    paper.set("height", str(height))
    page.set("viewBox", f"0 0 {WIDTH} {height}")
    page.set("width", str(WIDTH))
    page.set("height", str(height))
    return page
