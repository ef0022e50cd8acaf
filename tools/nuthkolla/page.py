"""The page of a recording, for a browser: what stands is drawn here, and its script moves through the calls.

The page works out nothing: every number of it is one of the recording or of the archive, every word is put together here.
"""

import base64
import html
import itertools
import json
import pathlib
import struct
import xml.etree.ElementTree as ET

from nuthkolla.ground import Ground, draw_map, map_notes, route_notes
from nuthkolla.numbers import value
from nuthkolla.paper import legend_items, plain_text, stopped_head, summary
from nuthkolla.strips import Column, draw_over_time
from nuthkolla.style import themed_style
from nuthkolla.svg import add, label, line, path
from nuthkolla.words import call_words, command_words, law_words, refused_words, sensor_words, setpoint_words

WEB = pathlib.Path(__file__).resolve().parent / "web"

# The drawings, in units of which a letter is some 7 wide: narrow, so that letters can be read at a phone's width.
MAP_WIDTH, MAP_HEIGHT = 500, 512
MAP = (66, 30, 490, 462)  # left, top, right, bottom
STRIPS_WIDTH, STRIPS_LEFT, STRIPS_RIGHT, STRIPS_TOP = 500, 70, 392, 30
STRIP_HEIGHT, STRIP_GAP = 74, 28

# What is told of a call by its name and title: what stays in sight, and what stands below it.
NUMBERS = {
    "call": "Call",
    "roll": "Roll",
    "pitch": "Pitch",
    "yaw": "Yaw",
    "thrust": "Thrust",
    "off": "Off the line",
    "guard": "Stall guard",
    "height": "Height",
    "airspeed": "Airspeed",
}
DETAILS = {
    "command": "Command",
    "laws": "Laws",
    "refusal": "Refusal",
    "turn": "Turn to come",
    "position": "Position",
    "line": "Line of the desk program, numbers as bits",
}
# The points of a turn to come that a page holds: of one recording, of each of two, so that the page is at most 10 MB. A point's bytes.
MOST_POINTS, MOST_OF_TWO, POINT = 48, 24, 8
ACCEPTED, NO_GUARD, GUARD, GUARD_STEP = "none", "does not stand", "▲ stands", "▲ stands: thrust at its top"
# Tiles that are marked, but for these words.
ALARMS = {"refusal": [ACCEPTED], "guard": [NO_GUARD]}


# ---- a call in words


def guard_words(stands, moment):
    """Only an energy step's thrust is at its top while the guard stands."""
    return (GUARD_STEP if moment.law == "energy" else GUARD) if stands else NO_GUARD


def told_call(replay, n):
    """What is told of a call, by name."""
    moment = replay.flown[n]
    time = f"{moment.time:.1f} s" if moment.time < 1e9 else f"{moment.time:g} s"
    words = {
        "call": f"{moment.number} of {len(replay.flown)}\nat {time}",
        "guard": guard_words(replay.guard[n], moment),
        "command": command_words(moment.call),
        "laws": law_words(moment.answer),
        "refusal": "✕ " + refused_words(moment.answer.refusal) if moment.refused else ACCEPTED,
        "turn": replay.turns[n].words,
        "line": replay.lines[n],
        "said": f"call {moment.number}, {call_words(moment.call, moment.answer)}",
    }
    reported = {name: told.replace(", demand", "\ndemand") for name, told in sensor_words(moment.call).items()}
    return words | reported | setpoint_words(moment.answer)


# ---- what the script reads

SAID = ("roll", "pitch", "yaw", "thrust", "off")


def in_parts(words):
    """What is told of a call, with what is said of it by the names of its parts: @roll@ for the words of its roll."""
    said, _, rest = words["said"].partition(": ")
    for name in SAID:
        part = words.get(name)
        if part and part in rest:
            rest = rest.replace(part, f"@{name}@", 1)
    number = words["call"].partition(" ")[0]
    return words | {"said": said.replace(f"call {number}", "call @number@", 1) + (f": {rest}" if rest else "")}


def packed(form, numbers):
    return base64.b64encode(struct.pack(f"<{len(numbers)}{form}", *numbers)).decode()


def column(words):
    """Words by call: each once, and its place in the table for each call."""
    table = {word: n for n, word in enumerate(dict.fromkeys(words))}
    return {"table": list(table), "at": packed("H", [table[word] for word in words])}


def pairs(flown, name):
    """North and east of a field at each call, as the recording has them; NaN where the call has none."""
    return [value(bits) for m in flown for bits in m.call.numbers.get(name, (0x7FC00000,) * 2)[:2]]


def marks(flown):
    """A number for each call: 0, or what is marked about it."""
    sorts = ("hold", "fallback")
    return [m.refused + 2 * m.idle + 4 * (sorts.index(m.law) + 1 if m.law in sorts else 0) for m in flown]


def scale_of(scale):
    return {"low": scale.low, "high": scale.high, "start": scale.start, "end": scale.end}


def thinned(points, most):
    """Of a turn's points every k-th and the last, so that there are at most so many."""
    found = [points[n : n + POINT] for n in range(0, len(points), POINT)]
    apart = -(-len(found) // most) or 1
    return b"".join(found[apart - 1 : -1 : apart] + found[-1:])


def recording_data(replay, time_scale, most_points):
    flown, told = replay.flown, [in_parts(told_call(replay, n)) for n in range(len(replay.flown))]
    turns = [thinned(turn.points, most_points) for turn in replay.turns]
    counts = [len(points) // POINT for points in turns]
    points = base64.b64encode(b"".join(turns)).decode()
    return {
        "name": replay.name,
        "along": packed("d", [m.along for m in flown]),
        "scale": scale_of(time_scale),
        "place": packed("f", pairs(flown, "position")),
        "way": packed("f", pairs(flown, "velocity")),
        "from": packed("I", list(itertools.accumulate(counts, initial=0))),
        "points": points,
        "marks": packed("B", marks(flown)),
        "words": {name: column([words.get(name, "") for words in told]) for name in [*NUMBERS, *DETAILS, "said"]},
    }


def script_text(data):
    """JSON that can stand in a page."""
    return json.dumps(data, separators=(",", ":"), ensure_ascii=False).replace("<", "\\u003c")


# ---- drawings


def svg(name, width, height, words):
    root = ET.Element("svg", {"class": "standing", "viewBox": f"0 0 {width} {height}", "role": "img", "aria-label": words})
    if name:
        root.set("id", name)
    return root


def text_of(element):
    return ET.tostring(element, encoding="unicode")


def draw_parting(group, ground, replays, parting):
    """Where two recordings part: a sign at the place of each call, with its number."""
    for replay, number, aside in zip(replays, parting or (), (16, -10)):
        place = replay.flown[number - 1].place if number else None
        if ground.within(place):
            x, y = ground(place)
            path(group, "parting", [(x - 9, y - 9), (x + 9, y - 9), (x + 9, y + 9), (x - 9, y + 9), (x - 9, y - 9)])
            label(group, "ink name over", x + 13, y + aside, f"{replay.name} parts, call {number}")


def map_text(ground, replays, parting):
    names = " and ".join(replay.name for replay in replays)
    page = svg("ground", MAP_WIDTH, MAP_HEIGHT, f"The track of {names} over ground, north is up, with legs and loiter circles")
    draw_map(page, ground)
    draw_parting(page, ground, replays, parting)
    return text_of(page)


def strips_text(replay, hidden):
    """The strips of a recording, and its scale of time."""
    held = Column(replay.flown, replay.guard, STRIPS_LEFT, STRIPS_RIGHT, STRIP_HEIGHT, STRIP_GAP)
    words = f"{replay.name} over time: marks, roll, pitch, thrust, metres off the line, height and airspeed"
    page = svg(None, STRIPS_WIDTH, 0, words)
    bottom, lowest = draw_over_time(page, held, replay.configuration, STRIPS_TOP)
    box = f"0 0 {STRIPS_WIDTH} {lowest + 8}"
    page.set("viewBox", box)
    moving = ET.Element("svg", {"class": "moving", "viewBox": box, "aria-hidden": "true"})
    cursor = add(moving, "g", "cursor-at")
    line(cursor, "cursor", 0, STRIPS_TOP - 6, 0, bottom + 4)
    path(cursor, "pointer", [(-6, STRIPS_TOP - 8), (6, STRIPS_TOP - 8), (0, STRIPS_TOP + 1), (-6, STRIPS_TOP - 8)])
    path(cursor, "pointer", [(-6, bottom + 10), (6, bottom + 10), (0, bottom + 1), (-6, bottom + 10)])
    text = f'<div class="drawing strips"{" hidden" * hidden}>{text_of(page)}{text_of(moving)}</div>'
    return text, held.time


# ---- words


def tiles_text(titles, replays):
    """Yaw has a tile where some answer has a yaw rate."""
    rates = any(m.answer.kind == "rate" for replay in replays for m in replay.flown)
    shown = {name: title for name, title in titles.items() if name != "yaw" or rates}
    return "\n".join(f'<div class="tile" id="tile-{name}"><dt>{title}</dt><dd>—</dd></div>' for name, title in shown.items())


def shown_text(replays):
    """Which of two recordings is moved through."""
    if len(replays) < 2:
        return ""
    choices = [
        f'<label><input type="radio" name="shown" value="{n}"{" checked" * (n == 0)}> {html.escape(r.name)}, '
        f'{("first recording, solid track", "second recording, dotted track")[n]}</label>'
        for n, r in enumerate(replays)
    ]
    return f"<fieldset><legend>Calls, strips and plane of</legend>{''.join(choices)}</fieldset>"


def agreement_text(agreement, replays):
    """agreement: title, sentences, and for each recording drawn the call to go to or 0."""
    if agreement is None:
        return ""
    buttons = [
        f'<button type="button" data-recording="{n}" data-call="{call}">Go to call {call} of {html.escape(replay.name)}</button>'
        for n, (replay, call) in enumerate(zip(replays, agreement.calls))
        if call
    ]
    words = html.escape(" ".join(agreement.words))
    return f'<section id="agreement"><h2>{html.escape(agreement.title)}</h2><p>{words}</p>{" ".join(buttons)}</section>'


def shape(css, corners):
    """Draws corners round the middle of a sign."""
    return lambda group, x, y: path(group, css, [(x + 14 + dx, y + dy) for dx, dy in [*corners, corners[0]]])


PLANE_SIGN = shape("plane", [(0, -8), (6, 7), (0, 4), (-6, 7)]), "the plane at the call shown, pointing along its ground velocity"
SECOND_SIGNS = [
    (lambda group, x, y: line(group, "other", x, y, x + 28, y), "track of the second recording"),
    (shape("parting", [(-7, -7), (7, -7), (7, 7), (-7, 7)]), "call at which the recordings part"),
]
ROUTE_SIGN = shape("route", [(0, -6), (6, 0), (0, 6), (-6, 0)]), "point of the route, P and its number"


def signs_text(flown, two, route):
    """What each sign means."""
    signs = [PLANE_SIGN, *legend_items(flown, ahead=True), *(SECOND_SIGNS if two else []), *([ROUTE_SIGN] if route else [])]
    rows = []
    for draw, words in signs:
        small = ET.Element("svg", {"viewBox": "0 0 32 18", "aria-hidden": "true"})
        draw(small, 2, 9)
        rows.append(f"<li>{text_of(small)}<span>{html.escape(words)}</span></li>")
    return "\n".join(rows)


def notes_text(ground, replays):
    """What is not on the map, for each recording and of the route."""
    found = []
    for replay, recording in zip(replays, ground.recordings):
        found.append((f"{replay.name}: not on the map", map_notes(ground, recording)))
    found.append(("Not on the map", route_notes(ground)))
    items = [(title, "".join(f"<li>{html.escape(words)}</li>" for words in lines)) for title, lines in found if lines]
    return "\n".join(f"<h2>{html.escape(title)}</h2><ul>{lines}</ul>" for title, lines in items)


# ---- the page


def filled(name, **parts):
    """A file of web/ with its places filled, each once."""
    text = (WEB / name).read_text("utf-8")
    pieces = text.split("@")
    return "".join(parts[piece.replace("-", "_")] if n % 2 else piece for n, piece in enumerate(pieces))


def flight_text(replays, agreement, route):
    """The page's main part, of one or two recordings that have calls."""
    ground = Ground([(replay.flown, replay.configuration) for replay in replays], MAP, route=route)
    most_points = MOST_POINTS if len(replays) == 1 else MOST_OF_TWO
    strips, scales = zip(*(strips_text(replay, n > 0) for n, replay in enumerate(replays)))
    data = {
        "east": scale_of(ground.east),
        "north": scale_of(ground.north),
        "alarms": ALARMS,
        "recordings": [recording_data(replay, scale, most_points) for replay, scale in zip(replays, scales)],
    }
    left, top, right, bottom = MAP
    return filled(
        "flight.html",
        agreement=agreement_text(agreement, replays),
        shown=shown_text(replays),
        numbers=tiles_text(NUMBERS, replays),
        details=tiles_text(DETAILS, replays),
        map=map_text(ground, replays, agreement and agreement.calls),
        map_box=f"0 0 {MAP_WIDTH} {MAP_HEIGHT}",
        clip=f'x="{left}" y="{top}" width="{right - left}" height="{bottom - top}"',
        strips="\n".join(strips),
        signs=signs_text([moment for replay in replays for moment in replay.flown], len(replays) > 1, route),
        notes=notes_text(ground, replays),
        last=str(len(replays[0].flown)),
        data=script_text(data),
    )


def summary_text(replay, named):
    """The head of a recording; why it ended early stands before all else."""
    name = f"{replay.name}: " * named
    head = "".join(f'<p class="stopped">{html.escape(name + told)}</p>' for told in stopped_head(replay.ending))
    words = summary(replay.flown) if replay.flown else "the recording has no calls" if not replay.ending else ""
    return head + (f"<p>{html.escape(name + words)}</p>" if words else "")


def page_text(title, replays, agreement=None, route=()):
    """The whole page. agreement: of two recordings; route: the places of a route's points."""
    drawn = [replay for replay in replays if replay.flown]
    if drawn:
        body = flight_text(drawn, agreement if len(drawn) == len(replays) else agreement and agreement._replace(calls=()), route)
    else:
        body = f"<main>{agreement_text(agreement, [])}</main>"
    return filled(
        "page.html",
        title=html.escape(plain_text(title)),
        style=themed_style() + (WEB / "page.css").read_text("utf-8"),
        summary="\n".join(summary_text(replay, len(replays) > 1) for replay in replays),
        body=body,
        script=(WEB / "page.js").read_text("utf-8"),
    )
