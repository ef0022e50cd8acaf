"""Words for people: refusals, and setpoints in degrees with the sides of a boat."""

import math

from nuthkolla import refusals
from nuthkolla.numbers import is_finite, to_text, value
from nuthkolla.record import Refusal, is_second, read_call
from nuthkolla.settings import PAIRS, SETTINGS


def refused_words(number):
    return f"refused, {refusals.CALL[number]} ({number})"


def setting_words(field, configuration):
    """Why a configuration is refused at a field."""
    if field in PAIRS:
        least, greatest = ((name, to_text(configuration[name])) for name in PAIRS[field])
        return f"field {field}, {least[0]}, {least[1]}, is above {greatest[0]}, {greatest[1]}"
    setting = SETTINGS[field - 1]
    unit = f" {setting.unit}" if setting.unit else ""
    given = to_text(configuration[setting.name])
    return f"field {field}, {setting.name}, has to be {setting.passes}; it is {given}{unit}"


# ---- numbers


def shown(number, unit):
    """A size with one decimal; one that is very great with few digits."""
    return f"{number:.1f}{unit}" if number < 1e6 else f"{number:.3g}{unit}"


def turned(bits, unit, level, below, above, scale=math.degrees):
    """A size with its side: level where it shows as zero, or the words of its sign's side."""
    number = value(bits)
    if math.isnan(number):
        return "not a number"
    size, side = abs(scale(number)), below if number < 0 else above
    if math.isinf(size):
        return f"infinite {side}"
    return level if shown(size, unit) == shown(0.0, unit) else f"{shown(size, unit)} {side}"


def bank_words(bits):
    """Roll, right positive."""
    words = turned(bits, "°", "level", "to port", "to starboard")
    return "wings level" if words == "level" else f"bank {words}"


def nose_words(bits):
    """Pitch, nose up positive."""
    return "nose " + turned(bits, "°", "level", "down", "up")


def share_words(bits):
    """Thrust, of full thrust."""
    share = value(bits)
    return f"{share * 100:.0f} %" if math.isfinite(share) else "not a number"


def thrust_words(bits):
    return f"thrust {share_words(bits)}"


def distance_words(bits):
    """Metres off the line, right positive."""
    words = turned(bits, " m", "on", "to port", "to starboard", scale=float)
    told = {"on": "on the line", "not a number": "distance off the line not a number"}
    return told.get(words, f"{words} of the line")


def plane_words(numbers):
    """A plane setpoint, and what follows it."""
    words = [bank_words(numbers[0]), nose_words(numbers[1]), thrust_words(numbers[2])]
    return ", ".join(words + [distance_words(bits) for bits in numbers[3:4]])


def rate_parts(numbers):
    """Roll, pitch and yaw rate, and thrust."""
    roll, pitch, yaw, thrust = numbers
    return [
        "rolling " + turned(roll, "°/s", "not at all", "to port", "to starboard"),
        "pitching " + turned(pitch, "°/s", "not at all", "down", "up"),
        "yawing " + turned(yaw, "°/s", "not at all", "to port", "to starboard"),
        thrust_words(thrust),
    ]


def rate_words(numbers):
    return ", ".join(rate_parts(numbers))


def answer_words(answer):
    """An answer without its laws; empty for a prime, which has none."""
    if answer.kind == "refused":
        return refused_words(answer.refusal)
    if answer.kind == "rate":
        return rate_words(answer.numbers)
    # An idle answer has a line of no length, or too little speed: its distance is none.
    numbers = answer.numbers[:3] if answer.laws[:1] == ("idle",) else answer.numbers
    return plane_words(numbers) if numbers else ""


def call_words(call, answer):
    """A call by its kind, and its answer."""
    head = ", ".join([call.kind, *([" ".join(answer.laws)] if answer.laws else [])])
    words = answer_words(answer)
    return f"{head}: {words}" if words else head


# ---- calls by their numbers

MOST_LISTED = 6


def listed(numbers):
    """Numbers in words: runs as `7 to 9`, and how many more there are."""
    parts = []
    for number in numbers:
        if parts and parts[-1][1] == number - 1:
            parts[-1][1] = number
        else:
            parts.append([number, number])
    words = [f"{a}" if a == b else f"{a} to {b}" if b > a + 1 else f"{a}, {b}" for a, b in parts[:MOST_LISTED]]
    left = sum(b - a + 1 for a, b in parts[MOST_LISTED:])
    return ", ".join(words) + (f" and {left} more" if left else "")


def of_calls(found, what):
    return f"{len(found)} call{'s' * (len(found) > 1)} {what}: {listed([m.number for m in found])}" if found else None


# ---- for a page: a call's command, laws and numbers apart

LAWS = {
    "track": "track: along the leg",
    "loiter": "loiter: round the point, clockwise",
    "idle": "idle: wings level, too slow or a leg without length",
    "energy": "energy: height and airspeed together",
    "hold": "hold: trim pitch and cruise thrust, a height, climb, speed or demand is not finite",
    "fallback": "fallback: height alone, no usable airspeed, or no cruise speed above 0",
}
STICKS = {
    "attitude": "sticks, attitude",
    "rate": "sticks, rates",
    "absolute-attitude": "attitude in rad",
    "absolute-rate": "rates in rad/s",
}


def sized(bits):
    """A number with its sign, as a size is shown; what is not finite in a word."""
    number = value(bits)
    return ("-" if number < 0 else "") + shown(abs(number), "") if is_finite(bits) else to_text(bits)


def place_words(north, east):
    return f"{sized(north)} m north, {sized(east)} m east"


def waypoint_words(numbers):
    place, leg = place_words(*numbers["at"]), numbers.get("leg")
    aim = f"waypoint: the leg through {place}" if leg and all(map(is_finite, leg)) else f"waypoint: loiter round {place}"
    cap = f", pitch within {turned(numbers['cap'][0], '°', '0.0°', '(below 0)', '')}".rstrip() if "cap" in numbers else ""
    return f"{aim}, at {sized(numbers['altitude'][0])} m and {sized(numbers['cruise'][0])} m/s{cap}"


def command_words(call):
    """What a call asks for."""
    if call.kind == "waypoint":
        words = waypoint_words(call.numbers)
    elif call.kind in STICKS:
        given = ", ".join(f"{name} {to_text(bits[0])}" for name, bits in call.numbers.items() if name != "dt")
        words = f"{STICKS[call.kind]}: {given}"
    else:
        words = call.kind
    return words + ("; copter asked for" if call.regime == "copter" else "")


def law_words(answer):
    return "; ".join(LAWS[law] for law in answer.laws)


def sensor_words(call):
    """What a waypoint call reports, with what it demands; empty for another call."""
    if call.kind != "waypoint":
        return {}
    position, airspeed = call.numbers["position"], call.numbers.get("airspeed")
    cruise = f"demand {sized(call.numbers['cruise'][0])} m/s"
    return {
        "position": place_words(*position[:2]),
        "height": f"{sized(position[2])} m, demand {sized(call.numbers['altitude'][0])} m",
        "airspeed": f"{sized(airspeed[0])} m/s, {cruise}" if airspeed else f"none reported, {cruise}",
    }


def setpoint_words(answer):
    """Roll, pitch, yaw, thrust and metres off the line, each by its name; only those that the answer has."""
    if answer.kind in ("refused", "prime"):
        return {}
    if answer.kind == "rate":
        words = [*rate_parts(answer.numbers)[:3], share_words(answer.numbers[3])]
        return dict(zip(("roll", "pitch", "yaw", "thrust"), words))
    words = [bank_words(answer.numbers[0]), nose_words(answer.numbers[1]), share_words(answer.numbers[2])]
    found = dict(zip(("roll", "pitch", "thrust"), words))
    if answer.laws:
        found["off"] = "idle: no line" if answer.laws[0] == "idle" else distance_words(answer.numbers[3]).removesuffix(" of the line")
    return found


# ---- how a replay ended early


def reads(data, place, either):
    """Whether a call's record can be read at a place."""
    try:
        read_call(data, place, either)
    except Refusal:
        return False
    return True


def is_text(data):
    """Whether it begins as a text form does: with a word or a comment, and printed signs alone."""
    return data[:1] in (b"#", b"c") and all(sign in b"\t\n\r" or 32 <= sign < 127 for sign in data[:64])


def likely(ending, recording, data):
    """What is likely, and what helps, of a record that cannot be read; empty where nothing is known."""
    configuration, calls, refusal = recording
    if configuration is None:
        if not data:
            return refusals.EMPTY
        return refusals.TEXT if is_text(data) else refusals.NO_CONFIGURATION if reads(data, 0, True) else ""
    if refusal is None or ending[0] != str(len(calls) + 1):
        return ""
    if refusal.number == refusals.BAD_MAP and is_second(data, refusal.place) and reads(data, refusal.place, True):
        return refusals.SECOND_EDITION
    return refusals.ENDS_WITHIN if refusal.number == refusals.SHORT else ""


def ending_words(ending, recording, data):
    """The words of the line that ended a replay early. recording: what nuthkolla.record reads of the data."""
    if ending[:2] == ["config", "refused"]:
        return f"configuration refused: {setting_words(int(ending[2]), recording[0])}"
    number, is_configuration = int(ending[2]), ending[0] == "config"
    words = (refusals.CONFIGURATION_RECORD if is_configuration else refusals.CALL_RECORD).get(number, "refused")
    name = "configuration" if is_configuration else f"call {ending[0]}"
    helps = likely(ending, recording, data)
    return f"{name} stopped, {words} ({number}){': ' * bool(helps)}{helps}"
