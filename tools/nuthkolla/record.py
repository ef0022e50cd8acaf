"""Records, as document 01 defines them: "Records and desk program". Numbers are held as their bits."""

from typing import NamedTuple

from nuthkolla.numbers import one_nan
from nuthkolla.refusals import BAD_BYTE, BAD_MAP, CALL_RECORD, CONFIGURATION_RECORD, SHORT
from nuthkolla.settings import SETTINGS

# The desk program reads this many calls, and so many bytes of a recording at most.
MOST_CALLS = 4096
MOST_BYTES = 137 + 86 * MOST_CALLS + 1


class Refusal(Exception):
    """A record that is refused: the refusal's number, the place of the record's first byte, and the words of its kind of record."""

    def __init__(self, number, place, words=CALL_RECORD):
        super().__init__(f"refusal {number} at byte {place}: {words[number]}")
        self.number, self.place = number, place


# ---- a map and the fields that stand in it


def read_fields(data, place, map_bytes, good_map, sizes, words=CALL_RECORD):
    """The fields from a place, by bit, and the place after them. sizes: bytes of each bit's field; words: of a refusal."""
    if len(data) - place < map_bytes:
        raise Refusal(SHORT, place, words)
    at = place + map_bytes
    bit_map = int.from_bytes(data[place:at], "little")
    if not good_map(bit_map):
        raise Refusal(BAD_MAP, place, words)
    standing = [bit for bit in range(len(sizes)) if bit_map >> bit & 1]
    if len(data) - at < sum(sizes[bit] for bit in standing):
        raise Refusal(SHORT, place, words)
    fields = {}
    for bit in standing:
        fields[bit] = int.from_bytes(data[at : at + sizes[bit]], "little")
        at += sizes[bit]
    return fields, at


def fields_bytes(fields, map_bytes, sizes):
    bit_map = sum(1 << bit for bit in fields)
    parts = [fields[bit].to_bytes(sizes[bit], "little") for bit in sorted(fields)]
    return bit_map.to_bytes(map_bytes, "little") + b"".join(parts)


# ---- configuration

# The 33 numbers in the order of their numbers, field 1 first, with their Default values.
CONFIGURATION = {setting.name: setting.default for setting in SETTINGS}
CONFIGURATION_MAP_BYTES = 5
CONFIGURATION_SIZES = [4] * len(CONFIGURATION)


def read_configuration(data, place=0):
    """The configuration at a place, name to bits, and the place after it."""
    good_map = lambda bit_map: bit_map >> len(CONFIGURATION) == 0
    fields, after = read_fields(data, place, CONFIGURATION_MAP_BYTES, good_map, CONFIGURATION_SIZES, CONFIGURATION_RECORD)
    defaults = enumerate(CONFIGURATION.items())
    return {name: one_nan(fields.get(bit, default)) for bit, (name, default) in defaults}, after


def configuration_bytes(configuration):
    """The writer's bytes: a field stands where its bits are not the default's."""
    numbers = enumerate(CONFIGURATION.items())
    fields = {bit: configuration[name] for bit, (name, default) in numbers if configuration[name] != default}
    return fields_bytes(fields, CONFIGURATION_MAP_BYTES, CONFIGURATION_SIZES)


# ---- calls

KINDS = ["prime", "attitude", "rate", "waypoint", "absolute-attitude", "land", "absolute-rate"]
REGIMES = ["copter", "plane"]
KIND_BIT, REGIME_BIT = 0, 1
COPTER, PLANE = 0, 1

CALL_MAP_BYTES = 4
CALL_SIZES = [1, 1] + [4] * 20
HALF_LEGS = (1 << 9, 1 << 10)
LEG_BITS = 3 << 9


class Field(NamedTuple):
    """A field of the text form: its name, its first bit, how many numbers, and whether it may be none."""

    name: str
    bit: int
    count: int = 1
    optional: bool = False


TIME_STEP = Field("dt", 2)
ROLL, PITCH = Field("roll", 3), Field("pitch", 4)

# What each kind uses, beside the regime.
USED = {
    "prime": [],
    "attitude": [TIME_STEP, ROLL, PITCH, Field("throttle", 5)],
    "rate": [TIME_STEP, ROLL, PITCH, Field("yaw", 5), Field("throttle", 6)],
    "waypoint": [
        TIME_STEP,
        Field("at", 7, 2),
        Field("leg", 9, 2, optional=True),
        Field("altitude", 11),
        Field("cruise", 12),
        Field("position", 13, 3),
        Field("velocity", 16, 3),
        Field("roll", 19),
        Field("airspeed", 20, optional=True),
        Field("cap", 21, optional=True),
    ],
    "absolute-attitude": [TIME_STEP, ROLL, PITCH, Field("thrust", 5)],
    "land": [TIME_STEP],
    "absolute-rate": [TIME_STEP, ROLL, PITCH, Field("yaw", 5), Field("thrust", 6)],
}


class Call(NamedTuple):
    """A call: what its kind uses. numbers: the field's name to its bits; an optional field that is none is absent."""

    kind: str
    regime: str
    numbers: dict


def good_call_map(bit_map):
    return bit_map >> len(CALL_SIZES) == 0 and bit_map & 1 and bit_map & LEG_BITS not in HALF_LEGS


# The second edition of the call record, document 02's K14: this bit stands with no field, and altitude, position z and
# velocity z have their sign bit flipped. The desk program does not read it.
SECOND_EDITION = 1 << 22
DOWN_BITS, SIGN = (11, 15, 18), 1 << 31


def is_second(data, place):
    """Whether the call record at a place is one of the second edition."""
    return int.from_bytes(data[place : place + CALL_MAP_BYTES], "little") & SECOND_EDITION != 0


def read_call(data, place, either=False):
    """The call at a place, and the place after it; with either, of both editions."""
    second = either and is_second(data, place)
    good_map = (lambda bit_map: good_call_map(bit_map & ~SECOND_EDITION)) if second else good_call_map
    fields, after = read_fields(data, place, CALL_MAP_BYTES, good_map, CALL_SIZES)
    if second:
        fields.update({bit: fields[bit] ^ SIGN for bit in DOWN_BITS if bit in fields})
    kind, regime = fields[KIND_BIT], fields.get(REGIME_BIT, PLANE)
    if kind >= len(KINDS) or regime >= len(REGIMES):
        raise Refusal(BAD_BYTE, place)
    if KINDS[kind] == "prime":
        regime = PLANE  # stepped over
    numbers = {}
    for field in USED[KINDS[kind]]:
        if field.bit in fields or not field.optional:
            bits = range(field.bit, field.bit + field.count)
            numbers[field.name] = tuple(one_nan(fields.get(bit, 0)) for bit in bits)
    return Call(KINDS[kind], REGIMES[regime], numbers), after


def call_bytes(call):
    """The writer's bytes: what missing would give is left out, compared as bits."""
    fields = {KIND_BIT: KINDS.index(call.kind)}
    if call.regime == "copter":
        fields[REGIME_BIT] = COPTER
    for field in USED[call.kind]:
        for bit, number in enumerate(call.numbers.get(field.name, ()), field.bit):
            if number != 0 or field.optional:
                fields[bit] = number
    return fields_bytes(fields, CALL_MAP_BYTES, CALL_SIZES)


# ---- recordings


def read_recording(data, either=False):
    """The configuration (none where its record is refused), the calls, and the refusal that ended them or none.

    Refusal 9 is the desk program's own: any number of calls is read here. With either, calls of both editions are read.
    """
    configuration, calls = None, []
    try:
        configuration, place = read_configuration(data)
        while place < len(data):
            call, place = read_call(data, place, either)
            calls.append(call)
    except Refusal as refusal:
        return configuration, calls, refusal
    return configuration, calls, None


def recording_bytes(configuration, calls):
    return configuration_bytes(configuration) + b"".join(map(call_bytes, calls))
