#!/usr/bin/env python3
"""The rows on which crates/guidance_cases runs, a file of data/ for each input, and its stdout: all rows right.

They are written to the crate, or to the folder named.

The calls, answers and stored states are the oracle's fixed list (tools/oracle/fixed), in another form. FIGURES are document
01's unstarred case and figures from runs of the published Rust; the fixed list has to give them too. `past_the_limit` is
worked out here, from document 01's form of a fallback's limits.

A row is 53 u32 words, low byte first. Numbers are their bits, every NaN 7fc00000; what a row does not use is 0.

    0       kind: that of a call record, 7 set-configuration, 8 new, 9 a taking back
    1..33   of 7 and 8: the configuration
    1..24   of a call: regime; time step; four command numbers; waypoint; leg (1 if present, x, y); altitude; cruise speed;
            position; velocity; roll; airspeed (1 if present, number); cap (likewise)
    25, 26  of a call: the mode report after it: mode (1 plane), refusal (0 none, 1 unsupported)
    34      the refusal's number, of 7 and 8 the failing field's, or 0
    35, 36  laws: 1 track, 2 loiter, 3 idle; 1 energy, 2 hold, 3 fallback; 0 none
    37      1 plane setpoint, 2 rate setpoint, 0 none
    38..41  the setpoint's numbers; of a waypoint its distance off the line too
    42..52  the state after it: requested regime; altitude integral; seeded; slewed height, height, airspeed demand; filtered
            airspeed, steady acceleration; pitch integral, thrust integral; underspeed
"""
import pathlib
import struct
import sys

HERE = pathlib.Path(__file__).resolve().parent
CRATE = HERE.parent.parent / "crates/guidance_cases"
FIXED = HERE.parent / "oracle/fixed"
WORDS = 53
PRIME, WAYPOINT, SET_CONFIG, NEW, TAKE_BACK = 0, 3, 7, 8, 9
sys.path.insert(0, str(FIXED))
import by_hand  # noqa: E402

LATERAL = {"track": 1, "loiter": 2, "idle": 3}
VERTICAL = {"energy": 1, "hold": 2, "fallback": 3}
FRESH = [1] + [0] * 10

# The lines of calls, by file and call number; without the distance off the line where `off` has such.
FIGURES = {
    ("airspeed-1e30", 1): "idle energy 00000000 0f181e3a 3e4ccccd 00000000",
    ("airspeed-1e30-weight-0", 1): "refused 4",
    ("desk-example", 1): "plane 00000000 00000000 00000000",
    ("desk-example", 2): "plane 3f800000 bf000000 3f800000",
    ("desk-example", 3): "refused 2",
    ("desk-example", 4): "idle hold 00000000 00000000 3f000000 00000000",
    ("ties-by-hand", 1): "track fallback 80000000 00000000 3f000000",  # on the line and along it
    # document 02, K5: straight back turns right, at the default bank of 45 degrees, for either zero
    **{("ties-by-hand", n): "track fallback 3f490fdb 00000000 3f000000" for n in (*range(2, 13), 32, 33, 34, 35, 38)},
    **{("ties-by-hand", n): "loiter fallback 3f490fdb 00000000 3f000000" for n in (36, 37)},
    # no capture angle, since the distance off the line is NaN: the acceleration is not finite, which the law makes 0
    **{("ties-by-hand", n): "track fallback 00000000 00000000 3f000000 7fc00000" for n in range(40, 50)},
    # infinitely far off the line: the capture angle is FRAC_PI_4
    **{("ties-by-hand", n): "track fallback 3f490fdb 00000000 3f000000 7f800000" for n in (50, 51)},
    # an L1 distance of 0
    ("settings", 267): "track fallback 00000000",
    ("settings", 268): "track fallback 00000000",
    ("ties-by-hand", 27): "loiter fallback 3f490fdb 00000000 3f000000",  # loiter at velocity (1e30, 0) from (100, 7)
    ("takings-back", 28): "refused 4",  # a waypoint that the changed setting refuses
    ("takings-back", 30): "idle energy 00000000 bd57f532 3f19d67b",  # after it and the taking back
    ("takings-back", 33): "idle energy 00000000 bedf66f3 3e4ccccd",  # the same without the change
    ("ties-by-hand", 28): "loiter fallback 3f1405d0 00000000 3f000000",  # loiter, position NaN
}


def word_at(data, at):
    return int.from_bytes(data[at : at + 4], "little")


def plain(word):
    """A number's bits, every NaN alike."""
    return 0x7FC00000 if word & 0x7FFFFFFF > 0x7F800000 else word


def defaults():
    data = (FIXED / "laws/default.rows").read_bytes()
    return [word_at(data, 4 * n) for n in range(33)]


def raw(text):
    return bytes.fromhex(" ".join(line.split("#")[0] for line in text.split("\n")))


def fields(data, at, map_bytes, is_byte):
    """The fields of a record by their bits, and the place after it."""
    word = int.from_bytes(data[at : at + map_bytes], "little")
    at += map_bytes
    found = {}
    for bit in range(8 * map_bytes):
        if word >> bit & 1:
            size = 1 if is_byte(bit) else 4
            found[bit] = int.from_bytes(data[at : at + size], "little")
            at += size
    return found, at


def configuration(data, at):
    found, at = fields(data, at, 5, lambda bit: False)
    return [plain(found.get(n, default)) for n, default in enumerate(defaults())], at


def call(data, at):
    """A call's words, and the place after its record. A field that its kind does not use is no part of the call."""
    found, at = fields(data, at, 4, lambda bit: bit < 2)
    kind = found[0]
    used = {PRIME: range(0), WAYPOINT: [1, 2, *range(7, 22)]}.get(kind, range(1, 7))
    number = lambda bit, missing=0: plain(found.get(bit, missing)) if bit in used else 0
    stands = lambda bit: int(bit in used and bit in found)
    words = [kind, number(1, 1)] + [number(bit) for bit in range(2, 9)] + [stands(9)]
    words += [number(bit) for bit in range(9, 20)] + [stands(20), number(20), stands(21), number(21)]
    return words, at


def answer(line):
    """Words 34 to 41 of a line."""
    said = line.split()[1:]
    bits = lambda texts: ([int(text, 16) for text in texts] + [0] * 4)[:4]
    if said[0] in ("set", "prime", "back"):
        return [0] * 8
    if said[0] == "refused":
        return [int(said[-1])] + [0] * 7
    if said[0] in ("plane", "rate"):
        return [0, 0, 0, 1 if said[0] == "plane" else 2] + bits(said[1:])
    return [0, LATERAL[said[0]], VERTICAL[said[1]], 1] + bits(said[2:])


def state(line):
    """Words 42 to 52: in a state line only the flags are no bits."""
    said = line.split()[2:]
    return [int(said[0])] + [int(text, 16) for text in said[1:10]] + [int(said[10])]


def modes():
    """The mode reports of the published Rust, by the requested regime."""
    data = (FIXED / "laws/flight_mode.rows").read_bytes()
    words = [word_at(data, 4 * n) for n in range(4)]
    return {0: words[:2], 1: words[2:]}


MODES = modes()


def row(words, answered, after):
    if words[0] not in (SET_CONFIG, NEW, TAKE_BACK):
        words = words + [0] * (25 - len(words)) + MODES[after[0]]
    padded = words + [0] * (34 - len(words)) + answered + after
    assert len(padded) == WORDS
    return struct.pack("<53I", *padded)


def recording(path, is_list):
    """The rows of a recording or a list: `new`, then its calls."""
    name = path.name.split(".")[0]
    data = raw(path.read_text())
    lines = (FIXED / f"{name}.lines").read_text().splitlines()
    states = (FIXED / f"{name}.state").read_text().splitlines()
    config, at = configuration(data, 0)
    rows = [row([NEW] + config, [0] * 8, FRESH)]
    for number, (line, after) in enumerate(zip(lines, states, strict=True), 1):
        if name == "idle" and line.split()[1] != by_hand.IDLE[number - 1][0]:
            sys.exit(f"guidance.py: {name} has '{line}' where {by_hand.IDLE[number - 1]} is known")
        if name == "off" and line.split()[-1] != by_hand.OFF[number - 1][0]:
            sys.exit(f"guidance.py: {name} has '{line}' where {by_hand.OFF[number - 1]} is known")
        figure = FIGURES.get((name, number))
        if figure is not None and not f"{line} ".startswith(f"{number} {figure} "):
            sys.exit(f"guidance.py: {name} has '{line}' where '{figure}' is known")
        tag = data[at] if is_list else 0
        at += 1 if is_list else 0
        if tag == 1:
            words, at = configuration(data, at)
            words = [SET_CONFIG] + words
        elif tag == 2:
            words = [TAKE_BACK]
        else:
            words, at = call(data, at)
        rows.append(row(words, answer(line), state(after)))
    assert at == len(data)
    return name.replace("-", "_"), rows


def configurations():
    """`new` on each whole configuration of the fixed list."""
    lines = (FIXED / "configurations.lines").read_text().split("input ")[1:]
    inputs = (FIXED / "configurations.inputs.hex").read_text().split("\n")
    rows = []
    for said, text in zip(lines, inputs):
        said = said.split("\n")[1:-1]
        if said and not said[0].startswith("config refused"):
            continue
        config, at = configuration(raw(text), 0)
        assert at == len(raw(text))
        refused = int(said[0].split()[-1]) if said else 0
        rows.append(row([NEW] + config, [refused] + [0] * 7, [0] * 11 if refused else FRESH))
    return "configurations", rows


def number(bits):
    return struct.unpack("<f", struct.pack("<I", bits))[0]


def bits(value):
    """The f32 nearest to a sum or a product of two f32, which Python's numbers hold exactly."""
    return struct.unpack("<I", struct.pack("<f", value))[0]


def past_the_limit():
    """A fallback far above its altitude: trim and the least correction round to a pitch below -max_pitch_down_rad."""
    trim, down = bits(0.125), defaults()[2]
    correction = number(bits(-number(down) - number(trim)))
    pitch = number(bits(number(trim) + correction))
    share = number(bits(0.5 * number(bits(pitch - number(trim)))))
    assert bits(pitch) == bits(-0.43633235) and number(down) == number(bits(0.43633232))
    config = [trim if n == 6 else default for n, default in enumerate(defaults())]
    call_words = [WAYPOINT, 1, bits(1.0)] + [0] * 13 + [bits(1000.0)]
    answered = [0, LATERAL["idle"], VERTICAL["fallback"], 1, 0, bits(pitch), bits(0.5 + share), 0]
    return "past_the_limit", [row([NEW] + config, [0] * 8, FRESH), row(call_words, answered, FRESH)]


def main():
    folder = pathlib.Path(sys.argv[1]) if len(sys.argv) > 1 else CRATE
    groups = [configurations(), past_the_limit()]
    groups += [recording(path, False) for path in sorted(FIXED.glob("*.recording.hex"))]
    groups += [recording(path, True) for path in sorted(FIXED.glob("*.list.hex"))]
    (folder / "data").mkdir(parents=True, exist_ok=True)
    total = 0
    said = ""
    for name, rows in groups:
        (folder / "data" / name).write_bytes(b"".join(rows))
        said += f"{name}: {len(rows)} of {len(rows)}\n"
        total += len(rows)
    (folder / "stdout").write_text(said + f"total: {total} of {total}\n")


main()
