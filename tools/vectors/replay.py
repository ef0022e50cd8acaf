#!/usr/bin/env python3
"""The recordings on which crates/replay_cases runs, and the text that the oracle prints for each.

    tools/vectors/replay.py ORACLE [FOLDER]

FOLDER is where data/ and stdout are written, the crate by default. The recordings are put together here from the text of
document 01, byte for byte; the flights, ties and damaged ones are the oracle's own. No text is worked out here, and none is
the rewrite's.
"""
import pathlib
import struct
import subprocess
import sys

CRATE = pathlib.Path(__file__).resolve().parent.parent.parent / "crates/replay_cases"

NAN, INF = float("nan"), float("inf")
PRIME, ATTITUDE, RATE, WAYPOINT, ABSOLUTE_ATTITUDE, LAND, ABSOLUTE_RATE = range(7)
COPTER, PLANE = 0, 1


def number(x):
    return struct.pack("<f", x)


def config(fields={}):
    """A configuration record of the fields by their numbers, 1 to 33."""
    places = sorted(fields)
    return sum(1 << (n - 1) for n in places).to_bytes(5, "little") + b"".join(number(fields[n]) for n in places)


def call(kind, fields={}, regime=None):
    """A call record of a kind, and of numbers by their bits, 2 to 21."""
    places = sorted(fields)
    head = 1 | (0 if regime is None else 2)
    data = bytes([kind]) + (b"" if regime is None else bytes([regime]))
    return (head | sum(1 << n for n in places)).to_bytes(4, "little") + data + b"".join(number(fields[n]) for n in places)


def waypoint(**more):
    """A waypoint call on the energy path at time step 1; `more` are bits, as _20 for the airspeed."""
    fields = {2: 1.0, 7: 100.0, 8: 20.0, 11: 120.0, 12: 20.0, 15: 100.0, 16: 16.0, 17: 1.0, 20: 18.0}
    for name, x in more.items():
        fields[int(name[1:])] = x
    return call(WAYPOINT, {n: x for n, x in fields.items() if x is not None})


LEG = {"_9": 16.0, "_10": 0.0}
PLAIN = config()
STEP = {2: 1.0}
FORMS = [
    PLAIN,
    call(ATTITUDE, {2: 1.0, 3: 0.5, 4: -0.25, 5: 0.75}),
    call(RATE, {2: 1.0, 3: 0.5, 4: -0.25, 5: 1.5, 6: 0.75}),
    call(PRIME),
    waypoint(**LEG),
    waypoint(),
    waypoint(_11=INF, **LEG),
    waypoint(_20=INF),
    waypoint(_20=None, **LEG),
    waypoint(_20=None),
    waypoint(_21=0.05),
    waypoint(_21=-0.0),
    waypoint(_21=NAN),
    waypoint(_21=-1.0),
    waypoint(_9=NAN, _10=1.0),
    call(ABSOLUTE_ATTITUDE, {2: 1.0, 3: NAN, 4: INF, 5: 2.0}),
    call(LAND, STEP),
    call(LAND, STEP, COPTER),
    call(ABSOLUTE_RATE, {2: 1.0, 3: NAN, 4: -0.0, 5: -INF, 6: 0.5}),
    call(ATTITUDE),
    call(RATE, {2: NAN}),
    waypoint(_2=-1.0, _21=-1.0),
    waypoint(_2=INF),
    call(LAND, {n: float(n) for n in range(2, 22)}, PLANE),
]


def by_hand():
    yield "empty", b""
    yield "one_byte", b"\x01"
    yield "map_cut", b"\xff\xff\xff\xff"
    yield "config_alone", PLAIN
    yield "config_cut", config({1: 0.5, 33: 1.0})[:-1]
    yield "config_unnamed", bytes(4) + b"\x02"
    yield "config_unnamed_cut", b"\xff\xff\xff\xff\xff"
    yield "config_refused_1", config({1: -1.0}) + call(PRIME)
    yield "config_refused_23", config({23: 2.25})
    yield "config_refused_33", config({33: NAN})
    yield "config_refused_34", config({25: 25.0, 26: 10.0}) + call(PRIME)
    yield "config_refused_35", config({32: 0.125})
    yield "config_both_crossed", config({25: 25.0, 26: 10.0, 31: 1.0, 32: 0.125})
    yield "config_equal", config({25: 18.0, 26: 18.0, 31: -0.0, 32: 0.0}) + waypoint()
    yield "config_bad_and_cut", config({1: -1.0, 2: 1.0})[:-2]
    yield "config_whole", config({1: 0.5, 31: 0.125, 32: 0.5}) + waypoint(_20=None)
    yield "stray_1", PLAIN + b"\x01"
    yield "stray_3", PLAIN + call(PRIME) + b"\x01\x00\x00"
    yield "forms", b"".join(FORMS)
    yield "number_4", config({23: 0.0}) + waypoint(_20=1e30, _7=None, _8=None, _11=None, _15=None, _16=None, _17=None) + call(PRIME)
    yield "cut", b"".join(FORMS)[:-1]
    yield "kind_7", PLAIN + call(PRIME) + call(7) + call(PRIME)
    yield "kind_9_cut", PLAIN + call(9, STEP)[:-1]
    yield "regime_2", PLAIN + call(LAND, STEP) + call(PRIME, {}, 2)
    yield "no_kind", PLAIN + bytes(4)
    yield "half_leg", PLAIN + call(LAND, {2: 1.0, 9: 1.0})
    yield "other_half_leg", PLAIN + call(PRIME, {10: 1.0})
    yield "unnamed_22", PLAIN + b"\x01\x00\x40\x00\x00"
    yield "unnamed_31_cut", PLAIN + b"\xff\xff\xff\xff"
    full = call(LAND, STEP) + call(PRIME) * 4094
    yield "calls_4096", PLAIN + full + call(LAND)
    yield "calls_4096_and_1_byte", PLAIN + full + call(LAND) + b"\x00"
    yield "calls_4097", PLAIN + full + call(LAND) + call(PRIME)
    yield "call_4096_bad", PLAIN + full + call(7)


def main():
    oracle, *folder = sys.argv[1:]
    crate = pathlib.Path(folder[0]) if folder else CRATE
    data = crate / "data"
    data.mkdir(parents=True, exist_ok=True)

    def ask(*words, given=b""):
        return subprocess.run([oracle, *words], input=given, capture_output=True, check=True).stdout

    cases = list(by_hand())
    for kind, seed in (("flights", "3"), ("ties", "4"), ("wild", "5"), ("damaged", "6"), ("damaged", "7")):
        cases.append((f"{kind}_{seed}", ask("generate", kind, seed, "60")))
    for name, recording in cases:
        (data / f"{name}.recording").write_bytes(recording)
        (data / f"{name}.lines").write_bytes(ask("desk", given=recording))
    (crate / "stdout").write_text("".join(f"{name} agrees\n" for name, recording in cases))


if __name__ == "__main__":
    main()
