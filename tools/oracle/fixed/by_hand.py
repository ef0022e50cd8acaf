"""The inputs of the fixed list that are written by hand, as (name, lines of text)."""

from recordings import INFINITY, NAN, call, configuration

DEFAULTS = configuration()
MINUS_ZERO = -0.0
FLIGHT = dict(step=1.0, altitude=50.0, cruise=16.0, position=[0.0, 0.0, 40.0], velocity=[16.0, 0.0, 0.0])


def waypoint(**fields):
    return call("waypoint", **{"step": 1.0, **fields})


def desk_example():
    """Document 01's own example."""
    return [
        "0000000000",
        "05000000 05 0000803f",
        "3d000000 04 0000803f 0000803f 000000bf 00000040",
        "01000000 05",
        "05181000 03 0000803f 0000807f 0000803f 00000000",
    ]


def ties():
    north, east = [1.0, 0.0], [0.0, 1.0]
    lines = [DEFAULTS]
    add = lambda remark, **fields: lines.append(f"{waypoint(**fields)} # {remark}")
    add("on the line and along it", leg=north, velocity=[16.0, 0.0])
    for zero in (0.0, MINUS_ZERO):
        add(f"straight back on a north leg, east speed {zero}", leg=north, velocity=[-16.0, zero])
        add(f"straight back on a south leg, east speed {zero}", leg=[-1.0, 0.0], velocity=[16.0, zero])
        add(f"straight back on an east leg, north speed {zero}", leg=east, velocity=[zero, -16.0])
        add(f"straight back on a west leg, north speed {zero}", leg=[0.0, -1.0], velocity=[zero, 16.0])
        add(f"straight back, the leg's east part {zero}", leg=[1.0, zero], velocity=[-16.0, 0.0])
    add("straight back on a slanting leg", leg=[3.0, 4.0], velocity=[-9.0, -12.0])
    add("across the leg", leg=north, velocity=[0.0, 16.0])
    for bits, remark in ((0x3F7FFFFF, "under 1"), (0x3F800000, "1"), (0x3F800001, "over 1")):
        add(f"ground speed {remark}, on a leg", leg=north, position=[0.0, 5.0], velocity=[bits, 0.0])
        add(f"ground speed {remark}, loiter", position=[50.0, 5.0], velocity=[bits, 0.0])
    for bits, remark in ((0x358637BC, "under 1e-6"), (0x358637BD, "1e-6"), (0x358637BE, "over 1e-6")):
        add(f"leg of length {remark}", leg=[bits, 0.0], velocity=[0.0, 16.0])
    for bits, remark in ((0, "0"), (0x3A83126E, "under 1e-3"), (0x3A83126F, "1e-3"), (0x3A831270, "over 1e-3")):
        add(f"loiter, {remark} from the centre", position=[bits, 0.0], velocity=[16.0, 0.0])
    add("loiter at a speed whose square overflows", position=[100.0, 7.0], velocity=[1e30, 0.0])
    add("loiter, position NaN", position=[NAN, 0.0], velocity=[16.0, 0.0])
    add("a leg that is not finite is a loiter", leg=[NAN, 1.0], velocity=[16.0, 0.0], position=[30.0, 0.0])
    add("a leg whose length overflows", leg=[1e30, 0.0], velocity=[0.0, 16.0])
    add("velocity NaN", leg=north, velocity=[NAN, 0.0])
    add("straight back on a south-west leg", leg=[-1.0, -1.0], velocity=[11.0, 11.0])
    for east in (1e6, -1e6, INFINITY):
        add(f"straight back on a north leg, {east} m off it", leg=north, position=[0.0, east], velocity=[-16.0, 0.0])
    add("straight back on a loiter's tangent", position=[100.0, 0.0], velocity=[0.0, -16.0])
    add("straight back on a loiter's tangent, west of it", position=[0.0, -100.0], velocity=[-16.0, MINUS_ZERO])
    add("straight back on a leg whose east part vanishes when it is normalised", leg=[3.0, 0x00000001], velocity=[-16.0, 0.0])
    add("no direction: the dot is 0", leg=[1e30, 0.0], velocity=[-16.0, 0.0])
    add("straight back, position NaN", leg=north, position=[0.0, NAN], velocity=[-16.0, 0.0])
    return lines + no_capture()


def no_capture():
    """Straight back where the cross-track distance is NaN, which leaves no capture angle; and beside these, where it is only infinite."""
    north, south_west = dict(leg=[1.0, 0.0], velocity=[-16.0]), dict(leg=[-1.0, -1.0], velocity=[11.0, 11.0])
    east = dict(leg=[0.0, 1.0], velocity=[0.0, -16.0])
    rows = [
        ("position north NaN", dict(north, position=[NAN])),
        ("waypoint north NaN", dict(north, point=[NAN])),
        ("waypoint east NaN", dict(north, point=[0.0, NAN])),
        ("infinitely far along a north leg: 0 times infinity", dict(north, position=[INFINITY])),
        ("infinitely far along an east leg", dict(east, position=[0.0, INFINITY])),
        ("a finite position and a finite waypoint whose difference along the leg overflows", dict(north, point=[-3e38], position=[3e38])),
        ("position and waypoint both infinite to the north: their difference is NaN", dict(north, point=[INFINITY], position=[INFINITY])),
        ("both infinite to the east", dict(north, point=[0.0, INFINITY], position=[0.0, INFINITY])),
        ("a south-west leg, infinitely far north-east: infinity less infinity", dict(south_west, position=[INFINITY, INFINITY])),
        ("a south-west leg, infinitely far north: the distance off it is infinite", dict(south_west, position=[INFINITY])),
        ("a finite position and a finite waypoint whose difference across the leg overflows", dict(north, point=[0.0, -3e38], position=[0.0, 3e38])),
    ]
    return [f"{waypoint(**fields)} # straight back, {remark}" for remark, fields in rows]


# Document 02's K1, by hand: the lateral law's name, what makes it so, and the call. 3f7fffff is the f32 below 1, 358637bd
# the nearest to 1e-6.
IDLE = [
    ("track", "ground speed 1, on a leg", dict(leg=[1.0, 0.0], velocity=[1.0, 0.0])),
    ("idle", "ground speed under 1, on a leg", dict(leg=[1.0, 0.0], velocity=[0x3F7FFFFF, 0.0])),
    ("loiter", "ground speed 1", dict(position=[50.0, 5.0], velocity=[0.0, 1.0])),
    ("idle", "ground speed under 1", dict(position=[50.0, 5.0], velocity=[0.0, 0x3F7FFFFF])),
    ("idle", "ground speed NaN, on a leg", dict(leg=[1.0, 0.0], velocity=[16.0, NAN])),
    ("idle", "ground speed NaN", dict(position=[50.0, 5.0], velocity=[NAN, 16.0])),
    ("track", "ground speed infinite, on a leg", dict(leg=[1.0, 0.0], velocity=[INFINITY, 0.0])),
    ("loiter", "ground speed infinite", dict(position=[50.0, 5.0], velocity=[0.0, -INFINITY])),
    ("idle", "leg of length 1e-6", dict(leg=[0x358637BD, 0.0], velocity=[0.0, 16.0])),
    ("track", "leg of length over 1e-6", dict(leg=[0x358637BE, 0.0], velocity=[0.0, 16.0])),
    ("idle", "leg of length 0", dict(leg=[0.0, MINUS_ZERO], velocity=[0.0, 16.0])),
    ("track", "leg whose length overflows", dict(leg=[1e30, 1e30], velocity=[0.0, 16.0])),
    ("idle", "leg whose length overflows, ground speed 0.5", dict(leg=[1e30, 1e30], velocity=[0.0, 0.5])),
    ("loiter", "leg not finite, ground speed 20", dict(leg=[INFINITY, 0.0], position=[50.0, 5.0], velocity=[20.0, 0.0])),
    ("idle", "leg not finite, ground speed 0.5", dict(leg=[INFINITY, 0.0], position=[50.0, 5.0], velocity=[0.5, 0.0])),
    ("loiter", "within 1e-3 of the centre", dict(position=[0x3A83126E, 0.0], velocity=[20.0, 0.0])),
    ("loiter", "so far that the offset's length overflows", dict(position=[3e38, 0.0], velocity=[20.0, 0.0])),
    ("idle", "on the grass", dict()),
]


# Document 02's K6, by hand: metres off the line, as bits, what makes them so, and the call. The default radius is 40 m.
OFF = [
    ("40a00000", "5 m right of a north leg", dict(leg=[1.0, 0.0], position=[50.0, 5.0], velocity=[16.0, 0.0])),
    ("c0a00000", "5 m left of a north leg", dict(leg=[1.0, 0.0], position=[50.0, -5.0], velocity=[16.0, 0.0])),
    ("40a00000", "the leg has any length", dict(leg=[100.0, 0.0], position=[50.0, 5.0], velocity=[16.0, 0.0])),
    ("40a00000", "from the waypoint", dict(point=[7.0, 3.0], leg=[1.0, 0.0], position=[50.0, 8.0], velocity=[16.0, 0.0])),
    ("40a00000", "right of a west leg is north", dict(leg=[0.0, -2.0], position=[5.0, 7.0], velocity=[16.0, 0.0])),
    ("c2700000", "60 m outside a loiter, left of its tangent", dict(position=[100.0, 0.0], velocity=[0.0, 16.0])),
    ("41f00000", "30 m inside a loiter", dict(position=[10.0, 0.0], velocity=[0.0, 16.0])),
    ("c2700000", "a loiter from its waypoint", dict(point=[9.0, 2.0], position=[9.0, 102.0], velocity=[0.0, 16.0])),
    ("00000000", "within 1e-3 of the centre", dict(position=[0x3A83126E, 0.0], velocity=[16.0, 0.0])),
    ("00000000", "ground speed 0.5, on a leg", dict(leg=[1.0, 0.0], position=[50.0, 5.0], velocity=[0.5, 0.0])),
    ("00000000", "ground speed 0.5", dict(position=[100.0, 0.0], velocity=[0.5, 0.0])),
    ("00000000", "ground speed NaN", dict(leg=[1.0, 0.0], position=[50.0, 5.0], velocity=[NAN, 0.0])),
    ("00000000", "a leg of length 1e-6", dict(leg=[0x358637BD, 0.0], position=[50.0, 5.0], velocity=[16.0, 0.0])),
    ("40a00000", "a leg of length over 1e-6", dict(leg=[0x358637BE, 0.0], position=[50.0, 5.0], velocity=[16.0, 0.0])),
    ("00000000", "a leg whose length overflows has no direction", dict(leg=[1e30, 0.0], position=[50.0, 5.0], velocity=[16.0, 0.0])),
    ("40a00000", "an acceleration that is not finite keeps it", dict(leg=[1.0, 0.0], position=[50.0, 5.0], velocity=[INFINITY, 0.0])),
    ("7f800000", "infinite", dict(leg=[1.0, 0.0], position=[50.0, INFINITY], velocity=[16.0, 0.0])),
    ("7fc00000", "NaN", dict(leg=[1.0, 0.0], position=[NAN, 5.0], velocity=[16.0, 0.0])),
    ("7fc00000", "NaN on a loiter", dict(position=[NAN, 5.0], velocity=[16.0, 0.0])),
]


def underspeed():
    """Share 0.5, least airspeed 10: 4.9 sets it, 5 and 9.9 keep it, 10 clears it."""
    lines = [configuration({27: 0.5})]
    for airspeed in (12.0, 5.0, 4.9, 5.0, 9.9, 0x4120_0000 - 1, 10.0, 9.9, 5.0, 0x40A0_0000 - 1, 9.9, 12.0):
        lines.append(waypoint(**{**FLIGHT, "airspeed": airspeed}))
    low = waypoint(**{**FLIGHT, "airspeed": 4.0})
    between = waypoint(**{**FLIGHT, "airspeed": 7.0})
    for clearing in (call("prime"), call("land", step=1.0), waypoint(**FLIGHT)):
        lines += [low, between, clearing, between]
    keeping = (waypoint(**{**FLIGHT, "airspeed": 4.0, "altitude": NAN}), waypoint(**{**FLIGHT, "step": 0.0}))
    for kept in keeping:
        lines += [low, kept, between]
    return lines


def refusals():
    """Refusals 2, 3 and 4 between accepted calls, which they must not disturb."""
    energy = waypoint(**{**FLIGHT, "airspeed": 15.0})
    fallback = waypoint(**FLIGHT)
    bad = [f"{call(kind, step=step)} # {kind}, step {step}" for step in (0.0, MINUS_ZERO, -1.0, NAN, INFINITY)
           for kind in ("attitude", "rate", "waypoint", "absolute attitude", "land", "absolute rate")]
    bad += [f"{waypoint(**{**FLIGHT, 'cap': cap, 'airspeed': 15.0})} # cap {cap}" for cap in (-0.1, -INFINITY, 0x80000001)]
    bad += [f"{waypoint(**{**FLIGHT, 'cap': -0.1})} # fallback with a cap below 0",
            f"{waypoint(**{**FLIGHT, 'cap': -0.1, 'airspeed': 15.0, 'altitude': NAN})} # hold with a cap below 0",
            f"{waypoint(**{**FLIGHT, 'cap': -0.1, 'step': 0.0})} # 2 comes before 3",
            f"{call('attitude', step=1.0, cap=-1.0)} # an unused cap is no part of the call",
            f"{waypoint(**{**FLIGHT, 'airspeed': 1e30, 'altitude': 3e38, 'position': [0.0, 0.0, -3e38]})} # overflows",
            f"{waypoint(**{**FLIGHT, 'airspeed': 3e38})} # the energy of the airspeed overflows",
            f"{waypoint(**{**FLIGHT, 'altitude': 3e38, 'position': [0.0, 0.0, -3e38]})} # height error not finite: kept",
            f"{waypoint(**{**FLIGHT, 'velocity': [16.0, 0.0, 3e38], 'airspeed': 15.0})} # climb overflows"]
    lines = [DEFAULTS]
    for number, call_text in enumerate(bad):
        lines += [fallback if number % 3 == 0 else energy, call_text]
    return lines + [energy, fallback, fallback]


def caps():
    """Caps that pass, with both vertical laws."""
    lines = [DEFAULTS]
    for cap in (NAN, 0.0, MINUS_ZERO, 0.05, 0x3EB2B8C2, 0x3EDF66F3, 1.0, INFINITY):
        for altitude in (90.0, 40.0, 0.0):
            fields = {**FLIGHT, "cap": cap, "altitude": altitude}
            lines += [waypoint(**fields, airspeed=15.0), waypoint(**fields, airspeed=15.0), waypoint(**fields)]
    return lines


def holds():
    """Each number that makes a hold, on a seeded energy state, and what stands beside it."""
    energy = waypoint(**{**FLIGHT, "airspeed": 15.0})
    lines = [configuration({7: 0.125, 8: 0.1})]
    for odd in (NAN, INFINITY, -INFINITY):
        lines += [energy, waypoint(**{**FLIGHT, "airspeed": 15.0, "altitude": odd})]
        lines += [energy, waypoint(**{**FLIGHT, "airspeed": 15.0, "position": [0.0, 0.0, odd]})]
        lines += [energy, waypoint(**{**FLIGHT, "airspeed": 15.0, "velocity": [16.0, 0.0, odd]})]
        lines += [waypoint(**{**FLIGHT, "airspeed": odd}), waypoint(**{**FLIGHT, "airspeed": 15.0, "cruise": odd})]
        lines += [waypoint(**{**FLIGHT, "altitude": odd}), waypoint(**FLIGHT)]
    for airspeed in (0.0, MINUS_ZERO, -1.0, 0x80000001):
        lines.append(waypoint(**{**FLIGHT, "airspeed": airspeed}))
    for cruise in (0.0, MINUS_ZERO, -1.0, 0x00000001):
        lines.append(waypoint(**{**FLIGHT, "airspeed": 15.0, "cruise": cruise}))
    lines.append(f"{waypoint(**{**FLIGHT, 'airspeed': 15.0, 'roll': NAN})} # the floor 0.1 wins")
    return lines


def speed_demand():
    """The airspeed demand's change meets its bound exactly: 3ffa9b00 s at 12 m/s allow 4 m/s."""
    level = {**FLIGHT, "airspeed": 12.0}
    lines = [DEFAULTS]
    for cruise in (12.0, 16.0, 12.0, 20.0):
        lines.append(waypoint(**{**level, "cruise": cruise, "step": 0x3FFA9B00}))
    return lines


def sticks():
    """Every command but the waypoint, at and beyond the ends of the sticks."""
    lines = [configuration({2: 0.25, 3: 0.5, 4: 3.0, 5: 2.0, 6: 1.0})]
    for kind in ("attitude", "rate", "absolute attitude", "absolute rate"):
        for stick in (0.0, MINUS_ZERO, 0.5, -0.5, 1.0, -1.0, 1.5, -1.5, 0x00000001, NAN, INFINITY, -INFINITY):
            lines.append(call(kind, step=0.1, command=[stick, stick, stick, stick]))
    return lines + [call("land", step=0.1), call("land", step=0.1, regime=0), call("prime"), call("prime", regime=0)]


def field_ends(field):
    """A field's least number that passes with one below it that fails, and its greatest with one above it that fails."""
    negative, finite = (0.0, 0x80000001), (0x7F7FFFFF, INFINITY)
    if field <= 3:
        return negative, (0x3FC90FDB, 0x3FC90FDC)
    if field == 7:
        return (0xBFC90FDB, 0xBFC90FDC), (0x3FC90FDB, 0x3FC90FDC)
    if field in (8, 31, 32):
        return negative, (1.0, 0x3F800001)
    if field == 23:
        return negative, (2.0, 0x40000001)
    if field == 27:
        return (0x00000001, 0.0), (1.0, 0x3F800001)
    if field in (9, 10, 11, 15, 16, 17, 25, 26, 28, 29, 30):
        return (0x00000001, 0.0), finite
    return negative, finite


# Least and greatest: K8 wants them in order.
PAIRS = {25: 26, 26: 25, 31: 32, 32: 31}
# Fields by number, and what is crossed: airspeed 34, thrust 35, both 34; a failing field comes first; equal ones pass.
CROSSED = [
    ({25: 25.0, 26: 10.0}, "airspeeds the wrong way round"),
    ({25: 0x41C80001}, "the least airspeed one step above the greatest"),
    ({31: 1.0, 32: 0.2}, "thrusts the wrong way round"),
    ({32: 0x3E4CCCCC}, "the greatest thrust one step below the least"),
    ({25: 25.0, 26: 10.0, 31: 1.0, 32: 0.2}, "both"),
    ({25: 25.0, 26: 10.0, 33: -1.0}, "field 33 comes first"),
]
EQUAL = [
    ({25: 12.0, 26: 12.0}, "equal airspeeds"),
    ({31: 0.5, 32: 0.5}, "equal thrusts"),
    ({31: 0.0, 32: MINUS_ZERO}, "zeros of two signs"),
    ({31: MINUS_ZERO, 32: 0.0}, "zeros of two signs"),
]


def at_end(field, number):
    """A configuration with this number in a field, and in the other of its pair."""
    return configuration({field: number, PAIRS.get(field, field): number})


def settings():
    """A list: set-configuration calls, each field at its ends and past them, between flights."""
    energy = "00 " + waypoint(**{**FLIGHT, "airspeed": 15.0})
    fallback = "00 " + waypoint(**FLIGHT)
    lines = [DEFAULTS, energy, fallback]
    for field in range(1, 34):
        for side, (good, bad) in zip(("least", "greatest"), field_ends(field)):
            lines.append(f"01 {configuration({field: bad})} # field {field} past its {side}")
            lines.append(f"01 {at_end(field, good)} # field {field} at its {side}")
            lines.append(energy if field % 2 else fallback)
        lines.append(f"01 {configuration({field: NAN, 33: -1.0})} # the first failing field is named")
    for numbers, remark in CROSSED + EQUAL:
        lines += [f"01 {configuration(numbers)} # {remark}", energy, fallback]
    overflow = waypoint(cruise=1.0, airspeed=10.0, velocity=[0.0, 0.0, 3e38])
    lines += ["01 " + configuration({19: 0.0}), f"00 {overflow} # refused 4: the proportional thrust is NaN"]
    lines.append(f"01 {configuration({9: 1e-30, 10: 1e-30})} # the L1 distance underflows to 0")
    for position, remark in ((0.0, "on it: 0 over 0"), (5.0, "5 m off it: infinity")):
        back = waypoint(leg=[1.0, 0.0], position=[0.0, position], velocity=[-16.0])
        lines.append(f"00 {back} # straight back on a north leg, {remark}; the acceleration is not finite")
    return lines + ["01 " + DEFAULTS, energy, energy]


def takings_back():
    """A list: changes taken back (K11), with what may stand between, and what makes a trace."""
    guide = lambda **fields: "00 " + waypoint(**fields)
    setting = lambda fields, remark="": f"01 {configuration(fields)} # {remark}"
    energy, fallback = guide(**{**FLIGHT, "airspeed": 15.0}), guide(**FLIGHT)
    back, prime = "02", "00 " + call("prime")
    lines = [DEFAULTS, f"{back} # nothing to take back", energy]
    lines += [setting({1: 1.0}, "a wider bank"), back, f"{back} # twice", energy, fallback]
    lines += [setting({7: 0.125}), prime, setting({27: 0.0}, "refused: does not count"), energy, back, energy]
    lines += [setting({8: 0.25}), setting({8: 0.75}), fallback, back, fallback, f"{back} # only one is kept", fallback]
    lines += [setting({8: 0.25}, "equal to the one in force, and kept all the same"), "00 " + call("land", step=1.0), back, energy]
    # A waypoint that the changed setting refuses may be one that the former accepts: the answers at airspeed 15 differ.
    rushing, level = guide(cruise=20.0, airspeed=1e30), guide(cruise=20.0, airspeed=15.0)
    lines += [setting({}, "the defaults"), prime, setting({23: 0.0}, "speed_weight 0"), f"{rushing} # refused 4", back, f"{level} # pitch bd57f532"]
    return lines + [prime, rushing, f"{level} # pitch bedf66f3"]


def configurations():
    """Whole inputs, a line each: configurations that are taken, refused and stopped at."""
    lines = ["", "00", "00000000", DEFAULTS]
    for field in range(1, 34):
        for good, bad in field_ends(field):
            lines += [at_end(field, good), configuration({field: bad})]
        lines.append(configuration({field: NAN}))
    lines += [at_end(field, MINUS_ZERO) for field in (1, 4, 7, 8, 12, 18, 23, 31, 32, 33, 27)]
    lines += [configuration({9: -1.0, 3: -1.0, 33: -1.0}), configuration({23: 2.25})]
    lines += [f"{configuration(numbers)} # {remark}" for numbers, remark in CROSSED + EQUAL]
    lines += ["0000000002", "ffffffff02", "0000000080", "0100000000", "01000000000000", "0100000002 0000803f"]
    return lines + [configuration({1: NAN, 2: 0.5})[:-2] + " # cut short behind a bad field"]


def damaged():
    """Whole inputs, a line each: every kind of damage to a call record, and the order of checks."""
    full = (
        "ffff3f00 03 01" + " 0000803f" * 20
    )
    lines = [f"{DEFAULTS} {full}", f"{DEFAULTS} {full[:-2]} # one byte short"]
    for kind in range(7):
        body = f"ffff3f00 0{kind} 00" + " 0000003f" * 20
        lines += [f"{DEFAULTS} {body} # every field stands", f"{DEFAULTS} {body} 01000000 00"]
    lines += [f"{DEFAULTS} {'01000000 00'[:end]} # cut" for end in (2, 4, 6, 8)]
    lines += [f"{DEFAULTS} {call('land', step=1.0)} {stray} # stray bytes" for stray in ("00", "0000", "ffffff")]
    lines += [f"{DEFAULTS} {(1 << bit | 1).to_bytes(4, 'little').hex()} 00 # bit {bit}" for bit in range(22, 32)]
    lines += [f"{DEFAULTS} {word} 00 # half a leg or no kind" for word in ("01020000", "01040000", "00000000", "06000000")]
    lines += [f"{DEFAULTS} 01000000 {kind:02x} # kind {kind}" for kind in (5, 6, 7, 8, 127, 128, 255)]
    lines += [f"{DEFAULTS} 03000000 {kind:02x} {regime:02x}" for kind in (0, 3, 5) for regime in (0, 1, 2, 255)]
    lines += [
        f"{DEFAULTS} 05000000 09 0000 # 5 before 7",
        f"{DEFAULTS} 05008000 09 # 6 before 5 and 7",
        f"{DEFAULTS} 04008000 # 6: no kind, an unnamed bit",
        f"{DEFAULTS} 03000000 09 02 # both bytes wrong",
        f"{DEFAULTS} 01000000 # the map alone",
    ]
    return lines


def single(numbers, remark, **fields):
    return [configuration(numbers), f"{waypoint(**fields)} # {remark}"]


RECORDINGS = {
    "desk-example": desk_example(),
    "airspeed-1e30": single({}, "accepted", cruise=20.0, airspeed=1e30),
    "airspeed-1e30-weight-0": single({23: 0.0}, "refused 4", cruise=20.0, airspeed=1e30),
    "ties-by-hand": ties(),
    "idle": [DEFAULTS] + [f"{waypoint(**fields)} # {name}: {remark}" for name, remark, fields in IDLE],
    "off": [DEFAULTS] + [f"{waypoint(**fields)} # {bits}: {remark}" for bits, remark, fields in OFF],
    "underspeed": underspeed(),
    "refusals": refusals(),
    "caps": caps(),
    "holds": holds(),
    "speed-demand": speed_demand(),
    "sticks": sticks(),
}
LISTS = {"settings": settings(), "takings-back": takings_back()}
INPUTS = {"configurations": configurations(), "damaged-by-hand": damaged()}
