"""The 33 numbers of a configuration: names, units, what passes `validate`, and the Default values as bits; two pairs."""

import math
from typing import NamedTuple

from nuthkolla.numbers import from_decimal, to_text, value

# An angle of n degrees is the one product n · DEG, with DEG = PI / 180.
DEGREES_20, DEGREES_25, DEGREES_45, DEGREES_180 = 0x3EB2B8C2, 0x3EDF66F3, 0x3F490FDB, 0x40490FDB

SHARE = "from 0 to 1"
LIMIT = "0 or more, finite"
POSITIVE = "above 0, finite"
QUARTER_TURN = "from 0 to PI/2"
EITHER_WAY = "from -PI/2 to PI/2"
WEIGHT = "from 0 to 2"
PART = "above 0, up to 1"
QUARTER = value(0x3FC90FDB)  # PI/2

# What the words say of a number; a NaN passes none.
TESTS = {
    SHARE: lambda v: 0 <= v <= 1,
    LIMIT: lambda v: 0 <= v < math.inf,
    POSITIVE: lambda v: 0 < v < math.inf,
    QUARTER_TURN: lambda v: 0 <= v <= QUARTER,
    EITHER_WAY: lambda v: -QUARTER <= v <= QUARTER,
    WEIGHT: lambda v: 0 <= v <= 2,
    PART: lambda v: 0 < v <= 1,
}


class Setting(NamedTuple):
    """One number: its unit (none where it is a plain number), and what passes, in words."""

    name: str
    unit: str
    passes: str
    default: int


def setting(name, unit, passes, default):
    """The default as bits, or as a decimal."""
    return Setting(name, unit, passes, default if isinstance(default, int) else from_decimal(default))


# In the order of their numbers, field 1 first.
SETTINGS = [
    setting("max_bank_rad", "rad", QUARTER_TURN, DEGREES_45),
    setting("max_pitch_up_rad", "rad", QUARTER_TURN, DEGREES_20),
    setting("max_pitch_down_rad", "rad", QUARTER_TURN, DEGREES_25),
    setting("max_rate_radps.x", "rad/s", LIMIT, DEGREES_180),
    setting("max_rate_radps.y", "rad/s", LIMIT, DEGREES_180),
    setting("max_rate_radps.z", "rad/s", LIMIT, "0"),
    setting("trim_pitch_rad", "rad", EITHER_WAY, "0"),
    setting("cruise_thrust", "", SHARE, "0.5"),
    setting("l1_period_s", "s", POSITIVE, "12"),
    setting("l1_damping", "", POSITIVE, "0.75"),
    setting("loiter_radius_m", "m", POSITIVE, "40"),
    setting("altitude_p", "rad/m", LIMIT, "0.05"),
    setting("altitude_i", "rad/(m s)", LIMIT, "0.01"),
    setting("altitude_max_integral", "m s", LIMIT, "20"),
    setting("time_constant_s", "s", POSITIVE, "5"),
    setting("max_climb_mps", "m/s", POSITIVE, "5"),
    setting("min_sink_mps", "m/s", POSITIVE, "2"),
    setting("max_sink_mps", "m/s", LIMIT, "5"),
    setting("thrust_damping", "", LIMIT, "0.5"),
    setting("integrator_gain", "", LIMIT, "0.3"),
    setting("pitch_damping", "", LIMIT, "0.3"),
    setting("pitch_integrator_gain", "", LIMIT, "0.2"),
    setting("speed_weight", "", WEIGHT, "1"),
    setting("roll_compensation", "m^2/s^3", LIMIT, "10"),
    setting("min_airspeed_mps", "m/s", POSITIVE, "10"),
    setting("max_airspeed_mps", "m/s", POSITIVE, "25"),
    setting("underspeed_share", "", PART, "0.9"),
    setting("height_demand_time_constant_s", "s", POSITIVE, "3"),
    setting("airspeed_rate_time_constant_s", "s", POSITIVE, "0.5"),
    setting("kinetic_rate_high_pass_s", "s", POSITIVE, "1"),
    setting("min_thrust", "", SHARE, "0.2"),
    setting("max_thrust", "", SHARE, "1"),
    setting("climb_thrust_per_rad", "1/rad", LIMIT, "0.5"),
]


# Fields 34 and 35 are no numbers of their own: a least that must not be above its greatest.
PAIRS = {34: ("min_airspeed_mps", "max_airspeed_mps"), 35: ("min_thrust", "max_thrust")}


def first_failing(configuration):
    """The number of the first field that fails, by name and bits; none where all pass."""
    of = {name: value(bits) for name, bits in configuration.items()}
    failing = [n for n, setting in enumerate(SETTINGS, 1) if not TESTS[setting.passes](of[setting.name])]
    failing += [n for n, (least, greatest) in PAIRS.items() if of[least] > of[greatest]]
    return failing[0] if failing else None


def settings_table():
    """A line for each number, for people, and for each pair."""
    rows = [("", "name", "unit", "default", "passes")]
    rows += [(str(n), s.name, s.unit, to_text(s.default), s.passes) for n, s in enumerate(SETTINGS, 1)]
    lines = [f"{n:>4}  {name:<30} {unit:<10} {default:<11} {passes}" for n, name, unit, default, passes in rows]
    return "\n".join(lines + [f"{n:>4}  {least} is not above {greatest}" for n, (least, greatest) in PAIRS.items()])
