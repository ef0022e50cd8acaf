#!/usr/bin/env python3
"""The rows on which crates/laws_cases runs, a file of data/ for each group, and its stdout: all rows right.

They are written to the crate, or to the folder named.

The group of a law's name has the oracle's rows of that law (tools/oracle/fixed/laws, where its README says what is in one). A
group document_01_NAME or document_02_NAME has the cases of that law that the document states, in the same form: input words, then
answer words, each 4 bytes, low byte first.
"""
import pathlib
import struct
import sys

HERE = pathlib.Path(__file__).resolve().parent
CRATE = HERE.parent.parent / "crates/laws_cases"
ORACLE = HERE.parent / "oracle/fixed/laws"

LAWS = """saturate_unit saturate_symmetric saturate_throttle limit_or_zero clamp_symmetric lagged l1 track_accel_mps2
loiter_accel_mps2 bank_for_accel_rad pi_step update_underspeed energies thrust pitch tecs_step validate default""".split()

NAN = 0x7FC00000


def bits(number):
    return struct.unpack("<I", struct.pack("<f", number))[0]


def numbers(*values):
    return [bits(value) for value in values]


# the default values of document 01's fields 15 to 30
ENERGY = numbers(5, 5, 2, 5, 0.5, 0.3, 0.3, 0.2, 1, 10, 10, 25, 0.9, 3, 0.5, 1)
SPEED_WEIGHT, SHARE = 23, 27  # fields
DEFAULT = (
    # 45, 20, 25 and 180 degrees, each one product with PI / 180
    [0x3F490FDB, 0x3EB2B8C2, 0x3EDF66F3, 0x40490FDB, 0x40490FDB, 0]
    + numbers(0, 0.5, 12, 0.75, 40, 0.05, 0.01, 20)
    + ENERGY
    + numbers(0.2, 1, 0.5)
)


def with_fields(values):
    """The default values with these numbers, by field; a whole number gives its bits."""
    row = list(DEFAULT)
    for field, value in values.items():
        row[field - 1] = value if isinstance(value, int) else bits(value)
    return row


def with_field(field, value):
    return with_fields({field: float(value)})


# Of each field, from document 01 and the Rust's `validate`: the bits of a number just below what passes and of one just above.
NEGATIVE, ZERO, ABOVE_1, ABOVE_2, INFINITE, QUARTER_TURN = 0x80000001, 0, 0x3F800001, 0x40000001, 0x7F800000, 0x3FC90FDC
PASSING = {
    "limit": (NEGATIVE, INFINITE),
    "positive": (ZERO, INFINITE),
    "angle": (NEGATIVE, QUARTER_TURN),
    "trim": (0x80000000 | QUARTER_TURN, QUARTER_TURN),
    "thrust": (NEGATIVE, ABOVE_1),
    "weight": (NEGATIVE, ABOVE_2),
    "share": (ZERO, ABOVE_1),
}
CHECKS = (
    "angle angle angle limit limit limit trim thrust positive positive positive limit limit limit "
    "positive positive positive limit limit limit limit limit weight limit positive positive share positive positive positive "
    "thrust thrust limit"
).split()


def every_field():
    """Each field fails first on either side and at NaN; the fields behind it fail too."""
    for field, check in enumerate(CHECKS, 1):
        for failing in (*PASSING[check], NAN):
            yield with_fields({field: failing}) + [field]
            yield with_fields({n: NAN for n in range(field + 1, 34)} | {field: failing}) + [field]


LEAST_AIRSPEED, GREATEST_AIRSPEED, LEAST_THRUST, GREATEST_THRUST = 25, 26, 31, 32


def limits(airspeeds, thrusts, fails):
    """Document 02's K8: least and greatest of both pairs."""
    fields = (LEAST_AIRSPEED, GREATEST_AIRSPEED, LEAST_THRUST, GREATEST_THRUST)
    return with_fields(dict(zip(fields, (*airspeeds, *thrusts)))) + [fails]


AIRSPEEDS, THRUSTS, ROUND_AIRSPEEDS, ROUND_THRUSTS = (10.0, 25.0), (0.2, 1.0), (25.0, 10.0), (1.0, 0.2)
PAIRS = [
    limits(ROUND_AIRSPEEDS, THRUSTS, 34),
    limits(AIRSPEEDS, ROUND_THRUSTS, 35),
    limits(ROUND_AIRSPEEDS, ROUND_THRUSTS, 34),
    limits((0x41200001, 10.0), THRUSTS, 34),
    limits((10.0, 0x41200001), THRUSTS, 0),
    limits((10.0, 10.0), (0.5, 0.5), 0),
    limits(AIRSPEEDS, (0x00000001, 0.0), 35),
    limits(AIRSPEEDS, (0.0, -0.0), 0),
    limits(AIRSPEEDS, (-0.0, 0.0), 0),
    limits(ROUND_AIRSPEEDS, (2.0, 0.2), LEAST_THRUST),
    with_fields({LEAST_AIRSPEED: 25.0, GREATEST_AIRSPEED: 10.0, 33: NAN}) + [33],
]


def pi(error, integral, answer, after):
    """dt 1, p 0.5, i 0.25, integral limit 10, limits ±1, fallback 0."""
    return numbers(1) + error + numbers(0.5, 0.25, 10, -1, 1, 0) + integral + answer + after


def underspeed(airspeed, before, after):
    """Share 0.5, least airspeed 10."""
    energy = ENERGY[: SHARE - 15] + numbers(0.5) + ENERGY[SHARE - 14 :]
    return energy + numbers(airspeed) + [before, after]


STATED = {
    "saturate_unit": [[NAN, 0]],
    "clamp_symmetric": [[NAN] + numbers(1) + [NAN]],
    "lagged": [numbers(0, 8, 2, 4, 4), numbers(0, 8, 9, 4, 8)],
    "pi_step": [
        pi(numbers(2), numbers(0), numbers(1), numbers(0)),
        pi(numbers(1), numbers(0), numbers(0.75), numbers(1)),
        # "a height error that isn't finite keeps the altitude integral"
        pi([NAN], numbers(8), numbers(0), numbers(8)),
    ],
    "update_underspeed": [
        underspeed(4.9, 0, 1),
        underspeed(5, 0, 0),
        underspeed(5, 1, 1),
        underspeed(9.9, 0, 0),
        underspeed(9.9, 1, 1),
        underspeed(10, 1, 0),
    ],
    "validate": [
        with_field(SPEED_WEIGHT, 2) + [0],
        with_field(SPEED_WEIGHT, 2.25) + [SPEED_WEIGHT],
        with_field(SHARE, 1) + [0],
        with_field(SHARE, 0) + [SHARE],
        *every_field(),
    ],
}
STATED_02 = {"validate": PAIRS}


def words_of(law):
    for line in (ORACLE / "functions.txt").read_text().splitlines():
        name, inputs, answers = line.split()
        if name == law:
            return int(inputs) + int(answers)
    raise SystemExit(f"laws.py: the oracle has no rows of {law}")


def groups():
    for law in LAWS:
        yield law, (ORACLE / f"{law}.rows").read_bytes(), words_of(law)
    for document, stated in (("document_01", STATED), ("document_02", STATED_02)):
        for law, rows in stated.items():
            words = words_of(law)
            assert all(len(row) == words for row in rows), law
            yield f"{document}_{law}", b"".join(struct.pack(f"<{words}I", *row) for row in rows), words


def main():
    folder = pathlib.Path(sys.argv[1]) if len(sys.argv) > 1 else CRATE
    lines, total = [], 0
    (folder / "data").mkdir(exist_ok=True)
    for name, rows, words in groups():
        (folder / "data" / name).write_bytes(rows)
        count = len(rows) // (4 * words)
        lines.append(f"{name}: {count} of {count}\n")
        total += count
    lines.append(f"total: {total} of {total}\n")
    (folder / "stdout").write_text("".join(lines))


main()
