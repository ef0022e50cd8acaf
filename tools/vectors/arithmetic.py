#!/usr/bin/env python3
"""The rows on which crates/arithmetic_cases runs, a file of data/ for each group, and its stdout: all rows right.

They are written to the crate, or to the folder named.

The results are worked out here alone, from the text of document 01: with exact fractions, rounded once after each operation
to binary32 (nearest, ties to even) by `rounded`, and with whole-number roots (math.isqrt). No floating point of Python's, and
nothing of the crate, has a part in them. The group document_01 has the cases that document 01 states, root_published the
figures of root-binary32.txt; both stand as published.

A row is eight u32 words, low byte first: function, four arguments, three results. Numbers are their bits, every NaN 7fc00000;
a truth is 0 or 1; normalise gives 0 0 0 for none, else 1 and the two parts. What a function does not use is 0.
"""
import math
import pathlib
import struct
import sys
from fractions import Fraction

HERE = pathlib.Path(__file__).resolve().parent
CRATE = HERE.parent.parent / "crates/arithmetic_cases"

# ---- binary32: a number is NAN, or its sign (1 for negative) with its size, a Fraction or INF

NAN, INF = "nan", "inf"
LEAST_PLACE = -149  # the exponent of the smallest subnormal


def rounded(sign, size):
    """The binary32 number nearest to a size, a tie going to the even significand."""
    if size == 0:
        return (sign, Fraction(0))
    place = size.numerator.bit_length() - size.denominator.bit_length()
    if Fraction(2) ** place > size:
        place -= 1
    unit = Fraction(2) ** max(place - 23, LEAST_PLACE)
    count, rest = divmod(size, unit)
    if 2 * rest > unit or (2 * rest == unit and count % 2 == 1):
        count += 1
    value = count * unit
    return (sign, INF) if value >= Fraction(2) ** 128 else (sign, value)


def decimal(text):
    return rounded(0, Fraction(text))


def of_bits(bits):
    sign, field, digits = bits >> 31, bits >> 23 & 255, bits & 0x7FFFFF
    if field == 255:
        return NAN if digits else (sign, INF)
    if field == 0:
        return (sign, digits * Fraction(2) ** LEAST_PLACE)
    return (sign, (digits + (1 << 23)) * Fraction(2) ** (field - 150))


def to_bits(x):
    if x == NAN:
        return 0x7FC00000
    sign, size = x
    if size == INF:
        return sign << 31 | 0x7F800000
    if size < Fraction(2) ** -126:
        return sign << 31 | int(size * 2**149)
    place = size.numerator.bit_length() - size.denominator.bit_length()
    if Fraction(2) ** place > size:
        place -= 1
    digits = size / Fraction(2) ** (place - 23)
    assert digits.denominator == 1 and 1 << 23 <= digits < 1 << 24
    return sign << 31 | (place + 127) << 23 | int(digits) - (1 << 23)


def neg(x):
    return x if x == NAN else (1 - x[0], x[1])


def signed(x):
    return -x[1] if x[0] else x[1]


def add(x, y):
    if NAN in (x, y):
        return NAN
    if INF in (x[1], y[1]):
        if x[1] == y[1] and x[0] != y[0]:
            return NAN
        return x if x[1] == INF else y
    total = signed(x) + signed(y)
    if total == 0:
        return (x[0] & y[0], Fraction(0))
    return rounded(int(total < 0), abs(total))


def sub(x, y):
    return add(x, neg(y))


def mul(x, y):
    if NAN in (x, y):
        return NAN
    sign = x[0] ^ y[0]
    if INF in (x[1], y[1]):
        return NAN if 0 in (x[1], y[1]) else (sign, INF)
    return rounded(sign, x[1] * y[1])


def div(x, y):
    if NAN in (x, y):
        return NAN
    sign = x[0] ^ y[0]
    if x[1] == INF:
        return NAN if y[1] == INF else (sign, INF)
    if y[1] == INF:
        return (sign, Fraction(0))
    if y[1] == 0:
        return NAN if x[1] == 0 else (sign, INF)
    return rounded(sign, x[1] / y[1])


def remainder(x, y):
    """Rust's %: exact, with the sign of the left side."""
    if NAN in (x, y) or x[1] == INF or y[1] == 0:
        return NAN
    return x if y[1] == INF else (x[0], x[1] % y[1])


def key(x):
    return math.inf * (-1 if x[0] else 1) if x[1] == INF else signed(x)


def lt(x, y):
    return NAN not in (x, y) and key(x) < key(y)


def le(x, y):
    return NAN not in (x, y) and key(x) <= key(y)


def is_zero(x):
    return x != NAN and x[1] == 0


# ---- document 01, "Arithmetic, the lowest crate"

ZERO, ONE, TWO = decimal("0"), decimal("1"), decimal("2")
PI = of_bits(0x40490FDB)
FRAC_PI_4, FRAC_PI_2, TAU = (rounded(0, PI[1] * Fraction(f)) for f in ("1/4", "1/2", "2"))
BEND = decimal("0.41421356")


def least(a, b):
    if a == NAN:
        return b
    if b == NAN:
        return a
    return a if lt(a, b) else b


def greatest(a, b):
    if a == NAN:
        return b
    if b == NAN:
        return a
    return a if lt(b, a) else b


def clamp(v, low, high):
    return low if lt(v, low) else high if lt(high, v) else v


def size(v):
    return v if v == NAN else (0, v[1])


def finite(v):
    return v != NAN and v[1] != INF


def root(x):
    """IEEE 754's: the whole part of the root, with digits enough that rounding sees the rest only as zero or not."""
    if x == NAN or is_zero(x):
        return x
    if x[0]:
        return NAN
    if x[1] == INF:
        return x
    digits = 160
    scaled = x[1] * 4**digits
    assert scaled.denominator == 1
    whole = math.isqrt(int(scaled))
    rest = Fraction(0) if whole * whole == scaled else Fraction(1, 2)
    return rounded(0, (whole + rest) / 2**digits)


def norm(x, y):
    return root(add(mul(x, x), mul(y, y)))


def dot(ax, ay, bx, by):
    return add(mul(ax, bx), mul(ay, by))


def cross(ax, ay, bx, by):
    return sub(mul(ax, by), mul(ay, bx))


def normalise(x, y, floor):
    length = norm(x, y)
    return None if le(length, floor) else (div(x, length), div(y, length))


def nested(z, divisors):
    """1 - z/d1·(1 - z/d2·( .. (1 - z/dn)))"""
    result = sub(ONE, div(z, decimal(divisors[-1])))
    for d in reversed(divisors[:-1]):
        result = sub(ONE, mul(div(z, decimal(d)), result))
    return result


def sine(a):
    return mul(a, nested(mul(a, a), (6, 20, 42, 72, 110)))


def cosine(r):
    if not finite(r):
        return NAN
    t = size(remainder(r, TAU))
    if lt(PI, t):
        t = sub(TAU, t)
    if le(t, FRAC_PI_4):
        return nested(mul(t, t), (2, 12, 30, 56))
    return sine(sub(FRAC_PI_2, t))


def series(w):
    z = mul(w, w)
    result = div(ONE, decimal(15))
    for d in (13, 11, 9, 7, 5, 3, 1):
        result = sub(div(ONE, decimal(d)), mul(z, result))
    return mul(w, result)


def part(u):
    if le(u, BEND):
        return series(u)
    return add(FRAC_PI_4, series(div(sub(u, ONE), add(u, ONE))))


def arctangent(v):
    if v == NAN or is_zero(v):
        return v
    u = size(v)
    result = sub(FRAC_PI_2, part(div(ONE, u))) if lt(ONE, u) else part(u)
    return neg(result) if lt(v, ZERO) else result


def arcsine(v):
    return arctangent(div(v, root(sub(ONE, mul(v, v)))))


def arctangent2(y, x):
    if NAN in (x, y):
        return NAN
    if lt(ZERO, x):
        return arctangent(div(y, x))
    if lt(x, ZERO):
        return (sub if y[0] else add)(arctangent(div(y, x)), PI)
    return y if is_zero(y) else (y[0], FRAC_PI_2[1])


# name and how many arguments, in the order of the functions' numbers
FUNCTIONS = [
    (least, 2), (greatest, 2), (clamp, 3), (size, 1), (finite, 1), (root, 1), (norm, 2), (dot, 4), (cross, 4),
    (normalise, 3), (sine, 1), (cosine, 1), (arctangent, 1), (arcsine, 1), (arctangent2, 2),
]
NUMBER = {function.__name__: n for n, (function, _) in enumerate(FUNCTIONS)}

# ---- arguments, as bits


class Spread:
    """Repeatable numbers: a linear congruence modulo 2^64, its high half."""

    def __init__(self, seed):
        self.state = seed

    def word(self):
        self.state = (self.state * 6364136223846793005 + 1442695040888963407) % 2**64
        return self.state >> 32

    def bits(self, low, high):
        """Any sign, an exponent field from low to high, any digits."""
        w = self.word()
        return w & 0x80000000 | (low + self.word() % (high - low + 1)) << 23 | w & 0x7FFFFF


SPECIAL = [
    0x00000000, 0x80000000,  # zeros
    0x7FC00000, 0x7F800000, 0xFF800000,  # NaN, infinities
    0x00000001, 0x80000001, 0x00000002, 0x003504F3, 0x807FFFFF, 0x007FFFFF,  # subnormals
    0x00800000, 0x80800000, 0x00800001,  # smallest normal numbers
    0x7F7FFFFF, 0xFF7FFFFF, 0x7F7FFFFE,  # largest
    0x3F800000, 0xBF800000, 0x40000000, 0x3F000000, 0xBF000000, 0x3EAAAAAB,
]


def beside(x, steps=3):
    """A positive number's bits and its neighbours', with both signs."""
    b = to_bits(x)
    near = range(b - steps, b + steps + 1)
    return [n for n in near] + [0x80000000 | n for n in near]


def folds():
    """Both sides of TAU's multiples and of the places between them where the cosine's cases meet, up to huge ones."""
    found = []
    for k in list(range(1, 9)) + [2**n for n in range(4, 120, 5)] + [10**n for n in range(2, 37, 4)]:
        for eighths in (0, 1, 2, 4, 6, 7):
            found += beside(rounded(0, (k + Fraction(eighths, 8)) * TAU[1]), 1)
    return found


THRESHOLDS = [b for x in (BEND, ONE, FRAC_PI_4, FRAC_PI_2, PI, TAU, div(ONE, BEND)) for b in beside(x)]


def arguments(name, count):
    """Rows of arguments for one function."""
    spread = Spread(NUMBER[name] + 1)
    if count == 1:
        rows = SPECIAL + THRESHOLDS
        rows += [spread.bits(0, 254) for _ in range(200)]  # any size
        rows += [spread.bits(117, 130) for _ in range(300)]  # about a thousandth to 16
        if name == "cosine":
            rows += folds()
        if name == "root":
            rows += [spread.word() % 0x7F800000 for _ in range(400)]
            rows += [spread.word() % 0x800000 for _ in range(100)]  # subnormals
            rows += [b + d for n in (3, 5, 1001, 4095, 4096) for b in [to_bits(decimal(n * n))] for d in (-1, 0, 1)]
        return [(b,) for b in rows]
    if count == 2:
        rows = [(a, b) for a in SPECIAL for b in SPECIAL]
        rows += [(spread.bits(0, 254), spread.bits(0, 254)) for _ in range(100)]
        rows += [(spread.bits(117, 137), spread.bits(117, 137)) for _ in range(300)]
        if name == "arctangent2":
            for b in THRESHOLDS:
                rows += [(b, 0x3F800000), (b, 0xBF800000), (0x3F800000, b), (0xBF800000, b)]
        return rows
    some = [0x00000000, 0x80000000, 0x7FC00000, 0x7F800000, 0xFF800000, 0x3F800000, 0xBF000000, 0x00000001, 0x7F7FFFFF]
    if count == 3:
        rows = [(a, b, c) for a in some for b in some for c in some]
        rows += [tuple(spread.bits(120, 134) for _ in range(3)) for _ in range(300)]
        if name == "normalise":  # floors beside the length, on both sides
            for _ in range(100):
                x, y = spread.bits(110, 140), spread.bits(110, 140)
                length = to_bits(norm(of_bits(x), of_bits(y)))
                rows += [(x, y, length - 1), (x, y, length), (x, y, length + 1)]
        return rows
    rows = [tuple(some[spread.word() % len(some)] for _ in range(4)) for _ in range(300)]
    rows += [tuple(spread.bits(100, 150) for _ in range(4)) for _ in range(300)]
    for _ in range(50):  # products that cancel, in full and nearly
        a, b = spread.bits(120, 134), spread.bits(120, 134)
        rows += [(a, b, b, a ^ 0x80000000), (a, b, a, b), (a, b, a, b + 1)]
    return rows


# ---- rows

def result(value):
    if value is None:
        return (0, 0, 0)
    if isinstance(value, bool):
        return (int(value), 0, 0)
    if isinstance(value[0], tuple) or value[0] == NAN:
        return (1, to_bits(value[0]), to_bits(value[1]))
    return (to_bits(value), 0, 0)


def row(name, given, results):
    words = (NUMBER[name],) + tuple(given) + (0,) * (4 - len(given)) + tuple(results) + (0,) * (3 - len(results))
    return struct.pack("<8I", *words)


def computed(function, count):
    name = function.__name__
    for given in arguments(name, count):
        # arguments are numbers, so a NaN's payload and sign are not among them
        values = [of_bits(b) for b in given]
        yield row(name, [to_bits(v) for v in values], result(function(*values)))


def stated():
    """Document 01, "Both shores"."""
    yield row("root", [0x40800000], [0x40000000])  # root 4 is 2
    yield row("root", [0x40000000], [0x3FB504F3])
    yield row("root", [0x80000000], [0x80000000])
    yield row("cosine", [0x00000000], [0x3F800000])
    yield row("arctangent2", [0x00000000, 0xBF800000], [0x40490FDB])  # PI
    yield row("arctangent2", [0x80000000, 0xBF800000], [0xC0490FDB])
    yield row("least", [0x3E800000, 0x7FC00000], [0x3E800000])  # 0.25


def published():
    for line in (HERE / "root-binary32.txt").read_text().splitlines():
        if not line.startswith("#"):
            argument, wanted = (int(word, 16) for word in line.split())
            yield row("root", [argument], [wanted])


def main():
    folder = pathlib.Path(sys.argv[1]) if len(sys.argv) > 1 else CRATE
    groups = {"document_01": stated(), "root_published": published()}
    groups.update((function.__name__, computed(function, count)) for function, count in FUNCTIONS)
    lines, total = [], 0
    (folder / "data").mkdir(exist_ok=True)
    for name, rows in groups.items():
        rows = list(rows)
        (folder / "data" / name).write_bytes(b"".join(rows))
        lines.append(f"{name}: {len(rows)} of {len(rows)}\n")
        total += len(rows)
    lines.append(f"total: {total} of {total}\n")
    (folder / "stdout").write_text("".join(lines))


main()
