"""f32 numbers, held as their bits: from text, rounded once, and to the shortest text that gives them back."""

import re
import struct
from decimal import ROUND_UP, Context, Decimal
from fractions import Fraction

NAN = 0x7FC00000
INFINITY = 0x7F800000
SIGN = 0x80000000
LEAST_NORMAL = 0x00800000

WORDS = {"nan": NAN, "inf": INFINITY, "-inf": SIGN | INFINITY, "0": 0, "-0": SIGN}
NAMES = {bits: word for word, bits in WORDS.items()}

DECIMAL = re.compile(r"[+-]?(\d+\.?\d*|\.\d+)([eE][+-]?\d{1,4})?", re.ASCII)
BITS = re.compile(r"0[xX][0-9a-fA-F]{1,8}", re.ASCII)
MOST_CHARACTERS = 1000

F32, U32, F64, U64 = (struct.Struct(form) for form in ("<f", "<I", "<d", "<Q"))

# A double halfway between two f32s has these low bits: only there can a second rounding do harm.
BELOW_F32 = (1 << 29) - 1
HALFWAY = 1 << 28


class NotANumber(ValueError):
    """Text that is no number, or a decimal beyond the greatest f32."""


def one_nan(bits):
    """The same bits, every NaN as 7fc00000."""
    return NAN if bits & ~SIGN > INFINITY else bits


def is_finite(bits):
    return bits & INFINITY != INFINITY


def value(bits):
    """The number as a Python float, which holds every f32 exactly."""
    return F32.unpack(U32.pack(bits))[0]


def rounded(size):
    """The bits of the f32 nearest to a fraction of at least 0, ties to even."""
    if size == 0:
        return 0
    exponent = size.numerator.bit_length() - size.denominator.bit_length()
    if Fraction(2) ** exponent > size:
        exponent -= 1
    exponent = max(exponent, -126)
    # Python rounds a fraction to the nearest whole number, ties to even.
    return (exponent + 126 << 23) + round(size / Fraction(2) ** (exponent - 23))


def from_decimal_exactly(text):
    bits = rounded(abs(Fraction(text)))
    if bits >= INFINITY:
        raise NotANumber(f"{text} is beyond the greatest f32 (write inf for infinity)")
    return bits | (SIGN if text.startswith("-") else 0)


def from_decimal(text):
    """The bits of the f32 nearest to a decimal."""
    double = float(text)
    (pattern,) = U64.unpack(F64.pack(double))
    if 1.2e-38 < abs(double) < 3.4e38 and pattern & BELOW_F32 != HALFWAY:
        return U32.unpack(F32.pack(double))[0]
    return from_decimal_exactly(text)


def from_text(text):
    """The bits of a decimal, of 0x and hexadecimal bits, or of nan, inf, -inf."""
    if text in WORDS:
        return WORDS[text]
    if BITS.fullmatch(text):
        return one_nan(int(text, 16))
    if len(text) > MOST_CHARACTERS or not DECIMAL.fullmatch(text):
        raise NotANumber(f"{text[:40]!r} is not a number (a decimal, 0x and bits, nan, inf or -inf)")
    return from_decimal(text)


def tidy(text):
    return re.sub(r"e([+-])0*", lambda e: "e-" if e.group(1) == "-" else "e", text)


def decimals(bits, digits):
    """Decimals of so many digits that may read back as these bits: the nearest one first."""
    number = value(bits)
    yield f"{number:.{digits}g}"
    if bits & 0x7FFFFF == 0:
        # Below a power of two f32s are twice as dense, so one further off but above may do.
        above = Context(prec=digits, rounding=ROUND_UP).plus(Decimal(number))
        yield f"{float(above):.{digits}g}"


def to_text(bits):
    """The shortest decimal that reads back as these bits, or a word."""
    bits = one_nan(bits)
    if bits in NAMES:
        return NAMES[bits]
    # A decimal of up to 6 digits survives the way to a normal f32 and back at 6 digits.
    fewest = 6 if bits & ~SIGN >= LEAST_NORMAL else 1
    for digits in range(fewest, 10):
        for text in decimals(bits, digits):
            if from_decimal(text) == bits:
                return tidy(text)
    raise AssertionError(f"no decimal of 9 digits for {bits:08x}")
