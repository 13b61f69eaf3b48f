"""binary32 patterns and their exact values, for tools/sheet. Not proved."""
import struct
from decimal import ROUND_05UP, ROUND_CEILING, ROUND_FLOOR, Context, Decimal
from fractions import Fraction

# Patterns; MAX is that of the largest finite number.
MAX, INFINITY, MINUS_ZERO = 0x7F7FFFFF, 0x7F800000, 0x80000000

# The value of MAX.
LARGEST = Fraction(2**128 - 2**104)


def is_finite(pattern):
    return pattern & INFINITY != INFINITY


def decimal(pattern):
    """The exact value as a Decimal: every binary32 number has a finite decimal expansion."""
    return Decimal(struct.unpack("<f", struct.pack("<I", pattern))[0])


def value(pattern):
    return Fraction(decimal(pattern))


def shortened(exact):
    """A fraction of few digits for a Decimal of any length, at most LARGEST in magnitude: each binary32 number is above, at or below both alike.
    Every binary32 number is a whole number of 2^-149, so of 10^-149. The place of 10^-150 is the last that is kept. If digits are cut off behind it,
    ROUND_05UP turns a 0 in this place to 1 and a 5 to 6: what lies between two whole numbers of 10^-149 stays strictly between them."""
    return Fraction(exact.quantize(Decimal("1e-150"), ROUND_05UP, Context(prec=200)))


def magnitude(exact):
    """For exact >= 0: the pattern of the greatest number not above it, and whether it is equal."""
    units = exact * 2**149
    whole = units.numerator // units.denominator
    shift = max(whole.bit_length() - 24, 0)
    significand = whole >> shift
    return (shift << 23) + significand, significand << shift == units


def away(exact):
    """For exact >= 0: the pattern of the least number not below it."""
    pattern, equal = magnitude(exact)
    return pattern if equal else pattern + 1


def down(exact):
    """The pattern of the greatest number not above exact, which is at most LARGEST in magnitude."""
    return MINUS_ZERO | away(-exact) if exact < 0 else magnitude(exact)[0]


def up(exact):
    """The pattern of the least number not below exact, which is at most LARGEST in magnitude."""
    if exact >= 0:
        return away(exact)
    pattern = magnitude(-exact)[0]
    return MINUS_ZERO | pattern if pattern else 0


def nine_digits(pattern, direction):
    """The value to nine significant decimal digits, rounded down or up."""
    rounding = ROUND_FLOOR if direction == "down" else ROUND_CEILING
    return Context(prec=9, rounding=rounding).plus(decimal(pattern))
