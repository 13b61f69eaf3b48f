"""An exact model of the rounded operations, and of the conversion of bounds to midpoint
and radius, in fractions.

Independent implementation, not proved. Every value is a fraction, in units of
2^-149. A rounding searches all finite patterns, in the order of their values,
for the least, greatest or closest number, as its definition says.
"""
from fractions import Fraction

UNIT = Fraction(1, 2**149)
MAX_MAGNITUDE = 0x7F7FFFFF
NEAREST_LIMIT = (2**128 - 2**103) / UNIT


def units_of(magnitude):
    """The magnitude of a finite pattern without its sign, in units."""
    e, f = magnitude >> 23, magnitude & 0x7FFFFF
    return f if e == 0 else (2**23 + f) * 2**(e - 1)


def value(pattern):
    units = units_of(pattern & 0x7FFFFFFF)
    return -units if pattern >> 31 else units


def ranked(rank):
    """The number with this rank, in units: ranks count the numbers in rising order, zero has 0."""
    return -units_of(-rank) if rank < 0 else units_of(rank)


def pattern_of(rank):
    return 0x80000000 | -rank if rank < 0 else rank


def floor_rank(x):
    """The rank of the greatest number not above x, or None."""
    low, high = -MAX_MAGNITUDE, MAX_MAGNITUDE
    if ranked(low) > x:
        return None
    while low < high:
        middle = (low + high + 1) // 2
        if ranked(middle) <= x:
            low = middle
        else:
            high = middle - 1
    return low


def exact(operation, a, b):
    """The exact result in units. A unit times a unit is 2^-298."""
    a, b = value(a), value(b)
    return {'+': Fraction(a + b), '-': Fraction(a - b),
            'x': Fraction(a * b) * UNIT, 'm': Fraction(a + b, 2)}[operation]


def closest(x, below, above):
    """The rank of the closest number, ties to the even fraction."""
    if abs(x) >= NEAREST_LIMIT:
        return None
    if below is None or above is None:
        return above if below is None else below
    left, right = x - ranked(below), ranked(above) - x
    if left != right:
        return below if left < right else above
    return below if pattern_of(below) % 2 == 0 else above


def rounded(x):
    """The three roundings of x: each a rank, or None where it is refused."""
    below = floor_rank(x)
    if below is None:
        above = -MAX_MAGNITUDE
    elif ranked(below) == x:
        above = below
    else:
        above = below + 1 if below < MAX_MAGNITUDE else None
    return {'d': below, 'u': above, 'n': closest(x, below, above)}


def answers(operation, a, b):
    """The result for each direction, as the eight characters of a test vector."""
    if any(p >> 23 & 0xFF == 0xFF for p in (a, b)):
        return dict.fromkeys('dun', 'refuse 3')
    return {direction: 'refuse 5' if rank is None else '%08X' % pattern_of(rank)
            for direction, rank in rounded(exact(operation, a, b)).items()}


def converted(a, b):
    """[a, b] as midpoint and radius, as a test vector has results: the midpoint to nearest,
    and the larger of its distances from the bounds, rounded up."""
    if any(p >> 23 & 0xFF == 0xFF for p in (a, b)):
        return 'refuse 3'
    a, b = value(a), value(b)
    if a > b:
        return 'refuse 4'
    m = rounded(Fraction(a + b, 2))['n']
    r = rounded(max(ranked(m) - a, b - ranked(m)))['u']
    return '%08X %08X' % (pattern_of(m), pattern_of(r))
