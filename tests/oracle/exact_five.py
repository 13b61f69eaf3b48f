"""An exact model of an entry of a product by method 5, in fractions.

Independent implementation, not proved. Values are in units of 2^-149, as in exact.py. An
entry has k pairs of cells, each a cell of A and one of B as midpoint and radius: (mA, rA,
mB, rB).
"""
from collections import namedtuple
from fractions import Fraction

from exact import MAX_MAGNITUDE, UNIT, floor_rank, ranked, rounded, value

# The bounds, the centre C and the bound E on its error.
Entry = namedtuple('Entry', 'lower upper centre error')


class TooLarge(Exception):
    """A step has no finite result."""


def taken(x, direction):
    """The number that x is rounded to."""
    rank = rounded(x)[direction]
    if rank is None:
        raise TooLarge
    return ranked(rank)


def cell(lower, upper):
    """The midpoint and the radius of a cell, from the patterns of its bounds."""
    a, b = value(lower), value(upper)
    m = taken(Fraction(a + b, 2), 'n')
    return m, taken(max(m - a, b - m), 'u')


def part(m, r):
    return min(m, r) if m >= 0 else -min(-m, r)


def spacing(number):
    """The distance to the next number of larger magnitude: 2^104 at MAX."""
    rank = floor_rank(abs(number))
    return 2**(104 + 149) if rank == MAX_MAGNITUDE else ranked(rank + 1) - ranked(rank)


def total(start, factors, direction):
    """start, plus the product of each pair of factors; all products and sums are rounded."""
    for a, b in factors:
        start = taken(start + taken(a * b * UNIT, direction), direction)
    return start


def entry_of(pairs, spaced='size', count=None):
    """The entry. The last two arguments make another method of it: the spacing is that of
    the centre, or the count is another than k + 1."""
    mids = [(ma, mb) for ma, _, mb, _ in pairs]
    parts = [(part(ma, ra), part(mb, rb)) for ma, ra, mb, rb in pairs]
    centre = total(total(0, mids, 'n'), parts, 'n')
    sizes = [[(abs(a), abs(b)) for a, b in factors] for factors in (mids, parts)]
    size = total(total(0, sizes[0], 'n'), sizes[1], 'n')
    steps = (len(pairs) + 1 if count is None else count) * spacing(size if spaced == 'size' else centre)
    error = taken(taken(steps, 'u') + 2**23, 'u')
    outer = [(taken(abs(ma) + ra, 'u'), taken(abs(mb) + rb, 'u')) for ma, ra, mb, rb in pairs]
    radius = taken(total(0, outer, 'u') - size, 'u')
    radius = taken(radius + taken(2 * error, 'u'), 'u')
    return Entry(taken(centre - radius, 'd'), taken(centre + radius, 'u'), centre, error)


def exact_centre(pairs):
    """What the centre is without any rounding."""
    return sum((ma * mb + part(ma, ra) * part(mb, rb)) * UNIT for ma, ra, mb, rb in pairs)
