"""Holds method 5 to the exact model: the C implementation gives the same entries, the error
of the centre is within its bound E, and entries enclose.

Independent implementation, not proved.

  check_five.py ENTRIES [COUNT]   COUNT random entries, through a pipe to that program
"""
import random
import subprocess
import sys
from fractions import Fraction

from exact import UNIT, floor_rank, pattern_of, value
from exact_five import TooLarge, cell, entry_of, exact_centre

# Ranges of the exponent fields of A and of B: similar, subnormal, subnormal by normal, near
# MAX by small, any, products about a unit, products about MAX.
KINDS = [((122, 132), (122, 132)), ((0, 1), (0, 2)), ((0, 1), (120, 150)), ((250, 254), (110, 127)),
         ((0, 254), (0, 254)), ((45, 58), (45, 60)), ((186, 189), (186, 190)), ((127, 127), (127, 127))]
ONE = 0x3F800000


def point(pattern):
    return pattern, pattern


# Entries for which another bound on the error would not do, and how that one is made: from
# the spacing of the centre, and from one spacing in place of k + 1.
CANCELLED = [point(0x3F800800) + point(0x3F800801), point(ONE) + point(0xBF801002)]
SUMMED = [point(ONE) + point(ONE)] + 7 * [point(0x33800001) + point(ONE)]
NEEDED = [(CANCELLED, {'spaced': 'centre'}), (SUMMED, {'count': 1})]


def draw_cell(draw, fields):
    """The patterns of two bounds: a point, a few steps apart, about zero, or any two."""
    a, b = (draw.randint(*fields) << 23 | draw.getrandbits(23) | draw.getrandbits(1) << 31 for _ in range(2))
    if draw.random() < 0.3:
        a &= ~draw.choice((0x7FFFFF, 0x7FFF00))         # a power of two, or few digits
    kind = draw.randrange(5)
    if kind < 2:
        b = a
    elif kind == 2:
        b = a ^ draw.randint(0, 3)
    elif kind == 3:
        b = a ^ 0x80000000
    return tuple(sorted((a, b), key=value))


def draw_entry(draw):
    """k pairs of cells; now and then a pair is the one before it with another sign."""
    a, b = draw.sample(draw.choice(KINDS), 2)
    pairs = []
    for _ in range(draw.choice((1, 1, 2, 3, 4, 8, 32))):
        pairs.append(draw_cell(draw, a) + draw_cell(draw, b))
        if len(pairs) > 1 and draw.random() < 0.3:
            lower, upper, *other = pairs[-2]
            pairs[-1] = (upper ^ 0x80000000, lower ^ 0x80000000, *other)
    return pairs


def converted(pairs):
    return [cell(*pair[:2]) + cell(*pair[2:]) for pair in pairs]


def picked(draw, pairs):
    """The exact sum of products of numbers that are picked from the cells, often their bounds."""
    total = 0
    for pair in pairs:
        picks = []
        for lower, upper in ((value(pair[0]), value(pair[1])), (value(pair[2]), value(pair[3]))):
            share = draw.choice((0, 1, Fraction(draw.getrandbits(20), 2**20)))
            picks.append(lower + (upper - lower) * share)
        total += picks[0] * picks[1] * UNIT
    return total


def check_entry(draw, pairs, tally):
    """What the model answers; counts errors and picks that are out of bounds."""
    try:
        entry = entry_of(converted(pairs))
    except TooLarge:
        tally['refused'] += 1
        return 'refuse 5'
    off = abs(entry.centre - exact_centre(converted(pairs)))
    tally['rounded'] += off > 0
    tally['error'] += off > entry.error
    for _ in range(4):
        tally['outside'] += not entry.lower <= picked(draw, pairs) <= entry.upper
    return '%08X %08X' % tuple(pattern_of(floor_rank(x)) for x in entry[:2])


def check_needed():
    """The entries of NEEDED enclose the exact sum of their points, but not with the other bound."""
    for pairs, other in NEEDED:
        exact, right, wrong = exact_centre(converted(pairs)), entry_of(converted(pairs)), entry_of(converted(pairs), **other)
        assert right.lower <= exact <= right.upper, pairs
        assert not wrong.lower <= exact <= wrong.upper, pairs


def main(program, count):
    draw, tally = random.Random(5), dict.fromkeys(('refused', 'rounded', 'error', 'outside'), 0)
    entries = [pairs for pairs, _ in NEEDED] + [draw_entry(draw) for _ in range(count)]
    expected = [check_entry(draw, pairs, tally) for pairs in entries]
    lines = ['5 %d ' % len(pairs) + ' '.join('%08X' % p for pair in pairs for p in pair) for pairs in entries]
    run = subprocess.run([program], input='\n'.join(lines) + '\n', stdout=subprocess.PIPE, text=True, check=True)
    given = run.stdout.splitlines()
    wrong = [case for case in zip(lines, given, expected) if case[1] != case[2]]
    for case in wrong[:20]:
        print('%s: given %s, expected %s' % case)
    check_needed()
    print('%d entries by method 5, %d differences: %d refused, %d of the others with a rounded centre; %d errors above E, %d picks outside'
          % (len(entries), len(wrong), tally['refused'], tally['rounded'], tally['error'], tally['outside']))
    return 1 if wrong or len(given) != len(entries) or tally['error'] or tally['outside'] else 0


if __name__ == '__main__':
    if len(sys.argv) not in (2, 3):
        sys.exit(__doc__)
    sys.exit(main(sys.argv[1], int((sys.argv + ['2000'])[2])))
