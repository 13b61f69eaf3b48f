"""Holds the running entry to the exact model: after each call the C implementation has the
same answer and the same value, and the range encloses the exact one.

Independent implementation, not proved.

  check_running.py HISTORIES [COUNT]   COUNT random histories, through a pipe to that program
"""
import random
import subprocess
import sys

from check_five import KINDS, draw_cell
from exact import MAX_MAGNITUDE, UNIT, floor_rank, pattern_of, value
from exact_five import TooLarge, taken

FIXED = [0] + [(c + 116) << 23 for c in range(1, 8)]
SIGN, INFINITE = 0x80000000, 0x7F800000


class Refused(Exception):
    """A call is refused; the argument is the number."""


def finite(*patterns):
    return all(p & INFINITE != INFINITE for p in patterns)


class Running:
    """A running entry: both sums, rounded and exact, in units; the pairs taken, the amounts."""

    def __init__(self):
        self.sums, self.exact, self.pairs, self.amounts = (0, 0), (0, 0), 0, FIXED

    def widened(self, lower, upper, wear_class):
        if wear_class > 7:
            raise Refused(10)
        amount = self.amounts[wear_class]
        if not finite(lower, upper, amount):
            raise Refused(3)
        if value(lower) > value(upper):
            raise Refused(4)
        return taken(value(lower) - value(amount), 'd'), taken(value(upper) + value(amount), 'u')

    def take(self, *cells):
        if self.pairs == 32:
            raise Refused(1)
        a, b = self.widened(*cells[:3]), self.widened(*cells[3:])
        corners = [x * y * UNIT for x in a for y in b]
        self.sums = (taken(self.sums[0] + min(taken(c, 'd') for c in corners), 'd'),
                     taken(self.sums[1] + max(taken(c, 'u') for c in corners), 'u'))
        self.exact = self.exact[0] + min(corners), self.exact[1] + max(corners)
        self.pairs += 1

    def load(self, length, *amounts):
        if length != 32:
            raise Refused(6)
        if not finite(*amounts):
            raise Refused(3)
        values = [value(p) for p in amounts]
        if values[0] != 0 or values != sorted(values):
            raise Refused(13)
        self.amounts = amounts

    def encloses(self):
        return self.sums[0] <= self.exact[0] and self.exact[1] <= self.sums[1]

    def words(self):
        return [pattern_of(floor_rank(x)) for x in self.sums] + [self.pairs] + list(self.amounts)


def draw_load(draw):
    """A length and eight amounts, small, subnormal or of any size; some loads are faulty."""
    least, most = draw.choice(((110, 124), (0, 1), (0, 254)))
    amounts = [0] + sorted(draw.randint(least, most) << 23 | draw.getrandbits(23) for _ in range(7))
    if draw.random() < 0.3:
        amounts[draw.randrange(8)] = draw.choice((SIGN, 0, 1, SIGN | 1, INFINITE, MAX_MAGNITUDE, draw.getrandbits(32)))
    return [31 if draw.random() < 0.1 else 32] + amounts


def draw_pair(draw, kinds):
    """Two cells with their classes; some are faulty, or have a bound that is the largest number."""
    cells = []
    for fields in kinds:
        cell = list(draw_cell(draw, fields)) + [draw.choice((0, draw.randrange(8)))]
        if draw.random() < 0.08:
            cell[draw.randrange(3)] = draw.choice((8, 1, MAX_MAGNITUDE, SIGN | MAX_MAGNITUDE, INFINITE, draw.getrandbits(32)))
        cells += cell
    return cells


def draw_history(draw):
    """Calls, each its name and its numbers, from a start on."""
    kinds = draw.choice(KINDS)
    calls = [('start',)]
    for _ in range(draw.choice((1, 5, 20, 39))):
        calls.append(('amounts', *draw_load(draw)) if draw.random() < 0.1 else ('take', *draw_pair(draw, kinds)))
    return calls


def line_of(name, *numbers):
    if name == 'amounts':
        name, numbers = '%s %d' % (name, numbers[0]), numbers[1:]
    return ' '.join([name] + ['%08X' % n for n in numbers])


def expected_of(calls, tally):
    """The line of each call, by the model; counts the refusals and ranges that do not enclose."""
    for name, *numbers in calls:
        number = 0
        try:
            if name == 'start':
                running = Running()
            else:
                (running.take if name == 'take' else running.load)(*numbers)
        except Refused as refused:
            number = refused.args[0]
        except TooLarge:
            number = 5
        tally[number] = tally.get(number, 0) + 1
        tally['outside'] += not running.encloses()
        yield ' '.join([str(number)] + ['%08X' % word for word in running.words()])


def main(program, count):
    draw, tally = random.Random(7), {'outside': 0}
    calls = [call for _ in range(count) for call in draw_history(draw)]
    expected = list(expected_of(calls, tally))
    lines = [line_of(*call) for call in calls]
    run = subprocess.run([program], input='\n'.join(lines) + '\n', stdout=subprocess.PIPE, text=True, check=True)
    given = run.stdout.splitlines()
    wrong = [case for case in zip(lines, given, expected) if case[1] != case[2]]
    for case in wrong[:20]:
        print('%s: given %s, expected %s' % case)
    outside = tally.pop('outside')
    met = ', '.join('%d: %d' % item for item in sorted(tally.items()))
    print('%d histories of %d calls, %d differences; by refusal %s; %d ranges that do not enclose'
          % (count, len(calls), len(wrong), met, outside))
    return 1 if wrong or len(given) != len(calls) or outside or len(tally) != 8 else 0


if __name__ == '__main__':
    if len(sys.argv) not in (2, 3):
        sys.exit(__doc__)
    sys.exit(main(sys.argv[1], int((sys.argv + ['500'])[2])))
