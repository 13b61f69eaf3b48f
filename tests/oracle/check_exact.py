"""Holds the C implementation of the rounded operations, and of the conversion of
bounds to midpoint and radius, to the exact model.

Independent implementation, not proved.

  check_exact.py pairs OPERATE [COUNT]   all twelve operations on COUNT pairs, and the
                                         conversion of each pair in both orders, through
                                         a pipe to that program
  check_exact.py vectors [STRIDE]        each STRIDE-th line of standard input
"""
import random
import subprocess
import sys

from exact import answers, converted

EDGES = [0, 1, 2, 3, 0x400000, 0x7FFFFF, 0x800000, 0x800001, 0x1000000,
         0x1A000000, 0x33000000, 0x337FFFFF, 0x33800000, 0x33800001, 0x34000000,
         0x3F000000, 0x3F7FFFFF, 0x3F800000, 0x3F800001, 0x40000000, 0x5F7FFFFF,
         0x5F800000, 0x72FFFFFF, 0x73000000, 0x73000001, 0x73800000, 0x7F000000,
         0x7F7FFFFE, 0x7F7FFFFF, 0x7F800000, 0x7FC00000, 0x7F800001]


def some_pairs(count):
    """Edge patterns of both signs against each other, then random pairs."""
    edges = [p | s for p in EDGES for s in (0, 0x80000000)]
    pairs = [(a, b) for a in edges for b in edges]
    draw = random.Random(754)
    while len(pairs) < count:
        a, b = draw.getrandbits(32), draw.getrandbits(32)
        kind = draw.randrange(5)
        if kind == 1:                               # exponents near each other
            e = (a >> 23 & 0xFF) + draw.randrange(-3, 4)
            b = b & 0x807FFFFF | min(max(e, 0), 254) << 23
        elif kind == 2:                             # subnormals
            a, b = a & 0x807FFFFF, b & 0x80FFFFFF
        elif kind == 3:                             # product at an edge
            e = draw.choice((104, 127, 381)) + draw.randrange(-3, 4) - (a >> 23 & 0xFF)
            b = b & 0x807FFFFF | min(max(e, 0), 254) << 23
        elif kind == 4:                             # beside an edge pattern
            b = draw.choice(edges) ^ draw.getrandbits(3)
        pairs.append((a, b))
    return pairs[:count]


def check_pairs(operate, count):
    pairs = some_pairs(count)
    questions, expected = [], []
    for a, b in pairs:
        for operation in '+-xm':
            for direction, answer in answers(operation, a, b).items():
                questions.append('%s%s %08X %08X' % (operation, direction, a, b))
                expected.append(questions[-1] + ' ' + answer)
        for lower, upper in ((a, b), (b, a)):
            questions.append('mr %08X %08X' % (lower, upper))
            expected.append(questions[-1] + ' ' + converted(lower, upper))
    run = subprocess.run([operate], input='\n'.join(questions) + '\n',
                         stdout=subprocess.PIPE, text=True, check=True)
    given = run.stdout.splitlines()
    wrong = [pair for pair in zip(given, expected) if pair[0] != pair[1]]
    wrong += [('missing', line) for line in expected[len(given):]]
    return '%d pairs, %d operations and conversions' % (len(pairs), len(expected)), wrong


def check_vectors(stride):
    count, compared, wrong = 0, 0, []
    for line in sys.stdin.buffer:
        line, count = line.decode('ascii'), count + 1
        if len(line) != 30:
            wrong.append((line.rstrip('\n'), '30 bytes'))
            continue
        if count % stride != 0:
            continue
        operation, direction = line[0], line[1]
        a, b = int(line[3:11], 16), int(line[12:20], 16)
        expected = '%s%s %08X %08X %s\n' % (
            operation, direction, a, b, answers(operation, a, b)[direction])
        compared += 1
        if line != expected:
            wrong.append((line.rstrip('\n'), expected.rstrip('\n')))
    return '%d lines, %d compared' % (count, compared), wrong


def main(arguments):
    if arguments[:1] == ['pairs'] and len(arguments) in (2, 3):
        done, wrong = check_pairs(arguments[1], int((arguments + ['20000'])[2]))
    elif arguments[:1] == ['vectors'] and len(arguments) in (1, 2):
        done, wrong = check_vectors(int((arguments + ['1'])[1]))
    else:
        sys.exit(__doc__)
    for given, expected in wrong[:20]:
        print('given %s, expected %s' % (given, expected))
    print('%s, %d differences' % (done, len(wrong)))
    return 1 if wrong else 0


if __name__ == '__main__':
    sys.exit(main(sys.argv[1:]))
