"""Stored cases of the two kinds of sheets: amount sheets, class sheets with the wear of an amount sheet, and other bytes in place of the kind."""
from records import (AMOUNT, GOOD, GOOD_AMOUNTS, INFINITY, KIND_BYTE, LARGE, MAX, NAN, NEGATIVE, ONE, SIXTEENTH, TENTH, TWO, cell, head, last,
                     load, patched)

MINUS_ONE = ONE | NEGATIVE


def worn(wear, lower=ONE, upper=TWO, **changes):
    """GOOD_AMOUNTS, its last cell (1,2) changed."""
    return last(AMOUNT, wear=wear, lower=lower, upper=upper, **changes)


KINDS = [("kind %d" % kind, patched(GOOD, KIND_BYTE, [kind])) for kind in (1, 2, 3, 128, 255)] + [
    ("kind %d, amounts" % kind, patched(GOOD_AMOUNTS, KIND_BYTE, [kind])) for kind in (0, 2, 255)] + [
    ("a kind above 1 before rows 0", patched(patched(GOOD, 2, [0]), KIND_BYTE, [2])), ("a kind above 1 before 7", patched(patched(GOOD, 0, [9]), KIND_BYTE, [2])),
] + [("amount sheet, head byte %d" % i, patched(GOOD_AMOUNTS, i, [1])) for i in (7, 12, 15)] + [
    ("amount sheet, columns 33", patched(GOOD_AMOUNTS, 3, [33])), ("amount sheet, a record less", GOOD_AMOUNTS[:-16]),
]

ACCEPTED = [
    ("amount sheet", GOOD_AMOUNTS), ("amount sheet, no cell", head(0, 2, 3, 1, AMOUNT)),
    ("amount sheet, one record outside the chain", head(0, 1, 1, 2, AMOUNT) + b"\xFF" * 16),
    ("plain form, written as it is", head(1, 2, 3, 3, AMOUNT) + cell(2, 0, 1, ONE, TWO) + cell(0, 1, 2, MAX | NEGATIVE, MAX)),
    ("amount zero", worn(0)), ("amount minus zero", worn(NEGATIVE)), ("amount minus zero of minus zeros", worn(NEGATIVE, NEGATIVE, NEGATIVE)),
    ("amount zero of -MAX and MAX", worn(0, MAX | NEGATIVE, MAX)), ("amount minus zero of -MAX and MAX", worn(NEGATIVE, MAX | NEGATIVE, MAX)),
    ("amount of a tenth, rounded outward", worn(TENTH)), ("amount of a tenth, negative", worn(TENTH, TWO | NEGATIVE, MINUS_ONE)),
    ("amount of 7 units", worn(7)), ("amount of 8 units", worn(8)), ("amount of 255 units", worn(255)),
    ("amount of one unit for a unit", worn(1, 1, 1)), ("amount MAX for zeros", worn(MAX, 0, NEGATIVE)),
    ("amount widens to MAX", worn(LARGE, (LARGE - 2) | NEGATIVE, LARGE - 2)),
] + [("amount in byte %d alone" % (12 + i), worn(1 << 8 * i, 0, 0)) for i in range(4)]

REFUSED = [
    ("amount of minus one unit", worn(1 | NEGATIVE)), ("amount of -1", worn(MINUS_ONE)), ("amount of -MAX", worn(MAX | NEGATIVE)),
    ("7 before 14", worn(MINUS_ONE, column=3)), ("8 before 14", worn(MINUS_ONE, column=0)), ("14 before the next index", worn(MINUS_ONE, link=4)),
    ("14 before 3 of the lower bound", worn(MINUS_ONE, NAN)), ("14 before 3 of the upper bound", worn(MINUS_ONE, ONE, INFINITY)),
    ("14 before 4", worn(MINUS_ONE, TWO, ONE)), ("14 of -MAX and MAX", worn(MINUS_ONE, MAX | NEGATIVE, MAX)),
    ("amount infinite", worn(INFINITY)), ("amount minus infinite", worn(INFINITY | NEGATIVE)), ("amount no number", worn(NAN)),
    ("amount no number, negative", worn(NAN | NEGATIVE)), ("amount no number, of one bit", worn(INFINITY + 1)),
    ("3 of the amount before 4", worn(INFINITY, TWO, ONE)), ("3 of the amount before 5", worn(INFINITY, MAX, MAX)),
    ("3 of amount and bounds", worn(NAN, NAN, NAN)), ("amount sheet, lower infinite", worn(0, INFINITY | NEGATIVE)),
    ("amount sheet, upper no number", worn(MAX, ONE, NAN)), ("amount sheet, 3 before 4", worn(0, INFINITY)),
    ("amount sheet, lower above upper", worn(0, TWO, ONE)), ("amount sheet, 4 before 5", worn(MAX, MAX, ONE)),
    ("amount of one unit, upper MAX", worn(1, ONE, MAX)), ("amount of one unit, lower -MAX", worn(1, MAX | NEGATIVE)),
    ("amount MAX for a unit", worn(MAX, 0, 1)), ("amount MAX for a unit, negative", worn(MAX, 1 | NEGATIVE, 0)),
    ("amount widens past MAX", worn(LARGE, 0, LARGE - 1)), ("amount widens past MAX, negative", worn(LARGE, (LARGE - 1) | NEGATIVE, 0)),
    ("class sheet with an amount", last(wear=SIXTEENTH)), ("class sheet with minus zero", last(wear=NEGATIVE)), ("class sheet with -1", last(wear=MINUS_ONE)),
    ("class sheet with an infinite amount", last(wear=INFINITY)),
]

CASES = KINDS + ACCEPTED + REFUSED

# load, sheet: the load is checked first, and an amount sheet does not use it
WITH = [
    ("amounts, not used in an amount sheet", load(), GOOD_AMOUNTS), ("amounts, amount zero", load(), worn(0)), ("amounts, 7 units, no class", load(), worn(7)),
    ("amounts, 6 before an amount sheet", load()[:-1], worn(MINUS_ONE)), ("amounts, 3 before an amount sheet", load({6: NAN}), worn(MINUS_ONE)),
    ("amounts, 13 before an amount sheet", load({0: ONE}), worn(MINUS_ONE)), ("amounts, then 14", load(), worn(MINUS_ONE)),
    ("amounts, then 3 of the amount", load(), worn(INFINITY | NEGATIVE)), ("amounts, then 5 of the amount", load(), worn(MAX)),
    ("amounts, then a kind above 1", load(), patched(GOOD, KIND_BYTE, [2])), ("amounts, 3 before a kind above 1", load({6: NAN}), patched(GOOD, KIND_BYTE, [2])),
]
