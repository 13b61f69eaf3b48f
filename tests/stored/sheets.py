#!/usr/bin/env python3
"""Stored sheets, good and damaged: prints them to standard output as text, without answers. tests/drivers/sheet_stored.h has the form.

The cases here are class sheets; those of amount_sheets.py, which has the amount sheets, follow them.
"""
import amount_sheets
from records import (AMOUNT, FIXED, FULL, GOOD, INFINITY, KIND_BYTE, LARGE, MAX, NAN, NEGATIVE, ONE, ONE_CELL, TWO, cell, head, last, load, number,
                     patched)

# read into slices of 1,026 words, and written to a buffer of 16,416 bytes
CASES = [
    ("a good sheet", GOOD), ("no cell", head(0, 2, 3, 1)), ("no cell, one record outside the chain", head(0, 1, 1, 2) + b"\xFF" * 16),
    ("size 32", head(0, 32, 32, 1)), ("1,024 cells, 16,400 bytes", FULL),
    ("1,024 cells, one byte more", FULL + b"\0"), ("1,025 cells' room, 16,416 bytes", patched(FULL, 4, number(1026, 2)) + bytes(16)),
    ("nothing", b""), ("one byte", GOOD[:1]), ("a head of 15 bytes", GOOD[:15]), ("a head alone, of four records", GOOD[:16]),
    ("one byte less", GOOD[:-1]), ("one byte more", GOOD + b"\0"), ("a record less", GOOD[:-16]), ("a record more", GOOD + bytes(16)),
    ("all ones", b"\xFF" * 64), ("all ones, one record", b"\xFF" * 16), ("all zeros", bytes(16)),
    ("record count 0", patched(GOOD, 4, number(0, 2))), ("record count too high", patched(GOOD, 4, number(5, 2))),
] + [("head byte %d" % i, patched(GOOD, i, [1])) for i in (7, 12, 15)] + [
    ("rows 0", patched(GOOD, 2, [0])), ("rows 33", patched(GOOD, 2, [33])), ("columns 0", patched(GOOD, 3, [0])), ("columns 33", patched(GOOD, 3, [33])),
    ("6 before 1", patched(patched(GOOD, 2, [0]), 15, [1])), ("1 before 7", patched(patched(GOOD, 2, [0]), 0, [9])),
    ("first index at the count", patched(GOOD, 0, [4])), ("first index past it", patched(GOOD, 0, [0xFF, 0xFF])),
    ("next at the count", last(link=4)), ("next past it", last(link=0xFFFF)), ("an index is looked at when it is followed", last(link=4, wear=9)),
    ("row at the size", last(row=2)), ("column at the size", last(column=3)), ("7 before 8", patched(last(row=0, column=3), 45, [1])),
    ("an equal place", last(column=0)), ("an earlier place", last(row=0, column=2)), ("a link to itself", last(link=2)), ("a loop", last(link=3)),
    ("a loop from the first cell", ONE_CELL + cell(1, 0, 0, ONE, TWO)), ("8 before 6", last(column=0, wear=0x100)),
] + [("cell byte %d" % i, patched(GOOD, 32 + i, [1])) for i in (13, 14, 15)] + [
    ("6 before 10", last(wear=0x108)), ("class 8", last(wear=8)), ("class 255", last(wear=255)), ("10 before 3", last(wear=8, lower=NAN)),
    ("lower infinite", last(lower=INFINITY | NEGATIVE)), ("upper infinite", last(upper=INFINITY)), ("lower no number", last(lower=NAN)),
    ("upper no number", last(upper=NAN | NEGATIVE)), ("3 before 4", last(lower=INFINITY)), ("lower above upper", last(lower=TWO, upper=ONE)),
    ("lower above upper, negative", last(lower=ONE | NEGATIVE, upper=TWO | NEGATIVE)), ("zeros of both signs", last(lower=0, upper=NEGATIVE)),
    ("4 before 5", last(lower=MAX, upper=ONE, wear=1)), ("upper MAX, class 0", last(upper=MAX)), ("upper MAX, class 1", last(upper=MAX, wear=1)),
    ("lower -MAX, class 7", last(lower=MAX | NEGATIVE, wear=7)), ("upper below MAX, class 7", last(upper=MAX - 1, wear=7)),
    ("lower above -MAX, class 1", last(lower=(MAX - 1) | NEGATIVE, wear=1)), ("one unit, class 7", last(lower=1, upper=1, wear=7)),
    ("minus zeros", last(lower=NEGATIVE, upper=NEGATIVE)), ("MAX, class 1", last(lower=MAX, upper=MAX, wear=1)),
] + [("class %d of [0, 0]" % c, ONE_CELL + cell(0, 0, 0, 0, 0, c)) for c in range(8)]

# sheet, words of the two slices, bytes of the buffer
LENT = [
    ("lowers too short", GOOD, 5, 6, 16400), ("uppers too short", GOOD, 6, 5, 16400), ("2 before 7", patched(GOOD, 0, [9]), 0, 0, 16400),
    ("2 before 14", last(AMOUNT, wear=ONE | NEGATIVE), 6, 5, 16400),
    ("1 before 2", patched(GOOD, 2, [33]), 0, 0, 16400), ("just long enough", GOOD, 6, 6, 64), ("an out buffer too short", GOOD, 6, 6, 47),
    ("a head's room", head(0, 2, 3, 1), 6, 6, 16), ("less than a head's room", head(0, 2, 3, 1), 6, 6, 15),
    ("1,024 cells, an out buffer a byte too short", FULL, 1024, 1024, 16399),
]

# load, sheet: read with the amounts of the load
WITH = [
    ("amounts, the fixed ones", load(amounts=FIXED), GOOD), ("amounts, the sums rounded outward", load(), last(wear=1)),
    ("amounts, the sums rounded outward, negative", load(), last(lower=TWO | NEGATIVE, upper=ONE | NEGATIVE, wear=1)),
    ("amounts, all zero", bytes(32), last(wear=7)), ("amounts, all minus zero", load(amounts=[NEGATIVE] * 8), last(wear=7)),
    ("amounts, minus zero behind zero", load({1: NEGATIVE}), last(wear=1)), ("amounts, equal ones", load(), last(wear=3)),
] + [("amounts of %d bytes" % length, (load() * 2)[:length], GOOD) for length in (0, 31, 33, 64)] + [
    ("amounts, 6 before 3", load({0: NAN}) + b"\0", GOOD), ("amounts, the first infinite", load({0: INFINITY}), GOOD),
    ("amounts, the fourth no number", load({3: NAN}), GOOD), ("amounts, the last infinite, negative", load({7: INFINITY | NEGATIVE}), GOOD),
    ("amounts, 3 before 13", load({0: ONE, 7: NAN}), GOOD), ("amounts, the first one unit", load({0: 1}), GOOD),
    ("amounts, the first below zero", load({0: 1 | NEGATIVE}), GOOD), ("amounts, the second below zero", load({1: 1 | NEGATIVE}), GOOD),
    ("amounts, the fourth below the third", load({3: ONE - 1}), GOOD), ("amounts, the last below the seventh", load({7: LARGE - 1}), GOOD),
    ("amounts, minus zero behind a tenth", load({2: NEGATIVE}), GOOD), ("amounts, 6 before the sheet", load()[:-1], b""),
    ("amounts, 3 before the sheet", load({6: NAN}), GOOD[:-1]), ("amounts, 13 before the sheet", load({0: ONE}), GOOD[:-1]),
    ("amounts, then the sheet", load(), GOOD[:-1]), ("amounts, class 8", load(), last(wear=8)), ("amounts, 4 before 5", load(), last(lower=MAX, wear=7)),
    ("amounts, MAX for zeros", load(), last(lower=0, upper=NEGATIVE, wear=7)), ("amounts, MAX for a unit", load(), last(lower=0, upper=1, wear=7)),
    ("amounts, MAX for a unit, negative", load(), last(lower=1 | NEGATIVE, upper=0, wear=7)),
    ("amounts, widened to MAX", load(), last(lower=(LARGE - 2) | NEGATIVE, upper=LARGE - 2, wear=6)),
    ("amounts, widened past MAX", load(), last(lower=0, upper=LARGE - 1, wear=6)),
    ("amounts, widened past MAX, negative", load(), last(lower=(LARGE - 1) | NEGATIVE, upper=0, wear=6)),
]

HEAD_FIELDS, CLASS_FIELDS, AMOUNT_FIELDS = (2, 3, 4, 6, 7), (2, 3, 4, 8, 12, 13), (2, 3, 4, 8, 12)


def text_of(record, starts):
    return "".join((" " if at in starts else "") + "%02X" % byte for at, byte in enumerate(record))


def stored():
    """Each sheet with its name, the load or None, and the words and bytes lent."""
    yield from ((name, None, sheet, 1026, 1026, 16416) for name, sheet in CASES)
    yield from ((name, None, sheet, lowers, uppers, room) for name, sheet, lowers, uppers, room in LENT)
    yield from ((name, amounts, sheet, 1026, 1026, 16416) for name, amounts, sheet in WITH)
    yield from ((name, None, sheet, 1026, 1026, 16416) for name, sheet in amount_sheets.CASES)
    yield from ((name, amounts, sheet, 1026, 1026, 16416) for name, amounts, sheet in amount_sheets.WITH)


def main():
    print("# Stored sheets, good and damaged, with what reading each answers, and writing what was read. 'make -C tests store' writes this file.")
    for name, amounts, sheet, lowers, uppers, room in stored():
        print(f"sheet {name}\nlent {lowers} {uppers} {room}")
        if amounts is not None:
            print("amounts" + text_of(amounts, range(0, len(amounts), 4)))
        for at in range(0, len(sheet), 16):
            cell_fields = AMOUNT_FIELDS if at and sheet[KIND_BYTE] == AMOUNT else CLASS_FIELDS
            print(text_of(sheet[at:at + 16], cell_fields if at else HEAD_FIELDS))


if __name__ == "__main__":
    main()
