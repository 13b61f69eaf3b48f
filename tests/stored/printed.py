#!/usr/bin/env python3
"""Stored inputs of the program print_product: writes them to FOLDER/NAME.in.

    printed.py FOLDER
"""
import pathlib
import sys

from records import (AMOUNT, CLASS, FULL, GOOD, GOOD_AMOUNTS, INFINITY, KIND_BYTE, MAX, NAN, NEGATIVE, ONE, SIXTEENTH, TENTH, TWO, cell, good,
                     head, patched)

# 1 by 1: [1, 2] and [-1, 3]
A = head(1, 1, 1, 2) + cell(0, 0, 0, ONE, TWO)
B = head(1, 1, 1, 2) + cell(0, 0, 0, ONE | NEGATIVE, 0x40400000)
# 1 by 1, [0, 0], in 16,400 bytes: 1,024 records outside the chain
LONG = head(0, 1, 1, 1025) + bytes(16384)


def three(kind, wear):
    """3 by 2: wide, worn and point cells, one of them negative; its second row has no cell."""
    return head(1, 3, 2, 4, kind) + cell(2, 0, 0, ONE, TWO) + cell(3, 0, 1, TWO | NEGATIVE, ONE, wear) + cell(0, 2, 0, TENTH, TENTH)


THREE, THREE_AMOUNTS = three(CLASS, 7), three(AMOUNT, SIXTEENTH)


def one(kind=CLASS, **changes):
    """B, its cell changed, or an amount sheet of this one cell."""
    fields = dict(link=0, row=0, column=0, lower=ONE, upper=TWO)
    fields.update(changes)
    return head(1, 1, 1, 2, kind) + cell(**fields)


# 1 by 1: [1 - 2^-24, 1 + 2^-23], whose midpoint has to be rounded, and [1, 1]
NARROW = one(lower=ONE - 1, upper=ONE + 1) + one(upper=ONE)
# 3 by 2 with the cell [2^126, MAX] in row 2, and 2 by 3 with it in column 1: |m| + r is too large
WIDE_ROW = head(1, 3, 2, 3) + cell(2, 0, 0, ONE, TWO) + cell(0, 2, 1, 0x7E800000, MAX)
WIDE_COLUMN = head(1, 2, 3, 3) + cell(2, 0, 0, ONE, TWO) + cell(0, 1, 1, 0x7E800000, MAX)
# 2 by 2: 2^-100 in each place
SMALL = head(1, 2, 2, 5) + b"".join(cell((i + 2) % 5, i // 2, i % 2, 0x0D800000, 0x0D800000) for i in range(4))

CASES = {
    "example": b"4" + A + B,
    "method-1": b"1" + THREE + GOOD, "method-3": b"3" + THREE + GOOD, "method-4": b"4" + THREE + GOOD, "method-5": b"5" + THREE + GOOD, "method-7": b"7" + THREE + GOOD,
    "midpoint-3": b"3" + NARROW, "midpoint-4": b"4" + NARROW, "midpoint-5": b"5" + NARROW, "midpoint-7": b"7" + NARROW,
    "zeros": b"1" + head(0, 2, 3, 1) + head(0, 3, 1, 1), "zeros-5": b"5" + head(0, 2, 3, 1) + head(0, 3, 1, 1),
    "outside-the-chain": b"1" + head(0, 1, 1, 2) + b"\xFF" * 16 + B,
    "size-32": b"7" + FULL + FULL, "size-32-5": b"5" + FULL + FULL, "column-by-row": b"3" + head(0, 32, 1, 1) + head(0, 1, 32, 1),
    # 9: the digit
    "nothing": b"", "method-0": b"0" + A + B, "method-2": b"2" + A + B, "method-6": b"6" + A + B, "method-9": b"9" + A + B,
    "no-digit": A + B, "line-feed": b"\n4" + A + B, "letter": b"a" + A + B, "byte-255": b"\xFF" + A + B, "9-before-6": b"8",
    # where A ends
    "digit-alone": b"4", "one-byte": b"4\0", "five-bytes": b"4" + A[:5], "six-bytes": b"4" + A[:6], "head-alone": b"4" + A[:16], "A-cut-short": b"4" + A[:-1],
    "count-0": b"4" + patched(A, 4, [0]) + B, "count-too-low": b"4" + patched(A, 4, [1]) + B, "count-too-high": b"4" + patched(A, 4, [3]) + B,
    "count-past-the-end": b"4" + patched(A, 4, [255, 255]) + B,
    # where B begins and ends
    "no-B": b"4" + A, "B-one-byte": b"4" + A + B[:1], "B-cut-short": b"4" + A + B[:-1], "B-longer": b"4" + A + B + b"\0", "line-feed-behind-B": b"4" + A + B + b"\n",
    "A-before-B": b"4" + one(lower=TWO, upper=ONE),
    # the longest sheets, and longer ones
    "B-of-16400": b"1" + LONG + LONG, "B-of-16401": b"1" + LONG + LONG + b"\0", "B-of-16402": b"1" + LONG + LONG + b"\0\0",
    "A-of-16416": b"1" + patched(LONG, 4, [2, 4]) + bytes(16) + LONG, "B-of-16416": b"1" + LONG + patched(LONG, 4, [2, 4]) + bytes(16),
    # 1 and 3 to 10
    "rows-0": b"1" + patched(A, 2, [0]) + B, "columns-33": b"1" + A + patched(B, 3, [33]), "mismatch": b"1" + GOOD + A,
    "not-finite-in-A": b"1" + one(upper=INFINITY) + B, "not-finite-in-B": b"3" + A + one(lower=INFINITY | NEGATIVE),
    "crossed-in-A": b"4" + one(lower=TWO, upper=ONE) + B, "crossed-in-B": b"7" + A + one(lower=TWO, upper=ONE),
    "overflow-in-A": b"1" + one(upper=MAX, wear=1) + B, "overflow-in-B": b"1" + A + one(lower=MAX | NEGATIVE, wear=7),
    "overflow-1": b"1" + one(lower=MAX, upper=MAX) + one(lower=TWO, upper=TWO), "overflow-3": b"3" + THREE + head(1, 2, 12, 2) + cell(0, 0, 10, MAX, MAX),
    "overflow-4": b"4" + THREE + head(1, 2, 12, 2) + cell(0, 1, 11, MAX, MAX), "overflow-7": b"7" + one(lower=MAX, upper=MAX) + one(lower=TWO, upper=TWO),
    "overflow-5": b"5" + one(lower=MAX, upper=MAX) + one(upper=ONE), "wide-in-A": b"5" + WIDE_ROW + SMALL, "wide-in-A-4": b"4" + WIDE_ROW + SMALL,
    "wide-in-B": b"5" + SMALL + WIDE_COLUMN,
    "overflow-in-row-2": b"4" + THREE[:48] + cell(0, 2, 0, MAX, MAX) + head(1, 2, 1, 2) + cell(0, 0, 0, TWO, TWO),
    "layout-in-A": b"1" + patched(A, 7, [1]) + B, "layout-in-B": b"1" + A + one(wear=0x100),
    "index-in-A": b"1" + patched(A, 0, [2]) + B, "index-in-B": b"1" + A + one(row=1), "unordered-in-A": b"1" + one(link=1) + B, "unordered-in-B": b"1" + A + one(link=1),
    "class-in-A": b"1" + one(wear=8) + B, "class-in-B": b"1" + A + one(wear=255), "class-at-1-2": b"1" + patched(GOOD, 44, [8]) + B,
    # the kinds of sheets, and 14
    "amounts-by-amounts": b"1" + THREE_AMOUNTS + GOOD_AMOUNTS, "classes-by-amounts": b"4" + THREE + GOOD_AMOUNTS, "amounts-by-classes": b"7" + THREE_AMOUNTS + GOOD,
    "plain-form": b"5" + one(AMOUNT) + one(AMOUNT), "minus-zero": b"3" + one(AMOUNT, wear=NEGATIVE) + B, "kind-1": b"1" + patched(A, KIND_BYTE, [1]) + B,
    "kind-2-in-A": b"1" + patched(A, KIND_BYTE, [2]) + B, "kind-255-in-B": b"1" + A + patched(B, KIND_BYTE, [255]),
    "below-zero-in-A": b"1" + one(AMOUNT, wear=ONE | NEGATIVE) + B, "below-zero-in-B": b"4" + A + one(AMOUNT, wear=1 | NEGATIVE),
    "below-zero-at-1-2": b"1" + good(AMOUNT, ONE | NEGATIVE) + B, "14-before-3": b"1" + one(AMOUNT, lower=NAN, wear=ONE | NEGATIVE) + B,
    "amount-infinite-in-A": b"1" + one(AMOUNT, wear=INFINITY) + B, "amount-infinite-in-B": b"7" + A + one(AMOUNT, lower=TWO, upper=ONE, wear=INFINITY | NEGATIVE),
    "amount-overflow-in-A": b"1" + one(AMOUNT, upper=MAX, wear=1) + B, "amount-overflow-in-B": b"5" + A + one(AMOUNT, wear=MAX),
}

if __name__ == "__main__":
    folder = pathlib.Path(sys.argv[1])
    for name, data in CASES.items():
        (folder / (name + ".in")).write_bytes(data)
