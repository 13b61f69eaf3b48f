"""The records of a sheet as bytes, the sheets that the stored cases change, and loads."""
ONE, TWO, MAX, NEGATIVE, INFINITY, NAN = 0x3F800000, 0x40000000, 0x7F7FFFFF, 0x80000000, 0x7F800000, 0x7FC00001
TENTH, SIXTEENTH, LARGE = 0x3DCCCCCD, 0x3D800000, 0x7F000000  # the number nearest to 0.1, 1/16, 2^127
CLASS, AMOUNT, KIND_BYTE = 0, 1, 6  # the kinds of sheets, and where the head has the kind


def number(n, count):
    return n.to_bytes(count, "little")


def head(first, rows, columns, records, kind=CLASS):
    return number(first, 2) + bytes([rows, columns]) + number(records, 2) + bytes([kind]) + bytes(9)


def cell(link, row, column, lower, upper, wear=0):
    """wear is bytes 12 to 15 as one number: a class, or the pattern of an amount."""
    return number(link, 2) + bytes([row, column]) + number(lower, 4) + number(upper, 4) + number(wear, 4)


def patched(sheet, at, new):
    return sheet[:at] + bytes(new) + sheet[at + len(new):]


def good(kind, wear):
    """2 by 3, cells (0,1), (1,0), (1,2) in records 3, 1, 2."""
    return head(3, 2, 3, 4, kind) + cell(2, 1, 0, NEGATIVE, NEGATIVE) + cell(0, 1, 2, ONE, ONE, wear) + cell(1, 0, 1, ONE, TWO)


GOOD, GOOD_AMOUNTS = good(CLASS, 7), good(AMOUNT, SIXTEENTH)
# 32 by 32, all 1,024 cells in order: 16,400 bytes
FULL = head(1, 32, 32, 1025) + b"".join(
    cell((i + 2) % 1025, i // 32, i % 32, ONE + i, TWO + i, i % 8) for i in range(1024))
ONE_CELL = head(1, 1, 1, 2)


def last(kind=CLASS, **changes):
    """GOOD or GOOD_AMOUNTS, its last cell (1,2) changed."""
    fields = dict(link=0, row=1, column=2, lower=ONE, upper=TWO, wear=0)
    fields.update(changes)
    sheet = good(kind, 0)
    return sheet[:32] + cell(**fields) + sheet[48:]


# the eight amounts of a load: the fixed ones, and those of a mill
FIXED = [0] + [(117 + c) << 23 for c in range(7)]
OWN = [0, TENTH, ONE, ONE, TWO, TWO + 1, LARGE, MAX]


def load(changes=(), amounts=OWN):
    """The bytes of a load: these amounts, those of the classes in changes replaced."""
    return b"".join(number(dict(changes).get(c, amount), 4) for c, amount in enumerate(amounts))
