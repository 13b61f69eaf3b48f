"""The bytes of a coupling sheet, for tools/sheet: writing them, and reading them with the library's checks. Not proved."""
import struct
from collections import namedtuple

import binary32

MOST_SIZE = 32
MOST_CELLS = MOST_SIZE * MOST_SIZE
MOST_CLASS = 7
RECORD = 16
MOST_BYTES = RECORD * (1 + MOST_CELLS)

# The kinds of a sheet: its cells hold a wear class, or the wear amount itself as a pattern.
CLASS_SHEET, AMOUNT_SHEET = 0, 1

# The fixed wear amounts of classes 0 to 7, as patterns: 0, and 2^(c - 11) for class c from 1 on.
FIXED_AMOUNTS = (0, *((127 + c - 11) << 23 for c in range(1, MOST_CLASS + 1)))

HEAD_FORM = struct.Struct("<HBBHB9x")
CELL_FORM = struct.Struct("<HBBIII")

SENTENCES = {
    1: "a size is not from 1 to 32, the left factor's columns are not the right one's rows, or 32 pairs are taken already",
    2: "a slice is shorter than its cells or than a running entry",
    3: "a bound or a wear amount is not a finite number",
    4: "a lower bound is above the upper bound",
    5: "a result is too large for binary32",
    6: "a length, the record count or the kind is wrong, or a byte that must be zero is not",
    7: "an index is not below the record count, or a cell is outside the matrix",
    8: "the cells of the chain do not rise by row, then column",
    9: "the method is not 1, 3, 4, 5 or 7",
    10: "a wear class is above 7",
    11: "the out buffer is shorter than the sheet to be written",
    12: "the number of sheets is not from 1 to 8",
    13: "the first wear amount is not zero, or an amount is below the one before it",
    14: "a wear amount is below zero",
}

# records: what stands behind the head, in order. A record is a Cell, or the 16 bytes of a record outside the chain.
# wear: bytes 12 to 15 of a cell as one number, which is a class or the pattern of an amount by the kind of the sheet.
Sheet = namedtuple("Sheet", "rows columns kind records")
Cell = namedtuple("Cell", "row column lower upper wear")


class Refused(Exception):
    """A check of the library that a sheet or a load of wear amounts does not pass."""

    def __init__(self, number, detail, row=0, column=0):
        super().__init__(f"refusal {number}: {SENTENCES[number]} ({detail})")
        self.number, self.row, self.column = number, row, column


def amount_of(kind, wear, amounts=FIXED_AMOUNTS):
    """The pattern of the amount that a cell is widened by; amounts has one for each class."""
    return wear if kind == AMOUNT_SHEET else amounts[wear]


def widens_beyond(kind, cell, amounts=FIXED_AMOUNTS):
    """Whether a cell, whose bounds and amount are finite, has bounds beyond the largest number when it is widened."""
    amount = binary32.value(amount_of(kind, cell.wear, amounts))
    return binary32.value(cell.lower) - amount < -binary32.LARGEST or binary32.value(cell.upper) + amount > binary32.LARGEST


def encode(sheet):
    """The bytes of a sheet. The chain runs through its cells by row, then column."""
    cells = [i for i, record in enumerate(sheet.records, 1) if isinstance(record, Cell)]
    cells.sort(key=lambda i: sheet.records[i - 1][:2])
    following = dict(zip([0] + cells, cells + [0]))
    data = HEAD_FORM.pack(following[0], sheet.rows, sheet.columns, 1 + len(sheet.records), sheet.kind)
    for i, record in enumerate(sheet.records, 1):
        data += CELL_FORM.pack(following[i], *record) if i in following else record
    return data


def with_amounts(sheet, amounts):
    """The same sheet as an amount sheet: each cell has the amount of its class. An amount sheet stays as it is."""
    records = [record._replace(wear=amount_of(sheet.kind, record.wear, amounts)) if isinstance(record, Cell) else record for record in sheet.records]
    return sheet._replace(kind=AMOUNT_SHEET, records=records)


def check_head(data):
    """6 on length and head, then 1."""
    if len(data) > MOST_BYTES:
        raise Refused(6, f"the length is above {MOST_BYTES} bytes")
    if len(data) % RECORD != 0 or len(data) < RECORD:
        raise Refused(6, f"the length is {len(data)} bytes")
    _, rows, columns, count, kind = HEAD_FORM.unpack_from(data)
    if count * RECORD != len(data):
        raise Refused(6, f"the record count is {count}, the length {len(data)} bytes")
    if kind not in (CLASS_SHEET, AMOUNT_SHEET):
        raise Refused(6, f"the kind, byte 6 of the head, is {kind}")
    if any(data[7:RECORD]):
        raise Refused(6, "bytes 7 to 15 of the head")
    if not (1 <= rows <= MOST_SIZE and 1 <= columns <= MOST_SIZE):
        raise Refused(1, f"{rows} rows and {columns} columns")


def check_cell(kind, cell, where, amounts):
    """6 and 10 in a class sheet, 14 in an amount sheet, then 3, 4, 5. The amount of a class is finite and not below zero."""
    place = cell[:2]
    wear = f"amount {cell.wear:08X}" if kind == AMOUNT_SHEET else f"class {cell.wear}"
    detail = f"{where}: {cell.lower:08X} {cell.upper:08X}, {wear}"
    if kind == CLASS_SHEET and cell.wear > 255:
        raise Refused(6, f"{where}: bytes 13 to 15")
    if kind == CLASS_SHEET and cell.wear > MOST_CLASS:
        raise Refused(10, detail, *place)
    amount = amount_of(kind, cell.wear, amounts)
    if binary32.is_finite(amount) and binary32.value(amount) < 0:
        raise Refused(14, detail, *place)
    if not all(map(binary32.is_finite, (cell.lower, cell.upper, amount))):
        raise Refused(3, detail, *place)
    if binary32.value(cell.lower) > binary32.value(cell.upper):
        raise Refused(4, detail, *place)
    if widens_beyond(kind, cell, amounts):
        raise Refused(5, detail, *place)


def decode(data, amounts=FIXED_AMOUNTS):
    """The sheet that bytes hold; raises Refused by the first check that they do not pass, where classes have these amounts."""
    check_head(data)
    index, rows, columns, count, kind = HEAD_FORM.unpack_from(data)
    chain, last = {}, (-1, -1)
    while index != 0:
        if index >= count:
            raise Refused(7, f"index {index}, record count {count}")
        following, *fields = CELL_FORM.unpack_from(data, RECORD * index)
        cell = Cell(*fields)
        where = f"record {index}, row {cell.row}, column {cell.column}"
        if cell.row >= rows or cell.column >= columns:
            raise Refused(7, where)
        if cell[:2] <= last:
            raise Refused(8, where)
        check_cell(kind, cell, where, amounts)
        chain[index], last, index = cell, cell[:2], following
    return Sheet(rows, columns, kind, [chain.get(i, data[RECORD * i:RECORD * i + RECORD]) for i in range(1, count)])
