"""The text form of a coupling sheet, for tools/sheet. Not proved. `tools/sheet --help` describes it."""
import re

import binary32
from sheet_bytes import AMOUNT_SHEET, CLASS_SHEET, MOST_CELLS, MOST_CLASS, MOST_SIZE, Cell, Sheet, widens_beyond
from text_lines import BadText, lines_of, quoted, words_of
from text_numbers import parse_number, whole

UNUSED = re.compile("[0-9A-Fa-f]{32}")

# By kind: the word at the end of the first line, and what the wear of a cell is called.
KIND_WORDS = {CLASS_SHEET: "classes", AMOUNT_SHEET: "amounts"}
WEAR_WORDS = {CLASS_SHEET: "class", AMOUNT_SHEET: "amount"}

# An amount is written behind this sign, a class without one.
SIGN = "+"


def parse_head(line, words):
    """Rows, columns, and the kind or None where no word tells it."""
    if words[0] != "sheet" or len(words) not in (3, 4):
        raise BadText(line, "the first line is 'sheet ROWS COLUMNS', and 'classes' or 'amounts' may follow")
    rows, columns = whole(line, words[1], "number of rows", 1, MOST_SIZE), whole(line, words[2], "number of columns", 1, MOST_SIZE)
    if len(words) == 3:
        return rows, columns, None
    for kind, word in KIND_WORDS.items():
        if words[3] == word:
            return rows, columns, kind
    raise BadText(line, f"kind {quoted(words[3])} is neither 'classes' nor 'amounts'")


def kind_by(told, line, word):
    """The kind that the wear of a cell has. It must be the one that a line before has told, given as kind and line, or None."""
    kind = AMOUNT_SHEET if word.startswith(SIGN) else CLASS_SHEET
    if told is not None and told[0] != kind:
        begins = "begins" if kind == AMOUNT_SHEET else "does not begin"
        raise BadText(line, f"{quoted(word)} {begins} with '{SIGN}' as an amount does, but by line {told[1]} the cells have {KIND_WORDS[told[0]]}")
    return kind


def parse_wear(line, word, kind):
    """A class, or the pattern of an amount."""
    if kind == CLASS_SHEET:
        return whole(line, word, "class", 0, MOST_CLASS, f"; an amount begins with '{SIGN}'")
    exact, pattern = parse_number(line, word, "amount", binary32.up, SIGN)
    if exact < 0:
        raise BadText(line, f"amount '{word}' is below zero")
    return pattern


def parse_cell(line, words, rows, columns, told):
    """The kind of the sheet, and the cell. told is as for kind_by."""
    if len(words) != 5:
        raise BadText(line, f"{len(words)} words where a cell has 5: row column lower upper class, or +amount in place of class")
    row = whole(line, words[0], "row", 0, rows - 1)
    column = whole(line, words[1], "column", 0, columns - 1)
    lower, lower_pattern = parse_number(line, words[2], "lower bound", binary32.down)
    upper, upper_pattern = parse_number(line, words[3], "upper bound", binary32.up)
    kind = kind_by(told, line, words[4])
    cell = Cell(row, column, lower_pattern, upper_pattern, parse_wear(line, words[4], kind))
    if lower > upper:
        raise BadText(line, f"lower bound {quoted(words[2])} is above upper bound {quoted(words[3])}")
    if widens_beyond(kind, cell):
        raise BadText(line, f"the cell widened by {WEAR_WORDS[kind]} {quoted(words[4])} is beyond the largest finite number")
    return kind, cell


def parse_unused(line, words):
    if len(words) != 2 or not UNUSED.fullmatch(words[1]):
        raise BadText(line, "'unused' is followed by 32 hexadecimal digits")
    return bytes.fromhex(words[1])


class Reader:
    """The sheet that the lines of a text describe, so far. told is the kind with the line that tells it first, or None."""

    def __init__(self):
        self.sizes, self.told, self.records, self.first_lines = None, None, [], {}

    def take(self, line, words):
        if self.sizes is None:
            *self.sizes, kind = parse_head(line, words)
            self.told = None if kind is None else (kind, line)
            return
        record = parse_unused(line, words) if words[0] == "unused" else self.cell(line, words)
        if len(self.records) == MOST_CELLS:
            raise BadText(line, f"more than {MOST_CELLS} records")
        self.records.append(record)

    def cell(self, line, words):
        kind, cell = parse_cell(line, words, *self.sizes, self.told)
        self.told = self.told or (kind, line)
        first = self.first_lines.setdefault(cell[:2], line)
        if first != line:
            raise BadText(line, f"row {cell.row}, column {cell.column} was given in line {first}")
        return cell


def read_sheet(data):
    """The sheet that the bytes of a text describe. It has amounts where nothing tells its kind."""
    line, reader = 1, Reader()
    for line, text in lines_of(data):
        words = words_of(text)
        if words:
            reader.take(line, words)
    if reader.sizes is None:
        raise BadText(line, "there is no line 'sheet ROWS COLUMNS'")
    return Sheet(*reader.sizes, reader.told[0] if reader.told else AMOUNT_SHEET, reader.records)


def wear_text(kind, wear, as_patterns):
    """A class, or an amount as pattern or decimal. Minus zero is always a pattern: no decimal behind a + is packed to it."""
    if kind == CLASS_SHEET:
        return str(wear)
    return SIGN + (f"0x{wear:08X}" if as_patterns or wear == binary32.MINUS_ZERO else f"{binary32.decimal(wear)}")


def cell_text(kind, cell, as_patterns):
    """The words of a cell, and where it has decimals the patterns in a comment."""
    patterns = [f"{pattern:08X}" for pattern in (cell[2:] if kind == AMOUNT_SHEET else cell[2:4])]
    bounds = ["0x" + p for p in patterns[:2]] if as_patterns else [f"{binary32.decimal(p)}" for p in cell[2:4]]
    comment = [] if as_patterns else ["# " + " ".join(patterns)]
    return [str(cell.row), str(cell.column), *bounds, wear_text(kind, cell.wear, as_patterns), *comment]


def text_of(sheet, as_patterns):
    """A sheet as text, bounds and amounts as patterns, or as exact decimals with the patterns in a comment."""
    rows = [["#row", "column", "lower", "upper", WEAR_WORDS[sheet.kind]]]
    for record in sheet.records:
        rows.append(cell_text(sheet.kind, record, as_patterns) if isinstance(record, Cell) else ["unused", record.hex()])
    cells = [row for row in rows if row[0] != "unused"]
    widths = [max(len(row[i]) for row in cells) for i in range(5)] + [0]
    lines = [f"sheet {sheet.rows} {sheet.columns} {KIND_WORDS[sheet.kind]}"]
    for row in rows:
        lines.append(" ".join(row) if row[0] == "unused" else "  ".join(map(str.ljust, row, widths)).rstrip())
    return "\n".join(lines) + "\n"
