"""The text that print_product prints, for tools/sheet: reading it with every check that a right one passes. Not proved."""
import re
from collections import namedtuple

import binary32
from sheet_bytes import MOST_SIZE
from text_lines import BadText, lines_of, quoted

# cells: row, column and the patterns of lower and upper bound, by rows.
Product = namedtuple("Product", "method rows columns cells")
Refusal = namedtuple("Refusal", "number matrix row column")

METHODS = (1, 3, 4, 5, 7)
PATTERN = re.compile("[0-9A-F]{8}")

# The refusals that print_product prints, each with the matrices it is about, and those that name a cell; the others have row and column 0.
MATRICES = {1: (1, 2), 3: (1, 2), 4: (1, 2), 5: (1, 2, 3), 6: (1, 2), 7: (1, 2), 8: (1, 2), 9: (0,), 10: (1, 2), 14: (1, 2)}
OF_A_CELL = (3, 4, 5, 10, 14)


def listed(numbers):
    if isinstance(numbers, range):
        return f"a whole number from {numbers[0]} to {numbers[-1]}, without sign and leading zeros"
    *most, last = map(str, numbers)
    return f"{', '.join(most)} or {last}" if most else last


def one_of(line, word, what, numbers):
    """The number that a word is, written as print_product writes it."""
    for number in numbers:
        if word == str(number):
            return number
    raise BadText(line, f"{what} {quoted(word)} is not {listed(numbers)}")


def parse_pattern(line, word, what):
    if not PATTERN.fullmatch(word):
        raise BadText(line, f"{what} {quoted(word)} is not eight hexadecimal digits in capitals")
    pattern = int(word, 16)
    if not binary32.is_finite(pattern):
        raise BadText(line, f"{what} '{word}' is not a finite number")
    if pattern == binary32.MINUS_ZERO:
        raise BadText(line, f"{what} '{word}' is minus zero, and a product's zero is 00000000")
    return pattern


def parse_cell(line, text, rows, columns, place):
    """The cell of a line, which must be the one at a place."""
    words = text.split(" ")
    if len(words) != 4:
        raise BadText(line, "the line of a cell is 'ROW COLUMN LOWER UPPER', one space between fields")
    row = one_of(line, words[0], "row", range(rows))
    column = one_of(line, words[1], "column", range(columns))
    if (row, column) != place:
        raise BadText(line, f"row {row}, column {column} stands where row {place[0]}, column {place[1]} must")
    lower = parse_pattern(line, words[2], "lower bound")
    upper = parse_pattern(line, words[3], "upper bound")
    if binary32.value(lower) > binary32.value(upper):
        raise BadText(line, f"lower bound '{words[2]}' is above upper bound '{words[3]}'")
    return row, column, lower, upper


def parse_refusal(line, words):
    number = one_of(line, words[0], "refusal", tuple(MATRICES))
    places = range(MOST_SIZE) if number in OF_A_CELL else (0,)
    matrix = one_of(line, words[1], f"in refusal {number}, matrix", MATRICES[number])
    row = one_of(line, words[2], f"in refusal {number}, row", places)
    column = one_of(line, words[3], f"in refusal {number}, column", places)
    return Refusal(number, matrix, row, column)


def parse_product(line, words, lines):
    """The product of a first line and the lines after it."""
    method = one_of(line, words[0], "method", METHODS)
    rows = one_of(line, words[1], "number of rows", range(1, MOST_SIZE + 1))
    columns = one_of(line, words[2], "number of columns", range(1, MOST_SIZE + 1))
    cells = []
    for place in ((row, column) for row in range(rows) for column in range(columns)):
        line, text = next(lines, (line + 1, None))
        if text is None:
            raise BadText(line, f"the line of row {place[0]}, column {place[1]} is missing")
        cells.append(parse_cell(line, text, rows, columns, place))
    return Product(method, rows, columns, cells)


def read_product(data):
    """The Product or the Refusal that the bytes of a text tell."""
    lines = lines_of(data, all_end=True)
    line, text = next(lines, (1, ""))
    match text.split(" "):
        case ["product", *words] if len(words) == 3:
            told = parse_product(line, words, lines)
        case ["refused", *words] if len(words) == 4:
            told = parse_refusal(line, words)
        case _:
            raise BadText(line, "the first line is 'product METHOD ROWS COLUMNS' or 'refused NUMBER MATRIX ROW COLUMN', one space between fields")
    for line, _ in lines:
        raise BadText(line, "the line is one too many")
    return told
