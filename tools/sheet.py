"""Converts coupling sheets and loads of wear amounts between text and bytes. Not proved: what it makes is checked again by the library.

  tools/sheet pack TEXT            the sheet that a text describes, to standard output
  tools/sheet show SHEET           a sheet as text, bounds and wear amounts as exact decimals, patterns in comments
  tools/sheet show --hex SHEET     the same with bounds and wear amounts as patterns
  tools/sheet convert SHEET        a sheet as an amount sheet: each class is replaced by its fixed amount
  tools/sheet convert SHEET LOAD   the same with the amounts of a load
  tools/sheet amounts TEXT         the load of eight wear amounts that a text describes, to standard output
  tools/sheet show --amounts LOAD  a load as text, amounts as exact decimals, classes and patterns in comments
  tools/sheet table                what print_product prints, from standard input, as decimals of nine digits rounded outward
  tools/sheet --help               this text

The text of a sheet has a line 'sheet ROWS COLUMNS', then a line 'row column lower upper wear' for each cell that is not [0, 0], in any order.
Rows and columns count from 0. A bound is a decimal, as -0.25 or 1e-3, or a pattern, as 0x3F800000: always 0x and eight hexadecimal digits.
A decimal may have any number of digits, and up to eight in its exponent. One that is no binary32 number is rounded outward, a lower bound down
and an upper bound up; one beyond the largest number is refused. -0 is minus zero. Spaces and tabs stand between the words.
# starts a comment, and blank lines are skipped. 'unused' with 32 hexadecimal digits is a record outside the chain.

The wear of a cell is its class, a digit from 0 to 7, or its amount: + and then a decimal without a sign, as +0.0012, or a pattern, as
+0x3A9D4952. A decimal that is no binary32 number is rounded up. No amount is below zero; +0x80000000 is minus zero. All cells have classes, in
a class sheet, or all have amounts, in an amount sheet. The line 'sheet ROWS COLUMNS' may end with the word 'classes' or 'amounts' to say which;
where it does not, the cells do, and a sheet without cells is an amount sheet. show always prints the word.

Line by line the records stand in the sheet; the chain links the cells by row, then column. Packing what show printed gives the same bytes.

The text of a load has eight numbers, the wear amounts of classes 0 to 7 in this order, on one line or several. They are written as bounds are;
a decimal that is no binary32 number is rounded up. As written, the first is zero, and none is below the one before it. Comments and blank lines
are as in the text of a sheet. The load, 32 bytes, is what coupling_read_with takes. What show --amounts printed gives the same load.

convert changes nothing else in a sheet, and nothing at all in an amount sheet. coupling_read reads what it gives as it reads the sheet itself or,
where there is a load, as coupling_read_with reads the sheet with the load.

table accepts only what print_product can print: one product, every cell once and by rows, or one refusal, whose sentence it writes to standard
error. Fields stand one space apart, numbers have no sign and no leading zeros, and the last line too has its end.

All texts are UTF-8 of at most 16,777,216 bytes, with or without a byte-order mark. Lines end with a line feed, or with a carriage return and a
line feed; no other control character but the tab may stand in them. Nothing is written to standard output before all input was checked.

Exit status, with one line on standard error if it is not 0:
  0    done
  1    a damaged sheet or load, a refused product, or standard output could not be written: full, closed, or a pipe that nobody reads
  2    wrong text or usage, or the input could not be read
  130  interrupted (no line)"""
import os
import signal
import sys

# From here on an interrupt ends the program without a report, also while modules are read; one that the caller ignores stays ignored.
if signal.getsignal(signal.SIGINT) is signal.default_int_handler:
    signal.signal(signal.SIGINT, lambda *_: os._exit(130))

import binary32
from amounts_bytes import LOAD_BYTES, decode_amounts, encode_amounts
from amounts_text import read_amounts, text_of_amounts
from product_text import Refusal, read_product
from sheet_bytes import FIXED_AMOUNTS, MOST_BYTES, SENTENCES, Refused, decode, encode, with_amounts
from sheet_text import read_sheet, text_of
from streams import read_file, read_input, stop, write_output
from text_lines import MOST_TEXT, BadText

USAGE = "usage: tools/sheet pack TEXT, or show SHEET, or show --hex SHEET, or convert SHEET [LOAD], or amounts TEXT, or show --amounts LOAD, or table, or --help"


def parsed(name, data, parse):
    """What a text holds."""
    if len(data) > MOST_TEXT:
        stop(2, f"{name}: the text has more than {MOST_TEXT} bytes")
    try:
        return parse(data)
    except BadText as bad:
        stop(2, f"{name}:{bad.line}: {bad.sentence}")


def decoded(path, most, decode_bytes):
    """What the bytes of a sheet or load hold, which has at most so many."""
    try:
        return decode_bytes(read_file(path, most))
    except Refused as refused:
        stop(1, f"{path}: {refused}")


def pack(path):
    write_output(encode(parsed(path, read_file(path, MOST_TEXT), read_sheet)))


def show(path, as_patterns):
    write_output(text_of(decoded(path, MOST_BYTES, decode), as_patterns).encode())


def convert(path, amounts):
    sheet = decoded(path, MOST_BYTES, lambda data: decode(data, amounts))
    write_output(encode(with_amounts(sheet, amounts)))


def amounts(path):
    write_output(encode_amounts(parsed(path, read_file(path, MOST_TEXT), read_amounts)))


def show_amounts(path):
    write_output(text_of_amounts(decoded(path, LOAD_BYTES, decode_amounts)).encode())


def table():
    told = parsed("standard input", read_input(MOST_TEXT), read_product)
    if isinstance(told, Refusal):
        stop(1, f"refusal {told.number}: {SENTENCES[told.number]} (matrix {told.matrix}, row {told.row}, column {told.column})")
    lines = [f"method {told.method}, {told.rows} by {told.columns}\n"]
    for row, column, lower, upper in told.cells:
        lines.append(f"row {row}, column {column}: [{binary32.nine_digits(lower, 'down')}, {binary32.nine_digits(upper, 'up')}]\n")
    write_output("".join(lines).encode())


def main(words):
    match words:
        case ["pack", path]:
            pack(path)
        case ["show", "--hex", path]:
            show(path, True)
        case ["show", "--amounts", path]:
            show_amounts(path)
        case ["show", path]:
            show(path, False)
        case ["convert", path]:
            convert(path, FIXED_AMOUNTS)
        case ["convert", path, load]:
            convert(path, decoded(load, LOAD_BYTES, decode_amounts))
        case ["amounts", path]:
            amounts(path)
        case ["table"]:
            table()
        case ["--help"]:
            write_output(__doc__.encode() + b"\n")
        case _:
            stop(2, USAGE)


main(sys.argv[1:])
