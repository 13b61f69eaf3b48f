"""For the tests of tools/sheet, not proved: texts and bytes of sheets, each with a name and what tools/sheet makes or says of it."""
from struct import pack

from support import ONE
import binary32
from sheet_bytes import AMOUNT_SHEET, CLASS_SHEET, MOST_BYTES, SENTENCES

HEAD = "sheet 2 2\n"
FIRST = "the first line is 'sheet ROWS COLUMNS', and 'classes' or 'amounts' may follow"
NONE = "there is no line 'sheet ROWS COLUMNS'"
NEITHER = "is neither a decimal nor 0x with eight hexadecimal digits"
BEYOND = "is beyond the largest finite number"
UNUSED = "'unused' is followed by 32 hexadecimal digits"
WORDS = "words where a cell has 5: row column lower upper class, or +amount in place of class"
NO_AMOUNT = "does not begin with '+' as an amount does, but by line"
NO_CLASS = "begins with '+' as an amount does, but by line"

# Name, text, line and sentence.
BAD_TEXTS = [
    ("empty", "", 1, NONE),
    ("byte-order mark alone", "\ufeff", 1, NONE),
    ("comments alone", "# none\n\n", 2, NONE),
    ("no sizes", "\n0 0 1 2 0\n", 2, FIRST),
    ("one size", "sheet 2\n", 1, FIRST),
    ("three sizes", "sheet 2 2 2\n", 1, "kind '2' is neither 'classes' nor 'amounts'"),
    ("kind in capitals", "sheet 2 2 Amounts\n", 1, "kind 'Amounts' is neither 'classes' nor 'amounts'"),
    ("kind as a number", "sheet 2 2 1\n", 1, "kind '1' is neither 'classes' nor 'amounts'"),
    ("kind twice", "sheet 2 2 classes classes\n", 1, FIRST),
    ("kind before the sizes", "sheet classes 2 2\n", 1, "number of rows 'classes' is not a whole number from 1 to 32"),
    ("byte-order mark twice", "\ufeff\ufeffsheet 2 2\n", 1, FIRST),
    ("no-break space between words", "sheet\u00a02\u00a02\n", 1, FIRST),
    ("33 rows", "sheet 33 2\n", 1, "number of rows '33' is not a whole number from 1 to 32"),
    ("0 columns", "sheet 2 0\n", 1, "number of columns '0' is not a whole number from 1 to 32"),
    ("rows of a million digits", "sheet " + "1" * 10**6 + " 2\n", 1, f"number of rows '{'1' * 40}...' is not a whole number from 1 to 32"),
    ("four words", HEAD + "0 0 1 2\n", 2, f"4 {WORDS}"),
    ("six words", HEAD + "0 0 1 2 + 1\n", 2, f"6 {WORDS}"),
    ("row outside", HEAD + "\n2 0 1 2 0\n", 3, "row '2' is not a whole number from 0 to 1"),
    ("column below 0", HEAD + "0 -1 1 2 0\n", 2, "column '-1' is not a whole number from 0 to 1"),
    ("row in digits of another script", HEAD + "\u0661 0 1 2 0\n", 2, "row '\u0661' is not a whole number from 0 to 1"),
    ("decimal comma", HEAD + "0 0 1,5 2 0\n", 2, f"lower bound '1,5' {NEITHER}"),
    ("pattern of seven digits", HEAD + "0 0 1 0x4000000 0\n", 2, f"upper bound '0x4000000' {NEITHER}"),
    ("nan", HEAD + "0 0 1 nan 0\n", 2, f"upper bound 'nan' {NEITHER}"),
    ("underscore", HEAD + "0 0 1 1_0 0\n", 2, f"upper bound '1_0' {NEITHER}"),
    ("point alone", HEAD + "0 0 . 1 0\n", 2, f"lower bound '.' {NEITHER}"),
    ("exponent without digits", HEAD + "0 0 1e 1 0\n", 2, f"lower bound '1e' {NEITHER}"),
    ("exponent of nine digits", HEAD + "0 0 0 1e-100000000 0\n", 2, "upper bound '1e-100000000' has more than 8 digits in its exponent"),
    ("infinity", HEAD + "0 0 1 0x7F800000 0\n", 2, "upper bound '0x7F800000' is not a finite number"),
    ("too large", HEAD + "0 0 1 3.5e38 0\n", 2, f"upper bound '3.5e38' {BEYOND}"),
    ("too low", HEAD + "0 0 -1e9999 1 0\n", 2, f"lower bound '-1e9999' {BEYOND}"),
    ("crossed", HEAD + "0 0 1.5 1.25 0\n", 2, "lower bound '1.5' is above upper bound '1.25'"),
    ("crossed, a pattern", HEAD + "0 0 0.1 0x3DCCCCCC 0\n", 2, "lower bound '0.1' is above upper bound '0x3DCCCCCC'"),
    ("class 8", HEAD + "0 0 1 2 8 # worn\n", 2, "class '8' is not a whole number from 0 to 7; an amount begins with '+'"),
    ("class below 0", HEAD + "0 0 1 2 -1\n", 2, "class '-1' is not a whole number from 0 to 7; an amount begins with '+'"),
    ("amount without a plus", HEAD + "0 0 1 2 0.5\n", 2, "class '0.5' is not a whole number from 0 to 7; an amount begins with '+'"),
    ("pattern without a plus", HEAD + "0 0 1 2 0x3F000000\n", 2, "class '0x3F000000' is not a whole number from 0 to 7; an amount begins with '+'"),
    ("widened too far", HEAD + "0 0 1 0x7F7FFFFF 1\n", 2, f"the cell widened by class '1' {BEYOND}"),
    ("widened too far by an amount", HEAD + "0 0 -1 1 +0x7F7FFFFF\n", 2, f"the cell widened by amount '+0x7F7FFFFF' {BEYOND}"),
    ("plus alone", HEAD + "0 0 1 2 +\n", 2, f"amount '+' {NEITHER}"),
    ("two plus signs", HEAD + "0 0 1 2 ++1\n", 2, f"amount '++1' {NEITHER}"),
    ("amount with a minus", HEAD + "0 0 1 2 +-1\n", 2, f"amount '+-1' {NEITHER}"),
    ("amount minus zero as a decimal", HEAD + "0 0 1 2 +-0\n", 2, f"amount '+-0' {NEITHER}"),
    ("amount, a pattern of nine digits", HEAD + "0 0 1 2 +0x3F8000000\n", 2, f"amount '+0x3F8000000' {NEITHER}"),
    ("amount, a pattern with two signs", HEAD + "0 0 1 2 ++0x3F800000\n", 2, f"amount '++0x3F800000' {NEITHER}"),
    ("amount, a pattern with a minus", HEAD + "0 0 1 2 +-0x3F800000\n", 2, f"amount '+-0x3F800000' {NEITHER}"),
    ("amount, nan", HEAD + "0 0 1 2 +nan\n", 2, f"amount '+nan' {NEITHER}"),
    ("amount, exponent of nine digits", HEAD + "0 0 1 2 +1e-100000000\n", 2, "amount '+1e-100000000' has more than 8 digits in its exponent"),
    ("amount below zero", HEAD + "0 0 1 2 +0xBF800000\n", 2, "amount '+0xBF800000' is below zero"),
    ("amount below zero by little", HEAD + "0 0 1 2 +0x80000001\n", 2, "amount '+0x80000001' is below zero"),
    ("amount, infinity", HEAD + "0 0 1 2 +0x7F800000\n", 2, "amount '+0x7F800000' is not a finite number"),
    ("amount, minus infinity", HEAD + "0 0 1 2 +0xff800000\n", 2, "amount '+0xff800000' is not a finite number"),
    ("amount too large", HEAD + "0 0 1 2 +3.5e38\n", 2, f"amount '+3.5e38' {BEYOND}"),
    ("bound with a plus and a pattern", HEAD + "0 0 +0x3F800000 2 0\n", 2, f"lower bound '+0x3F800000' {NEITHER}"),
    ("amount after a class", HEAD + "0 0 1 2 0\n\n0 1 1 2 +0\n", 4, f"'+0' {NO_CLASS} 2 the cells have classes"),
    ("class after an amount", HEAD + "# worn\n0 0 1 2 +0\n0 1 1 2 0\n", 4, f"'0' {NO_AMOUNT} 3 the cells have amounts"),
    ("class above 7 after an amount", HEAD + "0 0 1 2 +0\n0 1 1 2 8\n", 3, f"'8' {NO_AMOUNT} 2 the cells have amounts"),
    ("amount in a class sheet", "sheet 2 2 classes\n0 0 1 2 +0.5\n", 2, f"'+0.5' {NO_CLASS} 1 the cells have classes"),
    ("class in an amount sheet", "\nsheet 2 2 amounts\n0 0 1 2 3\n", 3, f"'3' {NO_AMOUNT} 2 the cells have amounts"),
    ("a third cell of the other kind", "sheet 2 2 classes\n0 0 1 2 3\n0 1 1 2 0\n1 1 1 2 +0\n", 4, f"'+0' {NO_CLASS} 1 the cells have classes"),
    ("cell twice", HEAD + "1 1 1 2 0\n0 0 1 2 0\n1 1 1 2 0\n", 4, "row 1, column 1 was given in line 2"),
    ("unused too short", HEAD + "unused 12\n", 2, UNUSED),
    ("1025 records", HEAD + ("unused " + "0" * 32 + "\n") * 1025, 1026, "more than 1024 records"),
    ("NUL byte", HEAD + "0 0 1 2 0\0\n", 2, "the control character U+0000 stands in the line"),
    ("NUL byte in a comment", HEAD + "# \0\n", 2, "the control character U+0000 stands in the line"),
    ("carriage returns alone", "sheet 2 2\r0 0 1 2 0\r", 1, "the control character U+000D stands in the line"),
    ("escape sequence", HEAD + "\x1b[2J\n", 2, "the control character U+001B stands in the line"),
    ("not UTF-8", b"sheet 2 2\n0 0 1 2\xff 0\n", 2, "the byte FF is not UTF-8"),
    ("not UTF-8 in a comment", b"sheet 2 2\n# caf\xe9\n", 2, "the byte E9 is not UTF-8"),
    ("UTF-16", HEAD.encode("utf-16"), 1, "the byte FF is not UTF-8"),
    ("a surrogate", b"sheet 2 2\n# \xed\xa0\x80\n", 2, "the byte ED is not UTF-8"),
]

# Name and text; each packs as PLAIN does.
PLAIN = "sheet 2 2\n0 0 0.1 2 1\n"
GOOD_TEXTS = [
    ("byte-order mark", "\ufeff" + PLAIN),
    ("carriage return and line feed", PLAIN.replace("\n", "\r\n")),
    ("byte-order mark, carriage return and line feed", "\ufeff" + PLAIN.replace("\n", "\r\n")),
    ("no line feed at the end", PLAIN.rstrip()),
    ("blank lines, tabs and spaces", "\n\n" + PLAIN.replace(" ", " \t ").replace("\n", "\t\n \n")),
    ("a comment in other scripts", "# \u00e9\u4e16\n" + PLAIN),
    ("leading zeros and signs", "sheet 02 002\n00 00 +0.10 +2 01\n"),
    ("the kind", PLAIN.replace("2\n", "2 classes\n", 1)),
]

# Name, text, kind of the sheet and wear of each cell.
KIND_TEXTS = [
    ("classes", "sheet 1 2\n0 0 1 2 0\n0 1 1 2 7\n", CLASS_SHEET, [0, 7]),
    ("classes and the word", "sheet 1 2 classes\n0 0 1 2 0\n0 1 1 2 7\n", CLASS_SHEET, [0, 7]),
    ("amounts", "sheet 1 2\n0 0 1 2 +0\n0 1 1 2 +7\n", AMOUNT_SHEET, [0, 0x40E00000]),
    ("amounts and the word", "sheet 1 2 amounts # worn\n0 0 1 2 +0\n0 1 1 2 +7\n", AMOUNT_SHEET, [0, 0x40E00000]),
    ("no cells", "sheet 1 1\n", AMOUNT_SHEET, []),
    ("no cells, amounts", "sheet 1 1 amounts", AMOUNT_SHEET, []),
    ("no cells, classes", "sheet 1 1 classes\n", CLASS_SHEET, []),
    ("unused alone", "sheet 1 1\nunused " + "0" * 32 + "\n", AMOUNT_SHEET, []),
    ("unused alone, classes", "sheet 1 1\tclasses\nunused " + "f" * 32 + "\n", CLASS_SHEET, []),
    ("unused before a class", "sheet 1 1\nunused " + "0" * 32 + "\n0 0 1 2 3\n", CLASS_SHEET, [3]),
    ("zeros of both signs", "sheet 1 3\n0 0 1 2 +0x00000000\n0 1 1 2 +0x80000000\n0 2 1 2 +0.0e9\n", AMOUNT_SHEET, [0, 1 << 31, 0]),
    ("forms of a decimal", "sheet 1 4\n0 0 1 2 +.5\n0 1 1 2 +05e-1\n0 2 1 2 +1.\n0 3 1 2 +0.01E+2\n", AMOUNT_SHEET, [0x3F000000, 0x3F000000, ONE, ONE]),
    ("patterns", "sheet 1 2\n0 0 1 2 +0x3A9D4952\n0 1 1 2 +0x3a9d4952\n", AMOUNT_SHEET, [0x3A9D4952, 0x3A9D4952]),
    ("rounded up", "sheet 1 3\n0 0 1 2 +0.0012\n0 1 1 2 +1e-1000000\n0 2 1 2 +1.00000001\n", AMOUNT_SHEET, [0x3A9D4952, 1, ONE + 1]),
    ("the largest amount", f"sheet 1 1\n0 0 -0 0 +{binary32.LARGEST}\n", AMOUNT_SHEET, [binary32.MAX]),
    ("a million digits", f"sheet 1 1\n0 0 1 2 +1.{'0' * 10**6}1\n", AMOUNT_SHEET, [ONE + 1]),
]


def one_cell(kind, lower, upper, wear):
    """A sheet of 1 by 1 with this cell."""
    return pack("<HBBHB9x", 1, 1, 1, 2, kind) + pack("<HBBIII", 0, 0, 0, lower, upper, wear)


# Name, bytes and refusal.
AT = "record 1, row 0, column 0"
BAD_SHEETS = [
    ("empty sheet", b"", f"refusal 6: {SENTENCES[6]} (the length is 0 bytes)"),
    ("15 bytes", bytes(15), f"refusal 6: {SENTENCES[6]} (the length is 15 bytes)"),
    ("16,401 bytes", bytes(MOST_BYTES + 1), f"refusal 6: {SENTENCES[6]} (the length is above 16400 bytes)"),
    ("a text", PLAIN.encode(), f"refusal 6: {SENTENCES[6]} (the length is {len(PLAIN)} bytes)"),
    ("zeros", bytes(16), f"refusal 6: {SENTENCES[6]} (the record count is 0, the length 16 bytes)"),
    ("kind 2", one_cell(2, 0, ONE, 0), f"refusal 6: {SENTENCES[6]} (the kind, byte 6 of the head, is 2)"),
    ("byte 7", pack("<HBBHBB8x", 0, 1, 1, 1, AMOUNT_SHEET, 1), f"refusal 6: {SENTENCES[6]} (bytes 7 to 15 of the head)"),
    ("an amount in a class sheet", one_cell(CLASS_SHEET, 0, ONE, ONE), f"refusal 6: {SENTENCES[6]} ({AT}: bytes 13 to 15)"),
    ("class eight", one_cell(CLASS_SHEET, 0, ONE, 8), f"refusal 10: {SENTENCES[10]} ({AT}: 00000000 3F800000, class 8)"),
    ("amount below zero", one_cell(AMOUNT_SHEET, 0, ONE, 1 << 31 | 1), f"refusal 14: {SENTENCES[14]} ({AT}: 00000000 3F800000, amount 80000001)"),
    ("amount not finite", one_cell(AMOUNT_SHEET, 0, ONE, 0xFF800000), f"refusal 3: {SENTENCES[3]} ({AT}: 00000000 3F800000, amount FF800000)"),
    ("crossed", one_cell(AMOUNT_SHEET, ONE, 0, ONE), f"refusal 4: {SENTENCES[4]} ({AT}: 3F800000 00000000, amount 3F800000)"),
    ("widened too far", one_cell(CLASS_SHEET, 0, binary32.MAX, 1), f"refusal 5: {SENTENCES[5]} ({AT}: 00000000 7F7FFFFF, class 1)"),
]
