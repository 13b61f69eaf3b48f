"""For the tests of tools/sheet, not proved: texts and loads of wear amounts, each with a name and what tools/sheet makes or says of it."""
from struct import pack

from support import ONE
import binary32
from sheet_bytes import SENTENCES

NEITHER = "is neither a decimal nor 0x with eight hexadecimal digits"
BEYOND = "is beyond the largest finite number"
MILLION = 10**6
ZEROS = "0" * MILLION
REST = " 1 2 3 4 5 6 7\n"

# Name, text, line and sentence.
BAD_TEXTS = [
    ("empty", "", 1, "0 amounts where a load has 8"),
    ("comments alone", "# none\n\n", 2, "0 amounts where a load has 8"),
    ("one amount", "0\n", 1, "1 amount where a load has 8"),
    ("seven amounts", "0 1 2 3\n4 5 6\n", 2, "7 amounts where a load has 8"),
    ("seven amounts and blank lines", "0 1 2 3 4 5 6\n\n\n", 3, "7 amounts where a load has 8"),
    ("the eighth in a comment", "0 1 2 3 4 5 6 # 7\n", 1, "7 amounts where a load has 8"),
    ("nine amounts", "0 1 2 3 4 5 6 7 8\n", 1, "more than 8 amounts"),
    ("nine amounts in lines", "0\n1\n2\n3\n4\n5\n6\n7\n\n8\n", 10, "more than 8 amounts"),
    ("nine amounts, the last no number", "0 1 2 3 4 5 6 7\nx\n", 2, "more than 8 amounts"),
    ("first not zero", "0.001" + REST, 1, "the first amount '0.001' is not zero"),
    ("first below zero", "# worn\n-0.001" + REST, 2, "the first amount '-0.001' is not zero"),
    ("first above zero by little", "1e-1000000" + REST, 1, "the first amount '1e-1000000' is not zero"),
    ("first below zero by little", "-1e-1000000" + REST, 1, "the first amount '-1e-1000000' is not zero"),
    ("first not zero, a pattern", "0x00000001" + REST, 1, "the first amount '0x00000001' is not zero"),
    ("first not zero, not eight", "1\n2\n", 1, "the first amount '1' is not zero"),
    ("falling", "0 1 2\n3 2.5 4 5 6\n", 2, "amount '2.5' is below the one before it, '3'"),
    ("falling in the next line", "0 1 2 3\n2.5 4 5 6\n", 2, "amount '2.5' is below the one before it, '3'"),
    ("falling at the last", "0 1 2 3 4 5 6\n\n5.99 # worn out\n", 3, "amount '5.99' is below the one before it, '6'"),
    ("falling, to the same pattern", "0 0.1 0.09999999999 1 1 1 1 1\n", 1, "amount '0.09999999999' is below the one before it, '0.1'"),
    ("falling, from a pattern", "0 0x3DCCCCCD 0.1 1 1 1 1 1\n", 1, "amount '0.1' is below the one before it, '0x3DCCCCCD'"),
    ("falling, to a pattern", "0 0.1 0x3DCCCCCC 1 1 1 1 1\n", 1, "amount '0x3DCCCCCC' is below the one before it, '0.1'"),
    ("falling, to minus zero", "0 0x00000001 -0 1 1 1 1 1\n", 1, "amount '-0' is below the one before it, '0x00000001'"),
    ("falling by little", f"0 1.{ZEROS}2 1.{ZEROS}1\n", 1, f"amount '1.{'0' * 38}...' is below the one before it, '1.{'0' * 38}...'"),
    ("below zero", "0 -1 2 3 4 5 6 7\n", 1, "amount '-1' is below the one before it, '0'"),
    ("below zero by little", "-0 -1e-1000000 2 3 4 5 6 7\n", 1, "amount '-1e-1000000' is below the one before it, '-0'"),
    ("a sheet", "sheet 1 8\n", 1, f"amount 'sheet' {NEITHER}"),
    ("decimal comma", "0 1,5\n", 1, f"amount '1,5' {NEITHER}"),
    ("commas between", "0, 1, 2, 3, 4, 5, 6, 7\n", 1, f"amount '0,' {NEITHER}"),
    ("pattern of seven digits", "0\n0x3F80000\n", 2, f"amount '0x3F80000' {NEITHER}"),
    ("nan", "0 nan\n", 1, f"amount 'nan' {NEITHER}"),
    ("no-break space between", "0\u00a01\n", 1, f"amount '0\\xa01' {NEITHER}"),
    ("exponent of nine digits", "0 1e-100000000\n", 1, "amount '1e-100000000' has more than 8 digits in its exponent"),
    ("infinity", "0 1 2 0x7F800000\n", 1, "amount '0x7F800000' is not a finite number"),
    ("no number, first", "0xFFC00000\n", 1, "amount '0xFFC00000' is not a finite number"),
    ("too large", "0 1\n3.5e38\n", 2, f"amount '3.5e38' {BEYOND}"),
    ("too low", "0 -1e9999\n", 1, f"amount '-1e9999' {BEYOND}"),
    ("NUL byte", "0 1\0\n", 1, "the control character U+0000 stands in the line"),
    ("carriage returns alone", "0\r1\r", 1, "the control character U+000D stands in the line"),
    ("not UTF-8 in a comment", b"0 1\n# caf\xe9\n", 2, "the byte E9 is not UTF-8"),
    ("UTF-16", "0 1\n".encode("utf-16"), 1, "the byte FF is not UTF-8"),
]

# Name, text and the eight patterns that it packs to.
PLAIN = "0 0.1 0.25 0.5 1 1 2 3\n"
TENTHS = (0, 0x3DCCCCCD, 0x3E800000, 0x3F000000, ONE, ONE, 0x40000000, 0x40400000)
GOOD_TEXTS = [
    ("one line", PLAIN, TENTHS),
    ("eight lines", PLAIN.replace(" ", "\n"), TENTHS),
    ("some on a line", "0 0.1\n\n0.25 0.5 # four\n1 1 2\n3\n# all\n", TENTHS),
    ("byte-order mark, carriage return and line feed", "\ufeff" + PLAIN.replace(" ", "\n").replace("\n", "\r\n"), TENTHS),
    ("no line feed at the end", PLAIN.rstrip(), TENTHS),
    ("tabs and spaces", "\t" + PLAIN.replace(" ", " \t "), TENTHS),
    ("comments without a space, in other scripts", PLAIN.rstrip() + "# \u00e9\u4e16\n", TENTHS),
    ("leading zeros and signs", "+0.0 00.1 +.25 5e-1 1. 01 +2 3e+0\n", TENTHS),
    ("patterns", "0x00000000 0x3dcccccd 0x3E800000 .5 0x3F800000 1 2 0x40400000", TENTHS),
    ("zeros", "0 0 0 0 0 0 0 0", (0,) * 8),
    ("zeros of both signs", "-0 0 -0.0 0x80000000 0 0x00000000 0 -0e9", (1 << 31, 0, 1 << 31, 1 << 31, 0, 0, 0, 1 << 31)),
    ("rounded up", "0 1e-1000000 1e-45 0.1 1.00000001 16777217 3.4028234e38 340282346638528859811704183484516925440",
     (0, 1, 1, 0x3DCCCCCD, ONE + 1, 0x4B800001, binary32.MAX, binary32.MAX)),
    ("a million digits", f"0.{ZEROS} 0.{ZEROS}1 0.{ZEROS}2 1{ZEROS}e-{MILLION} 1.{ZEROS} 1.{ZEROS}1 2 2", (0, 1, 1, ONE, ONE, ONE + 1, 1 << 30, 1 << 30)),
]


def load_of(*patterns):
    """The bytes of eight patterns, the last of which are zeros unless given."""
    return pack("<8I", *patterns, *(0,) * (8 - len(patterns)))


def refusal(number, detail):
    return f"refusal {number}: {SENTENCES[number]} ({detail})"


# Name, bytes, and the refusal.
BAD_LOADS = [
    ("no bytes", b"", refusal(6, "the length is 0 bytes")),
    ("31 bytes", bytes([255] * 31), refusal(6, "the length is 31 bytes")),
    ("33 bytes", bytes(33), refusal(6, "the length is above 32 bytes")),
    ("16,401 bytes", bytes(16401), refusal(6, "the length is above 32 bytes")),
    ("a text of eight amounts", PLAIN.encode(), refusal(6, f"the length is {len(PLAIN)} bytes")),
    ("infinity, the first", load_of(binary32.INFINITY), refusal(3, "class 0: 7F800000")),
    ("no number, the last, and falling", load_of(ONE, 0, 0, 0, 0, 0, 0, 0xFFFFFFFF), refusal(3, "class 7: FFFFFFFF")),
    ("two that are not finite", load_of(0, 0, 0xFF800000, 0x7FC00000), refusal(3, "class 2: FF800000")),
    ("the first above zero", load_of(1), refusal(13, "class 0: 00000001")),
    ("the first below zero", load_of(0x80000001), refusal(13, "class 0: 80000001")),
    ("falling, then zeros", load_of(0, ONE), refusal(13, "class 2: 00000000 after 3F800000")),
    ("falling to minus zero", load_of(0, 1, 1 << 31), refusal(13, "class 2: 80000000 after 00000001")),
    ("below zero", load_of(0, 0x80000001), refusal(13, "class 1: 80000001 after 00000000")),
    ("the last falling", load_of(0, 1, 2, 3, 4, 5, 7, 6), refusal(13, "class 7: 00000006 after 00000007")),
]
