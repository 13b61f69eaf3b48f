"""Tests of tools/sheet table, not proved: products.py SEED. Wrong products by name, what print_product has printed, and damage to that."""
import glob
import math
import os
import random
import struct
import sys

from support import ROOT, check_all, ok, tool
from draws import parsed
from product_cases import A, B, BAD, C, D, HEAD, ONE
from product_text import Product, read_product
from sheet_bytes import SENTENCES

TABLE = """method 1, 2 by 2
row 0, column 0: [1.90064454, 2.10061431]
row 0, column 1: [0.119765616, 0.130253926]
row 1, column 0: [-0.0551949554, 0.0551949554]
row 1, column 1: [-1.27547229, -1.22472941]
"""
EDGES = "0 0 FF7FFFFF 80000001\n"
EDGES_TABLE = "method 7, 1 by 1\nrow 0, column 0: [-3.40282347E+38, -1.40129846E-45]\n"

# Name, text, status, standard output and standard error.
GOOD = [
    ("a product", HEAD + A + B + C + D, 0, TABLE, ""),
    ("byte-order mark", "\ufeff" + HEAD + A + B + C + D, 0, TABLE, ""),
    ("carriage return and line feed", (HEAD + A + B + C + D).replace("\n", "\r\n"), 0, TABLE, ""),
    ("both", "\ufeff" + (HEAD + A + B + C + D).replace("\n", "\r\n"), 0, TABLE, ""),
    ("-MAX and the least number", ONE + EDGES, 0, EDGES_TABLE, ""),
    ("method 5", ONE.replace("7", "5") + EDGES, 0, EDGES_TABLE.replace("7", "5", 1), ""),
    ("refusal 10 of a cell", "refused 10 2 1 0\n", 1, "", f"refusal 10: {SENTENCES[10]} (matrix 2, row 1, column 0)\n"),
    ("refusal 14 of a cell", "refused 14 1 31 2\n", 1, "", f"refusal 14: {SENTENCES[14]} (matrix 1, row 31, column 2)\n"),
    ("refusal 9", "refused 9 0 0 0\r\n", 1, "", f"refusal 9: {SENTENCES[9]} (matrix 0, row 0, column 0)\n"),
    ("refusal 5 of the product", "refused 5 3 31 31\n", 1, "", f"refusal 5: {SENTENCES[5]} (matrix 3, row 31, column 31)\n"),
]


def test_named():
    def bad(_, text, line, sentence):
        given = text.encode() if isinstance(text, str) else text
        return tool("table", given=given), (2, b"", f"standard input:{line}: {sentence}\n")

    check_all(BAD, bad)
    check_all(GOOD, lambda _, text, status, out, err: (tool("table", given=text.encode()), (status, out.encode(), err)))
    ok("tools/sheet, products", f"{len(BAD)} wrong ones with their line, {len(GOOD)} right ones and refusals")


def text_of(told):
    """What print_product prints."""
    if not isinstance(told, Product):
        return "refused {} {} {} {}\n".format(*told)
    cells = "".join(f"{row} {column} {lower:08X} {upper:08X}\n" for row, column, lower, upper in told.cells)
    return "product {} {} {}\n".format(*told[:3]) + cells


def damage(draw, data):
    """Changes a byte, takes one out, puts one in, doubles a line, exchanges two lines or cuts the end off."""
    lines = data.splitlines(keepends=True)
    at, line, other = draw.randrange(len(data)), draw.randrange(len(lines)), draw.randrange(len(lines))
    byte = bytes([draw.choice(b"0123456789ABCDEF -+\n\r\0\xff")])
    match draw.randrange(6):
        case 0:
            return data[:at] + byte + data[at + 1:]
        case 1:
            return data[:at] + data[at + 1:]
        case 2:
            return data[:at] + byte + data[at:]
        case 3:
            return b"".join(lines[:line + 1] + lines[line:])
        case 4:
            lines[line], lines[other] = lines[other], lines[line]
            return b"".join(lines)
    return data[:at]


def check_bounds(told):
    for _, _, *bounds in told.cells:
        lower, upper = struct.unpack("<2f", struct.pack("<2I", *bounds))
        assert math.isfinite(lower) and math.isfinite(upper) and lower <= upper, bounds


def is_refused(data):
    return parsed(read_product, data) is None


def test_printed():
    """What was printed is read as it stands, and refused wherever it is cut off, as on a full disk. Hands back the short ones."""
    printed, cuts = [], 0
    for path in sorted(glob.glob(os.path.join(ROOT, "tests", "stored", "printed", "*.out"))):
        with open(path, "rb") as file:
            printed.append(file.read())
        assert text_of(read_product(printed[-1])).encode() == printed[-1], path
    short = [text for text in printed if len(text) < 1000]
    for text in short:
        cuts += len(text)
        assert all(is_refused(text[:at]) for at in range(len(text))), text
    assert len(printed) > 60
    ok("tools/sheet, printed products", f"{len(printed)} stored ones read, and refused at each of {cuts} places where they may be cut off")
    return short


def test_damage(draw, printed, count):
    """Damaged, a text is refused with a line, or is one that could have been printed."""
    read = 0
    for _ in range(count):
        data = damage(draw, draw.choice(printed))
        if is_refused(data):
            continue
        read += 1
        told = read_product(data)
        assert text_of(told).encode() == data.replace(b"\r\n", b"\n"), data
        if isinstance(told, Product):
            check_bounds(told)
    assert 0 < read < count / 2, read
    ok("tools/sheet, damaged products", f"{count}: {count - read} refused with a line, {read} as if printed")


test_named()
test_damage(random.Random(int(sys.argv[1])), test_printed(), 20000)
