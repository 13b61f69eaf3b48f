"""Test of the samples, not proved: samples.py LIBRARY PROGRAM, where PROGRAM is the independent implementation of the program that prints
a product. Both are asked for the product of two class sheets and of two amount sheets, and the decimals that tools/sheet prints enclose it. A train
of three samples, of both kinds, is two jobs in a row. The gauged pairs, rounded outward as tools/sheet rounds, give what the example in C prints."""
import os
import re
import subprocess
import sys
from fractions import Fraction

from support import KINDS, ROOT, ok, tool
from library import Library, Running
import binary32
from sheet_bytes import AMOUNT_SHEET, CLASS_SHEET, SENTENCES, decode

CELL = re.compile(r"row (\d+), column (\d+): \[(.*), (.*)\]")

# Two samples of each kind that fit.
PAIRS = {CLASS_SHEET: ("motor_to_lever.txt", "lever_to_bar.txt"), AMOUNT_SHEET: ("lever_to_rocker.txt", "rocker_to_bar.txt")}


def packed(name):
    status, data, message = tool("pack", os.path.join(ROOT, "samples", name))
    assert status == 0, message
    return data


def test_product(library, program, method, kind):
    a, b = map(packed, PAIRS[kind])
    assert decode(a).kind == decode(b).kind == kind
    printed = subprocess.run([program], input=b"%d" % method + a + b, capture_output=True, check=True).stdout
    status, table, message = tool("table", given=printed)
    assert (status, message) == (0, ""), message
    title, *lines = table.decode().splitlines()
    sheet = decode(library.job(method, a, b)[1])
    assert title == f"method {method}, {sheet.rows} by {sheet.columns}" and sheet.kind == AMOUNT_SHEET
    cells = {record[:2]: record[2:] for record in sheet.records}
    assert len(lines) == sheet.rows * sheet.columns
    for line in lines:
        row, column, least, most = CELL.fullmatch(line).groups()
        lower, upper, wear = cells.get((int(row), int(column)), (0, 0, 0))
        assert Fraction(least) <= binary32.value(lower) and binary32.value(upper) <= Fraction(most) and wear == 0


def test_train(library, method):
    sheets = [packed(name) for name in ("motor_to_lever.txt", "lever_to_rocker.txt", "rocker_to_bar.txt")]
    assert {decode(sheet).kind for sheet in sheets} == set(KINDS)
    met = library.train(method, sheets)
    first, last = library.job(method, sheets[0], sheets[1])[1], sheets[2]
    assert met[0] == 80 and met == library.job(method, first, last), met


def taken(running, words):
    """What is returned for the pair in a line: lower and upper bound and class of two cells."""
    readers = (binary32.down, binary32.up, int) * 2
    return running.take(*(read(Fraction(word)) for read, word in zip(readers, words, strict=True)))


def test_gauged(library):
    """Line by line what examples/running.c prints of the gauged pairs, and what is stored of it."""
    running, load = Running(library), tool("amounts", os.path.join(ROOT, "samples", "amounts.txt"))[1]
    printed = ["pair 0: [0, 0]"]
    with open(os.path.join(ROOT, "samples", "gauged.txt"), encoding="utf-8") as file:
        lines = [line.split("#")[0].split() for line in file]
    for number, words in enumerate(lines, 1):
        if words == ["amounts", "mill.load"]:
            assert running.exchange(load) == 0
            printed.append("amounts of mill.load")
        elif words:
            code = taken(running, words)
            low, high, pairs = (binary32.decimal(running.words[0]), binary32.decimal(running.words[1]), running.words[2])
            shown = f"pair {pairs}: [{float(low):.9g}, {float(high):.9g}]"
            printed.append(f"line {number}: refused: {SENTENCES[code // 1000000]}" if code else shown)
    with open(os.path.join(ROOT, "tests", "header", "running.expected"), encoding="utf-8") as file:
        assert file.read().splitlines() == printed, printed


def main(library, program):
    for method in (1, 3, 4, 5, 7):
        for kind in KINDS:
            test_product(library, program, method, kind)
        test_train(library, method)
    test_gauged(library)
    ok("samples", "multiplied by each method; the decimals enclose the patterns; a train of three is two jobs in a row; the gauged pairs as printed")


main(Library(sys.argv[1]), os.path.abspath(sys.argv[2]))
