"""Tests of tools/sheet on texts of wear amounts, not proved: amounts.py LIBRARY SEED. Texts and loads by name, there and back by the commands, and
decimals, in loads and in cells, beside exact fractions. tests/tools/loads.py has random loads."""
import os
import random
import sys
import tempfile
from decimal import Decimal
from fractions import Fraction

from support import ROOT, check_all, in_file, ok, tool
from amount_cases import BAD_LOADS, BAD_TEXTS, GOOD_TEXTS, load_of
from draws import random_decimal, random_neighbour
from library import Library
import binary32
from amounts_text import read_amounts
from sheet_text import read_sheet


def test_named(library, folder):
    def bad_text(name, text, line, sentence):
        path = in_file(folder, name, text)
        return tool("amounts", path), (2, b"", f"{path}:{line}: {sentence}\n")

    def good_text(name, text, patterns):
        assert library.load_number(load_of(*patterns)) == 0, name
        return tool("amounts", in_file(folder, name, text)), (0, load_of(*patterns), "")

    def bad_load(name, load, refusal):
        path = in_file(folder, name, load)
        assert refusal.startswith(f"refusal {library.load_number(load)}: "), name
        return tool("show", "--amounts", path), (1, b"", f"{path}: {refusal}\n")

    check_all(BAD_TEXTS, bad_text)
    check_all(GOOD_TEXTS, good_text)
    check_all(BAD_LOADS, bad_load)
    ok("tools/sheet, wear amounts", f"{len(BAD_TEXTS)} bad texts with file and line, {len(GOOD_TEXTS)} good ones, {len(BAD_LOADS)} bad loads")


def test_commands(library, folder):
    """There and back by the commands: the sample, and zeros of both signs."""
    minus = in_file(folder, "minus", "-0 0 -0 1 1 2 3 4\n")
    for text in (os.path.join(ROOT, "samples", "amounts.txt"), minus):
        status, load, message = tool("amounts", text)
        assert (status, message, library.load_number(load)) == (0, "", 0), text
        status, shown, message = tool("show", "--amounts", in_file(folder, "load", load))
        assert (status, message, shown.count(b"\n")) == (0, "", 8), shown
        assert tool("amounts", in_file(folder, "shown", shown)) == (0, load, "")


def random_words(draw):
    """Seven decimals, none below zero or below the one before it."""
    words = []
    while len(words) < 7:
        word = draw.choice([random_decimal, random_neighbour])(draw).removeprefix("-")
        if Fraction(Decimal(word)) <= binary32.LARGEST:
            words.append(word)
    return sorted(words, key=Decimal)


def test_rounding(draw, count):
    """Each packed pattern is that of the least number not below the decimal, in a load and in the cells of a sheet."""
    for _ in range(count):
        words = random_words(draw)
        first, *patterns = read_amounts("".join(word + draw.choice(" \t\n") for word in ["0", *words]).encode())
        assert first == 0 and len(patterns) == 7
        cells = read_sheet(("sheet 1 7\n" + "".join(f"0 {i} 0 0 +{word}\n" for i, word in enumerate(words))).encode()).records
        assert [cell.wear for cell in cells] == patterns, words
        for word, pattern in zip(words, patterns):
            exact = Fraction(Decimal(word))
            assert exact <= binary32.value(pattern) and (pattern == 0 or binary32.value(pattern - 1) < exact), word
    ok("tools/sheet, amounts rounded up", f"{7 * count} decimals, each to the least number not below it, by exact fractions")


def main(library, seed):
    with tempfile.TemporaryDirectory() as folder:
        test_named(library, folder)
        test_commands(library, folder)
    test_rounding(random.Random(seed), 2000)


main(Library(sys.argv[1]), int(sys.argv[2]))
