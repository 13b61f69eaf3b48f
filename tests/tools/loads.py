"""Tests of tools/sheet on random loads of wear amounts, not proved: loads.py LIBRARY SEED. Round trips, what the library reads with a load, damaged
loads and damaged texts, all beside the library."""
import random
import sys

from support import KINDS, ok
from draws import check_damaged_texts, random_pattern, random_sheet
from library import Library, code_of
import binary32
from amounts_bytes import LOAD_BYTES, decode_amounts, encode_amounts
from amounts_text import read_amounts, text_of_amounts
from sheet_bytes import AMOUNT_SHEET, CLASS_SHEET, FIXED_AMOUNTS, Cell, Refused, Sheet, decode, encode, with_amounts


def random_amounts(draw):
    """Eight patterns that pass, some of them equal, with zeros of either sign."""
    some = [random_pattern(draw) & ~binary32.MINUS_ZERO for _ in range(draw.randint(1, 7))]
    patterns = [0, *sorted(draw.choice([0, *some]) for _ in range(7))]
    return tuple(pattern or draw.choice([0, binary32.MINUS_ZERO]) for pattern in patterns)


def test_round_trips(library, draw, count):
    for _ in range(count):
        patterns = random_amounts(draw)
        load = encode_amounts(patterns)
        assert library.load_number(load) == 0 and decode_amounts(load) == patterns, load.hex()
        assert encode_amounts(read_amounts(text_of_amounts(patterns).encode())) == load, text_of_amounts(patterns)
    ok("tools/sheet, round trips of loads", f"{count} random loads, each accepted by the library")


def widened(cell, amount):
    """Lower and upper bound of a cell that is widened by an amount, or None where one of them is beyond the largest number."""
    lower, upper = binary32.value(cell.lower) - amount, binary32.value(cell.upper) + amount
    return None if lower < -binary32.LARGEST or upper > binary32.LARGEST else (binary32.down(lower), binary32.up(upper))


def test_read(library, draw, count):
    """A cell of class c is widened by amount c, outward, and one with an amount by that; the first that is widened too far is refused."""
    refused = 0
    for _ in range(count):
        loaded, own, kind = random_amounts(draw), random_amounts(draw), draw.choice(KINDS)
        wear, amounts = (range(8), loaded) if kind == CLASS_SHEET else (own, own)
        cells = [Cell(0, i, *sorted((random_pattern(draw), random_pattern(draw)), key=binary32.value), wear[i]) for i in range(8)]
        expected = [widened(cell, binary32.value(amount)) for cell, amount in zip(cells, amounts)]
        code, met = library.read_with(encode_amounts(loaded), encode(Sheet(1, 8, kind, cells)))
        if None in expected:
            refused += 1
            assert code == 5000000 + expected.index(None), (code, loaded, kind, cells)
        else:
            assert (code, met) == (108, expected), (code, loaded, kind, cells)
    assert count / 20 < refused < count * 19 / 20, refused
    ok("reads with a load", f"{count} sheets of both kinds, {refused} refused with 5, the others widened as by exact fractions")


def converted(data, amounts):
    """What convert makes of a sheet with these amounts, or the code of the refusal."""
    try:
        return 0, encode(with_amounts(decode(data, amounts), amounts))
    except Refused as refused:
        return code_of(refused), None


def test_convert(library, draw, count):
    """A converted sheet is read without its load as the sheet is with it: the library refuses it where the tool does, and an amount sheet stays."""
    refused = 0
    for _ in range(count):
        amounts = draw.choice([FIXED_AMOUNTS, random_amounts(draw)])
        data = encode(random_sheet(draw))
        code, other = converted(data, amounts)
        expected = library.read_with(encode_amounts(amounts), data)
        if other is None:
            refused += 1
            assert expected[0] == code, (code, expected, amounts, data.hex())
        else:
            assert library.read_with(encode_amounts(FIXED_AMOUNTS), other) == expected and other[6] == AMOUNT_SHEET, (amounts, data.hex())
            assert data[6] == CLASS_SHEET or other == data, data.hex()
    assert count / 200 < refused < count / 2, refused
    ok("tools/sheet, converted sheets", f"{count} of both kinds, {refused} refused as with their load, the others read as with it")


def damage(draw, amounts):
    """A load with some bits or patterns changed or patterns exchanged; one in ten is too short or too long."""
    patterns = list(amounts)
    for _ in range(draw.randint(1, 2)):
        at, other = draw.randrange(8), draw.randrange(8)
        match draw.randrange(4):
            case 0:
                patterns[at] ^= 1 << draw.randrange(32)
            case 1:
                patterns[at] ^= binary32.INFINITY
            case 2:
                patterns[at] = random_pattern(draw)
            case 3:
                patterns[at], patterns[other] = patterns[other], patterns[at]
    load = encode_amounts(patterns)
    return load if draw.random() < 0.9 else load[:draw.randrange(LOAD_BYTES)] + bytes(draw.choice([0, 0, LOAD_BYTES + 1]))


def number_told(load):
    """The number of the refusal of a load by the tool, or 0."""
    try:
        decode_amounts(load)
    except Refused as refused:
        return refused.number
    return 0


def test_damage(library, draw, count):
    """A damaged load is refused with the library's number."""
    met = []
    for _ in range(count):
        load = damage(draw, random_amounts(draw))
        met.append(number_told(load))
        assert met[-1] == library.load_number(load), load.hex()
    told = {number: met.count(number) for number in sorted(set(met))}
    assert set(told) == {0, 3, 6, 13} and min(told.values()) > count / 50, told
    ok("tools/sheet, damaged loads", f"{count}, refused as by the library: " + ", ".join(f"{told[number]} with {number}" for number in told if number))


def main(library, seed):
    draw = random.Random(seed)
    test_round_trips(library, draw, 1000)
    test_read(library, draw, 2000)
    test_convert(library, draw, 2000)
    test_damage(library, draw, 10000)
    texts = (text_of_amounts(random_amounts(draw)) for _ in range(5000))
    check_damaged_texts("tools/sheet, damaged texts of loads", draw, texts, read_amounts, lambda patterns: library.load_number(encode_amounts(patterns)) == 0)


main(Library(sys.argv[1]), int(sys.argv[2]))
