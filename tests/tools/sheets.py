"""Tests of tools/sheet on random sheets of both kinds, not proved: sheets.py LIBRARY SEED. Round trips, damaged sheets and damaged texts, all beside
the library."""
import random
import sys
import tempfile

from support import KINDS, in_file, ok, tool
from draws import check_damaged_texts, random_sheet
from library import Library, code_of
from sheet_bytes import AMOUNT_SHEET, Cell, Refused, decode, encode
from sheet_text import KIND_WORDS, read_sheet, text_of


def test_round_trips(library, draw, count):
    """The text without the word of the kind has the same bytes, where its cells tell the kind or it is an amount sheet."""
    for _ in range(count):
        sheet = random_sheet(draw)
        data = encode(sheet)
        assert library.read_code(data) == 0, data.hex()
        assert decode(data) == sheet
        for as_patterns in (False, True):
            text = text_of(sheet, as_patterns)
            assert encode(read_sheet(text.encode())) == data, text
            wordless = text.replace(f" {KIND_WORDS[sheet.kind]}\n", "\n", 1)
            assert len(wordless) == len(text) - len(" classes"), text
            if sheet.kind == AMOUNT_SHEET or any(isinstance(record, Cell) for record in sheet.records):
                assert encode(read_sheet(wordless.encode())) == data, wordless
    ok("tools/sheet, round trips", f"{count} random sheets of both kinds, each accepted by the library")


def test_commands(draw):
    """The same round trip by the commands."""
    with tempfile.TemporaryDirectory() as folder:
        for kind in KINDS:
            data = encode(random_sheet(draw, kind))
            for words in (["show"], ["show", "--hex"]):
                status, text, message = tool(*words, in_file(folder, "sheet", data))
                assert (status, message) == (0, "")
                assert tool("pack", in_file(folder, "text", text)) == (0, data, "")


def code_told(data):
    """What the tool says of a sheet: 1,000,000 number + 100 row + column of a refusal, else 0."""
    try:
        decode(data)
    except Refused as refused:
        return code_of(refused)
    return 0


def check_alike(library, data, met):
    """The tool and the library say the same of a sheet; the number is put into the set."""
    code = code_told(data)
    assert code == library.read_code(data), (code, library.read_code(data), data.hex())
    met.add(code // 1000000)


def damage(draw, data):
    for _ in range(draw.randint(1, 3)):
        head = len(data) == 16 or draw.random() < 0.2
        record = 0 if head else draw.randint(1, len(data) // 16 - 1)
        at = 16 * record + draw.choice([0, 2, 3, 4, 6, 7, 7, 11, 11, 12, 12, 14, 15, 15])
        data[at] = draw.choice([data[at] + 1 & 255, draw.randint(0, 8), data[at] ^ 128, 255, 127])
    return bytes(data[:draw.randint(0, len(data))] if draw.random() < 0.1 else data)


def test_damage(library, draw, count):
    """A damaged sheet is refused with the library's number and place."""
    met = set()
    for _ in range(count):
        check_alike(library, damage(draw, bytearray(encode(random_sheet(draw)))), met)
    assert met == {0, 1, 3, 4, 5, 6, 7, 8, 10, 14}, met
    ok("tools/sheet, damaged sheets", f"{count} of both kinds, refused as by the library, each number met")


def small_sheet(draw, kind):
    """A sheet with two cells and a record outside the chain."""
    while True:
        sheet = random_sheet(draw, kind)
        if len(sheet.records) == 3 and sum(isinstance(record, Cell) for record in sheet.records) == 2:
            return sheet


def test_each_byte(library, draw):
    """Each byte of a sheet of each kind has each value in turn."""
    count = 0
    for kind in KINDS:
        met = set()
        data = bytearray(encode(small_sheet(draw, kind)))
        for at, byte in enumerate(data):
            for data[at] in range(256):
                check_alike(library, bytes(data), met)
                count += 1
            data[at] = byte
        assert met >= {0, 1, 6, 7, 8, 14 if kind == AMOUNT_SHEET else 10}, met
    ok("tools/sheet, one byte damaged", f"{count} sheets, each byte with each value, refused as by the library")


def main(library, seed):
    draw = random.Random(seed)
    test_round_trips(library, draw, 400)
    test_commands(draw)
    test_damage(library, draw, 20000)
    test_each_byte(library, draw)
    texts = (text_of(random_sheet(draw), draw.random() < 0.5) for _ in range(5000))
    check_damaged_texts("tools/sheet, damaged texts", draw, texts, read_sheet, lambda sheet: library.read_code(encode(sheet)) == 0)


main(Library(sys.argv[1]), int(sys.argv[2]))
