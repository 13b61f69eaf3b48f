"""Tests of what tools/sheet says of texts and sheets, not proved, and of the sentences of the refusals wherever they stand."""
import os
import re
import tempfile

from support import ROOT, check_all, in_file, ok, tool
from sheet_bytes import SENTENCES, Cell, decode
from sheet_cases import BAD_SHEETS, BAD_TEXTS, GOOD_TEXTS, KIND_TEXTS, PLAIN


def test_bad(folder):
    def pack(name, text, line, sentence):
        path = in_file(folder, name, text)
        return tool("pack", path), (2, b"", f"{path}:{line}: {sentence}\n")

    def show(name, data, refusal):
        path = in_file(folder, name, data)
        return tool("show", path), (1, b"", f"{path}: {refusal}\n")

    check_all(BAD_TEXTS, pack)
    check_all(BAD_SHEETS, show)
    ok("tools/sheet, messages", f"{len(BAD_TEXTS)} bad texts with file and line, {len(BAD_SHEETS)} bad sheets")


def test_good(folder):
    packed = tool("pack", in_file(folder, "plain", PLAIN))
    assert packed[0] == 0, packed
    check_all(GOOD_TEXTS, lambda name, text: (tool("pack", in_file(folder, name, text)), packed))
    ok("tools/sheet, forms of a text", f"{len(GOOD_TEXTS)} pack to the same bytes")


def test_kinds(folder):
    """Packed, a text has this kind and these classes or amounts, and what show prints of it packs to the same bytes."""
    def there_and_back(name, text, kind, wear):
        status, data, message = tool("pack", in_file(folder, name, text))
        assert (status, message) == (0, ""), (name, message)
        sheet = decode(data)
        assert (sheet.kind, [cell.wear for cell in sheet.records if isinstance(cell, Cell)]) == (kind, wear), (name, sheet)
        _, shown, _ = tool("show", in_file(folder, name + " packed", data))
        return tool("pack", in_file(folder, name + " shown", shown)), (0, data, "")

    check_all(KIND_TEXTS, there_and_back)
    ok("tools/sheet, kinds", f"{len(KIND_TEXTS)} texts pack to this kind, and as shown to the same bytes")


def test_sentences():
    """Each place has the same sentences."""
    forms = {
        "include/coupling_sentences.h": r'case (\d+): return "(.*)";',
        "bindings/rust/src/refusal.rs": r'(\d+) => "(.*)",',
        "README.md": r"\| (\d+) \| (.*?) \| .* \| .* \|",
    }
    for name, form in forms.items():
        with open(os.path.join(ROOT, name), encoding="utf-8") as file:
            found = {int(number): sentence for number, sentence in re.findall(form, file.read())}
        assert found == SENTENCES, (name, found)
    ok("sentences of the refusals", f"{len(SENTENCES)}, the same in the header, the Rust wrapper and README.md")


with tempfile.TemporaryDirectory() as scratch:
    test_bad(scratch)
    test_good(scratch)
    test_kinds(scratch)
test_sentences()
