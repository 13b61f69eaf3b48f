"""Test of README.md, not proved: readme.py PROGRAM, where PROGRAM is the independent implementation of the program that prints a product.
The lines of C and the outputs that it shows are those of the examples, of a sample sheet of each kind, of the sample of wear amounts and of the
product of two sheets."""
import os
import re
import subprocess
import sys
import tempfile
from textwrap import indent

from support import ROOT, TOOL, in_file, ok, ran, tool

# In the order in which README.md shows them.
EXAMPLES = ("controller", "amounts", "running", "train")


def text_of(*names):
    with open(os.path.join(ROOT, *names), encoding="utf-8") as file:
        return file.read()


def packed(name):
    return tool("pack", os.path.join(ROOT, "samples", name))[1]


def shown(data):
    with tempfile.NamedTemporaryFile() as file:
        file.write(data)
        file.flush()
        return tool("show", file.name)[1].decode()


def loads_shown():
    """The load of the sample, a sample sheet converted with it, and a load whose last amount is zero, which is refused."""
    load = tool("amounts", os.path.join(ROOT, "samples", "amounts.txt"))[1]
    with tempfile.TemporaryDirectory() as folder:
        in_file(folder, "mill.load", load)
        in_file(folder, "falling.load", load[:-4] + bytes(4))
        in_file(folder, "bar.sheet", packed("lever_to_bar.txt"))
        _, text, _ = ran([TOOL, "show", "--amounts", "mill.load"], cwd=folder)
        _, sheet, _ = ran([TOOL, "convert", "bar.sheet", "mill.load"], cwd=folder)
        _, _, refusal = ran([TOOL, "show", "--amounts", "falling.load"], cwd=folder)
    convert = "$ tools/sheet convert bar.sheet mill.load > own.sheet\n$ tools/sheet show own.sheet\n" + shown(sheet)
    return text.decode() + convert + "$ tools/sheet show --amounts falling.load\n" + refusal


def printed(program):
    given = b"1" + packed("motor_to_lever.txt") + packed("lever_to_bar.txt")
    product = subprocess.run([program], input=given, capture_output=True, check=True).stdout
    return (product + tool("table", given=product)[1]).decode()


def main(program):
    readme = text_of("README.md")
    codes = re.findall("```c\n(.*?)```", readme, re.DOTALL)
    assert len(codes) == len(EXAMPLES), codes
    for code, example in zip(codes, EXAMPLES):
        assert indent(code, "    ") in text_of("examples", f"{example}.c"), code
    outputs = [text_of("tests", "header", f"{example}.expected") for example in EXAMPLES]
    sheets = [shown(packed(name)) for name in ("lever_to_bar.txt", "lever_to_rocker.txt")]
    for output in (*outputs, *sheets, loads_shown(), printed(program)):
        assert indent(output, "    ") in readme, output
    ok("README.md", "its C and its outputs are as they are printed")


main(os.path.abspath(sys.argv[1]))
