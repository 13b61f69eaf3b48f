"""For the tests of tools/sheet, not proved: the tool as a command, files, tables of cases, and the tool's modules to import."""
import os
import subprocess
import sys
from concurrent.futures import ThreadPoolExecutor

ROOT = os.path.dirname(os.path.dirname(os.path.dirname(os.path.abspath(__file__))))
TOOL = os.path.join(ROOT, "tools", "sheet")
sys.path.insert(0, os.path.join(ROOT, "tools"))

import binary32
from sheet_bytes import AMOUNT_SHEET, CLASS_SHEET

KINDS = (CLASS_SHEET, AMOUNT_SHEET)

LARGEST_SUBNORMAL, LEAST_NORMAL, ONE = 0x007FFFFF, 0x00800000, 0x3F800000

# Patterns at the edges of binary32 and of its steps, none with a sign.
EDGES = [0, 1, LARGEST_SUBNORMAL, LEAST_NORMAL, 0x3A800000, ONE - 1, ONE, binary32.MAX - 1, binary32.MAX]


def ok(name, what):
    print(f"ok   {name}: {what}")


def ran(words, **how):
    """Status, standard output and standard error of a command, which is ended if it takes a minute."""
    done = subprocess.run(words, check=False, timeout=60, stderr=subprocess.PIPE, **({"stdout": subprocess.PIPE} | how))
    return done.returncode, done.stdout, done.stderr.decode()


def tool(*words, given=b""):
    return ran([TOOL, *words], input=given)


def in_file(folder, name, data):
    """The path of a new file with this text or these bytes."""
    path = os.path.join(folder, name.replace(" ", "_"))
    with open(path, "wb") as file:
        file.write(data.encode() if isinstance(data, str) else data)
    return path


def check_all(cases, run):
    """Runs each case, whose first field is its name, by run(*fields), which tells what was met and what had to be."""
    assert len({case[0] for case in cases}) == len(cases), "a name stands twice"
    with ThreadPoolExecutor(os.cpu_count()) as pool:
        for case, (met, expected) in zip(cases, pool.map(lambda case: run(*case), cases)):
            assert met == expected, f"{case[0]}: {met} is not {expected}"
