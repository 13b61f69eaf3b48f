"""Tests of tools/sheet's outward rounding against exact fractions, not proved: rounding.py SEED. Short decimals, long ones, and some of a million digits."""
import random
import resource
import sys
import tempfile
from decimal import Decimal
from fractions import Fraction

from support import EDGES, check_all, ok, tool
from draws import random_decimal, random_neighbour
import binary32

MILLION = 10**6
ZEROS, NINES, THREES = "0" * MILLION, "9" * MILLION, "3" * MILLION
LARGEST = str(binary32.LARGEST)
MOST_SECONDS = 1

# Name, bounds as written, and their patterns, or the sentence of the refusal.
LONG_CELLS = [
    ("1e-1000000", "1e-1000000", "1e-1000000", "00000000 00000001"),
    ("-1e-1000000", "-1e-1000000", "-1e-1000000", "80000001 00000000"),
    ("1e-99999999", "1e-99999999", "1e-99999999", "00000000 00000001"),
    ("a million zeros and a one", f"0.{ZEROS}1", f"0.{ZEROS}1", "00000000 00000001"),
    ("a million zeros", f"0.{ZEROS}", f"-0.{ZEROS}", "00000000 80000000"),
    ("one and a bit", f"1.{ZEROS}1", f"1.{ZEROS}1", "3F800000 3F800001"),
    ("minus one less a bit", f"-1.{ZEROS}1", f"-1.{ZEROS}1", "BF800001 BF800000"),
    ("below one", f"0.{NINES}", f"0.{NINES}", "3F7FFFFF 3F800000"),
    ("a third", f"0.{THREES}", f"0.{THREES}", "3EAAAAAA 3EAAAAAB"),
    ("one with zeros before it", f"{ZEROS}1", f"{ZEROS}1.{ZEROS}", "3F800000 3F800000"),
    ("one by its exponent", f"1{ZEROS}e-1000000", f"0.{ZEROS}1e1000001", "3F800000 3F800000"),
    ("the largest number", f"-{LARGEST}.{ZEROS}", f"{LARGEST}.{ZEROS}", "FF7FFFFF 7F7FFFFF"),
    ("above the largest", "0", f"{LARGEST}.{ZEROS}1", f"upper bound '{LARGEST}....' is beyond the largest finite number"),
    ("a million nines", NINES, "0", f"lower bound '{'9' * 40}...' is beyond the largest finite number"),
    ("1e1000000", "0", "1e1000000", "upper bound '1e1000000' is beyond the largest finite number"),
    ("-1e99999999", "-1e99999999", "0", "lower bound '-1e99999999' is beyond the largest finite number"),
    ("crossed in the last place", f"0.{ZEROS}2", f"0.{ZEROS}1", f"lower bound '0.{'0' * 38}...' is above upper bound '0.{'0' * 38}...'"),
    ("crossed by the exponent", "1e-1000000", "1e-1000001", "lower bound '1e-1000000' is above upper bound '1e-1000001'"),
    ("exponent of a million digits", f"1e{NINES}", "0", f"lower bound '1e{'9' * 38}...' has more than 8 digits in its exponent"),
    ("no decimal", f"{NINES}x", "0", f"lower bound '{'9' * 40}...' is neither a decimal nor 0x with eight hexadecimal digits"),
]


def next_up(pattern):
    """The pattern of the number that follows; minus zero is not given."""
    return 1 if pattern == 0 else 0 if pattern == binary32.MINUS_ZERO + 1 else pattern - 1 if pattern & binary32.MINUS_ZERO else pattern + 1


def check(exact, low, high):
    """Both patterns are as close to a number as can be on their side of it."""
    assert binary32.MINUS_ZERO not in (low, high), exact
    assert binary32.value(low) <= exact <= binary32.value(high), exact
    assert (low if binary32.value(low) == exact else next_up(low)) == high, exact


def test_decimals(draw, count):
    for number in range(2 * count):
        word = random_decimal(draw) if number < count else random_neighbour(draw)
        exact = Fraction(Decimal(word))
        if abs(exact) <= binary32.LARGEST:
            short = binary32.shortened(Decimal(word))
            check(exact, binary32.down(short), binary32.up(short))
    for pattern in EDGES:
        for near in (binary32.value(pattern) + Fraction(d, 2**160) for d in (-1, 0, 1)):
            if abs(near) <= binary32.LARGEST:
                check(near, binary32.down(near), binary32.up(near))
                check(-near, binary32.down(-near), binary32.up(-near))
    ok("tools/sheet, outward rounding", f"{count} decimals and {count} long ones close to a number, beside exact fractions")


def children_seconds():
    used = resource.getrusage(resource.RUSAGE_CHILDREN)
    return used.ru_utime + used.ru_stime


def test_long_cells():
    """Through the command, each within a second of processor time."""
    slowest = 0

    def run(_, lower, upper, answer):
        with tempfile.NamedTemporaryFile("w", encoding="utf-8") as file:
            file.write(f"sheet 1 1\n0 0 {lower} {upper} 0\n")
            file.flush()
            status, data, message = tool("pack", file.name)
            if status == 0:
                return "{:08X} {:08X}".format(*(int.from_bytes(data[i:i + 4], "little") for i in (20, 24))), answer
            return (status, data, message), (2, b"", f"{file.name}:2: {answer}\n")

    for case in LONG_CELLS:
        before = children_seconds()
        check_all([case], run)
        slowest = max(slowest, children_seconds() - before)
    assert slowest < MOST_SECONDS, slowest
    ok("tools/sheet, decimals of a million digits", f"{len(LONG_CELLS)} cells, each within {MOST_SECONDS} s")


test_decimals(random.Random(int(sys.argv[1])), 20000)
test_long_cells()
