"""Numbers as they are written in a text, for tools/sheet: whole ones, decimals and patterns. Not proved."""
import re
from decimal import Decimal

import binary32
from text_lines import BadText, quoted

# The one group is the exponent's digits.
DECIMAL = re.compile(r"[+-]?(?:[0-9]+(?:\.[0-9]*)?|\.[0-9]+)(?:[eE][+-]?([0-9]+))?")
PATTERN = re.compile("0x[0-9A-Fa-f]{8}")
MOST_EXPONENT_DIGITS = 8


def whole(line, word, what, least, most, hint=""):
    """A whole number in these limits. The hint ends the sentence on one that is not."""
    if not re.fullmatch("[0-9]{1,4}", word) or not least <= int(word) <= most:
        raise BadText(line, f"{what} {quoted(word)} is not a whole number from {least} to {most}{hint}")
    return int(word)


def parse_decimal(line, word, what):
    """The exact value of a decimal, which may have a million digits and more."""
    found = DECIMAL.fullmatch(word)
    if not found:
        raise BadText(line, f"{what} {quoted(word)} is neither a decimal nor 0x with eight hexadecimal digits")
    if len(found[1] or "") > MOST_EXPONENT_DIGITS:
        raise BadText(line, f"{what} {quoted(word)} has more than {MOST_EXPONENT_DIGITS} digits in its exponent")
    exact = Decimal(word)
    if exact.copy_abs() > binary32.decimal(binary32.MAX):
        raise BadText(line, f"{what} {quoted(word)} is beyond the largest finite number")
    return exact


def parse_number(line, word, what, rounded, sign=""):
    """The exact value written, and the pattern that it is rounded to. A pattern is written behind this sign."""
    if not PATTERN.fullmatch(word.removeprefix(sign)):
        exact = parse_decimal(line, word, what)
        return exact, binary32.MINUS_ZERO if exact == 0 and word.startswith("-") else rounded(binary32.shortened(exact))
    pattern = int(word, 16)
    if not binary32.is_finite(pattern):
        raise BadText(line, f"{what} '{word}' is not a finite number")
    return binary32.decimal(pattern), pattern
