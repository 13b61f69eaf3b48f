"""The text form of a load of eight wear amounts, for tools/sheet. Not proved. `tools/sheet --help` describes it."""
import binary32
from amounts_bytes import AMOUNTS
from text_lines import BadText, lines_of, quoted, words_of
from text_numbers import parse_number


def check_order(line, word, exact, before):
    """An amount as it is written; before has word and value of the one before it, or is None for the first."""
    if before is None and exact != 0:
        raise BadText(line, f"the first amount {quoted(word)} is not zero")
    if before is not None and exact < before[1]:
        raise BadText(line, f"amount {quoted(word)} is below the one before it, {quoted(before[0])}")


def read_amounts(data):
    """The eight patterns that the bytes of a text describe, by class."""
    line, before, patterns = 1, None, []
    for line, text in lines_of(data):
        for word in words_of(text):
            if len(patterns) == AMOUNTS:
                raise BadText(line, f"more than {AMOUNTS} amounts")
            exact, pattern = parse_number(line, word, "amount", binary32.up)
            check_order(line, word, exact, before)
            before = word, exact
            patterns.append(pattern)
    if len(patterns) < AMOUNTS:
        raise BadText(line, f"{len(patterns)} amount{'' if len(patterns) == 1 else 's'} where a load has {AMOUNTS}")
    return patterns


def text_of_amounts(patterns):
    """A load as text: a line for each amount, as an exact decimal with class and pattern in a comment."""
    words = [f"{binary32.decimal(pattern)}" for pattern in patterns]
    width = max(map(len, words))
    return "".join(f"{word:{width}}  # class {wear}, {pattern:08X}\n" for wear, (word, pattern) in enumerate(zip(words, patterns)))
