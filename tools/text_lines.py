"""The lines of a text, their words, and what is said of one that is wrong, for tools/sheet. Not proved."""
import io
import re

MOST_TEXT = 1 << 24
BYTE_ORDER_MARK = b"\xef\xbb\xbf"
CONTROL = re.compile(r"[\x00-\x08\x0a-\x1f\x7f-\x9f]")
WORD = re.compile("[^ \t]+")
SHOWN = 40


class BadText(Exception):
    """What is wrong with a text: the number of a line, which counts from 1, and a sentence."""

    def __init__(self, line, sentence):
        super().__init__(f"{line}: {sentence}")
        self.line, self.sentence = line, sentence


def quoted(word):
    """A word for a sentence; of a long one only the start."""
    return f"'{word}'" if len(word) <= SHOWN else f"'{word[:SHOWN]}...'"


def lines_of(data, all_end=False):
    """Yields number and text of each line of some bytes. The last one may lack its line feed, unless all_end."""
    for number, line in enumerate(io.BytesIO(data.removeprefix(BYTE_ORDER_MARK)), 1):
        try:
            text = line.decode()
        except UnicodeDecodeError as error:
            raise BadText(number, f"the byte {line[error.start]:02X} is not UTF-8") from None
        if all_end and not text.endswith("\n"):
            raise BadText(number, "the line does not end with a line feed")
        text = text.removesuffix("\r\n").removesuffix("\n")
        if control := CONTROL.search(text):
            raise BadText(number, f"the control character U+{ord(control[0]):04X} stands in the line")
        yield number, text


def words_of(text):
    """The words of a line, without its comment."""
    return WORD.findall(text.partition("#")[0])
