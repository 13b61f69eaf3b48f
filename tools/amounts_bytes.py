"""The bytes of a load of eight wear amounts, for tools/sheet: writing them, and reading them with the library's checks. Not proved."""
import struct

import binary32
from sheet_bytes import MOST_CLASS, Refused

AMOUNTS = MOST_CLASS + 1
FORM = struct.Struct(f"<{AMOUNTS}I")
LOAD_BYTES = FORM.size


def encode_amounts(patterns):
    return FORM.pack(*patterns)


def decode_amounts(data):
    """The patterns that a load holds; raises Refused by the first check that it does not pass: 6, 3, 13."""
    if len(data) > LOAD_BYTES:
        raise Refused(6, f"the length is above {LOAD_BYTES} bytes")
    if len(data) < LOAD_BYTES:
        raise Refused(6, f"the length is {len(data)} bytes")
    patterns = FORM.unpack(data)
    for wear, pattern in enumerate(patterns):
        if not binary32.is_finite(pattern):
            raise Refused(3, f"class {wear}: {pattern:08X}")
    if binary32.value(patterns[0]) != 0:
        raise Refused(13, f"class 0: {patterns[0]:08X}")
    for wear in range(1, AMOUNTS):
        if binary32.value(patterns[wear]) < binary32.value(patterns[wear - 1]):
            raise Refused(13, f"class {wear}: {patterns[wear]:08X} after {patterns[wear - 1]:08X}")
    return patterns
