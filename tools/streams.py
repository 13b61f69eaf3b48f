"""Files and the standard descriptors, for tools/sheet: what is read, what is written, and a line on what failed. Not proved.
Python's own standard streams are not used: there are none where a descriptor is closed, and a failed write shows only when the program ends."""
import os
import sys

STDIN, STDOUT, STDERR = 0, 1, 2
PART = 1 << 16


def write_all(descriptor, data):
    while data:
        data = data[os.write(descriptor, data):]


def stop(status, message):
    """Ends the program with a line on standard error. If that cannot be written, the status alone tells."""
    line = "".join(c if c.isprintable() else c.encode("unicode_escape").decode() for c in message)
    try:
        write_all(STDERR, line.encode() + b"\n")
    except OSError:
        pass
    sys.exit(status)


def write_output(data):
    try:
        write_all(STDOUT, data)
    except OSError as error:
        stop(1, f"standard output: {error.strerror}")


def read_all(descriptor, most):
    """All bytes if they are at most so many, else some more than so many."""
    data = bytearray()
    while len(data) <= most and (part := os.read(descriptor, PART)):
        data += part
    return bytes(data)


def read_file(path, most):
    try:
        with open(path, "rb", buffering=0) as file:
            return read_all(file.fileno(), most)
    except OSError as error:
        stop(2, f"{path or repr(path)}: {error.strerror}")


def read_input(most):
    try:
        return read_all(STDIN, most)
    except OSError as error:
        stop(2, f"standard input: {error.strerror}")
