"""Tests of what tools/sheet does with wrong arguments, files and descriptors, not proved: a line on standard error and a status, never a traceback."""
import os
import signal
import subprocess
import tempfile

from support import TOOL, check_all, in_file, ok, ran
from sheet_bytes import SENTENCES

USAGE = "usage: tools/sheet pack TEXT, or show SHEET, or show --hex SHEET, or convert SHEET [LOAD], or amounts TEXT, or show --amounts LOAD, or table, or --help"
BAD = "Bad file descriptor"
FULL = "standard output: No space left on device"
CLOSED = f"standard output: {BAD}"
LONG = "the text has more than 16777216 bytes"

# Name, command of the shell, status and line on standard error. 'text', 'packed', 'product', 'worn' and 'load' are right files; 'closed' is one
# without permissions.
CASES = [
    ("no arguments", "sheet", 2, USAGE),
    ("unknown command", "sheet pick text", 2, USAGE),
    ("pack without a file", "sheet pack", 2, USAGE),
    ("pack with two files", "sheet pack text text", 2, USAGE),
    ("show without a file", "sheet show", 2, USAGE),
    ("show with two files", "sheet show packed packed", 2, USAGE),
    ("show with three words", "sheet show --hex packed packed", 2, USAGE),
    ("convert without a file", "sheet convert", 2, USAGE),
    ("convert with three files", "sheet convert packed load load", 2, USAGE),
    ("amounts without a file", "sheet amounts", 2, USAGE),
    ("amounts with two files", "sheet amounts worn worn", 2, USAGE),
    ("show --amounts with two files", "sheet show --amounts load load", 2, USAGE),
    ("table with a file", "sheet table product", 2, USAGE),
    ("--help with a word", "sheet --help pack", 2, USAGE),
    ("pack, no such file", "sheet pack none", 2, "none: No such file or directory"),
    ("show, no such file", "sheet show none", 2, "none: No such file or directory"),
    ("convert, no such file", "sheet convert none load", 2, "none: No such file or directory"),
    ("convert, no such load", "sheet convert packed none", 2, "none: No such file or directory"),
    ("amounts, no such file", "sheet amounts none", 2, "none: No such file or directory"),
    ("show --amounts, no such file", "sheet show --amounts none", 2, "none: No such file or directory"),
    ("pack, directory", "sheet pack .", 2, ".: Is a directory"),
    ("show, directory", "sheet show .", 2, ".: Is a directory"),
    ("table, directory", "sheet table <.", 2, "standard input: Is a directory"),
    ("table, directory, standard error closed", "sheet table <. 2>&-", 2, None),
    ("pack, file in no directory", "sheet pack text/text", 2, "text/text: Not a directory"),
    ("pack, empty name", "sheet pack ''", 2, "'': No such file or directory"),
    ("pack, name not UTF-8", "sheet pack $'\\xff'", 2, "\\udcff: No such file or directory"),
    ("pack, name with a line feed", "sheet pack $'a\\nb'", 2, "a\\nb: No such file or directory"),
    ("pack, name too long", "sheet pack $(printf %0300d 0)", 2, "0" * 300 + ": File name too long"),
    ("pack, reading fails", "sheet pack /proc/self/mem", 2, "/proc/self/mem: Input/output error"),
    ("show, reading fails", "sheet show /proc/self/mem", 2, "/proc/self/mem: Input/output error"),
    ("pack, no permission", "sheet pack closed", 2, "closed: Permission denied"),
    ("show, no permission", "sheet show closed", 2, "closed: Permission denied"),
    ("pack, endless file", "sheet pack /dev/zero", 2, f"/dev/zero: {LONG}"),
    ("show, endless file", "sheet show /dev/zero", 1, f"/dev/zero: refusal 6: {SENTENCES[6]} (the length is above 16400 bytes)"),
    ("convert, a sheet as load", "sheet convert packed packed", 1, f"packed: refusal 13: {SENTENCES[13]} (class 0: 01010001)"),
    ("amounts, endless file", "sheet amounts /dev/zero", 2, f"/dev/zero: {LONG}"),
    ("show --amounts, endless file", "sheet show --amounts /dev/zero", 1, f"/dev/zero: refusal 6: {SENTENCES[6]} (the length is above 32 bytes)"),
    ("table, endless input", "sheet table </dev/zero", 2, f"standard input: {LONG}"),
    ("table, no input", "sheet table <&-", 2, f"standard input: {BAD}"),
    ("table, input for writing alone", "sheet table 0>>text", 2, f"standard input: {BAD}"),
    ("pack, output closed", "sheet pack text >&-", 1, CLOSED),
    ("show, output closed", "sheet show packed >&-", 1, CLOSED),
    ("table, output closed", "sheet table <product >&-", 1, CLOSED),
    ("--help, output closed", "sheet --help >&-", 1, CLOSED),
    ("pack, disk full", "sheet pack text >/dev/full", 1, FULL),
    ("show, disk full", "sheet show packed >/dev/full", 1, FULL),
    ("convert, disk full", "sheet convert packed load >/dev/full", 1, FULL),
    ("amounts, disk full", "sheet amounts worn >/dev/full", 1, FULL),
    ("show --amounts, disk full", "sheet show --amounts load >/dev/full", 1, FULL),
    ("table, disk full", "sheet table <product >/dev/full", 1, FULL),
    ("--help, disk full", "sheet --help >/dev/full", 1, FULL),
    ("show, output for reading alone", "sheet show packed 1<text", 1, CLOSED),
    ("show, file size limit", "ulimit -f 0; sheet show packed >limited", 1, "standard output: File too large"),
    ("wrong text, standard error closed", "sheet pack packed 2>&-", 2, None),
    ("wrong text, standard error full", "sheet pack packed 2>/dev/full", 2, None),
    ("wrong text, all closed", "sheet pack packed <&- >&- 2>&-", 2, None),
    ("no arguments, all closed", "sheet <&- >&- 2>&-", 2, None),
    ("show, all closed", "sheet show packed <&- >&- 2>&-", 1, None),
    ("table, all closed", "sheet table <&- >&- 2>&-", 2, None),
    ("pack, no input needed", "sheet pack text <&- | cmp - packed", 0, None),
    ("pack, standard error not needed", "sheet pack text <&- 2>&- | cmp - packed", 0, None),
    ("by a link", "ln -s \"$(command -v sheet)\" link; ./link pack text | cmp - packed", 0, None),
]

# Name and words of the tool; its standard input is 'product', its standard output a pipe that nobody reads.
UNREAD = [("pack", "pack", "text"), ("show", "show", "packed"), ("show --hex", "show", "--hex", "packed"), ("convert", "convert", "packed", "load"), ("amounts", "amounts", "worn"),
          ("show --amounts", "show", "--amounts", "load"), ("table", "table"), ("--help", "--help")]


def make_files():
    in_file("", "text", "sheet 1 1\n0 0 1 2 0\n")
    in_file("", "product", "product 1 1 1\n0 0 3F800000 40000000\n")
    in_file("", "worn", "0 1 2 3 4 5 6 7\n")
    in_file("", "packed", ran([TOOL, "pack", "text"])[1])
    in_file("", "load", ran([TOOL, "amounts", "worn"])[1])
    os.close(os.open("closed", os.O_CREAT, 0))


def test_commands():
    """A superuser may read a file without permissions, so these cases are left out then."""
    path = os.path.dirname(TOOL) + os.pathsep + os.environ["PATH"]
    cases = [case for case in CASES if os.geteuid() != 0 or "no permission" not in case[0]]

    def run(_, command, status, line):
        return ran(["bash", "-c", command], env=os.environ | {"PATH": path}), (status, b"", line + "\n" if line else "")

    check_all(cases, run)
    ok("tools/sheet, arguments, files and descriptors", f"{len(cases)} commands of the shell, each with status and line")


def unread(_, *words):
    reader, writer = os.pipe()
    os.close(reader)
    with open("product", "rb") as product:
        met = ran([TOOL, *words], stdin=product, stdout=writer)
    os.close(writer)
    return met, (1, None, "standard output: Broken pipe\n")


def test_pipes():
    for case in UNREAD:
        check_all([case], unread)
    reader, writer = os.pipe()
    os.set_blocking(reader, False)
    assert ran([TOOL, "table"], stdin=reader) == (2, b"", "standard input: Resource temporarily unavailable\n")
    os.close(reader)
    os.close(writer)
    ok("tools/sheet, pipes", f"{len(UNREAD)} that nobody reads, 1 that has nothing yet")


def test_interrupt():
    """The tool has opened the pipe as soon as it opens here, so the interrupt meets it while it reads. Where the tests run in the
    background of a shell interrupts are ignored, and the tool would ignore them too, unless they are handled here."""
    signal.signal(signal.SIGINT, signal.default_int_handler)
    os.mkfifo("fifo")
    for words in (["pack", "fifo"], ["show", "fifo"]):
        with subprocess.Popen([TOOL, *words], stdout=subprocess.PIPE, stderr=subprocess.PIPE) as child:
            with open("fifo", "wb"):
                child.send_signal(signal.SIGINT)
                met = child.communicate(timeout=60)
            assert (child.returncode, *met) == (130, b"", b""), (child.returncode, met)
    ok("tools/sheet, interrupted", "2 commands, status 130 and no line")


with tempfile.TemporaryDirectory() as scratch:
    os.chdir(scratch)
    make_files()
    test_commands()
    test_pipes()
    test_interrupt()
    os.chdir("/")
