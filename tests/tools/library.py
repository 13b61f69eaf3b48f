"""For the tests of tools/sheet, not proved: the sheet job, the train, a read with loaded amounts and the running entry as a shared library. Imported
after support, which has the tool's modules found."""
import ctypes
import os

from support import KINDS
from sheet_bytes import MOST_BYTES, MOST_CELLS, Sheet, encode


RUNNING_WORDS = 11


def code_of(refused):
    """What the library returns for a refusal that the tool raised; a sheet or a load that is read alone has matrix 0."""
    return 1000000 * refused.number + 100 * refused.row + refused.column


class Library:
    def __init__(self, path):
        library = ctypes.CDLL(os.path.abspath(path))
        self.multiply, self.multiply_train = library.coupling_multiply, library.coupling_train
        self.read_loaded = library.coupling_read_with
        self.multiply.restype = self.multiply_train.restype = self.read_loaded.restype = ctypes.c_uint32
        self.start, self.take, self.exchange = library.coupling_running_start, library.coupling_running_take, library.coupling_running_amounts
        self.start.restype = self.take.restype = self.exchange.restype = ctypes.c_uint32

    def job(self, method, a, b):
        """What the job returns, and the product's sheet."""
        return self.written(self.multiply, method, a, ctypes.c_size_t(len(a)), b, ctypes.c_size_t(len(b)))

    def train(self, method, sheets):
        """What a train of these sheets returns, and the product's sheet."""
        data = b"".join(sheets)
        return self.written(self.multiply_train, method, len(sheets), data, ctypes.c_size_t(len(data)))

    @staticmethod
    def written(function, *given):
        """What a function returns, and the sheet that it wrote."""
        out = ctypes.create_string_buffer(MOST_BYTES)
        returned = function(*given, out, ctypes.c_size_t(MOST_BYTES))
        return returned, out.raw[:returned] if returned <= MOST_BYTES else b""

    def read_code(self, data):
        """1,000,000 number + 100 row + column if the library refuses to read a sheet, else 0. The other sheet is empty, which is refused next."""
        returned, _ = self.job(1, data, b"")
        return 0 if returned == 6020000 else returned - 10000

    def read_with(self, load, sheet):
        """What a read of a sheet with a load returns, and if it is not refused lower and upper bound of each cell, by rows."""
        lowers, uppers = (ctypes.c_uint32 * MOST_CELLS)(), (ctypes.c_uint32 * MOST_CELLS)()
        most = ctypes.c_size_t(MOST_CELLS)
        returned = self.read_loaded(load, ctypes.c_size_t(len(load)), sheet, ctypes.c_size_t(len(sheet)), lowers, most, uppers, most)
        cells = 0 if returned >= 1000000 else returned // 100 * (returned % 100)
        return returned, list(zip(lowers[:cells], uppers[:cells]))

    def load_number(self, load):
        """The number of the refusal of a load, or 0. The sheet, of either kind, has one cell, [0, 0], so nothing else is refused."""
        returned, other = (self.read_with(load, encode(Sheet(1, 1, kind, [])))[0] for kind in KINDS)
        assert returned == other and (returned == 101 or returned % 1000000 == 0), (returned, other)
        return returned // 1000000


class Running:
    """A running entry."""

    def __init__(self, library):
        self.library, self.words, self.length = library, (ctypes.c_uint32 * RUNNING_WORDS)(), ctypes.c_size_t(RUNNING_WORDS)
        assert library.start(self.words, self.length) == 0

    def take(self, *cells):
        """What is returned for two cells, lower and upper bound and class of each."""
        return self.library.take(self.words, self.length, *map(ctypes.c_uint32, cells))

    def exchange(self, load):
        """What is returned for a load of amounts."""
        return self.library.exchange(self.words, self.length, load, ctypes.c_size_t(len(load)))
