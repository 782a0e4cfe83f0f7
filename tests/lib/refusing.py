"""Programs that are refused memory: started with refuse.c before the C library. A page that both share says which of
their requests are refused."""

import ctypes
import mmap

from libraries import REFUSE, made_library

MADE, REFUSED, FIRST, LAST = range(4)


def refusing(program):
    """The library, once for a script."""
    return made_library(program, "refuse", REFUSE)


class Page:
    """The numbers that the library counts, and those that it is given."""

    def __init__(self, program, library):
        self.path, self.library = program.new_path(), library
        self.path.write_bytes(bytes(4 * ctypes.sizeof(ctypes.c_long)))
        with open(self.path, "r+b") as file:
            self.numbers = (ctypes.c_long * 4).from_buffer(mmap.mmap(file.fileno(), 0))

    def variables(self, *libraries):
        """The variables that a program's environment needs; it may be started with other libraries too."""
        return {"LD_PRELOAD": ":".join(map(str, (self.library, *libraries))), "REFUSE": str(self.path)}

    def refuse(self, number, count=1):
        """Of the requests from now on the one of this number is refused, counted from 1, or so many from it on."""
        self.numbers[LAST] = 0
        self.numbers[REFUSED] = 0
        self.numbers[FIRST] = self.numbers[MADE] + number
        self.numbers[LAST] = self.numbers[FIRST] + count - 1

    def refuse_none(self):
        self.numbers[LAST] = 0

    def refused(self):
        """How many requests were refused since the last `refuse`."""
        return self.numbers[REFUSED]

    def made(self):
        return self.numbers[MADE]
