"""Faults of the C library's calls, made by a library in front of it (faults.c): what is compiled, and
what rows set of a program while it runs: a clock that stands, calls of its buffers that wait or fail,
and peers that take little. That stands in a file that the program and the rows share."""

import mmap
import shutil
import struct
import subprocess
from pathlib import Path

from lib.trying import Wrong


def built(folder):
    """The library, compiled in this folder by cc or else by the toolchain's clang."""
    library, source = Path(folder) / "faults.so", Path(__file__).with_suffix(".c")
    rt = shutil.which("rt")
    clang = rt and Path(rt).resolve().parent.parent / "toolchain/bin/clang"
    for compiler in filter(None, (shutil.which("cc"), clang)):
        words = [compiler, "-shared", "-fPIC", "-O1", "-o", library, source]
        if subprocess.run(words, check=False).returncode == 0:
            return library
    raise Wrong("no C compiler made the library that makes the faults")


def meeting(library, **how):
    """The variables by which a program meets these faults."""
    return {"LD_PRELOAD": str(library), **{name: str(it) for name, it in how.items()}}


# The numbers that are shared, each of 64 bits, in the order in which faults.c has them.
NUMBERS = ("clock", "writes", "reads", "stalled", "fails", "takes", "breaks", "octets", "later",
           "yields", "pause", "whose", "pauses", "crowded", "hangs", "flushes", "refuses",
           "flushed", "passes", "unlogged")
# Whose pauses those are that a row asks for.
WHOSE = {"others": 0, "writers": 1, "sessions": 2}
# The octets of a number, of the end of a path behind them, and of the fronts of the names of the
# files that were flushed behind that.
SIZE, END, FLUSHED = 8, 64, 2048


class Shared:
    """What is set of the programs that begin with this file in ROWS_SHARED; at first nothing is."""

    def __init__(self, path):
        with open(path, "w+b") as file:
            file.truncate(mmap.PAGESIZE)
            self.room = mmap.mmap(file.fileno(), mmap.PAGESIZE)
        self.path = path

    def set(self, **numbers):
        for name, number in numbers.items():
            struct.pack_into("<Q", self.room, SIZE * NUMBERS.index(name), number)

    def get(self, name):
        return struct.unpack_from("<Q", self.room, SIZE * NUMBERS.index(name))[0]

    def stall(self, word, file, passes="0"):
        """Each write, read or flush of this file waits from here on, but for the first so many."""
        place = SIZE * len(NUMBERS)
        self.room[place : place + END] = f"/{file}".encode().ljust(END, b"\0")
        self.set(**{"passes": int(passes), word: 1, "stalled": 0})

    def pause(self, whose, times, milliseconds):
        """Each thread of these pauses when it gives way so many times in a row, from here on."""
        self.set(yields=0, pauses=0)
        self.set(whose=WHOSE[whose], pause=int(milliseconds))
        self.set(yields=int(times))

    def release(self):
        self.set(writes=0, reads=0, flushes=0)

    def flushed(self, since):
        """The fronts of the names of the files that were flushed, behind so many others."""
        front = SIZE * len(NUMBERS) + END
        return "".join(chr(self.room[front + it % FLUSHED]) for it in range(since, self.get("flushed")))
