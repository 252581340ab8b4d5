"""Plays rows of the program, but for those of serving, and compares what it prints.

    tools/check program-rows [--lanes N] [NAME ..]

The rows stand in tools/rows/drills.rows (docs/TESTING.md, Rows of the program), and what they have to
print in drills.printed beside: what is written to standard output, then what is to standard error,
and the status where it isn't 0. With NAMEs those alone are played whose names begin so. Streams that
give little, break off or take no more, and a system without random numbers, are made by a small
library in front of the C library's calls. Prints each row that goes wrong, and at the end
`N rows went right, M wrong`; ends with status 1 if any went wrong.
"""

import difflib
import errno
import os
import pty
import subprocess
import sys
import tempfile
import tty
from concurrent.futures import ThreadPoolExecutor

from lib import faults
from lib.program import PROGRAM
from rows import drills

# Seconds that a run of the program may take.
PATIENCE = 60

# How many octets of standard output are taken.
TAKEN = {"closed": 0, "full": 40, "large": 65_600}


def at_pipe(words, **given):
    """The end of a run whose standard error is a pipe."""
    return subprocess.run(words, stderr=subprocess.PIPE, **given)


def at_terminal(words, **given):
    """The end of a run whose standard error is a terminal, which has room for some lines."""
    mine, its = pty.openpty()
    with os.fdopen(mine, "rb", buffering=0) as heard:
        try:
            tty.setraw(its)
            done = subprocess.run(words, stderr=its, **given)
        finally:
            os.close(its)
        done.stderr = b"".join(iter(lambda: piece(heard), b""))
        return done


def piece(heard):
    """What a terminal has next; nothing once nobody has its other end and all was heard."""
    try:
        return heard.read(4_096)
    except OSError as error:
        if error.errno != errno.EIO:
            raise
        return b""


class Playing:
    """What rows are played with: the library that makes faults."""

    def __init__(self, library):
        self.library = library

    def given(self, row):
        """The environment of a row's program."""
        how = {}
        if row.said("<"):
            how["ROWS_INPUT"] = row.said("<")
        if row.said(">"):
            how["ROWS_TAKES"] = TAKEN[row.said(">")]
        if row.said("!") == "unseeded":
            how["REFUSE_RANDOM"] = 1
        return {**os.environ, **(faults.meeting(self.library, **how) if how else {})}

    def run(self, row, text):
        """What the program prints of a row with this standard input."""
        with tempfile.TemporaryFile() as came, tempfile.TemporaryFile() as out:
            came.write(text.encode("latin-1"))
            came.seek(0)
            words = [PROGRAM, *(it.encode("latin-1") for it in row.words())]
            done = (at_terminal if row.said("!") == "terminal" else at_pipe)(
                words, stdin=came, stdout=out, cwd=drills.DATA, env=self.given(row),
                timeout=PATIENCE, check=False,
            )  # fmt: skip
            out.seek(0)
            printed = (out.read() + done.stderr).decode("latin-1")
        # What fails is told on standard error, and nothing else is, but at a terminal.
        if bool(done.stderr) != bool(done.returncode) and row.said("!") != "terminal":
            printed += f"-- {len(done.stderr)} octets on standard error\n"
        return printed + (f"status {done.returncode}\n" if done.returncode else "")

    def printed(self, row):
        """What has to be printed of a row, by the way in which it is played."""
        if row.mark == "==":
            whole, pieces = self.run(row, row.text), self.run(row, "split 1\n" + row.text)
            return whole if whole == pieces else f"{whole}-- in pieces of one octet\n{pieces}"
        if row.mark == "=^":
            return self.cuts(row)
        printed = self.run(row, row.text)
        if row.mark == "=#":
            lines = [it for it in printed.split("\n") if it]
            return f"{len(lines)} lines, {len(printed)} octets, at last:\n{lines[-1] if lines else ''}\n"
        return printed

    def cuts(self, row):
        """What is printed where of the octets between the two `^` only the first come."""
        front, digits, behind = row.text.split("^", 2)
        told, last = "", ""
        for octets in range(1, len(digits) // 2 + 1):
            printed = self.run(row, front + digits[: 2 * octets] + behind)
            if printed != last:
                told += f"-- cut behind octet {octets}\n{printed}"
            last = printed
        return told


def options(about):
    about.add_argument("--lanes", type=int, default=4, metavar="N", help="so many side by side")
    about.add_argument("names", nargs="*", metavar="NAME", help="rows whose names begin so")


def main(given):
    rows, wanted = list(drills.rows()), drills.answers()
    if {f"{it.mark} {it.name}" for it in rows} != set(wanted) or len(rows) != len(wanted):
        sys.exit("program-rows: drills.rows and drills.printed have not the same rows")
    for front in given.names:
        if not any(it.name.startswith(front) for it in rows):
            sys.exit(f"program-rows: there is no row whose name begins with {front}")
    rows = [it for it in rows if it.name.startswith(tuple(given.names) or "")]
    with tempfile.TemporaryDirectory() as folder:
        playing = Playing(faults.built(folder))

        def is_right(row):
            head = f"{row.mark} {row.name}"
            printed = playing.printed(row)
            if printed == wanted[head]:
                return True
            lines = difflib.unified_diff(wanted[head].split("\n"), printed.split("\n"), "wanted", "printed", lineterm="")
            print(f"WRONG {head}\n" + "\n".join(f"    {it}" for it in lines), flush=True)
            return False

        with ThreadPoolExecutor(given.lanes) as pool:
            right = list(pool.map(is_right, rows)).count(True)
    print(f"{right} rows went right, {len(rows) - right} wrong")
    return 0 if rows and right == len(rows) else 1
