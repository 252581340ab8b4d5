"""Times texts and settings at the program, and prints a table of RESULTS.md.

    tools/check bench texts [WORD ..]

WORDs are cutting, articles, paths, patterns and settings, all without one. A text has so many parts,
and then twice as many, in turn; the least processor's time of RUNS runs counts. An article is sent in a drill, and what reading
its script takes is left out: it is had by the same script with a bad last line. The files of a configuration are checked, and
patterns judge a newsgroup that `explain` is asked about; what the program takes with next to no text is left out there.
"""
import os
import subprocess
import sys
import tempfile
from pathlib import Path

from lib.program import PROGRAM

RUNS = 9
MILLION = 1_000_000
MOMENT = 1609459200
LINE = b"x" * 58 + b"\r\n"
HEADER = b"From: a\r\nSubject: t\r\nDate: Fri, 01 Jan 2021 00:00:00 +0000\r\nMessage-ID: <a@x>\r\n"
PATH = b"Path: one.example!x\r\n"
GROUP = b"Newsgroups: a\r\n"
# The largest article that may be configured, and room for it.
CYCBUFF = b"cycbuff:A:a:65536\nmetacycbuff:G:A\n"
STORAGE = b"method cnfs {\nclass: 1\nnewsgroups: *\noptions: G\n}\n"
RELAY = b"own relay.example\nmaxart 16777216\npeer p1 one.example 0\n"


def parts(front, part, back=b""):
    """The texts of a front, a part so many times, and a back."""
    return lambda count: front + part * count + back


def feeds(count):
    """relay.conf with feeds of different peers, each of which is there."""
    lines = b"".join(b"peer q%d b 0\nfeed q%d 1 *\n" % (it, it) for it in range(count))
    return b"own a\n" + lines


# Of each word the rows: what is done, how, the text, and how many parts that has.
TABLES = {
    "cutting": [
        ("unknown commands of 60 octets, in pieces of 1", "lines 1", parts(b"", LINE), 10_000),
        ("the same in pieces of 4,096", "lines 4096", parts(b"", LINE), 50_000),
        ("a block past the limit, in pieces of 1", "block 1", parts(b"", LINE), 20_000),
        ("the same in pieces of 64", "block 64", parts(b"", LINE), 300_000),
    ],
    "articles": [
        ("a header of 500,000 fields", "article", parts(PATH + GROUP + HEADER, b"X: y\r\n", b"\r\n"), MILLION // 2),
        ("a field of a million lines", "article", parts(PATH + GROUP + HEADER + b"Keywords:\r\n", b" k\r\n", b"\r\n"), MILLION),
        ("a million newsgroups", "article", parts(PATH + HEADER + b"Newsgroups: a", b",a", b"\r\n\r\n"), MILLION),
        ("a body of 8 MB", "article", parts(PATH + GROUP + HEADER + b"\r\n", LINE), (8 << 20) // len(LINE)),
    ],
    "paths": [
        ("a Path of 500,000 identities", "article", parts(b"Path: ", b"a.example!", b"x\r\n" + GROUP + HEADER + b"\r\n"), MILLION // 2),
        ("the same, each folded", "article", parts(b"Path: ", b"a.\r\n example!", b"x\r\n" + GROUP + HEADER + b"\r\n"), MILLION // 2),
    ],
    "patterns": [
        ("100,000 octets by 1,000,000 `*`", "judge 100000", parts(b"", b"*"), MILLION),
        ("100,000 octets by `*` and 1,000 `a`", "judge 100000", parts(b"*", b"a"), 1_000),
    ],
    "settings": [
        ("cycbuff.conf of 100,000 comments", "cycbuff.conf", parts(CYCBUFF, b"# comment\n"), MILLION // 10),
        ("cycbuff.conf with a list of 500,000 names", "cycbuff.conf", parts(b"cycbuff:A:a:1\nmetacycbuff:G:A", b",A"), MILLION // 2),
        ("storage.conf of 20,000 entries", "storage.conf", parts(b"", STORAGE), MILLION // 50),
        ("relay.conf of 400 peers with feeds", "relay.conf", feeds, 400),
        ("relay.conf with an expression of 500,000 patterns", "relay.conf", parts(b"own a\npeer p b 0\nfeed p 1 *", b",*"), MILLION // 2),
    ],
}


# The statuses that runs may end with: a file that is checked may have a fault, and a bad line is told.
STATUSES = {"check": (0, 2), "whole": (0,), "read": (3,)}


def seconds(words, folder):
    """The processor's seconds that the program takes."""
    run = subprocess.Popen([PROGRAM, *words], cwd=folder, stdout=subprocess.DEVNULL, stderr=subprocess.DEVNULL)
    _, status, usage = os.wait4(run.pid, 0)
    status = os.waitstatus_to_exitcode(status)
    if status not in STATUSES.get(words[0], STATUSES.get(words[-1], (0,))):
        sys.exit(f"texts: {words[0]} {words[-1][:20]} ended with {status}")
    return usage.ru_utime + usage.ru_stime


def script_of(how, text):
    """The script in which a text is sent."""
    word, _, size = how.partition(" ")
    sent = text if word == "lines" else b"TAKETHIS <a@x>\r\n" + text + (b".\r\n" if word == "article" else b"")
    lines = ["open 1 p1", f"split {size or 4096}", f"raw 1 {sent.hex()}", f"rounds 4 {MOMENT}"]
    return "".join(f"{it}\n" for it in lines).encode()


class Timed:
    """A text in a folder of its own, and what is run for it and for as little as may be."""

    def __init__(self, folder, how, text):
        self.folder = folder
        files = {"cycbuff.conf": CYCBUFF, "storage.conf": STORAGE, "relay.conf": RELAY}
        if how.startswith("judge"):
            files["storage.conf"] = STORAGE.replace(b"newsgroups: *", b"newsgroups: " + text)
            self.runs = ["explain", "here", "a" * int(how.split(" ")[1])], ["explain", "here", "a"]
        elif how.endswith(".conf"):
            files[how] = text
            self.runs = ["check", "here"], ["check", "K1"]
        else:
            script = script_of(how, text)
            (folder / "whole").write_bytes(script)
            (folder / "read").write_bytes(script + b"bad\n")
            self.runs = ["drill", "here", "whole"], ["drill", "here", "read"]
        (folder / "here").mkdir()
        for name, octets in files.items():
            (folder / "here" / name).write_bytes(octets)

    def once(self):
        """The seconds of a run for the text, and of one for as little as may be."""
        return [seconds(words, self.folder) for words in self.runs]


def print_table(rows):
    print("| Done | Octets | Seconds | MB a second | Twice the octets |\n|---|---:|---:|---:|---:|")
    for done, how, text, count in rows:
        with tempfile.TemporaryDirectory(prefix="cnrelay-texts-") as name:
            folders = [Path(name) / it for it in ("once", "twice")]
            for it in folders:
                it.mkdir()
            timed = [Timed(it, how, text(times * count)) for it, times in zip(folders, (1, 2))]
            seen = [[it.once() for it in timed] for _ in range(RUNS)]
            once, twice = (min(it[at][0] for it in seen) - min(it[at][1] for it in seen) for at in (0, 1))
        octets = len(text(count))
        print(f"| {done} | {octets:,} | {once:.4f} | {octets / once / 1e6:.1f} | {twice / once:.2f} |", flush=True)


def options(about):
    about.add_argument("words", nargs="*", choices=[[], *TABLES], metavar="WORD", help="all without one")


def main(given):
    for word in given.words or TABLES:
        print_table(TABLES[word])
