"""Times the whole relay over memory, and prints the tables of RESULTS.md, The relay.

    tools/check bench relay [count]

The program's drills do the same over and over. What a drill takes is the processor's
time that its script takes, less that of the same script with a bad last line, of which all is read and nothing runs. What one
more takes is the difference between so many and twice as many, so that no start counts, and what stands before the load
doesn't; past twice as many, the difference to four times as many. Both are medians of ROUNDS. bench/copies.rs copies as many
octets. With `count` valgrind's callgrind counts instructions instead, which other work beside doesn't change, for fewer of
each, and also what an id costs while the relay remembers more and more.
"""
import collections
import os
import re
import statistics
import subprocess
import sys
import tempfile
from pathlib import Path

from lib.program import PROGRAM

ROUNDS = 15
# The moment of each event: the first of 2021.
MOMENT = 1609459200
BAD_LINE = b"bad\n"
# One group of four buffers of 8 MB, 16,384 blocks each; all else is as in K1 (docs/FORMATS.md).
CONFIGURATION = {
    "cycbuff.conf": "cycbuff:A:a:8192\ncycbuff:B:b:8192\ncycbuff:C:c:8192\ncycbuff:D:d:8192\nmetacycbuff:G:A,B,C,D\n",
    "storage.conf": "method cnfs {\nclass: 1\nnewsgroups: *\noptions: G\n}\n",
    "relay.conf": "own relay.example\npeer p1 one.example 0\npeer p2 two.example 0\nfeed p2 2 *\n",
}
BODY_LINE = "x" * 58 + "\r\n"

# A load: what is sent in front of an id and behind its line, which ids, the most that one session names, how many Turns come
# first, how many Writes follow and how many Turns then, and the code of the one reply. Ids are asked for and stay unknown, are
# made, or are known, from all over those that were made. A session has at most 256 open offers (docs/PROTOCOL.md, Limits).
Load = collections.namedtuple("Load", "front block ids share steps code")
ALL = 1 << 62


def article(lines):
    """Where an article is sent, with so many lines of 60 octets: what stands behind its first line."""
    return (
        "Path: one.example!not-for-mail\r\nFrom: a@x.example\r\nNewsgroups: misc.test\r\nSubject: t\r\nMessage-ID: <#@x>\r\n"
        f"Date: Fri, 01 Jan 2021 00:00:00 +0000\r\n\r\n{BODY_LINE * lines}.\r\n"
    )


LOADS = {
    "check": Load("CHECK <new.", "", "asked", 250, (1, 0, 0), b"238"),
    "known": Load("CHECK <", "", "known", ALL, (1, 0, 0), b"438"),
    "refuse": Load("TAKETHIS <", "x\r\n.\r\n", "made", ALL, (2, 0, 0), b"439"),
    "take": Load("TAKETHIS <", article(14), "made", ALL, (3, 8, 1), b"239"),
    "take64": Load("TAKETHIS <", article(1_090), "made", ALL, (3, 142, 1), b"239"),
    "article": Load("ARTICLE <", "", "known", ALL, (4, 0, 0), b"220"),
    "article64": Load("ARTICLE <", "", "known", ALL, (138, 0, 0), b"220"),
}

# What is done, what the relay served before, the load, how many, and the octets of the text that is copied beside it.
ROWS = [
    ("CHECK of new ids, 250 a session", "", "check", 50_000, None),
    ("CHECK of 100,000 known ids", "refuse:100000", "known", 50_000, None),
    ("TAKETHIS of 1 KB", "", "take", 10_000, 1_000),
    ("TAKETHIS of 64 KB", "", "take64", 250, 65_560),
    ("ARTICLE of 1 KB", "take:1000", "article", 25_000, 1_000),
    ("ARTICLE of 64 KB", "take64:100", "article64", 250, 65_560),
]


class Script:
    """A script that asks for loads, as `take:1000`, one after the other, and how many replies of each code it is to have."""

    def __init__(self, loads):
        self.lines, self.replies, self.sessions = [], collections.Counter(), 0
        self.named = collections.Counter()
        for word in loads.split():
            name, count = word.split(":")
            self.add(LOADS[name], int(count))

    def add(self, load, count):
        sessions = -(-count // load.share)
        first = self.sessions + 1
        self.sessions += sessions
        self.lines += (f"open {session} p1" for session in range(first, first + sessions))
        block = [part.encode().hex() for part in load.block.split("#")]
        for place in range(count):
            session = first + place % sessions
            known = place * 7_919 % max(1, self.named["made"])
            number = str(known if load.ids == "known" else self.named[load.ids] + place)
            line = f"{load.front}{number}@x>\r\n".encode().hex() + number.encode().hex().join(block)
            turn, write = f"turn {session} {MOMENT}", f"write 0 {MOMENT}"
            turns, writes, later = load.steps
            self.lines += [f"raw {session} {line}", *[turn] * turns, *[write] * writes, *[turn] * later]
        self.named[load.ids] += count
        self.replies[load.code] += count


def drilled(folder, script, is_whole, **settings):
    """Begins a drill of a script, or of its text alone."""
    return subprocess.Popen([PROGRAM, "drill", folder, f"{script}.{'whole' if is_whole else 'read'}"], **settings)


def seconds(folder, script, is_whole):
    """The processor's seconds that the drill takes."""
    drill = drilled(folder, script, is_whole, stdout=subprocess.DEVNULL, stderr=subprocess.DEVNULL)
    _, _, usage = os.wait4(drill.pid, 0)
    return usage.ru_utime + usage.ru_stime


def instructions(folder, script, is_whole):
    """The instructions that the drill runs."""
    tool = ["valgrind", "--tool=callgrind", "--callgrind-out-file=/dev/null", PROGRAM, "drill", folder]
    words = [*tool, f"{script}.{'whole' if is_whole else 'read'}"]
    told = subprocess.run(words, stdout=subprocess.DEVNULL, stderr=subprocess.PIPE, text=True).stderr
    return int(re.search(r"Collected : (\d+)", told)[1])


def write_script(folder, name, loads):
    """Writes the script and its text alone, and plays it once, to see that each id has its reply; the script's path."""
    script = Script(loads)
    path = folder / name
    text = "".join(f"{line}\n" for line in script.lines).encode()
    Path(f"{path}.whole").write_bytes(text)
    Path(f"{path}.read").write_bytes(text + BAD_LINE)
    drill = drilled(folder, path, True, stdout=subprocess.PIPE)
    codes = collections.Counter(line.split(b" ", 2)[1] for line in drill.stdout if line.count(b" ") > 1)
    if drill.wait() or any(codes[code] != count for code, count in script.replies.items()):
        sys.exit(f"relay: {loads}: status {drill.returncode}, {script.replies} wanted, of {codes}")
    if drilled(folder, path, False, stdout=subprocess.DEVNULL, stderr=subprocess.DEVNULL).wait() != 3:
        sys.exit(f"relay: {loads}: a bad line is none")
    return path


def one_more(measure, folder, before, load, count, rounds):
    """What one more takes past so many, and past twice as many: medians."""
    paths = [write_script(folder, str(times), f"{before} {load}:{times * count}") for times in (1, 2, 4)]
    seen = []
    for _ in range(rounds):
        once, twice, often = (measure(folder, path, True) - measure(folder, path, False) for path in paths)
        seen.append(((twice - once) / count, (often - twice) / (2 * count)))
    return [statistics.median(costs) for costs in zip(*seen)]


def copied(copies, octets, count):
    """The microseconds that copying an article of so many octets takes."""
    words = [copies, str(octets), str(count)]
    runs = [float(subprocess.run(words, check=True, capture_output=True).stdout) for _ in range(ROUNDS)]
    return 1e6 * statistics.median(runs) / count


def print_times(folder):
    copies = folder / "copies"
    subprocess.run(["rustc", "-O", "-o", copies, Path(__file__).with_name("copies.rs")], check=True)
    print("| Done | Number | One more, µs | Past twice as many, µs | Copied, µs |\n|---|---:|---:|---:|---:|")
    for done, before, load, count, octets in ROWS:
        first, later = (1e6 * cost for cost in one_more(seconds, folder, before, load, count, ROUNDS))
        copy = f"{copied(copies, octets, count):.2f}" if octets else ""
        print(f"| {done} | {count:,} | {first:.2f} | {later:.2f} | {copy} |", flush=True)


def print_counts(folder):
    print("| Done | Number | Instructions for one more | Past twice as many |\n|---|---:|---:|---:|")
    for done, before, load, count, _ in ROWS:
        first, later = one_more(instructions, folder, before, load, count // 50, 1)
        print(f"| {done} | {count // 50:,} | {first:,.0f} | {later:,.0f} |", flush=True)
    print("\n| Ids remembered | CHECK, known | CHECK, new | TAKETHIS of 1 KB |\n|---:|---:|---:|---:|")
    for ids in (1_000, 10_000, 100_000):
        costs = [one_more(instructions, folder, f"refuse:{ids}", load, 250, 1)[0] for load in ("known", "check", "take")]
        print(f"| {ids:,} | {' | '.join(f'{cost:,.0f}' for cost in costs)} |", flush=True)


def options(about):
    about.add_argument("what", nargs="?", choices=("count",), help="counts instructions")


def main(given):
    with tempfile.TemporaryDirectory(prefix="cnrelay-relay-") as name:
        folder = Path(name)
        for file, text in CONFIGURATION.items():
            (folder / file).write_text(text)
        (print_counts if given.what else print_times)(folder)
