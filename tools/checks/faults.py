"""Makes each fault in turn that memory, a device or a broken text can make, and checks each answer.

    tools/check faults WHAT [--every N] [--lanes L]

WHAT is one of these:

    memory     each request for memory is refused, one after the other, then all from one on, in the
               rows of drills named in ROWS below, each with a restart behind it, in `serve`, `report`
               and `stop`, and in `serve` behind a kill; and the system gives no random numbers
    calls      each request for memory is refused, one after the other, in the rows of crates: those of
               single calls, up to those of stops, but for those that repeat a call hundreds of times
    devices    each read and write of a buffer's device fails, one after the other, in the rows named in
               DEVICE_ROWS, each with a restart behind it
    files      over `serve` and a buffer's file: each read and write of it fails once, one after the
               other, while articles of 1 to 300 blocks are taken, fetched, stopped with and started
               from, and while a relay starts from a buffer that was stopped, or killed; a place of it
               can't be written for good, one after the other; its disk is full from a place on
    flushes    what `serve` writes, flushes and renames at a start, in a repair and at a stop comes in
               the one order that a power cut may break off; each of these calls but the writes of
               buffers fails, one after the other, as does each flush of a folder that has none
    texts      a configuration, names, a token and an article are cut behind each octet, and each octet
               is changed

With --every N each Nth of these faults alone is made: the first, the one N later, and so on. With
--lanes L so many are made at a time.

The program of `calls` is crates/crate_rows/out/crate_rows, whose rows it plays, as `rt ci` leaves it;
the others are those of tools/rows/drills.rows.
Requests for memory are refused by a small library, compiled with cc or else with the toolchain's
clang, that stands in front of the C library's malloc and realloc, of pread and pwrite for `files`,
and for `flushes` of all by which files are written. Prints a line for each row or
text with what was tried, and at the end `N faults made, each answered as it has to be`; at the
first wrong answer it shows that and ends with status 1.
"""

import functools
import os
import re
import shutil
import subprocess
import sys
import tempfile
from concurrent.futures import ThreadPoolExecutor
from dataclasses import dataclass, replace
from itertools import islice
from pathlib import Path

from lib import faults, ports
from lib.program import PROGRAM, ROOT
from lib.relay import Life, configure
from lib.trying import Wrong, check, room as room_of
from rows import drills

PLAYED = ROOT / "crates/crate_rows"
# Rows of single calls that make a call hundreds of times, and so most of all requests: they are left
# out.
REPEATED = ("article_cuts ", "article_changes ")
ROWS = ("first script", "one claim", "two bodies at once", "sizes", "ring")
# Rows of sessions that race: a Turn that comes a round later meets another answer.
RACES = "of four sessions"
DEVICE_ROWS = ("first script", "sizes", "overwrite", "ring", "sequential places")
MOMENT = 1609459200

# Seconds that a run of the program may take.
PATIENCE = 60

# What a refused event says, a restart that is done, one whose device failed, and a program that has no
# memory to begin or to go on.
REFUSED = "refused 0 Memory"
RESTARTED = "restarted"
NOT_RESTARTED = "refused 8 NotRestarted"
OUT_OF_MEMORY = "out of memory"
# How the last line ends that tells of either; a thread wants memory too.
WANTS = (f"{OUT_OF_MEMORY}\n", "serve: no thread to be had\n")
# How the report of a relay begins that was killed with two articles of 1 and 3 blocks.
KILLED = "buffer A                         0                   4          2          2\n"
# The statuses that the program has for a fault of its own (docs/PROTOCOL.md, Statuses).
NO_MEMORY = 5

@dataclass(frozen=True)
class Ran:
    """What a run of the program gave."""

    status: int
    out: str
    err: str

    def lines(self):
        return self.out.splitlines()


@dataclass(frozen=True)
class Row:
    """A row: what it shows, the words of the command line, and the script's lines."""

    name: str
    words: tuple
    script: tuple


def run(words, text, env=None, program=PROGRAM, folder=drills.DATA):
    """Runs a program on a text; words name folders below this one, that of the rows' data."""
    # A file, not a pipe: how a pipe's octets come in pieces would tell how often memory is taken.
    with tempfile.TemporaryFile() as given:
        given.write(text.encode("latin-1"))
        given.seek(0)
        try:
            done = subprocess.run(
                [program, *words],
                stdin=given,
                capture_output=True,
                cwd=folder,
                env={**os.environ, **(env or {})},
                timeout=PATIENCE,
                check=False,
            )
        except subprocess.TimeoutExpired as expired:
            raise Wrong(f"no end after {PATIENCE} seconds: {words} {env}") from expired
    return Ran(done.returncode, done.stdout.decode("latin-1"), done.stderr.decode("latin-1"))


def play(row, lines=None, env=None):
    """Plays a row, or other lines with its words."""
    return run(row.words, "\n".join(row.script if lines is None else lines) + "\n", env)


# ---- rows


def rows(names):
    """The rows of drills that are played twice and whose names begin so."""
    found = []
    for row in drills.rows():
        if row.mark == "==" and row.name.partition(":")[0] in names and RACES not in row.name:
            found.append(Row(row.name, row.words(), tuple(row.text.split("\n"))))
    if missing := set(names) - {it.name.partition(":")[0] for it in found}:
        raise Wrong(f"there is no row of {', '.join(sorted(missing))}")
    return found


def sent(row):
    """The articles that a row sends, by message-id: the lines of each without its Path."""
    found, lines = {}, [it.partition(" ")[2].partition(" ")[2] for it in row.script]
    for place, line in enumerate(lines):
        if line.startswith("Path: ") and "." in lines[place:]:
            text = lines[place + 1 : lines.index(".", place)]
            ids = [it.partition(" ")[2] for it in text if it.startswith("Message-ID: ")]
            found.setdefault(ids[0], text)
    return found


def and_restart(row):
    """The row with a restart behind it, and a session that asks then what is there."""
    asked = [f"send 900 {word} {it}" for it in sent(row) for word in ("CHECK", "STAT")]
    then = ["restart", "open 900 p2", *asked, "send 900 XTAKE 5", f"rounds 40 {MOMENT}", "report"]
    return replace(row, name=f"{row.name}, and a restart", script=(*row.script, *then))


# ---- memory


def refusing(shim, first, last):
    """The environment in which the requests from the first to the last of these are refused."""
    return faults.meeting(shim, REFUSE_FIRST=first, REFUSE_LAST=last)


def requests(shim, playing):
    """How many requests for memory what is played makes."""
    with tempfile.NamedTemporaryFile("r") as told:
        playing(faults.meeting(shim, REFUSE_TOLD=told.name))
        return int(told.read())


def has_stopped(ran, expected):
    """The program stopped for want of memory, and what it said till then is what it had to."""
    lines = ran.lines()
    return (
        ran.status == NO_MEMORY
        and OUT_OF_MEMORY in ran.err
        and lines == expected.lines()[: len(lines)]
    )


@functools.cache
def first_refusal(shim, row, lines):
    """The number of the first request that an event makes; those before it are the program's own,
    for the script and the relay, and no fewer in a longer script."""
    number = 1 if lines == row.script else first_refusal(shim, row, row.script)
    while REFUSED not in play(row, lines, refusing(shim, number, number)).out:
        number += 1
    return number


def is_row_but_once(ran, expected):
    """What was said is what the row says, but for one refused event."""
    told = ran.lines()
    if told.count(REFUSED) != 1 or ran.status != expected.status:
        return False
    told.remove(REFUSED)
    return told == expected.lines()


def goes_on(shim, row, ran, expected, number):
    """An event was refused; tried again, the row ends as written. A Turn is due again in the next
    round; what came of a line is lost, and the line is written once more."""
    if is_row_but_once(ran, expected):
        return True
    for place in range(len(row.script)):
        lines = (*row.script[: place + 1], *row.script[place:])
        later = number + first_refusal(shim, row, lines) - first_refusal(shim, row, row.script)
        again = play(row, lines, refusing(shim, later, later))
        if is_row_but_once(again, expected):
            return True
    return False


def refuse_one(shim, row, expected, number):
    """Refuses one request; says how the program took it."""
    ran = play(row, env=refusing(shim, number, number))
    if ran == expected:
        return "without it"
    if has_stopped(ran, expected):
        return "stopped"
    if REFUSED in ran.lines() and goes_on(shim, row, ran, expected, number):
        return "tried again"
    raise Wrong(f"{row.name}: request {number} refused: {ran}")


def refuse_rest(shim, row, expected, number):
    """Refuses all requests from one on: nothing is said that the row doesn't say."""
    ran = play(row, env=refusing(shim, number, 2**60))
    said = [it for it in ran.lines() if not it.startswith("refused ")]
    left = expected.lines()
    for line in said:
        if line not in left:
            raise Wrong(f"{row.name}: requests from {number} on refused: {ran}")
        left.remove(line)
    if ran.status not in (expected.status, NO_MEMORY):
        raise Wrong(f"{row.name}: requests from {number} on refused: {ran}")


def refuse_random(shim):
    """The system gives the relay no random numbers: nothing runs, and that is told."""
    ran = run((), "open 1 p1\n", faults.meeting(shim, REFUSE_RANDOM=1))
    if ran != Ran(4, "", "relay: no random numbers to be had\n"):
        raise Wrong(f"no random numbers: {ran}")
    print("no random numbers: told, and nothing ran", flush=True)


def serve_k1(env=None):
    """What `serve K1` gives in a new folder: K1 has no port, so that it ends at once."""
    with tempfile.TemporaryDirectory() as folder:
        (Path(folder) / "K1").mkdir()
        return run(("serve", "K1"), "", env, folder=folder)


def refuse_words(shim, tries, name, playing):
    """Each request of the program is refused in turn, and all from it on: it answers as it does
    without, or that it has no memory or no thread."""
    expected, count = playing(), requests(shim, playing)

    def refuse(number):
        how = []
        for last in (number, 2**60):
            ran = playing(refusing(shim, number, last))
            is_told = ran.status == NO_MEMORY and ran.err.endswith(WANTS) and not ran.out
            if ran != expected and not is_told:
                raise Wrong(f"{name}: requests {number} to {last} refused: {ran}")
            how.append("stopped" if is_told else "without it")
        return how[0]

    tries.tell(tries.each(refuse, range(1, count + 1)), f"{name}: # of {count} requests refused")


def refuse_asking(shim, tries):
    """The same of who asks a relay for its report, and of who tells one to stop that isn't there."""
    with room_of("memory") as room:
        stop = functools.partial(run, ("stop", "."), "", folder=room)
        refuse_words(shim, tries, "stop where nobody hears", stop)
        relay = Served(room, served_folder(room, 4))
        if relay.ask("") is None:
            raise Wrong(f"it isn't served: {relay.ends()}")
        report = functools.partial(run, ("report", "."), "", folder=room)
        refuse_words(shim, tries, "report", report)
        if relay.ends() != (0, []):
            raise Wrong("the relay that was asked for its report ends with a fault")


def killed_folder(room):
    """Makes this the folder of a relay that was killed with two articles, and has no ports any more, so
    that its next life ends at once."""
    address = served_folder(room, 4)
    for name, blocks, is_killed in (("a", 1, False), ("b", 3, True)):
        relay = Served(room, address)
        if not relay.take(name, blocks) or not ends_so(relay, is_killed):
            raise Wrong("no relay was served to be killed")
    (room / "control").unlink()
    text = (room / "relay.conf").read_text()
    (room / "relay.conf").write_text(re.sub(r"(?m)^(peer p1 one\.example) \d+$", r"\1 0", text))


def refuse_repair(shim, tries):
    """Each request of a start that repairs is refused: it is done, or ends with all left to be found by
    the next start."""
    with room_of("memory") as left:
        killed_folder(left)

        def repair(env=None):
            with room_of("memory") as folder:
                shutil.copytree(left, folder, dirs_exist_ok=True)
                ran = without_counts(run(("serve", "."), "", env, folder=folder))
                again = run(("serve", "."), "", folder=folder)
            if again.status or not again.out.startswith(KILLED):
                raise Wrong(f"behind {ran} the next start gives {again}")
            return ran

        if not repair().out.startswith(KILLED):
            raise Wrong(f"a relay that was killed isn't repaired: {repair()}")
        refuse_words(shim, tries, "serve behind a kill", repair)


def without_counts(ran):
    """What a run gave but how many articles were found, which isn't told without memory to count them,
    and that it isn't known since when they are there, which is told without memory to read that."""
    told = r"(?m)^(recovered |failed file=relay\.ages ).*\n"
    return replace(ran, err=re.sub(told, "", ran.err))


def memory(tries):
    """Each request for memory is refused in turn."""
    with tempfile.TemporaryDirectory() as folder:
        shim = faults.built(folder)
        refuse_random(shim)
        refuse_words(shim, tries, "serve K1", serve_k1)
        refuse_asking(shim, tries)
        refuse_repair(shim, tries)
        for row in map(and_restart, rows(ROWS)):
            expected = play(row)
            if RESTARTED not in expected.lines():
                raise Wrong(f"{row.name}: {expected}")
            count = requests(shim, functools.partial(play, row, None))

            def refuse(number, row=row, expected=expected):
                refuse_rest(shim, row, expected, number)
                return refuse_one(shim, row, expected, number)

            tries.tell(tries.each(refuse, range(1, count + 1)), f"{row.name}: # of {count} requests refused")


def single_calls(file):
    """The rows of a file of crate_rows up to those of stops, without those of repeated calls."""
    front = (PLAYED / file).read_text("latin-1").split("\npart stops", 1)[0]
    return "\n".join(it for it in [*front.split("\n"), ""] if not it.startswith(REPEATED))


def calls(tries):
    """Each request for memory is refused in turn in the rows of single calls: the program stops, and
    what it had printed is a front of what it has to print."""
    text, expected = single_calls("stdin"), single_calls("stdout")

    def played(env=None):
        return run((), text, env, PLAYED / "out/crate_rows")

    def refuse(shim, number):
        ran = played(refusing(shim, number, number))
        if ran == Ran(0, expected, ""):
            return "without it"
        if ran.status == NO_MEMORY and ran.err == "memory\n" and expected.startswith(ran.out):
            return "stopped"
        raise Wrong(f"request {number} of rows of crates refused: {ran}")

    with tempfile.TemporaryDirectory() as folder:
        shim = faults.built(folder)
        if played() != Ran(0, expected, ""):
            raise Wrong(f"rows of crates: {played()}")
        count = requests(shim, played)
        told = tries.each(functools.partial(refuse, shim), range(1, count + 1))
    tries.tell(told, f"rows of crates: # of {count} requests refused")


# ---- devices


def buffers_of(row):
    """The names of the buffers of a row's configuration."""
    if len(row.words) < 2 or row.words[1] == "K1":
        return ["A"]
    text = (drills.DATA / row.words[1] / "cycbuff.conf").read_text()
    return re.findall(r"(?m)^cycbuff:(\w+):", text)


def asking(row):
    """The lines by which a session that comes last asks for each article, and sends one more."""
    last = [f"send 901 {it}".rstrip() for it in ["TAKETHIS <last@x>", *drills.article("last", 1)]]
    asked = [f"send 901 ARTICLE {it}" for it in sent(row)]
    return ["open 901 p1", *asked, *last, "send 901 STAT <last@x>", f"rounds 99 {MOMENT}"]


def stopped_twice(row):
    """The row's lines, all of which is done, two restarts, and the session that comes last."""
    return (*row.script, f"rounds 40 {MOMENT}", "restart", "restart", *asking(row))


def told_to(session, ran):
    """What a session was told."""
    return [it.partition(" ")[2] for it in ran.lines() if it.startswith(f"{session} ")]


def fetched(ids, told):
    """What became of each ARTICLE: its lines without the Path; None where there is none."""
    found, rest = {}, iter(told)
    for it in ids:
        reply = next(rest, "")
        if reply == f"220 0 {it}":
            lines = list(iter(lambda: next(rest, "."), "."))
            found[it] = [line for line in lines if not line.startswith("Path: ")]
        elif reply == "430 No such article":
            found[it] = None
        else:
            raise Wrong(f"ARTICLE {it}: {reply}")
    return found, list(rest)


def is_told_beside(line, texts):
    """Whether a device that failed may bring this line, which the row doesn't say: a fault, what is
    there or not because an article wasn't stored, a restart that isn't done, or a line of an article
    that was sent."""
    reply = r"\d+ (closed|\.|\d+|\d+ @\w+@|(400|403|430|436|492|493|22[0-3]|290|292) .*)"
    said = line.partition(" ")[2]
    in_text = said.startswith("Path: ") or any(said in text for text in texts)
    return bool(re.fullmatch(f"{reply}|refused [18] .*", line)) or in_text


def fault_is_told(row, buffer, call, ran, expected):
    """Whether what was said but by the last session differs from the row, as it may."""
    said = [it for it in ran.lines() if not it.startswith("901 ")]
    left = [it for it in expected.lines() if not it.startswith("901 ")]
    if said == left:
        return False
    texts = list(sent(row).values())
    for line in said:
        if line in left:
            left.remove(line)
        elif not is_told_beside(line, texts):
            raise Wrong(f"{row.name}: fail {buffer} {call}: {line}")
    return True


def is_restarted_once_more(ran):
    """Whether of two restarts both were done, or the one of them whose device didn't fail."""
    told = [it for it in ran.lines() if it in (RESTARTED, NOT_RESTARTED)]
    return len(told) == 2 and RESTARTED in told


def fail_call(row, buffer, call, expected):
    """Lets a call of the buffer's device fail; says whether the row met it."""
    ran = play(row, (f"fail {buffer} {call}", *stopped_twice(row)))
    if not is_restarted_once_more(ran):
        raise Wrong(f"{row.name}: fail {buffer} {call}: {ran}")
    if ran.status != 0 or not fault_is_told(row, buffer, call, ran, expected):
        return False
    texts = sent(row)
    found, rest = fetched(texts, told_to(901, ran)[1:])
    before, _ = fetched(texts, told_to(901, expected)[1:])
    kept = re.findall(r"(?m)^\d+ 239 (\S+)$", ran.out)
    for it, text in texts.items():
        is_whole = found[it] == text
        if found[it] is not None and not is_whole or is_whole and it not in kept:
            raise Wrong(f"{row.name}: fail {buffer} {call}: {it} is {found[it]}")
        if it in kept and not is_whole and before[it] is not None:
            raise Wrong(f"{row.name}: fail {buffer} {call}: {it} is lost")
    if rest[:2] != ["239 <last@x>", "223 0 <last@x>"]:
        raise Wrong(f"{row.name}: fail {buffer} {call}: the last session is told {rest}")
    return True


def devices(tries):
    """Each read and write of a device fails in turn, up to the first that neither a row nor the
    restarts behind it come to."""
    for row in rows(DEVICE_ROWS):
        expected, told = play(row, stopped_twice(row)), []
        for buffer in buffers_of(row):
            call = 1
            while fail_call(row, buffer, call, expected):
                call += tries.every
                tries.made += 1
            if call == 1:
                raise Wrong(f"{row.name}: no call of {buffer} fails")
            told.append(f"{len(range(1, call, tries.every))} calls of {buffer}")
        print(f"{row.name}: {', '.join(told)} failed, each told", flush=True)


# ---- files

# How many blocks the two large articles of a life have: a run has 128.
SIZES = (1, 2, 3, 64, 127, 128, 129, 255, 256, 257, 300)
# The blocks of the buffer whose disk is broken or full, and of the articles that it is given in turn.
BROKEN_BLOCKS = 64
BROKEN_SIZES = (1, 2, 3, 10, 20, 5)
# The blocks of a buffer and of the article that fills it, from which a relay starts, and what it may
# tell that a call of it failed by.
START_BLOCKS = 4
DEVICE = "A: 1 Device"
NO_STARTS = (DEVICE, "a.buf: unusable")
EIO, ENOSPC = 5, 28
PORT = 8119


def text_of(name, blocks):
    """An article that takes so many blocks where it is stored, and as what it is stored."""
    head = [
        "From: a@x.example",
        "Newsgroups: misc.test",
        "Subject: t",
        f"Message-ID: <{name}@x>",
        "Date: Fri, 01 Jan 2021 00:00:00 +0000",
        "",
        "",
    ]
    front = "\r\n".join(["Path: relay.example!!one.example!not-for-mail", *head])
    body, left = "", 480 * blocks - 7 - len(front)
    while left > 0:
        line = f"{name} {len(body)} ".ljust(62, name[0])[: min(62, max(left - 2, 0))]
        body += f"{line}\r\n"
        left -= len(line) + 2
    stored = front + body
    return stored.replace("Path: relay.example!!", "Path: ", 1), stored


class Served(Life):
    """A relay of one buffer in a folder."""

    def __init__(self, folder, address, env=None, words=()):
        super().__init__(folder, PORT, address, words, env, PATIENCE)

    def take(self, name, blocks):
        """Whether it answers that an article is kept."""
        said = f"TAKETHIS <{name}@x>\r\n{text_of(name, blocks)[0]}.\r\n"
        told = self.ask(said, quits_behind=True)
        if told is not None and not re.match(rf"239 <{name}@x>\r\n|400 Not stored, closing", told):
            raise Wrong(f"TAKETHIS <{name}@x>: {told!r}")
        return told is not None and told.startswith("239")

    def is_kept(self, name, blocks):
        """Whether an article is there, whole, asked once more where the device failed."""
        found = self.has(name, text_of(name, blocks)[1])
        return self.has(name, text_of(name, blocks)[1]) if found is None else found


def served_folder(room, kilobytes):
    """The address of a relay whose folder is made here, with a configuration of one buffer. Each life
    listens on an address of its own, so that no port is another life's or a client's."""
    address = ports.address()
    configure(room, ["own relay.example", "cutoff 4000000000", f"bind {address}", f"peer p1 one.example {PORT}",
                     "feed p1 2 *"], [f"A:a.buf:{kilobytes}"])
    return address


def faulty(shim, room, **how):
    """The environment in which calls of the buffer's file in this folder fail so."""
    return faults.meeting(shim, FAULT_FILE=room / "a.buf", **{f"FAULT_{name.upper()}": it for name, it in how.items()})


def life_of(shim, size, at):
    """A life of a relay in which call number `at` fails, and the next start: how the fault was met,
    and how many calls there were. The last article ends at the buffer's last block."""
    given = {"a": size, "b": 1, "c": 1, "d": size}
    with room_of("files") as room:
        address, told = served_folder(room, size + 1), room / "told"
        relay = Served(room, address, faulty(shim, room, at=at, told=told))
        kept = {it: relay.take(it, blocks) for it, blocks in given.items()}
        there = {it: relay.is_kept(it, blocks) for it, blocks in given.items()}
        is_served = relay.process.poll() is None
        if not is_served and not told.exists():
            raise Wrong(f"it is not begun: {relay.ends()}")
        before = int(told.read_text())
        status, lines = relay.ends()
        calls = int(told.read_text())
        if not is_served:
            if status != 4 or not lines or at > before:
                raise Wrong(f"it isn't served, with {status}: {lines}")
            return "not served", calls
        if there != kept or list(kept.values()).count(False) > 1:
            raise Wrong(f"kept are {kept}, there are {there}")
        is_stopped = (status, lines) == (0, [])
        if not is_stopped and ((status, lines) != (4, ["stop: Device"]) or not before < at <= calls):
            raise Wrong(f"it ended with {status}: {lines}")
        again = Served(room, address)
        there = {it: again.is_kept(it, blocks) for it, blocks in given.items()}
        if again.ends() != (0, []) or there != kept:
            raise Wrong(f"kept were {kept}, and after a start there are {there}")
        if not is_stopped:
            return "not stopped, and recovered", calls
        return "all kept" if all(kept.values()) else "one not kept", calls


def fail_once(tries, shim):
    """Each read and write of the file fails once, for articles of each size."""
    for size in SIZES:
        how, calls = life_of(shim, size, 0)
        if how != "all kept":
            raise Wrong(f"{size} blocks: {how}")

        def fail(at, size=size):
            try:
                return life_of(shim, size, at)[0]
            except Wrong as wrong:
                raise Wrong(f"{size} blocks, call {at} of the file failed: {wrong}") from wrong

        tries.tell(tries.each(fail, range(1, calls + 1)), f"{size} blocks: # of {calls} calls of a file failed")


def start_of(shim, left, at):
    """A start from what a life left, with article a in its buffer, in which call number `at` fails: how
    that was met. The next start has the article, whether a buffer was opened or not."""
    with room_of("files") as room:
        copy_left(left, room)
        address = served_folder(room, START_BLOCKS // 2)
        relay = Served(room, address, faulty(shim, room, at=at))
        is_there, is_served = relay.is_kept("a", START_BLOCKS), relay.process.poll() is None
        status, lines = relay.ends()
        if is_served and (not is_there or (status, lines) != (0, [])):
            raise Wrong(f"it is served, has {is_there}, and ended with {status}: {lines}")
        if not is_served and (status != 4 or not lines or lines[0] not in NO_STARTS):
            raise Wrong(f"it isn't served, with {status}: {lines}")
        again = Served(room, address)
        is_there, ended = again.is_kept("a", START_BLOCKS), again.ends()
        if not is_there or ended != (0, []):
            raise Wrong(f"it told {lines}, and the next start has {is_there}, and told {ended}")
        return "served" if is_served else lines[0]


def copy_left(left, room):
    """Copies what a life left, but for its socket."""
    shutil.copytree(left, room, dirs_exist_ok=True, ignore=shutil.ignore_patterns("control"))


def calls_of_start(shim, left):
    """How many calls of the buffer's file a start makes."""
    with room_of("files") as room:
        copy_left(left, room)
        address, told = served_folder(room, START_BLOCKS // 2), room / "told"
        relay = Served(room, address, faulty(shim, room, at=0, told=told))
        if relay.ask("") is None:
            raise Wrong(f"it isn't served: {relay.ends()}")
        calls = int(told.read_text())
        relay.ends()
        return calls


def fail_starts(tries, shim, is_killed):
    """Each call that a start makes of a buffer that was stopped fails once, or of one that was killed;
    some tell the fault of the buffer."""
    with room_of("files") as room:
        relay = Served(room, served_folder(room, START_BLOCKS // 2))
        if not relay.take("a", START_BLOCKS) or not ends_so(relay, is_killed):
            raise Wrong("no relay was served to start from")
        calls = calls_of_start(shim, room)
        told = tries.each(functools.partial(start_of, shim, room), range(1, calls + 1))
    if tries.every == 1 and DEVICE not in told:
        raise Wrong(f"no call of a start that failed is the buffer's fault: {told}")
    tries.tell(told, "# calls of a file failed at " + ("a start behind a kill" if is_killed else "a start"))


def ends_so(relay, is_killed):
    """Whether a relay ends as it is made to: killed, or stopped."""
    if not is_killed:
        return relay.ends() == (0, [])
    relay.process.kill()
    return relay.ends() == (-9, [])


def broken_life(shim, first, end, number):
    """Three rounds of a buffer whose blocks from `first` up to `end` can't be written, a stop, and
    the next start; how many articles weren't kept."""
    given = [(f"{'abcdef'[it % 6]}{it}", BROKEN_SIZES[it % 6]) for it in range(30)]
    with room_of("files") as room:
        address = served_folder(room, BROKEN_BLOCKS // 2)
        how = {"from": 512 * first, "to": 512 * end, "is": number}
        relay = Served(room, address, faulty(shim, room, **how))
        kept = {it: relay.take(it, blocks) for it, blocks in given}
        lost = list(kept.values()).count(False)
        there = {it: relay.is_kept(it, blocks) for it, blocks in given}
        ended = relay.ends()
        if ended != (0, []):
            raise Wrong(f"it ended with {ended}")
        again = Served(room, address)
        later = {it: again.is_kept(it, blocks) for it, blocks in given}
        if again.ends() != (0, []) or later != there:
            raise Wrong(f"there were {there}, and after a start there are {later}")
    behind = 0
    for it, blocks in reversed(given):
        behind += blocks
        is_live = behind <= BROKEN_BLOCKS - max(BROKEN_SIZES)
        if there[it] and not kept[it] or is_live and kept[it] and not there[it]:
            raise Wrong(f"<{it}@x> of {blocks} blocks: kept are {kept}, there are {there}")
    return lost, sum(blocks for _, blocks in given)


def fail_for_good(tries, shim):
    """Each block can't be written any more: each round of the buffer costs one article."""

    def fail(first):
        try:
            lost, blocks = broken_life(shim, first, first + 1, EIO)
        except Wrong as wrong:
            raise Wrong(f"block {first} can't be written: {wrong}") from wrong
        # The rest of a round that an article doesn't fit into stays empty.
        rounds = blocks // (BROKEN_BLOCKS - max(BROKEN_SIZES)) + 1
        if lost > rounds:
            raise Wrong(f"block {first} can't be written: {lost} articles aren't kept")
        return lost

    told = tries.each(fail, range(BROKEN_BLOCKS - 1))
    print(f"{len(told)} blocks that can't be written: {min(told)} to {max(told)} articles lost, "
          "each stopped and started", flush=True)


def fill_disks(tries, shim):
    """The disk is full from a block on, all but the last, which is tried at the start."""

    def fill(first):
        try:
            return broken_life(shim, first, BROKEN_BLOCKS - 1, ENOSPC)[0]
        except Wrong as wrong:
            raise Wrong(f"the disk is full from block {first} on: {wrong}") from wrong

    told = tries.each(fill, range(8, BROKEN_BLOCKS - 8, 8))
    print(f"{len(told)} full disks: {min(told)} to {max(told)} articles lost, each stopped and "
          "started", flush=True)


def files(tries):
    """Calls of a buffer's file fail while it is served."""
    with room_of("files") as folder:
        shim = faults.built(folder)
        fail_once(tries, shim)
        fail_starts(tries, shim, False)
        fail_starts(tries, shim, True)
        fail_for_good(tries, shim)
        fill_disks(tries, shim)


# ---- flushes

# What each last block that is tried, the blocks of a buffer that is served or shut, and a life from
# its first head on are written as. A head that is opened is flushed before any block is written.
TRIED, BLOCKS = r"write a\.buf;write b\.buf;", r"(write [ab]\.buf;)+"
SERVED = r"write a\.buf;flush a\.buf;write b\.buf;flush b\.buf;" + BLOCKS
OPENED = "flush a.buf;flush b.buf;"
# A journal that isn't there is taken away, before that a history, and the end of a stop, once no
# buffer is written any more.
NO_JOURNAL = "open .;flush .;"
TAKEN_AWAY = "remove relay.hist;open .;flush .;" + NO_JOURNAL
# Names are kept before anything else of a start, and where they are kept already the folder is flushed.
NAMED = ("remove relay.names.new;make relay.names.new;write relay.names.new;flush relay.names.new;"
         "rename relay.names.new relay.names;open .;flush .;")
SAME_NAMES = "open .;flush .;"
# A journal is begun before any head is opened.
JOURNAL = ("make relay.log.new;write relay.log.new;flush relay.log.new;rename relay.log.new relay.log;"
           "open .;flush .;")
KEPT = ("flush a.buf;flush b.buf;remove relay.hist.new;make relay.hist.new;write relay.hist.new;"
        "flush relay.hist.new;rename relay.hist.new relay.hist;open .;flush .;")
EINVAL = 22
UNUSABLE, NO_DEVICE = "relay.hist: unusable", "stop: Device"
NO_NAMES = "relay.names: unusable"


def calls_of(text):
    """The calls of a text, each as it is told."""
    return [it for it in text.split(";") if it]


class Room:
    """The folder of a relay of two buffers, with one article each, that was stopped."""

    def __init__(self, room, shim):
        self.room, self.shim, self.told = room / "relay", shim, room / "told"
        self.room.mkdir()
        self.address = served_folder(self.room, START_BLOCKS // 2)
        lines = "".join(f"cycbuff:{it}:{it.lower()}.buf:{START_BLOCKS // 2}\n" for it in "AB")
        (self.room / "cycbuff.conf").write_text(f"{lines}metacycbuff:G:A,B\n")

    def life(self, name, words=(), at=0, number=EIO):
        """A life in which this article is taken: whether it was kept, its end, and its calls."""
        self.told.write_text("")
        env = faults.meeting(self.shim, FLUSH_ROOM=self.room, FLUSH_TOLD=self.told, FLUSH_AT=at, FLUSH_IS=number)
        relay = Served(self.room, self.address, env, words)
        is_kept = relay.take(name, 1)
        return is_kept, relay.ends(), "".join(f"{it};" for it in self.told.read_text().splitlines())

    def kill(self, name):
        """A life in which this article is taken, and that is killed."""
        relay = Served(self.room, self.address)
        if not relay.take(name, 1) or not ends_so(relay, True):
            raise Wrong("no relay was served to be killed")

    def has(self, *names):
        """Which of these articles the next start has, or what it tells."""
        relay = Served(self.room, self.address)
        there = {it: relay.is_kept(it, 1) for it in names}
        ended = relay.ends()
        return "".join(it for it in names if there[it]) if ended == (0, []) else ended

    def octets(self):
        """What the buffers' files hold."""
        return [(self.room / f"{it}.buf").read_bytes() for it in "ab"]

    def held(self, name):
        """What this file holds; nothing where it isn't there."""
        path = self.room / name
        return path.read_bytes() if path.exists() else b""

    def left(self):
        """What the buffers' files hold but for zeros at their end, and what relay.hist does."""
        return [self.held(f"{it}.buf").rstrip(b"\0") for it in "ab"] + [self.held("relay.hist")]


def check_order(front, told, named=NAMED):
    """Refuses any order of a life's calls but this front of it, the names that are kept, the journal
    that is begun, what it serves, and its end."""
    front += re.escape(named)
    check_served(front, told)


def check_served(front, told):
    """Refuses any order of a life's calls but this front of it, the journal that is begun, what it
    serves, and its end."""
    if not re.fullmatch(front + re.escape(JOURNAL) + SERVED + re.escape(KEPT), told):
        raise Wrong(f"the calls come in another order than {front}{JOURNAL}{SERVED}{KEPT}: {told}")


def orders_of(room, shim):
    """What a life tells from empty files, from what was stopped, with --fresh, and from what was
    killed, which it repairs; each in order."""
    life = Room(room, shim)
    # What is emptied is tried again.
    for name, words, front in (("a", (), TRIED + re.escape(NO_JOURNAL) + TRIED), ("b", (), TRIED),
                               ("c", ("--fresh",), TRIED + re.escape(TAKEN_AWAY) + TRIED)):
        is_kept, ended, told = life.life(name, words)
        if not is_kept or ended != (0, []):
            raise Wrong(f"the life of {name} ended with {ended}")
        check_order(front, told)
    life.kill("d")
    is_kept, ended, told = life.life("e")
    if not is_kept or ended != (0, []):
        raise Wrong(f"the life behind a kill ended with {ended}")
    # What the life that was killed kept of names is what this one would.
    check_served(TRIED + re.escape(SAME_NAMES) + BLOCKS + re.escape(KEPT), told)
    print("4 lives: each flushed, wrote and renamed in order", flush=True)


def front_to(text, at):
    """The calls of a text up to this one, all where the flush of a folder that has none follows."""
    return "".join(f"{it};" for it in calls_of(text)[:at])


def failing(text, fail, shim, number, at):
    """Has a call of a text fail with this number, in a relay of its own; that call."""
    call = calls_of(text)[at - 1]
    with room_of("flushes") as room:
        try:
            fail(Room(room, shim), call, number, at)
        except Wrong as wrong:
            raise Wrong(f"{call} failed with {number} ({fail}): {wrong}") from wrong
    return call


def end_of(call, number):
    """How a relay ends one of whose calls by which it is kept fails with this number."""
    if call.endswith(" .") and number == EINVAL:
        return 0, []
    return 4, [NO_DEVICE if call.endswith(".buf") else UNUSABLE]


def fail_stop(life, call, number, at):
    """A call of a stop fails; what is told then, and by the next start."""
    stopped(life)
    history = life.held("relay.hist")
    is_kept, ended, told = life.life("b", at=len(calls_of(NAMED + JOURNAL + OPENED)) + at, number=number)
    is_old = life.held("relay.hist") == history
    front = TRIED + re.escape(NAMED + JOURNAL) + SERVED
    if not is_kept or not re.fullmatch(front + re.escape(front_to(KEPT, at)), told):
        raise Wrong(told)
    check((ended, is_old, life.has("a", "b")), (end_of(call, number), not call.endswith(" ."), "ab"), "it came to")


def fail_repair(life, call, number, at):
    """A call by which a repair is kept fails: it is told, and the next start has all."""
    life.kill("a")
    # What the first life kept of names is what this one would.
    is_kept, ended, told = life.life("b", at=len(calls_of(SAME_NAMES)) + at, number=number)
    if not re.match(TRIED + re.escape(SAME_NAMES) + BLOCKS + re.escape(front_to(KEPT, at)), told):
        raise Wrong(told)
    end = end_of(call, number)
    is_served = end == (0, [])
    check((is_kept, ended, life.has("a", "b")), (is_served, end, "ab" if is_served else "a"), "it came to")


def fail_opened(life, _, number, at):
    """A head that is opened can't be flushed: the relay goes on, and a stop keeps all."""
    stopped(life)
    is_kept, ended, told = life.life("b", at=len(calls_of(NAMED + JOURNAL)) + at, number=number)
    check_order(TRIED, told)
    check((is_kept, ended, life.has("a", "b")), (True, (0, []), "ab"), "it came to")


def fail_journal(life, _, number, at):
    """A call by which the journal is begun fails: the relay goes on, and a stop keeps all."""
    stopped(life)
    is_kept, ended, told = life.life("b", at=len(calls_of(NAMED)) + at, number=number)
    if not re.fullmatch(TRIED + re.escape(NAMED + front_to(JOURNAL, at)) + SERVED + re.escape(KEPT), told):
        raise Wrong(told)
    check((is_kept, ended, life.has("a", "b")), (True, (0, []), "ab"), "it came to")


def fail_fresh(life, _, number, at):
    """A call by which `--fresh` takes the history away fails: nothing is formatted, but where the
    folder has no flush."""
    stopped(life)
    before = life.octets()
    is_kept, ended, told = life.life("b", ("--fresh",), at, number)
    is_there = (life.room / "relay.hist").exists()
    if number == EINVAL:
        check((is_kept, ended, life.has("a", "b")), (True, (0, []), "b"), "it came to")
    else:
        check((is_kept, ended, life.octets() == before, is_there), (False, (4, [UNUSABLE]), True, at == 1), "it came to")
    if not re.match(TRIED + re.escape(front_to(TAKEN_AWAY, at)), told):
        raise Wrong(told)


def emptied(_):
    """A relay that nothing came to: what a start tells before it keeps names, the calls of that which may
    fail, and the articles that are there."""
    return TRIED + re.escape(NO_JOURNAL) + TRIED, NO_JOURNAL, ""


def stopped(life):
    """The same of one that was stopped."""
    if life.life("a")[:2] != (True, (0, [])):
        raise Wrong("no relay was served and stopped to start from")
    return TRIED, "", "a"


def killed(life):
    """The same of one that was killed behind that, and has another name of a buffer since."""
    stopped(life)
    life.kill("b")
    place = life.room / "cycbuff.conf"
    place.write_text(place.read_text().replace(":B:", ":C:").replace("A,B", "A,C"))
    return TRIED, "", "ab"


def fail_names(before, life, call, number, at):
    """A call by which names are kept fails, over what was left so: nothing else is written then, and
    the next start has all."""
    front, passed, there = before(life)
    left, names = life.left(), life.held("relay.names")
    is_kept, ended, told = life.life("c", at=len(calls_of(passed)) + at, number=number)
    if number == EINVAL:
        check((is_kept, ended), (True, (0, [])), "it came to")
        there += "c"
    else:
        is_named = life.held("relay.names") != names
        # The new text is there once it has its name, though that may be lost.
        check((is_kept, ended, life.left() == left, is_named), (False, (4, [NO_NAMES]), True, call.endswith(" .")),
              "it came to")
    is_front = re.match(front + re.escape(front_to(NAMED, at)), told)
    if not is_front or number != EINVAL and is_front.end() != len(told):
        raise Wrong(f"something else was written: {told}")
    check(life.has("a", "b", "c"), there, "the next start has")


def flushes(tries):
    """Files are flushed in order, and each call that sees to it fails in turn."""
    with room_of("flushes") as room:
        shim = faults.built(room)
        orders_of(room, shim)
        for text, fail in ((JOURNAL, fail_journal), (OPENED, fail_opened), (KEPT, fail_stop),
                           (KEPT, fail_repair), (TAKEN_AWAY, fail_fresh),
                           *((NAMED, functools.partial(fail_names, it))
                             for it in (emptied, stopped, killed))):
            count = len(calls_of(text))
            told = tries.each(functools.partial(failing, text, fail, shim, EIO), range(1, count + 1))
            # Some file systems have no flush of a folder, which the last call is.
            told += tries.each(functools.partial(failing, text, fail, shim, EINVAL),
                               [it for it in range(1, count + 1)
                                if it == count or calls_of(text)[it - 1] == "flush ."])
            print(f"{len(told)} calls failed, each told: {', '.join(told)}", flush=True)


# ---- texts


def broken(text):
    """The text cut behind each octet, and with each octet changed."""
    for place in range(len(text)):
        yield text[:place]
        for octet in {chr(ord(text[place]) ^ 1), chr(ord(text[place]) ^ 32), *"\0\r\n.\xff"}:
            if octet != text[place]:
                yield text[:place] + octet + text[place + 1 :]


def checked(source, name, text):
    """What `check` says of a copy of this folder whose file of this name has this text."""
    with tempfile.TemporaryDirectory() as folder:
        for it in source.iterdir():
            (Path(folder) / it.name).write_bytes(it.read_bytes())
        (Path(folder) / name).write_bytes(text.encode("latin-1"))
        return run(("check", folder), "")


def check_files(tries):
    """Each file of a configuration is broken: it is fine, or its fault is told with its line."""
    source = ROOT / "examples/one-buffer"

    def check(name, text):
        ran = checked(source, name, text)
        is_fine = ran.status in (0, 4) and ran.out.startswith("ok: ")
        fault = r"(cycbuff|storage|relay)\.conf:\d+: \d+ \w+.*\n"
        is_told = ran.status == 2 and re.fullmatch(fault, ran.out + ran.err)
        if not (is_fine or is_told):
            raise Wrong(f"{name}: {text!r}: {ran}")

    for name in ("cycbuff.conf", "storage.conf", "relay.conf"):
        whole = (source / name).read_text("latin-1")
        count = len(tries.each(functools.partial(check, name), broken(whole)))
        print(f"{name}: {count} broken files, each checked", flush=True)


def part_of(lines):
    """The names that the lines of a part say: of buffers, of groups, each with its buffers, and of feeds."""
    kinds = {"buffer": [], "group": [], "feed": []}
    for kind, *rest in lines:
        if kind not in kinds or not rest or (kind != "group" and len(rest) != 1):
            return None
        kinds[kind].append(rest if kind == "group" else rest[0])
    return kinds


def names_of(text):
    """What a text of names says (docs/FORMATS.md, Names file): the number of its stop, the names of that,
    where they are known, and those of later ones; None of any other text."""
    *lines, last = text.split("\n")
    words = [[it for it in line.removesuffix("\r").split(" ") if it] for line in lines]
    marks = [at for at, it in enumerate(words) if it and it[0] in ("at", "after")]
    if last or not all(words) or not marks or marks[0]:
        return None
    parts = [words[at:end] for at, end in zip(marks, [*marks[1:], len(words)])]
    kinds, stops = [it[0][0] for it in parts], [" ".join(it[0][1:]) for it in parts]
    if kinds not in (["after"], ["at", "after"]):
        return None
    if not all(re.fullmatch("[0-9]+", it) for it in stops) or len({int(it) for it in stops}) != 1:
        return None
    said = [part_of(it[1:]) for it in parts]
    if int(stops[0]) >= 2**64 or None in said:
        return None
    return int(stops[0]), said[0] if len(said) == 2 else None, said[-1]


def changed_by(text, stop, own, waiting, turns):
    """The lines by which `check` says what this text of names changes, where of the history of this
    stop so many tokens wait in each feed, groups are at these turns, and the configuration has these
    own names; None where it refuses them."""
    if not text:
        # An empty file counts as none.
        return []
    said = names_of(text)
    if said is None:
        return None
    known = said[1] if stop == said[0] else said[2] if stop > said[0] else None
    if known is None:
        return []
    if len(known["feed"]) != len(waiting) or len(known["group"]) != len(turns):
        return None
    if any(turn >= len(group) - 1 for turn, group in zip(turns, known["group"])):
        return None
    lines = [f"changed feed={it} new" for it in own["feed"] if it not in known["feed"]]
    lines += [f"changed feed={it} gone waiting={count}" for it, count in zip(known["feed"], waiting)
              if it not in own["feed"]]
    groups, others = ([it[0] for it in names["group"]] for names in (own, known))
    lines += [f"changed group={it} new" for it in groups if it not in others]
    return lines + [f"changed group={it} gone" for it in others if it not in groups]


def check_names(tries):
    """The names of a relay that was stopped are broken: they are refused, or `check` says what they
    change."""
    with tempfile.TemporaryDirectory() as name:
        source = Path(name) / "relay"
        source.mkdir()
        relay = Served(source, served_folder(source, 4))
        if not relay.take("a", 1) or relay.ends() != (0, []):
            raise Wrong("no relay was served and stopped to check")
        own = {"feed": ["p1"], "group": [["G", "A"]]}

        def check(text):
            ran = checked(source, "relay.names", text)
            lines = changed_by(text, 1, own, [0], [0])
            front = "ok: 1 buffers, 1 groups, 1 classes, 1 peers, 1 feeds\n"
            told = "relay.hist: 5 BadHistory names\n"
            if lines is None:
                expected = Ran(4, f"{front}would not start: {told}", told)
            else:
                expected = Ran(0, front + "".join(f"{it}\n" for it in lines) + "relay: stopped\n", "")
            if ran != expected:
                raise Wrong(f"names {text!r}: {ran}, not {expected}")
            return lines is not None

        part = "buffer A\ngroup G A\nfeed p1\n"
        whole = f"at 1\n{part}after 1\n{part}"
        taken = tries.each(check, broken(whole))
        taken += tries.each(check, broken(f"after 0\n{part}"))
    print(f"names: {len(taken)} broken texts, {sum(taken)} taken, each checked", flush=True)


def check_tokens(tries):
    """A token is broken: no other text than a token's is taken for one."""

    def check(text):
        ran = run(("token", text), "")
        parts = re.fullmatch("@([0-9A-F]{2})([0-9A-F]{2})" + "([0-9A-F]{8})" * 3 + "@", text)
        if parts:
            names = ("class", "buffer", "cycle", "first", "length")
            told = " ".join(f"{n} {int(it, 16)}" for n, it in zip(names, parts.groups()))
            is_right = ran == Ran(0, told + "\n", "")
        else:
            is_right = ran.status != 0 and ran.status > 0
        if not is_right:
            raise Wrong(f"token {text!r}: {ran}")

    texts = (it for it in broken("@01000000000200000003000000A4@") if "\0" not in it)
    print(f"token: {len(tries.each(check, texts))} broken tokens, each checked", flush=True)


def without_path(lines):
    """The lines of a block, unstuffed, without the Path."""
    plain = [it[1:] if it.startswith(".") else it for it in lines]
    return [it for it in plain if not it.lower().startswith("path:")]


def stored_as_sent(stream, told):
    """Where the article was accepted, it comes back as it was sent, but for its Path."""
    if "239 <a@x>" not in told:
        return True
    if "220 0 <a@x>" not in told:
        return False
    back = told[told.index("220 0 <a@x>") + 1 :]
    block = stream[: stream.index("\r\n.\r\n")].split("\r\n")
    return without_path(back[: back.index(".")]) == without_path(block)


def check_articles(tries):
    """A(a, 1) is broken: it is refused, or comes back as it was sent."""
    asks = "ARTICLE <a@x>\r\n", "\r\n.\r\nARTICLE <a@x>\r\n"

    def check(text):
        pieces = ["TAKETHIS <a@x>\r\n" + text, *asks]
        raws = [f"raw 1 {it.encode('latin-1').hex()}" for it in pieces]
        rounds = f"rounds 20 {MOMENT}"
        ran = run((), "\n".join(("open 1 p1", raws[0], rounds, *raws[1:], rounds)) + "\n")
        told = told_to(1, ran)
        if ran.status != 0 or not stored_as_sent(text + "".join(asks), told):
            raise Wrong(f"article {text!r}: {ran}")
        return "239 <a@x>" in told

    kept = tries.each(check, broken("".join(f"{it}\r\n" for it in drills.article("a", 1))))
    print(f"article: {len(kept)} broken articles, {sum(kept)} accepted, each told", flush=True)


def texts(tries):
    """Configurations, names, a token and an article are broken at each octet."""
    check_files(tries)
    check_names(tries)
    check_tokens(tries)
    check_articles(tries)


KINDS = {
    "memory": memory,
    "calls": calls,
    "devices": devices,
    "files": files,
    "flushes": flushes,
    "texts": texts,
}


class Tries:
    """Which faults are made, how many at a time, and how many were made."""

    def __init__(self, every, lanes):
        self.every, self.lanes, self.made = every, lanes, 0

    def each(self, make, faults):
        """What comes of each of these faults that is made, in their order."""
        with ThreadPoolExecutor(self.lanes) as pool:
            came = list(pool.map(make, islice(faults, 0, None, self.every)))
        if not came:
            raise Wrong("there is no fault to be made: the library or the row has lost it")
        self.made += len(came)
        return came

    def tell(self, came, what):
        """Prints how many were made, in the place of the #, and what came of them."""
        ways = ", ".join(f"{came.count(way)} {way}" for way in sorted(set(came)))
        print(f"{what.replace('#', str(len(came)), 1)}: {ways}", flush=True)


def options(about):
    about.add_argument("--every", type=int, default=1, metavar="N", help="makes each Nth fault")
    about.add_argument("--lanes", type=int, default=1, metavar="L", help="how many at a time")
    about.add_argument("what", choices=KINDS)


def main(given):
    tries = Tries(given.every, given.lanes)
    try:
        KINDS[given.what](tries)
    except Wrong as wrong:
        sys.exit(f"WRONG: {wrong}")
    if not tries.made:
        sys.exit("WRONG: no fault was made")
    print(f"{tries.made} faults made, each answered as it has to be")
