"""Plays the rows of tools/rows at the program, over real files and sockets, and compares.

    tools/check rows [--lanes N] [NAME ..]

Each file of tools/rows has rows: what clients send and have to be sent, which files there are
before and what they have to hold afterwards, what the program has to print and its status. With
NAMEs those rows alone are played whose names begin so. Prints a line for each row, and at the end
`N rows went right, M wrong`; ends with status 1 if any went wrong. What isn't there within two and
a half minutes (--patience) never comes. Several rows are played side by side, each in a folder of
its own, on ports of 127.0.0.1 that were free; where another program was faster to have one of them
the row is played again.

A row begins with `== NAME: WHAT IT SHOWS`. Its other lines are done one after the other. Empty
lines and lines that begin with `#` are skipped; `-- TEXT` says in a failure where it was.
Where its first line is `needs IPv6` it is left out on a machine that has none.

    each A-B LINE       LINE for each number from A to B, with the number in the place of each #; of
                        two of them in a line the first's stands in the place of each %

The folder of the configuration is one of K1 (docs/FORMATS.md), with ports p1 and p2 of its peers
and a cutoff that reaches all example articles, but for what these say before the program starts:

    K3                  it is K3: buffers A, B and C of 8, 10 and 6 blocks, the groups G of C and A,
                        by turns, for misc.* and H of B for other.*, peers p1, p2 and p3, and the
                        feeds p3 of 3 tokens of other.*, then p2 of 2 of all
    cycbuff.conf LINE   in place of K1's lines; so is storage.conf LINE
    relay.conf LINE     in place of the line that has the same first word (of peer, feed and
                        connections: the same two words), else behind the others, as each of allow
                        and bind
    without WORD ..     the lines of relay.conf that begin with these words are left out
    writes              it is written anew by such lines, with other ports, while a relay runs
    rewrites            the same, with the ports that it has
    nobody              the program runs as nobody, where root runs this
    threads N           the program may have so many threads, where root runs this
    limit N             no file of the program grows beyond N times 512 octets
    closed N ..         the relay begins without these of its standard streams
    full                its standard output is a pipe that takes nothing, until a line `flows`
    takes N             standard output takes N octets of each program that starts from here on
    unseeded            the system gives none of these any random numbers; by `unseeded N` it gives
                        them to each program N times
    late MS             each thread of these begins so many milliseconds after it was asked for
    unmoded             these can't set the rights of any file
    unlocked            these can't lock any file
    narrow              who asks one of these at its socket is told few octets at once
    clock S             from here on the program's clock stands S seconds behind the first of 1970
    later S             from here on the clock that never goes back is S seconds ahead

Files of this folder:

    file NAME OCTETS    is made with these octets
    folder NAME         so is a folder; a pipe by `pipe NAME`
    link NAME NEW       a second name; a symbolic link by `symlink NAME NEW`
    mode 444 NAME       may be read and not written
    cut NAME N          ends behind so many octets
    poke NAME AT OCTETS has these octets from this place on
    remove NAME         is taken away
    holds NAME AT OCTETS    has to have them there; `holds NAME N end`: it has to have N octets;
                        `holds NAME mode 600`: it has to be open to those alone
    names LINE, LINE .. relay.names has to hold these lines, each ended by LF, and nothing else,
                        soon where the relay goes on; so has relay.ages by `ages LINE, LINE ..`
    missing NAME        nothing of this name stands there, soon where the relay goes on

The program:

    serves [WORD ..]    `cnrelay serve DIR WORD ..` is started, and listens on its ports
    ends                it has to end by itself. By `--sessions N` each port is first given what it
                        still lacks of N connections, but where `cnrelay stop` was run
    kills               it is killed
    tells N LINE        it has told N such lines of what happens, soon
    pulses S            from here on it is stopped and goes on again, each S seconds
    rests S             in the next S seconds it takes a fifth of a processor's time at most
    crowded             from here on the machine has no descriptor for a connection of a peer;
                        `crowded no more`: it has
    files N             from here on it may have N files more than it has; `files`: any number again
    octets N            from here on none of its files grows beyond N octets
    stall writes FILE   from here on each write of this buffer's file waits; so does each read by
                        `stall reads FILE`, and each flush by `stall flushes FILE`; `stalled`: one
                        has come and waits; `release`: they go on; with a number behind FILE so many
                        go by before
    pause WHOSE N MS    from here on a thread that gives way to others N times in a row pauses for so
                        many milliseconds then; those of `sessions`, `writers` or `others`, by what
                        they did last; `pauses`: one has come to that
    fails K             the Kth read or write of a buffer's file from here on fails, and no other
    refuses N           the next N flushes of buffers' files fail
    unlogged N          so do those of relay.log
    flushes FILE ..     the next flushes of buffers' files, behind those that earlier such lines have
                        spoken of, are of these files, in this order, soon
    unflushed S         behind those none is flushed for S seconds
    tasks N             it has N threads, soon
    peers take N        from here on peers take N octets of it together, and then none; by `peers
                        break N` their connections break then; by `peers hang` each try to send them
                        something waits a tenth of a second in vain; `peers octets`: they give and
                        take an octet at a time, each behind an interrupted try; `peers take`: all
                        again
    runs WORD ..        `cnrelay WORD ..` is run to its end
    NAME starts WORD .. it is started, and has to have ended at `NAME ends`
    NAME on S           it goes on for S seconds

Below `ends` and `runs` stand the lines that it has to print, and no others: `| LINE` on standard
output, `! LINE` on standard error, `status N` where that isn't 0 (`status N M`: one of these);
`anything` takes whatever is printed. Lines that tell what happens while it serves (`serving ..`,
`closed ..`) may stand on standard error besides, but for `counted ..`; `~ LINE` has to stand among
these, and by `most N LINE` at most N times.

Clients, by names of their own:

    NAME calls PORT     connects with a port p1, p2 .., at 127.0.0.1 or, by PORT@ADDRESS, at another
                        address, or with a socket ./FILE of the folder; by `from ADDRESS` behind a
                        port it comes from another address of 127.0.0.0/8
    NAME misses PORT    can't connect with the port at 127.0.0.1 or, by PORT@ADDRESS, at another
                        address
    NAME tries PORT WHO connects with a port as soon as that listens, unless the program WHO ended
    NAME > LINE         sends the line. What stands in a row is sent in one write
    NAME >> OCTETS      the same without the end of a line
    NAME octets LINE    sends it an octet at a time, a millisecond apart
    NAME fills LINE     sends it again and again, until no more goes for half a second
    NAME floods OCTETS  sends them, as many as are taken
    NAME streams ID K   from here on sends TAKETHIS with A(ID0, K), A(ID1, K) .., without a pause
    NAME < LINE         is sent this line, or these octets, next
    NAME counts N       is sent N lines next, whose codes the row counts
    times N CODE        N of the lines that were counted so far had this code
    NAME ended          then the connection has ended, in order
    NAME gone           it ends, in order or not, whatever is sent before
    NAME unheard        the same, and nothing is sent before
    NAME gone A-B       the same, no sooner than A seconds from here and no later than B
    NAME silent S       is sent nothing for S seconds
    NAME streamed       its stream has ended; what it was answered was 239 for each in turn
    NAME drinks N       from here on reads N octets every fiftieth of a second, until the end; by
                        `sips N` with little room for what has come
    NAME closes         closes; by `shuts` its own side alone, by `resets` as a machine that fails

Any line may have `in S ` before it: it may take S seconds. `waits S` waits.

In LINE and OCTETS:

    {N TEXT}            TEXT so many times
    {block ID K}        the lines of A(ID, K) and the dot behind them (docs/FORMATS.md); a third
                        word is its newsgroup in the place of misc.test
    {kept ID K}         A(ID, K) as it is kept from p1; {kept ID K p2} from p2
    {zero N}, {fill N B}, {hex 00 FF}, {crlf}, {lf}     octets: N times 0, N times B, by their digits
    {p1}, {dir}         the number of a port, the folder; {taken} a port that another program has
    {pipe}              the number of a file of the program that is a pipe nobody writes
    {now}               in what is sent to a client: the clock's DATE, to a minute or so
    {WORD="TEXT"}       stands as it is
    {*}                 in what is printed: a number and the spaces before it; {<N}: one below N;
                        {>N}: no less than N
    {from NAME}         the same, no less than the 239s that this client's stream was answered
    {right N NAME}      a number that the row has counted, right in N places
"""

import os
import re
import resource
import shutil
import signal
import socket
import sys
import tempfile
import time
from concurrent.futures import ThreadPoolExecutor
from pathlib import Path

from lib import faults
from lib.program import ROOT
from lib.relay import Started
from lib.trying import room
from rows.row import Printed, Row, Taken

ROWS = ROOT / "tools/rows"
# How often a row is played anew where another program was faster to have a port.
MOST_CHOICES = 8

# The first line of a row for machines that have IPv6.
IPV6 = "needs IPv6"


def has_ipv6():
    """Whether a socket can listen at ::1."""
    try:
        with socket.socket(socket.AF_INET6) as it:
            it.bind(("::1", 0))
    except OSError:
        return False
    return True


def written_out(line):
    """The line, for each number where it begins so."""
    each = re.fullmatch(r"each (\d+)-(\d+) (.*)", line)
    if not each:
        return [line]
    sign = "%" if each[3].startswith("each ") else "#"
    places = range(int(each[1]), int(each[2]) + 1)
    return [it for place in places for it in written_out(each[3].replace(sign, str(place)))]


def steps_of(lines):
    """The steps of a row: the number of the line, the line, and what a program has to print."""
    steps = []
    for number, line in lines:
        for it in written_out(line):
            mark, _, rest = it.partition(" ")
            wanted = steps[-1][2] if steps else None
            if mark in ("|", "!", "~", "most", "status", "anything"):
                if mark == "anything":
                    wanted = wanted._replace(out=None, err=None)
                elif mark == "status":
                    wanted = wanted._replace(statuses=[int(it) for it in rest.split()])
                elif mark == "most":
                    wanted.most.append(rest.split(" ", 1))
                else:
                    getattr(wanted, {"|": "out", "!": "err", "~": "events"}[mark]).append(rest)
                steps[-1] = (*steps[-1][:2], wanted)
            else:
                steps.append((number, it, Printed([], [], [], [], [0])))
    return steps


def rows_of(path):
    """The rows of a file, by their names, in their order."""
    rows, lines = [], []
    for number, line in enumerate(path.read_text("latin-1").split("\n"), 1):
        if line.startswith("== "):
            lines = []
            rows.append((line[3:], lines))
        elif line and not line.startswith("#") and rows:
            lines.append((number, line))
    return [(f"{path.name}: {name}", steps_of(lines)) for name, lines in rows]


def play(name, steps, given):
    """Plays a row, again where a port was taken, and prints what came of it."""
    begun = time.monotonic()
    for _ in range(MOST_CHOICES):
        folder = Path(tempfile.mkdtemp(dir=given.room))
        try:
            wrong = Row(steps, given, folder).play()
        except Taken:
            continue
        finally:
            shutil.rmtree(folder, ignore_errors=True)
        took = f"{time.monotonic() - begun:.1f} s"
        print(f"WRONG {name}\n    {wrong}" if wrong else f"{name} ({took})", flush=True)
        return wrong is None
    print(f"WRONG {name}\n    its ports were taken {MOST_CHOICES} times", flush=True)
    return False


def chosen(names):
    """The rows that the machine can play, of which the names begin so; all where there are none."""
    rows = []
    for path in sorted(ROWS.glob("*.txt")):
        rows += rows_of(path) or sys.exit(f"rows: there is no row in {path.name}")
    for name, steps in rows:
        if not steps:
            sys.exit(f"rows: there is no line in the row {name}")
    lacking = [] if has_ipv6() else [it for it in rows if it[1][0][1] == IPV6]
    for name, _ in lacking:
        print(f"left out, since the machine has no IPv6: {name}")
    rows = [(name, [it for it in steps if it[1] != IPV6])
            for name, steps in rows if (name, steps) not in lacking]
    for front in names:
        if not any(name.partition(": ")[2].startswith(front) for name, _ in rows):
            sys.exit(f"rows: there is no row whose name begins with {front}")
    return [it for it in rows if it[0].partition(": ")[2].startswith(tuple(names) or "")]


def options(about):
    about.add_argument("--lanes", type=int, default=4, metavar="N", help="so many side by side")
    about.add_argument("--patience", type=int, default=150, metavar="S",
                       help="seconds that an answer may take")
    about.add_argument("names", nargs="*", metavar="NAME", help="rows whose names begin so")


def main(given):
    rows = chosen(given.names)
    # Each client of a row is a file of this program, and each connection one of the relay.
    most = resource.getrlimit(resource.RLIMIT_NOFILE)[1]
    resource.setrlimit(resource.RLIMIT_NOFILE, (most, most))
    with room("rows") as given.room:
        given.library = faults.built(given.room)

        def stop(*_):
            for _ in range(20):
                for it in list(Started.running):
                    it.process.kill()
                shutil.rmtree(given.room, ignore_errors=True)
                if not given.room.exists():
                    break
                time.sleep(0.05)
            os._exit(143)

        signal.signal(signal.SIGTERM, stop)
        with ThreadPoolExecutor(given.lanes) as pool:
            came = list(pool.map(lambda it: play(*it, given), rows))
    print(f"{came.count(True)} rows went right, {came.count(False)} wrong")
    return 0 if came and all(came) else 1
