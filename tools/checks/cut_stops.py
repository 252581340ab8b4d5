"""Kills `cnrelay serve` at each call by which it writes, from its start to the end of its stop, and starts it again.

A relay of two buffers is stopped once with an article
<a@x>. From there it is started, given <b@x>, and stopped, and on the way killed at the n-th call that writes, flushes,
renames or takes away a file, for each n; of what that call was to write the first half is written, of a buffer's file
whole blocks of it. The next start has to come up, with <a@x>, and with <b@x> where that was answered 239, and to

- start from the stop before, where no buffer was opened;
- recover, once one was, first without and then with <b@x>;
- start from the new stop, with both articles, once relay.hist has its place;

in this order. The same with a repair: a relay that was killed with both articles is started, and killed at each such
call until it serves. Whatever that call was, the next start has both; it recovers, but where relay.hist had its place
and no buffer was opened yet. Last, a relay that was never stopped is killed so from its first start on; there the heads of
both buffers have to be there, else `relay.hist: 5 BadHistory` is told, and `--fresh` begins.

Each life that is cut off has the lines of its two feeds in another order than what was left, and the start behind it
in the first order again: the feed that may have the articles has them all, and the other none.

What is there is fetched and compared, and each start is stopped in order. The calls are counted, and the program killed,
by a small library that stands in front of the C library. Prints a line for each call, and at the end `N calls cut off, each start as it has to be`; at the first wrong answer it shows that
and ends with status 1.
"""

import re
import shutil

from lib import faults, ports
from lib.nntp import block, kept
from lib.relay import Life, configure
from lib.trying import Wrong, room as room_of

BAD_HISTORY = "relay.hist: 5 BadHistory missing"


def copy(source, folder):
    """Makes this folder a copy of that of a relay, without the socket."""
    shutil.rmtree(folder, ignore_errors=True)
    shutil.copytree(source, folder, ignore=shutil.ignore_patterns("control"))


def move(folder):
    """Interchanges the last two lines of relay.conf, those of the feeds."""
    *lines, one, other = (folder / "relay.conf").read_text().splitlines()
    (folder / "relay.conf").write_text("".join(f"{it}\n" for it in (*lines, other, one)))


def is_recovered(relay):
    return "\nrecovering " in "\n" + "\n".join(relay.told())


class Tries:
    """The folder of a relay in each of its states, and what comes of calls that are cut off there."""

    def __init__(self, room):
        self.room, self.shim, self.made = room, faults.built(room), 0
        self.port, self.taker = ports.free(), ports.free()
        self.empty, self.before, self.left = room / "empty", room / "before", room / "left"
        self.empty.mkdir()
        configure(self.empty, ["own relay.example", "cutoff 4000000000", f"peer p1 one.example {self.port}",
                               f"peer p2 two.example {self.taker}", "feed p1 3 *", "feed p2 2 *"],
                  ("A:a.buf:4", "B:b.buf:4"), ("G:A,B",))
        shutil.copytree(self.empty, self.before)
        self.life(self.before, "a")
        shutil.copytree(self.before, self.left)
        relay = Life(self.left, self.port)
        self.take(relay, "b")
        relay.kill()

    def take(self, relay, one):
        """Whether it answers that this article is kept."""
        told = relay.ask(f"TAKETHIS <{one}@x>\r\n{block(one, 1)}")
        return told is not None and told.startswith(f"239 <{one}@x>\r\n")

    def life(self, folder, one, how=None):
        """A life in which this article is sent: whether that was kept, and its end."""
        relay = Life(folder, self.port, faults=how)
        is_kept = self.take(relay, one)
        return is_kept, relay.ends()

    def start(self, folder, one, how=None):
        """A start that is killed as soon as it serves; whether it was, and its end."""
        relay = Life(folder, self.port, faults=how)
        is_served = relay.ask("") is not None
        relay.kill()
        return is_served, relay.ended()

    def has(self, relay, one):
        """Whether the relay has this article, whole."""
        if (found := relay.has(one, kept(one, 1))) is None:
            raise Wrong(f"<{one}@x> isn't told of")
        return found

    def count(self, live, source):
        """How many calls such a life makes from there."""
        folder, told = self.room / "counted", self.room / "told"
        copy(source, folder)
        move(folder)
        is_done, ended = live(folder, "b", faults.meeting(self.shim, CUT_TOLD=told))
        if not is_done or ended[0] not in (0, -9) or ended[1]:
            raise Wrong(f"it ended with {ended}")
        return int(told.read_text())

    def cut(self, live, source, number):
        """What comes of a start behind a life that was killed at this call."""
        folder = self.room / "cut"
        copy(source, folder)
        move(folder)
        is_kept, ended = live(folder, "b", faults.meeting(self.shim, CUT_AT=number))
        if ended[0] != -9:
            raise Wrong(f"it ended with {ended}")
        move(folder)
        return self.started(folder, is_kept)

    def started(self, folder, is_kept):
        """How the next start goes, and what it has; of a start that is refused what it tells."""
        relay = Life(folder, self.port)
        if relay.ask("") is None:
            status, told = relay.ended()
            if status != 4 or len(told) != 1:
                raise Wrong(f"the start ended with {status}: {told}")
            fresh = Life(folder, self.port, words=("--fresh",))
            if self.has(fresh, "a") or fresh.ends() != (0, []):
                raise Wrong(f"{told[0]}, and --fresh doesn't serve")
            return told[0]
        has = "".join(one for one in "ab" if self.has(relay, one))
        self.check_feeds(relay, len(has))
        status, told = relay.ends()
        if status or told:
            raise Wrong(f"what went on didn't stop: {told}")
        if is_kept and "b" not in has:
            raise Wrong("<b@x> was answered 239 and is lost")
        return f"{'recovered' if is_recovered(relay) else 'started'} {has}".rstrip()

    def check_feeds(self, relay, count):
        """Refuses feeds other than of p2 with so many articles, and of p1, which has sent them, with none."""
        for port, wanted in ((self.taker, count), (self.port, 0)):
            told = relay.ask("XTAKE 9\r\n", port=port)
            serials = [int(it) for it in re.findall(r"(?m)^(\d+) @[0-9A-F]{28}@\r$", told or "")]
            if serials != list(range(1, wanted + 1)) or not (told or "").startswith("290 Queue follows\r\n0\r\n"):
                raise Wrong(f"of {wanted} articles a feed has {told!r}")

    def each(self, name, live, source, form):
        """Cuts off each call of such a life from there: what comes of them is of this form."""
        total, came = self.count(live, source), []
        for number in range(1, total + 1):
            came.append(self.cut(live, source, number))
            print(f"{name}, call {number} of {total}: {came[-1]}", flush=True)
        if not re.fullmatch(form, "".join(f"{one};" for one in came)):
            raise Wrong(f"the starts behind {name} come in another order")
        self.made += total


def main(_):
    with room_of("cuts") as room:
        tries = Tries(room)
        tries.each("a life", tries.life, tries.before,
                   r"(started a;)+(recovered a;)+(recovered ab;)+(started ab;)+")
        tries.each("a repair", tries.start, tries.left,
                   r"(recovered ab;)+(started ab;)+(recovered ab;)*")
        tries.each("a first life", tries.life, tries.empty,
                   rf"(started;)+({BAD_HISTORY};)*(recovered;)+(recovered b;)+(started b;)+")
    print(f"{tries.made} calls cut off, each start as it has to be")
