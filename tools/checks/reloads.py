"""Reloads `cnrelay serve` again and again while peers send and take, and checks that nothing is lost.

    tools/check reloads [--count N] [--articles N]

Four peers send so many articles each (5,000) by TAKETHIS, sixteen at a time; where a connection ends they come again at
once, and send what wasn't answered. A fifth takes from its feed meanwhile. Every second the lines of relay.conf are
written in another order, with a peer and its feed more or fewer, and `cnrelay reload` has the relay go on with them, so
many times (10). Then

- each reload was told that it is so, and no connection was ever refused: one that came meanwhile was greeted;
- each article was answered that it is kept, or, where an earlier answer was lost, that it is known, and is there;
- the fifth has been given each article, by serials from 1 on without a hole.

Prints a line for each reload, with the seconds that it took; ends with status 1 at the first thing that is wrong. Goes
over 127.0.0.1 alone.
"""
import threading
import time

from lib import ports
from lib.nntp import Gone, Peer, dated
from lib.program import PROGRAM
from lib.relay import Started, asked, configure
from lib.trying import Wrong, room, waits_until

PATIENCE = 120
SENDERS = ("p1", "p2", "p3", "p4")
TAKER, GUEST = "p5", "p6"
WINDOW = 16


class Site:
    """The folder of a relay, and the program that serves it."""

    def __init__(self, folder):
        self.folder, self.first = folder, ports.free(6)
        self.configure(0)
        self.relay = Started([PROGRAM, "serve", folder])
        waits_until(lambda: ports.listening().issuperset(range(self.first, self.first + 5)),
                    lambda: f"it doesn't listen: {self.relay.told()}", PATIENCE)

    def port(self, peer):
        return self.first + int(peer[1]) - 1

    def configure(self, number):
        """Writes the configuration of this reload."""
        peers = [*SENDERS, TAKER, *([GUEST] if number % 2 else [])]
        feeds = [f"feed {TAKER} 65536 *", "feed p1 64 *", *([f"feed {GUEST} 16 *"] if number % 2 else [])]
        turn = number % len(feeds)
        configure(self.folder, ["own relay.example", "cutoff 4000000000", "bind 127.0.0.1",
                                *(f"peer {it} {it}.example {self.port(it)}" for it in peers),
                                *feeds[turn:], *feeds[:turn]],
                  [f"{it}:{it.lower()}.buf:32768" for it in "AB"], [f"G:{'A,B' if number % 3 else 'B,A'}"], (("*", "G"),))

    def reload(self, number):
        """Has the relay go on with another configuration; the seconds that it took."""
        self.configure(number)
        begun = time.monotonic()
        done = asked("reload", self.folder, patience=PATIENCE)
        if (done.returncode, done.stdout) != (0, "reloaded\n"):
            raise Wrong(f"reload: {done.returncode}, {done.stdout!r}, {done.stderr!r}")
        return time.monotonic() - begun


def sent(name, number):
    one = f"<{name}.{number}@x>"
    return one, b"TAKETHIS %s\r\n%s.\r\n" % (one.encode(), dated(one, group="misc.test"))


def connected(site, name):
    """A connection; it may end before it is greeted, and then there is another, but it is never refused."""
    while True:
        try:
            return Peer(site.port(name), PATIENCE)
        except Gone as gone:
            if isinstance(gone.__cause__, ConnectionRefusedError):
                raise Wrong(f"a connection of {name} was refused") from None


class Load:
    """The peers, each in a thread."""

    def __init__(self, site, count):
        self.site, self.count, self.over, self.wrong = site, count, threading.Event(), []
        # How often each article was answered 239, by its id, and those that were answered at all.
        self.kept, self.known = {}, set()
        # The tokens that were taken, by their serials, and how many connections there were.
        self.taken, self.calls = {}, 0
        self.senders = [threading.Thread(target=self.run, args=(self.send, it)) for it in SENDERS]
        self.taker = threading.Thread(target=self.run, args=(self.take, TAKER))
        for it in (*self.senders, self.taker):
            it.start()

    def run(self, work, name):
        try:
            work(name)
        except Exception as wrong:  # pylint: disable=broad-except
            self.wrong.append(wrong if isinstance(wrong, Wrong) else Wrong(f"{name}: {wrong!r}"))

    def send(self, name):
        left = [sent(name, number) for number in range(self.count)]
        while left:
            link = connected(self.site, name)
            self.calls += 1
            try:
                while left:
                    link.send(b"".join(octets for _, octets in left[:WINDOW]))
                    for one, _ in left[:WINDOW]:
                        self.note(one, link.line())
                        left.pop(0)
                    time.sleep(0.04)
                link.close()
            except Gone:
                pass

    def note(self, one, line):
        """Notes how an article was answered."""
        if line == f"239 {one}":
            self.kept[one] = self.kept.get(one, 0) + 1
        elif line.startswith("400 "):
            raise Gone
        elif line != f"439 {one}":
            raise Wrong(f"{one} was answered {line!r}")
        self.known.add(one)

    def take(self, name):
        while not self.over.is_set() or len(self.taken) < self.count * len(SENDERS) and not self.wrong:
            link = connected(self.site, name)
            try:
                while not self.wrong:
                    link.send(b"XTAKE 100\r\n")
                    link.expect("290")
                    passed, *lines = link.block()
                    if passed != "0":
                        raise Wrong(f"the feed passed {passed}")
                    for serial, token in (line.split() for line in lines):
                        if int(serial) in self.taken:
                            raise Wrong(f"serial {serial} was taken twice")
                        self.taken[int(serial)] = token
                    if not lines and self.over.is_set():
                        return
                    time.sleep(0.01)
            except Gone:
                pass

    def see(self):
        if self.wrong:
            raise self.wrong[0]

    def end(self):
        """Waits until all is sent and taken."""
        for it in self.senders:
            it.join(PATIENCE)
        self.over.set()
        self.taker.join(PATIENCE)
        self.see()


def check(site, load):
    """Looks that all is there."""
    total = load.count * len(SENDERS)
    if len(load.known) != total or any(count > 1 for count in load.kept.values()):
        raise Wrong(f"{len(load.known)} of {total} articles are kept, some twice: {max(load.kept.values())}")
    link = connected(site, "p1")
    for one in sorted(load.known):
        link.send(f"STAT {one}\r\n".encode())
        if (line := link.line()) != f"223 0 {one}":
            raise Wrong(f"STAT {one}: {line!r}")
    link.close()
    if sorted(load.taken) != list(range(1, total + 1)) or len(set(load.taken.values())) != total:
        raise Wrong(f"{len(load.taken)} of {total} tokens were taken, {len(set(load.taken.values()))} of them different")


def options(about):
    about.add_argument("--count", type=int, default=10, metavar="N", help="reloads, 10 without it")
    about.add_argument("--articles", type=int, default=5_000, metavar="N", help="articles of each peer, 5,000 without it")


def main(given):
    with room("reloads") as folder:
        site = Site(folder)
        load = Load(site, given.articles)
        try:
            for number in range(1, given.count + 1):
                time.sleep(1)
                load.see()
                print(f"reload {number}: {site.reload(number):.2f} s", flush=True)
            load.end()
            check(site, load)
            print(f"{given.count} reloads: {len(load.known)} articles sent over {load.calls} connections, each kept "
                  f"once, and taken", flush=True)
            return 0
        finally:
            load.over.set()
            load.wrong.append(Wrong("over"))
            site.relay.kill()
