"""Kills `cnrelay serve` again and again while peers send and readers read, and checks what each start brings back.

    tools/check kills [--lives N] [--seconds S] [--seed SEED] [--power [--sync N]]

A relay of three buffers in two groups, four peers and
three feeds lives N lives (50), each S seconds at most (0.6). Four peers send meanwhile, by TAKETHIS, by CHECK and
TAKETHIS, by IHAVE, and articles of up to sixty blocks; two readers fetch what is there, and take from feeds. Then it is
killed by SIGKILL: at a random moment; right after it was started, so in the middle of a repair; in the middle of a
stop, or of a reload; or after it was halted by SIGSTOP. Some lives are ended by SIGTERM, some stopped in order. Each start has the
lines of feeds, and those of groups, in another order; it has to come up by itself, and then

- an article that was answered 239 or 235 in any life is there by its message-id (STAT 223), unless its buffer has
  passed it since; its text is whole, and CHECK of it is answered 438;
- what isn't there was passed by its buffer's front, which its token and `cnrelay report` tell; an article of which no
  token came before it was gone is wrong;
- each feed that may have an article has given it by XTAKE, in this life or an earlier one, and none that may not;
- where it was recovered each feed's serials begin at 1 without a hole, after a stop they go on; an id that was refused
  before a stop is refused from then on;
- `report` has fronts that are no less than the end of each article that is there, and counts at least as many articles
  as were answered; it counts each id that is there.

With --power each kill is a power cut: of what was written to the buffers' files since they were last flushed each block
of 512 octets is lost or not, at random. Then an article may be lost besides that no start has had yet; all else holds.
The writes and flushes are told by a small library that stands in front of the C library. With --sync N the relay has `sync N`: an article that was answered before a flush of its
buffer's file began, which then answered that it was done, isn't lost; a life lasts half a second longer than that.

Random choices come from the seed, which is printed; how far a life gets doesn't. Prints a line for each life, and at
the end how many were killed, recovered, kept and passed; at the first wrong thing it shows that and ends with status
1, as it does where nothing was recovered or kept. Goes over 127.0.0.1 alone, and kills what it has started.
"""
import random
import re
import shutil
import signal
import subprocess
import sys
import tempfile
import threading
import time
from dataclasses import dataclass, field
from pathlib import Path

from lib import faults, ports
from lib.nntp import Gone, Peer
from lib.program import PROGRAM
from lib.relay import Started, asked, configure
from lib.trying import Wrong, waits_until

BLOCK = 512
# Seconds after which what is waited for never comes.
PATIENCE = 120
PEERS = ("p1", "p2", "p3", "p4")
# The octets of a text in a block, and the blocks of each buffer: two for a kilobyte.
CHUNK = 480
SIZES = {"A": 12_288, "B": 12_288, "C": 16_384}
GROUPS = ("kills.a.x", "kills.b.x")
# The files to which the articles of a group may go.
FILES = {"kills.a.x": ("a.buf", "b.buf"), "kills.b.x": ("c.buf",)}
# The peer of each feed, whether it may have an article of this group, and its ring.
FEEDS = {"p1": (lambda group: True), "p2": (lambda group: True), "p3": (lambda group: group == GROUPS[0])}
RING = 65_536
# How many articles a peer may send in a life: a buffer isn't to go round within one.
MOST = {"p1": 1_600, "p2": 800, "p3": 600, "p4": 120}
# How many articles that were seen in an earlier life are looked at anew at each start.
SAMPLE = 400


@dataclass
class Article:
    """An article that was sent."""

    name: str
    peer: str
    group: str
    sent: bytes
    stored: bytes
    # Whether it was answered that it is kept, and when.
    is_kept: bool = False
    kept_at: float = 0
    # Whether its buffer's file was flushed behind that.
    is_flushed: bool = False
    token: str = ""
    # The feeds that have given it.
    given: set = field(default_factory=set)
    # Whether it was seen to be gone.
    is_gone: bool = False
    # Whether it was looked at by a start after it was kept.
    is_seen: bool = False


def made(name, peer, group, blocks):
    """An article of this many blocks, about."""
    head = (f"From: a@x.example\r\nNewsgroups: {group}\r\nSubject: t\r\nMessage-ID: <{name}@x>\r\n"
            "Date: Fri, 01 Jan 2021 00:00:00 +0000\r\n\r\n")
    count = max(1, (CHUNK * blocks - len(head) - 120) // 64)
    body = "".join(f"{name} {line}".ljust(62, name[-1])[:62] + "\r\n" for line in range(count))
    path = f"{peer}.example!not-for-mail\r\n"
    return Article(name, peer, group, f"Path: {path}{head}{body}".encode(),
                   f"Path: relay.example!!{path}{head}{body}".encode())


class Site:
    """The folder of a relay, and the program that serves it."""

    def __init__(self, folder, is_power, sync):
        self.folder, self.sync = folder, sync
        # When the last flush of each file began that was done before the power failed.
        self.safe = {}
        self.shim, self.log, self.before = faults.built(folder) if is_power else None, folder / "log", {}
        self.first = ports.free(len(PEERS))
        self.relay = None
        self.lines = ["own relay.example", "cutoff 4000000000", "bind 127.0.0.1", *([f"sync {sync}"] if sync else []),
                      *(f"peer {it} {it}.example {self.port(it)}" for it in PEERS),
                      *(f"connections {it} 4" for it in PEERS)]

    def port(self, peer):
        return self.first + PEERS.index(peer)

    def order(self, choice):
        """Writes the lines of feeds, and those of groups, in any order."""
        feeds = [f"feed p1 {RING} *", f"feed p2 {RING} *", f"feed p3 {RING} kills.a.*"]
        feeds = choice.sample(feeds, len(feeds))
        groups = ["G:" + ",".join(choice.sample("AB", 2)), "H:C"]
        configure(self.folder, self.lines + feeds,
                  [f"{name}:{name.lower()}.buf:{blocks // 2}" for name, blocks in SIZES.items()],
                  choice.sample(groups, len(groups)), (("kills.a.*", "G"), ("kills.b.*", "H")))

    def start(self, choice):
        """Starts it, and waits for nothing."""
        self.order(choice)
        how = None
        if self.shim:
            self.log.unlink(missing_ok=True)
            self.before = {it.name: bytearray(it.read_bytes()) for it in self.folder.glob("*.buf")}
            how = faults.meeting(self.shim, CUT_LOG=self.log)
        self.relay = Started([PROGRAM, "serve", self.folder], how, stdout=subprocess.DEVNULL)

    def told(self):
        return "\n".join(self.relay.told())

    def wait(self):
        """Waits until it answers."""
        def answered():
            if not self.relay.is_running():
                raise Wrong(f"the start ended with {self.relay.process.returncode}: {self.told()}")
            return self.report()

        return waits_until(answered, lambda: f"it doesn't answer: {self.told()}", PATIENCE)

    def report(self):
        """The lines of `report`; None where it isn't answered, or the relay is still repaired."""
        ran = asked("report", self.folder, patience=PATIENCE)
        lines = ran.stdout.splitlines()
        return lines if ran.returncode == 0 and lines[:1] != ["recovering"] else None

    def stopping(self):
        """Asks it to stop, and waits for nothing."""
        return Started([PROGRAM, "stop", self.folder])

    def reloading(self, choice):
        """Asks it to go on with its lines in another order, and waits for nothing."""
        self.order(choice)
        return Started([PROGRAM, "reload", self.folder])

    def stop(self):
        asker = self.stopping()
        status = self.relay.process.wait(PATIENCE)
        asker.process.wait(PATIENCE)
        if status:
            raise Wrong(f"a stop ended with {status}: {self.told()}")

    def kill(self):
        self.relay.kill()

    def cut(self, choice):
        """Has the power fail, where that is asked for: what wasn't flushed is lost, or not, block by block."""
        if not self.shim or not self.log.exists():
            return
        # Of each file what was written and isn't flushed, how much was flushed before that, and how much was
        # written where a flush began.
        writes, flushed, begun = {}, {}, {}
        self.safe = {}
        for kind, name, place, octets in calls_of(self.log.read_bytes()):
            disk = self.before.get(name)
            if disk is None:
                # A file that was made in this life is as long as it is now.
                disk = self.before[name] = bytearray((self.folder / name).stat().st_size)
            if kind == "B":
                begun[name, octets] = flushed.get(name, 0) + len(writes.get(name, ()))
            elif kind == "F":
                count = max(begun.pop((name, octets)) - flushed.get(name, 0), 0)
                for at, block in writes.get(name, [])[:count]:
                    disk[at : at + BLOCK] = block
                writes[name] = writes.get(name, [])[count:]
                flushed[name] = flushed.get(name, 0) + count
                self.safe[name] = max(self.safe.get(name, 0), float(octets.split()[1]))
            else:
                writes.setdefault(name, []).extend(
                    (place + at, octets[at : at + BLOCK]) for at in range(0, len(octets), BLOCK))
        share = choice.choice((0, 0.1, 0.5, 0.9, 0.99))
        for name, disk in self.before.items():
            for at, block in writes.get(name, ()):
                if choice.random() < share:
                    disk[at : at + BLOCK] = block
            (self.folder / name).write_bytes(disk)


def calls_of(log):
    """The calls that a log tells: kind, file, place and octets of each; the last may be cut off."""
    at = 0
    while (end := log.find(b"\n", at)) >= 0:
        kind, name, place, count = log[at:end].decode().split()
        at = end + 1 + int(count)
        if at > len(log):
            return
        yield kind, name, int(place), log[end + 1 : at]


class Load:
    """What goes on while a relay lives: peers that send, and readers."""

    def __init__(self, site, sent, life, seed):
        self.site, self.sent, self.life, self.seed = site, sent, life, seed
        self.lock, self.wrong = threading.Lock(), []
        # How many tokens were asked for that weren't given before the end.
        self.untaken = 0
        self.over = threading.Event()
        self.threads = [threading.Thread(target=self.run, args=(it,)) for it in (
            self.streams, self.checks, self.offers, self.large, self.reads, self.takes)]
        for it in self.threads:
            it.start()

    def end(self):
        """Waits for all of them, once the relay is gone."""
        self.over.set()
        for it in self.threads:
            it.join(PATIENCE)
        if self.wrong:
            raise self.wrong[0]

    def run(self, work):
        try:
            work(random.Random(f"{self.seed} {self.life} {work.__name__}"))
        except Gone:
            pass
        except Exception as wrong:  # pylint: disable=broad-except
            self.wrong.append(wrong if isinstance(wrong, Wrong) else Wrong(f"{work.__name__}: {wrong!r}"))

    def next_one(self, peer, number, blocks, choice):
        one = made(f"{peer}.{self.life}.{number}", peer, choice.choice(GROUPS), blocks)
        with self.lock:
            self.sent[one.name] = one
        return one

    def keep(self, one, line, code, refused=()):
        """Notes how an article was answered."""
        if line.startswith(code):
            one.is_kept, one.kept_at = True, time.monotonic()
        elif not line.startswith(refused):
            raise Wrong(f"<{one.name}@x> was answered {line!r}")

    def take_all(self, peer, names, sizes, choice, window):
        """Sends articles by TAKETHIS, so many at a time."""
        link = Peer(self.site.port(peer))
        for first in range(0, MOST[peer], window):
            if self.over.is_set():
                return
            all_ = [self.next_one(peer, number, choice.choice(sizes), choice)
                    for number in range(first, min(first + window, MOST[peer]))]
            link.send(b"".join(b"TAKETHIS <%s@x>\r\n%s.\r\n" % (it.name.encode(), it.sent) for it in all_))
            for it in all_:
                self.keep(it, link.line(), f"239 <{it.name}@x>", ("400",))

    def streams(self, choice):
        self.take_all("p1", 0, (1, 1, 2, 3, 5), choice, 8)

    def large(self, choice):
        self.take_all("p4", 0, (10, 20, 40, 60), choice, 1)

    def checks(self, choice):
        link = Peer(self.site.port("p2"))
        for number in range(MOST["p2"]):
            if self.over.is_set():
                return
            one = self.next_one("p2", number, choice.choice((1, 2, 4)), choice)
            link.send(b"CHECK <%s@x>\r\n" % one.name.encode())
            link.expect(f"238 <{one.name}@x>")
            link.send(b"TAKETHIS <%s@x>\r\n%s.\r\n" % (one.name.encode(), one.sent))
            self.keep(one, link.line(), f"239 <{one.name}@x>", ("400",))

    def offers(self, choice):
        link = Peer(self.site.port("p3"))
        for number in range(MOST["p3"]):
            if self.over.is_set():
                return
            one = self.next_one("p3", number, choice.choice((1, 3, 8)), choice)
            link.send(b"IHAVE <%s@x>\r\n" % one.name.encode())
            link.expect("335")
            link.send(b"%s.\r\n" % one.sent)
            self.keep(one, link.line(), "235", ("400", "436"))

    def reads(self, choice):
        """Reads what was answered kept in this life."""
        link = Peer(self.site.port("p2"))
        front = f".{self.life}."
        while not self.over.is_set():
            with self.lock:
                all_ = [it for it in self.sent.values() if it.is_kept and front in it.name]
            for one in choice.sample(all_, min(5, len(all_))):
                check_text(link, one)
            time.sleep(0.005)

    def takes(self, choice):
        """Takes from a feed, some at a time."""
        link = Peer(self.site.port("p3"))
        while not self.over.is_set():
            self.untaken = choice.randrange(1, 40)
            take_some(link, "p3", self.sent, self.untaken)
            self.untaken = 0
            time.sleep(0.01)


def check_text(link, one):
    """Refuses an article that isn't there whole."""
    link.send(b"ARTICLE <%s@x>\r\n" % one.name.encode())
    line = link.line()
    if not line.startswith("220 "):
        raise Wrong(f"ARTICLE <{one.name}@x>: {line!r}")
    text = "".join(f"{it}\r\n" for it in link.block()).encode()
    if text != one.stored:
        raise Wrong(f"<{one.name}@x> isn't what was sent: {text[:200]!r} of {len(text)} octets, not {len(one.stored)}")


def take_some(link, peer, sent, count):
    """The serials that a feed gives, up to so many; each token is fetched, and is an article that the feed may have."""
    link.send(b"XTAKE %d\r\n" % count)
    link.expect("290")
    missed, *lines = link.block()
    if missed != "0":
        raise Wrong(f"the feed of {peer} missed {missed}")
    tokens = [line.split() for line in lines]
    link.send(b"".join(b"XFETCH %s\r\n" % token.encode() for _, token in tokens))
    for _, token in tokens:
        note_taken(link, peer, sent, token)
    return [int(serial) for serial, _ in tokens]


def note_taken(link, peer, sent, token):
    """Reads the answer to an XFETCH, and notes of which article it is."""
    line = link.line()
    if line != f"292 {token}":
        raise Wrong(f"XFETCH {token} of the feed of {peer}: {line!r}")
    text = "".join(f"{it}\r\n" for it in link.block()).encode()
    name = re.search(rb"\r\nMessage-ID: <(.*)@x>\r\n", text).group(1).decode()
    one = sent.get(name)
    if one is None or text != one.stored:
        raise Wrong(f"{token} of the feed of {peer} is no article that was sent: {text[:200]!r}")
    if one.peer == peer or not FEEDS[peer](one.group):
        raise Wrong(f"the feed of {peer} gave <{name}@x>, which it may not have")
    one.token = token
    one.given.add(peer)


class Report:
    """The numbers of a report."""

    def __init__(self, lines):
        rows = [line.split() for line in lines]
        self.buffers = {row[1]: [int(it) for it in row[2:]] for row in rows if row[0] == "buffer"}
        self.feeds = {row[1]: [int(it) for it in row[2:]] for row in rows if row[0] == "feed"}
        self.ids = next([int(it) for it in row[1:]] for row in rows if row[0] == "ids")


def place_of(token):
    """The buffer of a token, the place at which its article begins, and that behind it."""
    number, cycle, first, length = (int(it, 16) for it in
                                    re.fullmatch(r"@..(..)(.{8})(.{8})(.{8})@", token).groups())
    name = list(SIZES)[number]
    begin = cycle * SIZES[name] + first
    return name, begin, begin + -(-length // CHUNK)


class Lives:
    """A relay that is killed and started again, and all that it was sent."""

    def __init__(self, site, seed, seconds):
        self.site, self.seed, self.seconds = site, seed, seconds
        # Of a life that ends before a file is flushed it isn't known that anything was.
        self.least = min(seconds, site.sync + 0.5) if site.sync else 0
        self.choice = random.Random(seed)
        self.sent, self.refused = {}, []
        self.killed = self.stopped = self.early = self.recovered = 0
        # How many articles a power cut has lost, and of how many it is known that they were flushed.
        self.lost = self.flushed = 0
        # How many tokens of p3 a stop may have lost, since they were on their way to it.
        self.untaken = 0
        # The next serial of each feed at the last end in order, none where any may come.
        self.serials = {it: 1 for it in FEEDS}

    def live(self, life):
        """One life and its end; a line that tells of it."""
        if life > 1 and self.choice.random() < 0.25:
            self.kill_early()
        there = self.begin(False)
        ends = {"kill": 5, "signal": 1, "halt": 1, "stopping": 2, "reloading": 2, "stop": 2}
        end = self.choice.choices(list(ends), list(ends.values()))[0]
        load = Load(self.site, self.sent, life, self.seed)
        try:
            time.sleep(self.choice.uniform(self.least, self.seconds))
            self.end(end, load)
        finally:
            self.site.kill()
            load.end()
        if end != "stop":
            self.site.cut(self.choice)
            self.note_flushed(life)
        self.untaken = load.untaken
        kept = sum(it.is_kept and f".{life}." in it.name for it in self.sent.values())
        return f"{end}: {kept} more were kept, {there} were there at its start"

    def note_flushed(self, life):
        """Notes of each article that was kept in this life whether it was flushed before the power failed."""
        for one in self.sent.values():
            if one.is_kept and f".{life}." in one.name:
                one.is_flushed = one.kept_at < min(self.site.safe.get(it, 0) for it in FILES[one.group])
                self.flushed += one.is_flushed

    def begin(self, is_last):
        """Starts it, and checks what that has brought back; how many articles are there."""
        self.site.start(self.choice)
        report = Report(self.site.wait())
        if re.search(r"(?m)^recovering ", self.site.told()):
            self.serials = {it: 1 for it in FEEDS}
            self.recovered += 1
            self.untaken = 0
        return self.check(report, is_last)

    def kill_early(self):
        """A start that is killed on the way: in a repair, or right behind it."""
        self.site.start(self.choice)
        time.sleep(self.choice.uniform(0, 0.08))
        self.site.kill()
        self.site.cut(self.choice)
        self.early += 1

    def end(self, how, load):
        """Ends a life so."""
        if how == "stop":
            self.end_in_order(load)
            return
        if how == "halt":
            self.site.relay.process.send_signal(signal.SIGSTOP)
            time.sleep(0.05)
        if how == "signal":
            self.site.relay.process.terminate()
            self.site.relay.process.wait(PATIENCE)
        asker = None
        if how == "stopping":
            asker = self.site.stopping()
            time.sleep(self.choice.uniform(0, 0.6))
        elif how == "reloading":
            asker = self.site.reloading(self.choice)
            time.sleep(self.choice.uniform(0, 1.2))
        self.site.kill()
        if asker:
            asker.kill()
        self.killed += 1

    def end_in_order(self, load):
        """Takes all that the feeds have, has an id refused, and stops the relay."""
        load.over.set()
        for it in load.threads:
            it.join(PATIENCE)
        link = Peer(self.site.port("p4"))
        name = f"refused.{len(self.refused)}@x"
        link.send(b"TAKETHIS <%s>\r\nSubject: t\r\n\r\n.\r\n" % name.encode())
        link.expect(f"439 <{name}>")
        link.close()
        self.refused.append(name)
        self.serials = self.take_feeds(None)
        self.site.stop()
        self.stopped += 1

    def take_feeds(self, begins):
        """Takes all that each feed has; the serial behind its last. `begins` are those that are due, none where
        any may come."""
        behind = {}
        for peer in FEEDS:
            link, due = Peer(self.site.port(peer)), begins and begins[peer]
            while serials := take_some(link, peer, self.sent, 1_000):
                due = due or serials[0]
                if serials != list(range(due, due + len(serials))):
                    raise Wrong(f"the feed of {peer} goes on with {serials[:3]}, not {due}")
                due = serials[-1] + 1
            behind[peer] = due or 1
            link.close()
        return behind

    def check(self, report, is_last):
        """Checks all that a start has brought back; how many articles are there."""
        self.take_feeds(self.serials)
        self.serials = None
        self.pass_untaken()
        link = Peer(self.site.port("p4"))
        due = [it for it in self.sent.values() if it.is_kept and not it.is_gone]
        old = [it for it in due if it.is_seen]
        if not is_last and len(old) > SAMPLE:
            chosen = {it.name for it in self.choice.sample(old, SAMPLE)}
            due = [it for it in due if not it.is_seen or it.name in chosen]
        there = [it for it in due if self.is_there(link, it, report)]
        for one in there:
            check_text(link, one)
            link.send(b"CHECK <%s@x>\r\n" % one.name.encode())
            link.expect(f"438 <{one.name}@x>")
            self.check_given(one)
            one.is_seen = True
        for name in self.refused:
            link.send(b"CHECK <%s>\r\n" % name.encode())
            link.expect(f"438 <{name}>")
        self.check_report(report, there)
        link.close()
        return len(there)

    def pass_untaken(self):
        """Notes as given what a stop has lost on the way to p3, where that isn't more than it asked for."""
        lost = [it for it in self.sent.values() if it.is_kept and not it.is_seen and not it.is_gone
                and it.peer != "p3" and FEEDS["p3"](it.group) and "p3" not in it.given]
        if len(lost) <= self.untaken:
            for one in lost:
                one.given.add("p3")
        self.untaken = 0

    def is_there(self, link, one, report):
        """Whether an article is there; where it isn't its buffer has passed it."""
        link.send(b"STAT <%s@x>\r\n" % one.name.encode())
        line = link.line()
        if line.startswith("223 "):
            return True
        if not line.startswith("430 "):
            raise Wrong(f"STAT <{one.name}@x>: {line!r}")
        # What no start has had needn't have been flushed.
        if self.site.shim and not one.is_seen and not one.is_flushed:
            one.is_gone = True
            self.lost += 1
            return False
        if not one.token:
            raise Wrong(f"<{one.name}@x> was kept, and is gone before any feed gave it")
        name, begin, _ = place_of(one.token)
        if report.buffers[name][1] <= begin + SIZES[name]:
            front = report.buffers[name][1]
            raise Wrong(f"<{one.name}@x> under {one.token} is gone, and the front of {name} is {front}")
        one.is_gone = True
        return False

    def check_given(self, one):
        """Refuses an article that a feed that may have it hasn't given."""
        for peer, may in FEEDS.items():
            if peer != one.peer and may(one.group) and peer not in one.given:
                raise Wrong(f"the feed of {peer} never gave <{one.name}@x> under {one.token}")

    def check_report(self, report, there):
        """The report's numbers fit the articles that are there."""
        counts = {name: 0 for name in SIZES}
        for one in there:
            name, _, end = place_of(one.token)
            counts[name] += 1
            if report.buffers[name][1] < end:
                raise Wrong(f"the front of {name} is {report.buffers[name][1]}, and <{one.name}@x> ends at {end}")
        for name, (cycle, front, begun, stored) in report.buffers.items():
            if not counts[name] <= stored <= begun or not cycle * SIZES[name] <= front <= (cycle + 1) * SIZES[name]:
                raise Wrong(f"the report of {name} has {cycle, front, begun, stored}, and {counts[name]} are there")
        if report.ids[2] < len(there) or report.ids[0] or report.ids[1]:
            raise Wrong(f"the report has the ids {report.ids}, and {len(there)} are there")


def options(about):
    about.add_argument("--lives", type=int, default=50, metavar="N", help="how many lives")
    about.add_argument("--seconds", type=float, metavar="S",
                       help="the longest life: 0.6, with --sync one and a half more than that")
    about.add_argument("--seed", type=int, default=time.time_ns() % 1_000_000, help="of the random choices")
    about.add_argument("--power", action="store_true", help="each kill is a power cut")
    about.add_argument("--sync", type=int, metavar="N", help="with --power: the relay has this `sync`")


def main(given):
    if given.sync and not given.power:
        given.error("--sync wants --power")
    seconds = given.seconds or (given.sync + 1.5 if given.sync else 0.6)
    print(f"seed {given.seed}", flush=True)
    room = Path(tempfile.mkdtemp(prefix="cnrelay-kills-", dir="/var/tmp"))
    lives = Lives(Site(room, given.power, given.sync), given.seed, seconds)
    try:
        for life in range(1, given.lives + 1):
            print(f"life {life}: {lives.live(life)}", flush=True)
        there = lives.begin(True)
        lives.site.stop()
    except Wrong as wrong:
        sys.exit(f"WRONG: {wrong}\nseed {given.seed}; the folder is {room}")
    finally:
        if lives.site.relay and lives.site.relay.is_running():
            lives.site.kill()
    kept = sum(it.is_kept for it in lives.sent.values())
    if not lives.recovered or not there:
        sys.exit("WRONG: nothing was recovered, or nothing was kept")
    if given.sync and not lives.flushed:
        sys.exit("WRONG: nothing was flushed before the power failed")
    shutil.rmtree(room)
    gone = sum(it.is_gone for it in lives.sent.values()) - lives.lost
    print(f"{given.lives} lives, {lives.killed} of them killed, {lives.stopped} stopped; {lives.early} starts killed "
          f"on the way, {lives.recovered} recovered; {kept} articles were kept, {there} are there, {gone} were passed"
          + f", {lives.lost} lost" * given.power + f", {lives.flushed} were flushed" * bool(given.sync))
