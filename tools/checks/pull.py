"""Tests tools/pull_feed between a relay that is served and servers of news that this program plays.

    tools/check pull [NAME ..]

With names those are tried alone. Several are tried at a time: most of them wait for most of their time. Prints a line for each, and
at the end `N went right, M wrong`; ends with status 1 if any went wrong. Goes over 127.0.0.1 alone,
and stops what it has started.
"""
import contextlib
import os
import random
import re
import resource
import signal
import socket
import subprocess
import sys
import tempfile
import threading
import time
from collections import Counter
from concurrent.futures import ThreadPoolExecutor
from pathlib import Path

from lib import ports, servers, trying
from lib.nntp import called, dated
from lib.program import ROOT
from lib.relay import held_by
from lib.trying import Wrong, check

PULLER = ROOT / "tools/pull_feed"
PATIENCE = 60
# How many are tried at a time.
LANES = 5
UNLIMITED = resource.RLIM_INFINITY


def waits_until(is_so, what):
    def told():
        return f"{what() if callable(what) else what} after {PATIENCE} seconds"

    trying.waits_until(is_so, told, PATIENCE, 0.02)


def at_port(bind):
    """What binds a port. A program that is being started beside may have it for a moment still,
    from when it was looked for."""
    for _ in range(50):
        try:
            return bind()
        except (Wrong, OSError) as error:
            if not re.search("in use|is taken", str(error)):
                raise
            time.sleep(0.1)
    return bind()


# ---- the relay


def article(one, body=b"text\r\n"):
    """One whose Message-ID is written otherwise, and folded."""
    return dated(f"<{one.decode()}@x>", body).replace(b"Message-ID: ", b"MESSAGE-id:\r\n ")


class Relay:
    """A relay that is served, with a feed of the peer two."""

    def __init__(self, folder, ring=65_536, kilobytes=4_096):
        self.folder, self.ring, self.kilobytes = folder, ring, kilobytes
        folder.mkdir(exist_ok=True)
        self.port = ports.free(4)
        self.place = f"127.0.0.1:{self.port + 1}"
        self.sent = 0
        self.starts = 0
        self.start()

    def start(self):
        self.server = at_port(self.start_once)

    def start_once(self):
        self.starts += 1
        return servers.relay(self.folder / f"relay{self.starts}", self.port,
                             kilobytes=self.kilobytes, relay_lines=[f"feed two {self.ring} *"])

    def stop(self):
        self.server.stop()

    def dies(self):
        """It is killed, and started again, which repairs it."""
        self.server.kill()
        own = range(self.port, self.port + 4)
        self.server = at_port(lambda: servers.served(self.folder / f"relay{self.starts}", own))

    def called(self, port):
        return called(self.port + port, PATIENCE)

    def takes(self, count, body=b"text\r\n"):
        """Articles come from the peer one; their message-ids."""
        ids = [b"%d.%d" % (self.starts, self.sent + it) for it in range(count)]
        self.sent += count
        peer = self.called(0)
        for at in range(0, count, 50):
            peer.send(b"".join(b"TAKETHIS <%s@x>\r\n%s.\r\n" % (one, article(one, body))
                               for one in ids[at:at + 50]))
            for one in ids[at:at + 50]:
                peer.expect(b"239 <%s@x>\r\n" % one)
        peer.closes()
        return [b"<%s@x>" % one for one in ids]

    def has(self, ids):
        """Those of these that it still has the text of."""
        peer = self.called(0)
        found = []
        for one in ids:
            peer.send(b"STAT %s\r\n" % one)
            if peer.line().startswith(b"223"):
                found.append(one)
        peer.closes()
        return found

    def gives(self, number):
        """Serials and tokens of the feed, as whoever asks for them by hand is given them."""
        peer = self.called(1)
        peer.send(b"XTAKE %d\r\n" % number)
        peer.expect(b"290 Queue follows\r\n0\r\n")
        lines = []
        while (line := peer.line()) != b".\r\n":
            lines.append(line.decode().split())
        peer.closes()
        return lines

    def kept(self, one):
        """The article, as the relay keeps it; stuffed."""
        peer = self.called(0)
        peer.send(b"ARTICLE %s\r\n" % one)
        check(peer.line()[:3], b"220", "the relay's own answer")
        lines = []
        while (line := peer.line()) != b".\r\n":
            lines.append(line)
        peer.closes()
        return b"".join(lines)


# ---- the other server


# What an offer is answered: that it is wanted, may come later, or is known.
CODES = {b"CHECK": (b"238", b"431", b"438"), b"IHAVE": (b"335", b"436", b"435")}


class Target:
    """A server of news that keeps what it is sent, and answers as it is told to. It leaves and
    returns, at the same port."""

    def __init__(self, streams=True, busy=0, rejects=(), breaks=0, is_silent=False, is_away=False):
        self.streams, self.rejects, self.breaks = streams, rejects, breaks
        # The article at which it always goes away, and how often it did.
        self.chokes, self.choked = None, 0
        # Until it speaks it answers to no offer.
        self.speaks = threading.Event()
        if not is_silent:
            self.speaks.set()
        # How often each article can't be taken now.
        self.busy = Counter()
        self.most_busy = busy
        # The articles in the order in which they came.
        self.kept, self.offers, self.seen_twice = {}, Counter(), 0
        # How often somebody came, and who is there; whether it lets nobody in.
        self.came, self.connected, self.is_closed = 0, [], False
        self.lock = threading.Lock()
        self.port = ports.free()
        self.place = f"127.0.0.1:{self.port}"
        if not is_away:
            self.returns()

    def returns(self):
        self.listener = at_port(lambda: socket.create_server(("127.0.0.1", self.port)))
        threading.Thread(target=self.listen, args=(self.listener,), daemon=True).start()

    def leaves(self):
        self.listener.shutdown(socket.SHUT_RDWR)
        self.listener.close()
        with self.lock:
            for one in self.connected:
                with contextlib.suppress(OSError):
                    one.shutdown(socket.SHUT_RDWR)
            self.connected = []

    def listen(self, listener):
        with contextlib.suppress(OSError):
            while True:
                connected, _ = listener.accept()
                with self.lock:
                    self.came += 1
                    self.connected.append(connected)
                threading.Thread(target=self.serve, args=(connected,), daemon=True).start()

    def serve(self, connected):
        file = connected.makefile("rb")
        try:
            connected.sendall(b"400 Not now\r\n" if self.is_closed else b"200 ready\r\n")
            while not self.is_closed and (line := file.readline()):
                reply = self.answer(line.split(), file, connected)
                if reply is None:
                    break
                if not line.startswith(b"MODE"):
                    self.speaks.wait()
                connected.sendall(reply + b"\r\n")
        except OSError:
            pass
        connected.close()

    def answer(self, words, file, connected):
        word = words[0]
        if word == b"MODE":
            return b"203 Streaming" if self.streams else b"500 What"
        if word == b"QUIT":
            return None
        one = words[1]
        if word in (b"CHECK", b"IHAVE"):
            code = self.offered(one, *CODES[word])
            if word == b"CHECK" or code != b"335":
                return code + b" " + one
            connected.sendall(b"335 Send\r\n")
        text = self.block(file)
        if one == self.chokes:
            self.choked += 1
            return None
        if self.breaks and len(self.kept) % self.breaks == self.breaks - 1:
            self.breaks = 0
            return None
        kept, refused = (b"239", b"439") if word == b"TAKETHIS" else (b"235", b"437")
        return (kept if self.sent(one, text) else refused) + b" " + one

    def offered(self, one, wanted, later, known):
        with self.lock:
            self.offers[one] += 1
            if one in self.kept:
                return known
            if self.busy[one] < self.most_busy:
                self.busy[one] += 1
                return later
            return wanted

    @staticmethod
    def block(file):
        lines = []
        while (line := file.readline()) != b".\r\n":
            if not line:
                raise OSError
            lines.append(line)
        return b"".join(lines)

    def sent(self, one, text):
        with self.lock:
            if one in self.rejects:
                return False
            self.seen_twice += one in self.kept
            self.kept[one] = text
            return True


# ---- the puller


class Pull:
    """A run of the puller."""

    begun = []

    def __init__(self, folder, relay, target, *words, **settings):
        self.folder, self.told = folder, tempfile.TemporaryFile()
        words = [*words, str(folder), relay.place, target.place]
        settings |= {"stdin": subprocess.DEVNULL, "stdout": subprocess.DEVNULL, "stderr": self.told}
        self.process = subprocess.Popen(settings.pop("by", [PULLER]) + words, **settings)
        Pull.begun.append(self)

    def ends(self, status=0):
        try:
            found = self.process.wait(PATIENCE)
        except subprocess.TimeoutExpired:
            raise Wrong(f"it hasn't ended after {PATIENCE} seconds: {self.lines()[-3:]}") from None
        if found != status:
            raise Wrong(f"status {found}, not {status}: {self.lines()[-3:]}")
        return self

    def stops(self, left=0, sign=signal.SIGTERM):
        """It is told to end, once so many are left in its journal."""
        waits_for_open(self.folder, left)
        self.process.send_signal(sign)
        return self.ends()

    def kill(self):
        self.process.kill()
        self.process.wait()

    def lines(self, event=""):
        return [line for line in held_by(self.told).decode().splitlines() if line.startswith(event)]

    def sum(self, key, event="pulled "):
        """The sum of this number in all lines of the event."""
        return sum(numbers(line)[key] for line in self.lines(event))

    def lost(self):
        """How many were told as lost, by their causes."""
        found = Counter()
        for line in self.lines("lost "):
            found[line.split("why=")[1]] += numbers(line)["articles"]
        return dict(found)

    def has(self, **wanted):
        """The numbers that it told at its end."""
        found = numbers(self.lines("ended ")[-1])
        check({key: found[key] for key in wanted}, wanted, "counts")
        return self


def numbers(line):
    return {key: int(number) for key, number in re.findall(r"(\w+)=(\d+)", line)}


class Journal:
    """What stands in the journal of a puller."""

    def __init__(self, folder):
        path = folder / "journal"
        self.text = path.read_bytes() if path.exists() else b""
        self.taken, self.open, self.never = {}, {}, Counter()
        for line in self.text.splitlines(keepends=True):
            kind, *words = line.decode().split()
            if not line.endswith(b"\n"):
                break
            if kind == "taken":
                self.taken[int(words[0])] = self.open[int(words[0])] = words[1]
            elif kind == "done":
                self.open.pop(int(words[0]))
            elif kind in ("missed", "lost"):
                self.never[kind] += int(words[0])
            elif kind == "anew":
                self.taken, self.open = {}, {}


def waits_for_open(folder, count):
    waits_until(lambda: len(Journal(folder).open) == count,
                lambda: f"{len(Journal(folder).open)} tokens wait in the journal, not {count},")


# ---- what is tried


def each_once(folder, relay):
    """Each article is sent on once, in order, as it is kept; a second run has nothing to do."""
    target = Target()
    ids = relay.takes(300, b".\r\n..two\r\ntext\r\n".replace(b".\r\n", b"..\r\n", 1))
    pull = Pull(folder, relay, target, "--once").ends()
    pull.has(taken=300, sent=300, known=0, refused=0, lost=0, waiting=0)
    check(len(pull.lines()), 1, "lines that are told of less than a minute")
    check(list(target.kept), ids, "message-ids")
    check(target.kept[ids[7]], relay.kept(ids[7]), "a text")
    Pull(folder, relay, target, "--once").ends().has(taken=0, sent=0, waiting=0)
    check(max(target.offers.values()), 1, "the most offers of an article")


def without_streaming(folder, relay):
    """Where the other server has no streaming articles are sent by IHAVE, in order."""
    target = Target(streams=False)
    ids = relay.takes(40)
    Pull(folder, relay, target, "--once").ends().has(sent=40, waiting=0)
    check(list(target.kept), ids, "message-ids")
    target.busy, target.most_busy = Counter(), 1
    ids = relay.takes(20)
    Pull(folder, relay, target, "--once", "--again", "1").ends().has(sent=20, waiting=0)
    check(list(target.kept)[40:], ids, "message-ids that could not be taken at first")


def again(folder, relay):
    """What can't be taken now is offered again; with --once three times."""
    target = Target(busy=2)
    ids = relay.takes(60)
    Pull(folder, relay, target, "--once", "--again", "1").ends().has(sent=60, waiting=0)
    check(sorted(target.kept), sorted(ids), "message-ids")
    target = Target(busy=99)
    relay.takes(5)
    Pull(folder, relay, target, "--once", "--again", "1").ends(status=1).has(sent=0, waiting=5)
    target.most_busy = 0
    Pull(folder, relay, target, "--once", "--open", "9").ends().has(taken=0, sent=5, waiting=0)


def busy(folder, relay):
    """A server that can take nothing now is left alone for a while, and then given all in order."""
    target = Target(busy=99)
    ids = relay.takes(200)
    pull = Pull(folder, relay, target, "--at-once", "10", "--again", "1", "--tell", "1")
    waits_until(lambda: len(pull.lines("pulled ")) >= 3, "no three lines")
    offers = sum(target.offers.values())
    check(offers < 100, True, f"{offers} offers are fewer than 100")
    target.most_busy = 0
    waits_until(lambda: len(target.kept) == 200, lambda: f"{len(target.kept)} articles")
    pull.stops().has(sent=200, waiting=0)
    check(sorted(target.kept), sorted(ids), "message-ids")


def known_and_refused(folder, relay):
    """What the other server has is known, what it doesn't take refused; neither comes again."""
    target = Target()
    ids = relay.takes(30)
    target.kept = {one: b"" for one in ids[:10]}
    target.rejects = set(ids[10:15])
    Pull(folder, relay, target, "--once").ends().has(sent=15, known=10, refused=5, waiting=0)
    Pull(folder, relay, target, "--once").ends().has(taken=0, waiting=0)


def away(folder, relay):
    """While the other server is away more is taken than the ring holds, and sent on in order."""
    small = Relay(folder.with_name("small"), ring=1_000)
    target = Target(is_away=True)
    try:
        pull = Pull(folder, small, target, "--take", "300", "--at-once", "50")
        ids = []
        for _ in range(4):
            ids += small.takes(800)
            waits_for_open(folder, len(ids))
        target.returns()
        waits_until(lambda: len(target.kept) > 1_000, "it isn't found again")
        target.leaves()
        ids += small.takes(700)
        waits_until(lambda: len(Journal(folder).taken) == len(ids), "the last aren't taken")
        target.returns()
        waits_until(lambda: len(target.kept) == len(ids), lambda: f"{len(target.kept)} articles")
        pull.stops().has(taken=len(ids), lost=0, waiting=0)
    finally:
        small.stop()
    check(list(target.kept), ids, "message-ids in the order of the ring")
    check(target.seen_twice, 0, "articles that were taken twice")


def silent(folder, relay):
    """While the other server is silent more is taken. A signal ends it; all is sent on later."""
    target = Target(is_silent=True)
    ids = relay.takes(10)
    pull = Pull(folder, relay, target)
    waits_until(lambda: target.offers, "no offer")
    ids += relay.takes(20)
    waits_for_open(folder, 30)
    pull.stops(30, signal.SIGINT).has(taken=30, sent=0, waiting=30)
    target = Target()
    Pull(folder, relay, target, "--once").ends().has(taken=0, sent=30, waiting=0)
    check(list(target.kept), ids, "message-ids")


def killed(folder, relay):
    """Killed at random moments, it loses none, and offers the last few again at most."""
    at_once, kills = 16, 12
    target = Target()
    ids, chance, is_over = [], random.Random(20), threading.Event()
    # Each of the runs finds some that are new, and all have room in the relay's buffer.
    most = 0

    def bring():
        while not is_over.wait(0.01):
            if len(ids) < most:
                ids.extend(relay.takes(50))

    bringing = threading.Thread(target=bring)
    bringing.start()
    try:
        for number in range(kills):
            most += 400
            pull = Pull(folder, relay, target, "--take", "20", "--at-once", str(at_once))
            waits_until(lambda: is_noted(folder), "nothing is noted")
            time.sleep(chance.random() / 20)
            # It is there at every second kill.
            if number % 2:
                target.leaves()
                time.sleep(chance.random() / 10)
            pull.kill()
            if number % 2:
                target.returns()
    finally:
        is_over.set()
        bringing.join()
    Pull(folder, relay, target, "--once").ends()
    check(dict(Journal(folder).never), {}, "what never came")
    check(list(target.kept), ids, "message-ids in order")
    twice = sum(target.offers.values()) - len(target.offers)
    check(twice <= kills * 4 * at_once, True, f"{twice} offered once more are the last few")
    return f"{killed.__doc__} {kills} times, {len(ids)} articles, {twice} offers more"


def is_noted(folder):
    """Whether the puller has noted something since it began, when it wrote its journal anew."""
    lines = Journal(folder).text.splitlines()
    return bool(lines) and not lines[-1].startswith(b"last ")


class Feed:
    """A relay that this program plays: it gives tokens, and looks at the puller's journal."""

    def __init__(self, folder, takes):
        self.folder, self.takes, self.given = folder, takes, {}
        self.wrong, self.commands = [], 0
        # Half of an answer comes before this program says that it may go on.
        self.is_cut, self.goes_on = False, threading.Event()
        # Until it speaks it gives no token.
        self.speaks = threading.Event()
        self.speaks.set()
        port = ports.free()
        self.listener = socket.create_server(("127.0.0.1", port))
        self.place = f"127.0.0.1:{port}"
        threading.Thread(target=self.listen, daemon=True).start()

    def listen(self):
        with contextlib.suppress(OSError):
            while True:
                connected, _ = self.listener.accept()
                threading.Thread(target=self.serve, args=(connected,), daemon=True).start()

    def serve(self, connected):
        file = connected.makefile("rb")
        with contextlib.suppress(OSError):
            connected.sendall(b"201 ready\r\n")
            while line := file.readline():
                self.look(line)
                connected.sendall(self.answer(line.split(), connected))

    def look(self, line):
        """Each token that was given stands in the journal now, and is on the disk."""
        self.commands += 1
        journal = Journal(self.folder)
        missing = [it for it in self.given.items() if it not in journal.taken.items()]
        if missing:
            self.wrong.append(f"{len(missing)} tokens aren't in the journal at {line!r}")
        last = max(journal.text.rfind(b"taken %d " % it) for it in self.given) if self.given else -1
        synced = self.folder / "synced"
        if last >= 0 and int(synced.read_text().split()[-1]) <= last:
            self.wrong.append(f"a token isn't flushed at {line!r}")

    def answer(self, words, connected):
        if words[0] == b"XFETCH":
            serial = int(words[1][-9:-1], 16)
            return b"292 %s\r\n%s.\r\n" % (words[1], article(b"%d" % serial))
        if words[0] != b"XTAKE":
            return b"205 Bye\r\n"
        self.speaks.wait()
        first = len(self.given) + 1
        taken = range(first, first + (self.takes.pop(0) if self.takes else 0))
        lines = {it: f"@010000000000000000000{it:07X}@" for it in taken}
        text = [b"%d %s\r\n" % (it, token.encode()) for it, token in lines.items()]
        self.given |= lines
        text = b"290 Queue follows\r\n0\r\n%s.\r\n" % b"".join(text)
        if self.is_cut:
            # Half of the answer comes, up to the middle of a line, and the rest later.
            connected.sendall(text[:len(text) // 2])
            self.goes_on.wait()
            text = text[len(text) // 2:]
        return text


# The puller, which writes down how far its journal is on the disk.
BY_FLUSHES = """
import os, runpy, stat, sys
real = os.fsync
def fsync(descriptor):
    real(descriptor)
    about = os.fstat(descriptor)
    if stat.S_ISREG(about.st_mode):
        with open(sys.argv[-3] + "/synced", "a") as file:
            file.write(f"{about.st_size}\\n")
os.fsync = fsync
sys.argv.pop(0)
runpy.run_path(sys.argv[0], run_name="__main__")
"""


def written_down(folder, relay):
    """What was given stands in the journal, on the disk, at the next command."""
    folder.mkdir()
    by = [sys.executable, "-c", BY_FLUSHES, str(PULLER)]
    feed, target = Feed(folder, [30, 1, 60, 9]), Target()
    Pull(folder, feed, target, "--once", "--at-once", "20", by=by).ends().has(sent=100, waiting=0)
    check(feed.wrong, [], f"what was wrong at one of {feed.commands} commands")
    check(list(target.kept), [b"<%d@x>" % it for it in range(1, 101)], "message-ids")


def kept(folder, relay):
    """Killed before an answer has come, or in the middle of one, it has all at its next start."""
    feed, target = Feed(folder, [50]), Target()
    feed.speaks.clear()
    pull = Pull(folder, feed, target)
    waits_until(lambda: feed.commands, "nothing is asked for")
    pull.kill()
    pull = Pull(folder, Feed(folder, []), target, "--once")
    # It waits until the keeper has ended.
    time.sleep(0.5)
    feed.speaks.set()
    pull.ends().has(taken=50, sent=50, lost=0, waiting=0)
    # What was written down of it is there, and the rest comes too.
    (folder / "journal").unlink()
    feed, target = Feed(folder, [100]), Target()
    feed.is_cut = True
    pull = Pull(folder, feed, target)
    waits_until(lambda: len(Journal(folder).taken) > 40, "the first half isn't written down")
    half = len(Journal(folder).taken)
    pull.kill()
    feed.goes_on.set()
    pull = Pull(folder, Feed(folder, []), target, "--once").ends()
    pull.has(taken=100 - half, sent=100, lost=0, waiting=0)
    check(list(target.kept), [b"<%d@x>" % it for it in range(1, 101)], "message-ids")
    check((folder / "answer").exists(), False, "that the answer is there still")
    # What was written down, and not taken off the connection, isn't taken twice.
    lines = [f"{it} @010000000000000000000{it:07X}@" for it in range(1, 7)]
    (folder / "journal").write_text("".join(f"taken {it}\n" for it in lines[:5]))
    text = "\r\n".join(["290 Queue follows", "2", *lines[3:], ".", ""])
    (folder / "answer").write_bytes(text.encode())
    target = Target()
    Pull(folder, Feed(folder, []), target, "--once").ends().has(taken=1, sent=6, lost=0, waiting=0)
    check(list(target.kept), [b"<%d@x>" % it for it in range(1, 7)], "message-ids")


def signalled(folder, relay):
    """A signal that comes while the ring is asked waits for its answer, which is written down."""
    feed, target = Feed(folder, [50]), Target(is_away=True)
    feed.speaks.clear()
    pull = Pull(folder, feed, target)
    waits_until(lambda: feed.commands, "nothing is asked for")
    pull.process.send_signal(signal.SIGTERM)
    feed.speaks.set()
    pull.ends().has(taken=50, sent=0, waiting=50)
    check(len(Journal(folder).open), 50, "tokens in the journal")


def keeper_killed(folder, relay):
    """Where its keeper is killed it has another one, which ends with it."""
    target = Target()
    relay.takes(5)
    pull = Pull(folder, relay, target)
    waits_until(lambda: len(target.kept) == 5, lambda: f"{len(target.kept)} articles")
    [first] = children(pull.process.pid)
    os.kill(first, signal.SIGKILL)
    relay.takes(5)
    waits_until(lambda: len(target.kept) == 10, lambda: f"{len(target.kept)} articles")
    [second] = children(pull.process.pid)
    check(second != first, True, "another keeper")
    pull.stops().has(taken=10, sent=10, lost=0)
    waits_until(lambda: not Path("/proc", str(second)).exists(), "the keeper goes on")


def children(process):
    found = []
    for one in Path("/proc").glob("[0-9]*/stat"):
        with contextlib.suppress(OSError):
            if int(one.read_text().rsplit(")", 1)[1].split()[1]) == process:
                found.append(int(one.parent.name))
    return found


def full(folder, relay):
    """Where the journal has as many as it may, no more are taken, which is told once."""
    target = Target(is_away=True)
    ids = relay.takes(100)
    pull = Pull(folder, relay, target, "--journal-most", "40", "--tell", "1")
    waits_until(lambda: pull.lines("full "), "it doesn't say that it is full")
    told = len(pull.lines("pulled "))
    waits_until(lambda: len(pull.lines("pulled ")) > told + 2, "no further lines")
    waiting = {numbers(line)["waiting"] for line in pull.lines("pulled ")[told:]}
    check(waiting, {40}, "how many wait")
    check(len(Journal(folder).open), 40, "tokens in the journal")
    check(pull.lines("full "), ["full waiting=40"], "what it says")
    target.returns()
    waits_until(lambda: len(target.kept) == 100, lambda: f"{len(target.kept)} articles")
    pull.stops().has(taken=100, sent=100, lost=0, waiting=0)
    check(list(target.kept), ids, "message-ids")


def no_room(folder, relay):
    """Where the journal can't be written no more is taken, until it can be; what was is sent on."""
    target = Target(is_away=True)
    ids = relay.takes(100)
    pull = Pull(folder, relay, target, "--take", "10", "--tell", "1",
                preexec_fn=lambda: resource.setrlimit(resource.RLIMIT_FSIZE, (1_000, UNLIMITED)))
    waits_until(lambda: pull.lines("failed "), "it doesn't say that it can't write")
    told = len(pull.lines("pulled "))
    waits_until(lambda: len(pull.lines("pulled ")) > told + 2, "no further lines")
    check(set(pull.lines("failed ")), {"failed journal=[Errno_27]_File_too_large"}, "what it says")
    check(pull.sum("taken") < 50, True, f"{pull.sum('taken')} that were taken are some")
    target.returns()
    waits_until(lambda: target.kept, "nothing is sent on")
    resource.prlimit(pull.process.pid, resource.RLIMIT_FSIZE, (UNLIMITED, UNLIMITED))
    waits_until(lambda: len(target.kept) == 100, lambda: f"{len(target.kept)} articles")
    pull.stops().has(taken=100, sent=100, lost=0, waiting=0)
    check(list(target.kept), ids, "message-ids")


def overwritten(folder, relay):
    """A text that was overwritten meanwhile is told as lost, and stops nothing."""
    small = Relay(folder.with_name("small"), kilobytes=64)
    target = Target(is_away=True)
    try:
        pull = Pull(folder, small, target, "--at-once", "5")
        ids = small.takes(150)
        waits_for_open(folder, 150)
        there = small.has(ids)
        check(0 < len(there) < 150, True, f"{len(there)} of 150 texts are there")
        target.returns()
        waits_until(lambda: not Journal(folder).open, "some are left")
        pull.stops().has(taken=150, sent=len(there), lost=150 - len(there), waiting=0)
        check(pull.lost(), {"text_overwritten": 150 - len(there)}, "what is told as lost")
    finally:
        small.stop()
    check(list(target.kept), there, "message-ids")


def tells(folder, relay):
    """It tells a line in each span of time, of what came since the last, and a fault once in it."""
    target = Target()
    target.is_closed = True
    pull = Pull(folder, relay, target, "--tell", "2")
    faults = [f"broken at={target.place} why=server_answered_b'400_Not_now' again_in="]
    waits_until(lambda: target.came >= 3, "it isn't tried again")
    told = len(pull.lines(faults[0]))
    check(told < target.came, True, f"{told} faults are fewer than {target.came}")
    target.is_closed = False
    for number in (120, 70):
        relay.takes(number)
        before = len(pull.lines("pulled "))
        waits_until(lambda: len(target.kept) in (120, 190), "they aren't sent on")
        waits_until(lambda: len(pull.lines("pulled ")) > before, "no line")
    waits_until(lambda: pull.sum("sent") == 190, lambda: f"the lines have {pull.sum('sent')} sent")
    check(pull.sum("taken"), 190, "those that were taken, by the lines")
    pull.stops().has(taken=190, sent=190, known=0, refused=0, lost=0, waiting=0)
    check(pull.lines()[-1], pull.lines("ended ")[0], "the last line")


def old_journal(folder, relay):
    """A journal of an earlier puller is read, a line that was cut off too."""
    ids = relay.takes(6)
    tokens = relay.gives(4)
    folder.mkdir()
    lines = ["missed 3", "lost 2", *(f"taken {serial} {token}" for serial, token in tokens),
             f"done {tokens[1][0]} 239", f"last {tokens[3][0]}"]
    (folder / "journal").write_text("\n".join(lines) + "\ntaken 5 @01")
    target = Target()
    Pull(folder, relay, target, "--once").ends().has(taken=2, sent=5, lost=0, waiting=0)
    check(list(target.kept), [ids[0], *ids[2:]], "message-ids")
    check(dict(Journal(folder).never), {"missed": 3, "lost": 2}, "what never came")


def missed(folder, relay):
    """What the ring overwrote is told."""
    small = Relay(folder.with_name("small"), ring=8)
    try:
        target = Target()
        small.takes(20)
        pull = Pull(folder, small, target, "--once").ends().has(lost=12, taken=8, sent=8)
        check(pull.lost(), {"token_overwritten": 12}, "what is told as lost")
        small.takes(3)
        Pull(folder, small, target, "--once").ends().has(lost=0, taken=3, sent=3)
    finally:
        small.stop()


def swallowed(folder, relay):
    """A reply to XTAKE that never came is told, by the serial numbers."""
    target = Target()
    relay.takes(5)
    Pull(folder, relay, target, "--once").ends().has(sent=5)
    relay.takes(7)
    relay.gives(4)
    pull = Pull(folder, relay, target, "--once").ends().has(sent=3, lost=4)
    check(pull.lost(), {"never_came": 4}, "what is told as lost")


def begun_anew(folder, relay):
    """Where the relay was begun anew nothing of before is sent on."""
    target = Target(busy=99)
    relay.takes(20)
    Pull(folder, relay, target, "--once", "--again", "1").ends(status=1).has(waiting=20)
    relay.stop()
    relay.start()
    target.most_busy = 0
    ids = relay.takes(4)
    pull = Pull(folder, relay, target, "--once").ends()
    check(list(target.kept), ids, "message-ids")
    check(pull.lines("anew "), ["anew after=20 dropped=20"], "what it says")


def relay_killed(folder, relay):
    """Where the relay was killed its feed has all again, which is sent on once."""
    target = Target(is_away=True)
    ids = relay.takes(120)
    pull = Pull(folder, relay, target)
    waits_for_open(folder, 120)
    relay.dies()
    ids += relay.takes(30)
    waits_until(lambda: pull.lines("anew "), "it doesn't say so")
    waits_for_open(folder, 150)
    target.returns()
    waits_until(lambda: len(target.kept) == 150, lambda: f"{len(target.kept)} articles")
    pull.stops().has(taken=270, sent=150, lost=0, waiting=0)
    check(sorted(target.kept), sorted(ids), "message-ids")


def anew_meanwhile(folder, relay):
    """Where the relay is begun anew while an article is on its way, its serial is another's."""
    target = Target(is_silent=True)
    relay.takes(5)
    pull = Pull(folder, relay, target)
    waits_until(lambda: target.offers, "they aren't offered")
    relay.stop()
    relay.start()
    ids = relay.takes(3)
    waits_until(lambda: pull.lines("anew "), "it doesn't say so")
    waits_until(lambda: len(Journal(folder).open) == 3, "they aren't taken")
    target.speaks.set()
    waits_until(lambda: set(ids) <= set(target.kept), lambda: f"{len(target.kept)} articles")
    pull.stops().has(taken=8, sent=8, waiting=0)


def goes_on(folder, relay):
    """It goes on where a connection broke, and ends by a signal."""
    target = Target(breaks=30)
    ids = relay.takes(100)
    pull = Pull(folder, relay, target)
    waits_until(lambda: len(target.kept) == 100, lambda: f"{len(target.kept)} articles")
    ids += relay.takes(1)
    waits_until(lambda: len(target.kept) == 101, "no further article")
    pull.stops().has(waiting=0)
    check(list(target.kept), ids, "message-ids")


def set_aside(folder, relay):
    """An article at which the other server always goes away keeps no other back."""
    target = Target()
    ids = relay.takes(40)
    target.chokes = ids[20]
    pull = Pull(folder, relay, target, "--at-once", "10", "--again", "1")
    waits_until(lambda: len(target.kept) == 39, lambda: f"{len(target.kept)} articles")
    # It is tried again, and set aside again.
    waits_until(lambda: target.choked > 3, "it isn't tried again")
    ids += relay.takes(5)
    waits_until(lambda: len(target.kept) == 44, lambda: f"{len(target.kept)} articles")
    pull.stops(1).has(sent=44, waiting=1)
    check(list(target.kept), ids[:20] + ids[21:], "message-ids")


def one_at_a_time(folder, relay):
    """A second puller doesn't take the same folder."""
    target = Target()
    pull = Pull(folder, relay, target)
    waits_until(lambda: (folder / "journal").exists(), "no journal")
    second = Pull(folder, relay, target, "--once").ends(status=1)
    check(second.lines(), [f"pull_feed: another puller has {folder}"], "what it says")
    pull.stops()


def without_feed(folder, relay):
    """A peer without a feed is told so."""
    relay.place = f"127.0.0.1:{relay.port}"
    pull = Pull(folder, relay, Target()).ends(status=1)
    check(pull.lines(), ["pull_feed: the peer of this port has no feed"], "what it says")


def unreached(folder, relay):
    """With --once a server that isn't reached is no success, though nothing is left."""
    target = Target()
    Pull(folder, relay, target, "--once").ends().has(taken=0, waiting=0)
    relay.place = f"127.0.0.1:{ports.free()}"
    Pull(folder, relay, target, "--once").ends(status=1).has(taken=0, waiting=0)


# Those that take longest begin first.
TRIED = (unreached, away, no_room, tells, full, set_aside, again, busy, killed, relay_killed,
         overwritten, anew_meanwhile, silent, goes_on, begun_anew, without_streaming, written_down,
         signalled, kept, keeper_killed, each_once, known_and_refused, old_journal, missed,
         swallowed, one_at_a_time, without_feed)


def tried(one, folder):
    """Whether it went right."""
    folder.mkdir()
    relay = Relay(folder)
    try:
        return trying.tried(one, folder / "state", relay)
    finally:
        for it in [pull for pull in Pull.begun if pull.folder.parent == folder]:
            it.kill()
        relay.stop()


def options(about):
    about.add_argument("names", nargs="*", metavar="NAME", help="what is tried; all without it")


def main(given):
    names = given.names or [it.__name__ for it in TRIED]
    chosen = [it for it in TRIED if it.__name__ in names]
    with tempfile.TemporaryDirectory() as folder, ThreadPoolExecutor(LANES) as lanes:
        came = list(lanes.map(lambda it: tried(it, Path(folder) / it.__name__), chosen))
    return trying.total(came)
