"""Stops and starts `cnrelay serve` under load, again and again, and checks that each life goes on where the last has ended.

    tools/check bench restarts [MINUTES [WORK [SECONDS]]]

Ten minutes without MINUTES, a stop and a start each thirty seconds without SECONDS. Four peers stream articles of 300 to 20,000 octets without a pause, each article by two of them; one takes the feed of
all. Two groups of two buffers of 16 MB go round some times. Ends with status 1 where

- an article that was answered 239 isn't offered as known (438) in the next life, or one was answered 239 twice;
- one that no front has passed isn't there, whole and right, by its token, or one that was passed is;
- the feed's list has a hole, a token twice, or another number of tokens than the report says that were gained;
- the report after a start differs from that before it, or the relay ends otherwise than with its report.
"""
import collections
import random
import re
import threading
import time

from lib import ports, servers
from lib.nntp import Gone, Peer
from lib.relay import asked, report
from lib.trying import Wrong, room

# main sets what was said.
MINUTES, SECONDS = 10.0, 30.0
PORT = ports.free(5)
KILOBYTES = 16_384
BLOCKS = 2 * KILOBYTES
RING = 65_536
# How many articles a peer has sent and not been answered, and how many ids are offered again in each life.
WINDOW, TRIED = 16, 2_000


def text_of(number):
    """The article of this number, without its Path."""
    octets = 300 + number * 7_919 % 19_700
    line = f"{number} " + "x" * 60 + "\r\n"
    body = line * (octets // len(line))
    group = servers.GROUPS[number % 2]
    return (f"From: a@x.example\r\nNewsgroups: {group}\r\nSubject: t\r\nMessage-ID: <{number}@soak>\r\n"
            f"Date: {DATE}\r\n\r\n{body}").encode()


DATE = time.strftime("%a, %d %b %Y %H:%M:%S +0000", time.gmtime())


class Soak:
    def __init__(self, folder):
        self.folder = folder
        relay_lines = (f"peer taker taker.example {PORT + 4}", f"feed taker {RING} *", "remember 86400")
        self.ports = servers.write_relay(folder, PORT, KILOBYTES, 2, relay_lines)
        # The numbers that were answered 239, and which those answers were of.
        self.stored, self.lock, self.next = set(), threading.Lock(), [0] * 4
        self.sent = 0
        # The tokens of the feed by their serial numbers, in their order, and the serial of the last.
        self.tokens, self.serial = collections.deque(), 0
        self.faults, self.stopping = [], False
        self.seconds = {"stop": [], "start": []}

    def wrong(self, fault):
        with self.lock:
            self.faults.append(fault)

    # ---- what goes on during a life

    def numbers(self, peer):
        """The next number that this peer sends: those of a pair of peers are the same ones."""
        number = 2 * self.next[peer] + peer // 2
        self.next[peer] += 1
        return number

    def send(self, peer):
        """Sends articles until the relay ends."""
        waiting = collections.deque()
        try:
            line = Peer(PORT + peer)
            while True:
                number = self.numbers(peer)
                path = f"Path: {servers.IDENTITIES[peer]}!not-for-mail\r\n".encode()
                line.send(f"TAKETHIS <{number}@soak>\r\n".encode() + path + text_of(number) + b".\r\n")
                waiting.append(number)
                if len(waiting) >= WINDOW:
                    self.answered(line.line(), waiting.popleft())
        except Gone:
            # What was answered meanwhile is read to the end.
            try:
                while waiting:
                    self.answered(line.line(), waiting.popleft())
            except (Gone, UnboundLocalError):
                pass
        finally:
            # What wasn't answered is sent again in the next life.
            self.next[peer] -= len(waiting)

    def answered(self, reply, number):
        code, named = reply.split()
        if named != f"<{number}@soak>" or code not in ("239", "439"):
            self.wrong(f"{reply} for {number}")
        if code == "239":
            with self.lock:
                if number in self.stored:
                    self.faults.append(f"{number} was stored twice")
                self.stored.add(number)

    def take(self, line):
        """Takes what the feed has; whether there was anything."""
        line.send("XTAKE 1000\r\n".encode())
        if line.line() != "290 Queue follows":
            raise Wrong("no queue")
        missed, *listed = line.block()
        if missed != "0":
            self.wrong(f"{missed} tokens were overwritten")
        for one in listed:
            serial, token = one.split()
            if int(serial) != self.serial + 1:
                self.wrong(f"serial {serial} behind {self.serial}")
            self.serial = int(serial)
            self.tokens.append(token)
        return bool(listed)

    def take_all(self):
        """Takes the feed until the relay ends."""
        try:
            line = Peer(PORT + 4)
            while True:
                if not self.take(line):
                    time.sleep(0.05)
        except Gone:
            pass

    # ---- what is looked at after a start

    def fronts(self, report):
        return {number: int(row.split()[3]) for number, row in enumerate(report) if row.startswith("buffer ")}

    def look(self, report):
        """What is live is there and right, what isn't is gone; what was stored is known."""
        line = Peer(PORT + 4)
        while self.take(line):
            pass
        fronts, live, gone, seen = self.fronts(report), 0, 0, set()
        for token in list(self.tokens):
            buffer, cycle, first = int(token[3:5], 16), int(token[5:13], 16), int(token[13:21], 16)
            place = cycle * BLOCKS + first
            is_live = place + BLOCKS >= fronts[buffer]
            # Of those that are gone some are tried.
            if not is_live and random.random() > 0.02:
                continue
            line.send(f"XFETCH {token}\r\n".encode())
            reply = line.line()
            if not is_live:
                gone += 1
                if reply != f"492 {token} gone":
                    self.wrong(f"{reply} for {token}, which is gone")
                continue
            live += 1
            if reply != f"292 {token}":
                self.wrong(f"{reply} for {token}, which is live")
                continue
            text = "".join(f"{it}\r\n" for it in line.block()).encode()
            head, _, rest = text.partition(b"\r\n")
            number = int(re.search(rb"\r\nMessage-ID: <(\d+)@soak>\r\n", text)[1])
            if rest != text_of(number) or not head.startswith(b"Path: relay.example!"):
                self.wrong(f"{token}: another text than that of {number}")
            if number in seen:
                self.wrong(f"{number} has two tokens")
            seen.add(number)
        known = random.sample(sorted(self.stored), min(TRIED, len(self.stored)))
        for number in known:
            line.send(f"CHECK <{number}@soak>\r\n".encode())
            reply = line.line()
            if reply != f"438 <{number}@soak>":
                self.wrong(f"{reply}, which was stored")
        line.send("QUIT\r\n".encode())
        line.close()
        return live, gone, len(known)

    # ---- lives

    def report(self):
        """What the relay says of itself, without the lines of peers and sizes."""
        return [row for row in report(self.folder, patience=600).splitlines()
                if not row.startswith(("peer ", "refused ", "from ", "size "))]

    def live(self, number, before):
        """A life: started, looked at, let at by peers for a while, and stopped. Its report at the end."""
        begun = time.monotonic()
        relay = servers.served(self.folder, self.ports)
        try:
            seen = self.report()
            self.seconds["start"].append(time.monotonic() - begun)
            if before is not None and seen != before:
                self.wrong(f"life {number} begins with {seen}, not {before}")
            live, gone, known = self.look(seen)
            threads = [threading.Thread(target=self.send, args=(peer,)) for peer in range(4)]
            threads.append(threading.Thread(target=self.take_all))
            for thread in threads:
                thread.start()
            time.sleep(max(1, SECONDS * random.uniform(0.8, 1.2) - (time.monotonic() - begun)))
            begun = time.monotonic()
            done = asked("stop", self.folder, patience=300)
            self.seconds["stop"].append(time.monotonic() - begun)
            relay.process.wait(60)
            for thread in threads:
                thread.join(60)
            if done.returncode or relay.process.returncode:
                raise Wrong(f"stop ended with {done.returncode}, serve with {relay.process.returncode}: {relay.told()}")
        finally:
            relay.stop()
        rows = relay.told(relay.out)
        ids = [int(word) for word in rows[-1].split()[1:]]
        with self.lock:
            answered = len(self.stored)
        if ids[0] or ids[1] or not answered <= ids[2] <= answered + 4 * WINDOW * (number + 1):
            self.wrong(f"{rows[-1]}, and {answered} were answered 239")
        print(f"life {number}: {answered:,} stored, {live:,} there, {gone:,} gone, {known:,} known; start "
              f"{self.seconds['start'][-1]:.2f} s, stop {self.seconds['stop'][-1]:.2f} s", flush=True)
        return rows

    def run(self):
        end, number, before = time.monotonic() + 60 * MINUTES, 0, None
        while time.monotonic() < end and not self.faults:
            before = self.live(number, before)
            number += 1
        gained = next(int(row.split()[3]) for row in before if row.startswith("feed "))
        waiting = next(int(row.split()[2]) for row in before if row.startswith("feed "))
        if self.serial + waiting < gained:
            self.wrong(f"{gained} tokens gained, {self.serial} taken, {waiting} wait")
        print("\n".join(before))
        return number


def options(about):
    servers.ask(about, minutes=MINUTES, work="/var/tmp", seconds=SECONDS)


def main(given):
    global MINUTES, SECONDS
    MINUTES, SECONDS = given.minutes, given.seconds
    with room("restarts", given.work) as folder:
        soak = Soak(folder / "relay")
        lives = soak.run()
    for fault in soak.faults[:20]:
        print(f"WRONG: {fault}")
    print(f"{lives} lives, {len(soak.stored):,} articles, each as it has to be" if not soak.faults else f"{len(soak.faults)} faults")
    return 1 if soak.faults else 0
