"""Lets a peer send articles to `cnrelay serve` for some minutes, and checks what is remembered of them and what is forgotten.

    tools/check bench forgetting [MINUTES [REMEMBER [WORK]]]

Ten minutes, and sixty seconds that ids are remembered. A sender connects anew every second, so that a round of forgetting goes
each second, and sends articles in turn for two small buffers, and now and then one that is refused. An asker on another
port offers ids that were sent: younger than REMEMBER they have to be answered 438; older, and gone from their buffer, 238.
Memory has to stay flat but for what is kept of each article for the counts at the end. Status 1 where anything is wrong.
Everything goes over 127.0.0.0/8.
"""
import collections
import random
import statistics
import time
from email.utils import formatdate

from lib import ports, servers
from lib.nntp import called
from lib.trying import Wrong, room

# main sets what was said.
MINUTES, REMEMBER = 10.0, 60
PORT = ports.free(4)
# Each of the two buffers: 256 blocks, so 128 articles of two blocks.
KILOBYTES = 128
SECOND = 1
BATCH = 400
# Seconds by which an answer may be late: an id is forgotten by the next round, and sent some time before it is stored.
LATE = 4
# Seconds by which it may seem early: moments are whole seconds, and a reply is read after the article was stored.
EARLY = 3
# Each so-manieth article has no Subject, and so is refused.
REFUSED = 10
# The most octets for each stored article that are never given back.
MOST = 400


def read(peer):
    """The next line, without its end."""
    line = peer.line().decode("ascii").rstrip("\r\n")
    if not line:
        raise Wrong("a connection ended")
    return line


def quit(peer):
    peer.send(b"QUIT\r\n")
    while not read(peer).startswith("205"):
        pass
    peer.closes()


def article(ident, group, is_refused):
    subject = "" if is_refused else "Subject: t\r\n"
    head = (f"Path: one.example!x\r\nFrom: a@x.example\r\nNewsgroups: {group}\r\n{subject}"
            f"Message-ID: {ident}\r\nDate: {formatdate(usegmt=True)}\r\n\r\n")
    return f"TAKETHIS {ident}\r\n{head}{'y' * 70}\r\n{'z' * 500}\r\n.\r\n".encode("ascii")


def send_batch(first, sent, wrong):
    """Sends so many articles over a connection of their own, and notes when each was answered, and how."""
    peer = called(PORT, 30)
    idents = [f"<{number}.{number * 7919 % 10_007}@soak.example>" for number in range(first, first + BATCH)]
    for at, ident in enumerate(idents):
        peer.send(article(ident, servers.GROUPS[at % 2], at % REFUSED == 0))
    for at, ident in enumerate(idents):
        code = "439" if at % REFUSED == 0 else "239"
        reply = read(peer)
        if reply != f"{code} {ident}":
            wrong.append(f"TAKETHIS {ident}: {reply}, not {code}")
        sent.append((time.time(), ident))
    quit(peer)


def ask(sent, wrong, counts):
    """Offers some ids that were sent, over a connection of the asker's, and compares the answers."""
    peer = called(PORT + 1, 30)
    now = time.time()
    places = random.sample(range(len(sent)), min(60, len(sent)))
    asked = [sent[place] for place in places]
    peer.send("".join(f"CHECK {ident}\r\n" for _, ident in asked).encode("ascii"))
    for stored, ident in asked:
        age, reply = now - stored, read(peer).split()[0]
        if age < REMEMBER - EARLY:
            right = {"438"}
        elif age > REMEMBER + LATE:
            right = {"238"}
        else:
            right = {"238", "438"}
        counts[reply] += 1
        if reply not in right:
            wrong.append(f"CHECK {ident} after {age:.1f} s: {reply}")
    quit(peer)


def soak(folder):
    wrong, counts, sent, seen = [], collections.Counter(), [], []
    relay = servers.relay(folder / "relay", PORT, KILOBYTES, 1, (f"remember {REMEMBER}",))
    try:
        begun, number, asked_of = time.monotonic(), 0, 0
        while time.monotonic() - begun < 60 * MINUTES and len(wrong) < 20:
            turn = time.monotonic()
            send_batch(number, sent, wrong)
            number += BATCH
            # The newest articles may still lie in their buffers: of those nothing old is asked.
            if sent:
                ask(sent, wrong, counts)
            # What is long forgotten may be asked again, but needn't be kept here for ever.
            if len(sent) > 200 * BATCH:
                del sent[: 50 * BATCH]
            seen.append((time.monotonic() - begun, number * (REFUSED - 1) // REFUSED, relay.memory()[0]))
            time.sleep(max(0, SECOND - (time.monotonic() - turn)))
        if not relay.is_running():
            raise Wrong(f"serve ended with {relay.process.returncode}")
    finally:
        relay.stop()
    for seconds, stored, memory in seen[:: max(1, len(seen) // 12)]:
        print(f"{seconds:6.0f} seconds {stored:10,} stored {memory / 1e6:8.1f} MB")
    late = [(stored, memory) for seconds, stored, memory in seen if seconds > 2 * REMEMBER + LATE]
    each = statistics.linear_regression(*zip(*late)).slope if len(late) > 9 else 0
    print(f"memory: {each:.0f} octets for each stored article, once as many are forgotten as come")
    if each > MOST:
        wrong.append(f"memory grows by {each:.0f} octets for each article, more than {MOST}")
    if not (counts["238"] and counts["438"]):
        wrong.append(f"asked: {dict(counts)}")
    print(f"{number:,} articles sent, {counts['438']:,} answered as remembered, {counts['238']:,} as forgotten")
    return wrong


def options(about):
    servers.ask(about, minutes=MINUTES, remember=REMEMBER, work="/var/tmp")


def main(given):
    global MINUTES, REMEMBER
    MINUTES, REMEMBER = given.minutes, given.remember
    with room("forgetting", given.work) as folder:
        wrong = soak(folder)
    for fault in wrong:
        print(f"WRONG: {fault}")
    print("each answer was as it has to be" if not wrong else f"{len(wrong)} faults")
    return 1 if wrong else 0
