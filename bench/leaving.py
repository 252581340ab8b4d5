"""Measures what a stored article leaves behind for good in `cnrelay serve`, in octets of memory.

    tools/check bench leaving [ARTICLES [WORK]]

A million articles without ARTICLES; WORK is a folder for the buffers' files. With `remember 10` and two small buffers articles
of 1 KB come in connections of two seconds each, so that an id is forgotten some seconds after its article is gone. Once as many
are forgotten as come, the memory is read, then the articles are sent, and it is read again: what grew, by article. Everything
goes over 127.0.0.1.
"""
import sys
import time

from lib import ports, servers
from lib.trying import room

# main sets what was said.
ARTICLES = 1_000_000
PORT = ports.free(4)
# Articles of a connection, seconds that it may take, and connections before the memory is read first.
BATCH, SECONDS, FIRST = 20_000, 2, 20


def send(number):
    """One connection, and then a wait until its seconds are over."""
    begun = time.monotonic()
    servers.loaded(servers.load_words("take octets=1024", f"leave{number}", BATCH, [PORT]))
    time.sleep(max(0, SECONDS - (time.monotonic() - begun)))


def measure(relay):
    for number in range(FIRST):
        send(number)
    before = relay.memory()[0]
    batches = ARTICLES // BATCH
    for number in range(batches):
        send(FIRST + number)
        if number % 10 == 9:
            print(f"{(number + 1) * BATCH} articles: {(relay.memory()[0] - before) / ((number + 1) * BATCH):.1f} octets each",
                  file=sys.stderr)
    after = relay.memory()[0]
    print(f"{batches * BATCH} articles: memory grew from {before / 1e6:.1f} MB to {after / 1e6:.1f}, by"
          f" {(after - before) / (batches * BATCH):.1f} octets for each")


def options(about):
    servers.ask(about, articles=ARTICLES, work="/var/tmp")


def main(given):
    global ARTICLES
    ARTICLES = given.articles
    servers.load()
    with room("leaves", given.work) as folder:
        relay = servers.relay(folder / "relay", PORT, 128, relay_lines=("remember 10",))
        try:
            measure(relay)
        finally:
            relay.stop()
