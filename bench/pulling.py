"""Measures how fast tools/pull_feed hands a feed on to innd, and prints the table of RESULTS.md, A feed that is pulled.

    tools/check bench pulling [ROUNDS [WORK [PULLER]]]

WORK is a folder for both servers' files, made and taken away again; PULLER is another state of tools/pull_feed. In each
round 20,000 articles of 1 KB come to the relay. One feed of theirs is pulled, which innd takes, and then a second, all of
which innd knows. A run is timed from its start to its end, by `--once`. Runs as root, since innd has to be the user news;
installs Debian's inn2 where it isn't. Ends with status 1 where fewer are handed on.
"""
import re
import resource
import statistics
import subprocess
import sys
import time

from lib import ports, servers
from lib.program import ROOT
from lib.trying import Wrong, room

# main sets what was said.
ROUNDS, PULLER = 5, str(ROOT / "tools/pull_feed")
RELAY_PORT, INND_PORT = ports.free(4), ports.free()
COUNT, OCTETS = 20_000, 1_024
# What is wanted of articles that innd takes, a second.
WANTED = 3_000
KILOBYTES = 262_144
# The options of a run, the port of its feed behind the relay's first, and what innd has to say.
CASES = [
    ("taken by innd", (), 1, "sent"),
    ("known to innd", (), 2, "known"),
    ("known to innd, `--at-once 16 --take 100`", ("--at-once", "16", "--take", "100"), 3, "known"),
]


def bring(run):
    """The relay is handed articles, which its feeds gain."""
    servers.loaded(servers.load_words(f"take octets={OCTETS}", run, COUNT, [RELAY_PORT], None, servers.GROUPS[:1],
                                      servers.IDENTITIES[:1]), servers.PATIENCE)


def children():
    used = resource.getrusage(resource.RUSAGE_CHILDREN)
    return used.ru_utime + used.ru_stime


def pull(state, words, port, kind):
    """Pulls a feed to its end: articles a second, and the processor's microseconds for each."""
    before, begun = children(), time.monotonic()
    told = subprocess.run([PULLER, *words, "--once", state, f"127.0.0.1:{RELAY_PORT + port}", f"127.0.0.1:{INND_PORT}"],
                          capture_output=True, text=True, timeout=600)
    took, used = time.monotonic() - begun, children() - before
    found = re.search(rf" {kind}=(\d+)", told.stderr.splitlines()[-1])
    if told.returncode or not found or int(found[1]) != COUNT:
        raise Wrong(f"pull_feed ended with {told.returncode}: {told.stderr[-500:]}")
    return COUNT / took, 1e6 * used / COUNT


def run(folder):
    inn = servers.Inn(folder / "innd", INND_PORT, KILOBYTES, ids=2 * COUNT * (ROUNDS + 1))
    feeds = [f"feed {name} 65536 *" for name in servers.PEERS[1:]]
    started = []
    try:
        started.append(inn.innd())
        started.append(servers.relay(folder / "relay", RELAY_PORT, KILOBYTES, relay_lines=feeds))
        seen = {done: [] for done, *_ in CASES}
        for number in range(ROUNDS):
            bring(f"pull{number}")
            for done, words, port, kind in CASES:
                seen[done].append(pull(folder / f"state{port}", words, port, kind))
                rate, cost = seen[done][-1]
                print(f"{number} {done}: {rate:,.0f} a second, {cost:.0f} us of CPU", file=sys.stderr)
    finally:
        for server in started:
            inn.shut(server) if server.name == "innd" else server.stop()
    print("| Articles of 1 KB | A second | µs of the puller's CPU |\n|---|---:|---:|")
    for done, found in seen.items():
        rates, costs = zip(*found)
        print(f"| {done} | {statistics.median(rates):,.0f} ({min(rates):,.0f}..{max(rates):,.0f}) | {statistics.median(costs):.0f} |")
    reached = statistics.median(rate for rate, _ in seen[CASES[0][0]])
    print(f"\n- taken by innd: {reached:,.0f} a second, {WANTED:,} wanted: {'reached' if reached >= WANTED else 'NOT reached'}")


def options(about):
    servers.ask(about, rounds=ROUNDS, work="/var/tmp", puller=PULLER)


def main(given):
    global ROUNDS, PULLER
    ROUNDS, PULLER = given.rounds, given.puller
    servers.needed("inn2")
    servers.load()
    with room("bench", given.work, 0o755) as folder:
        servers.tell_machine()
        run(folder)
        print(f"load average at the end: {servers.load_average()}")
