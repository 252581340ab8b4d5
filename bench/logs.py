"""Measures what the news log costs, and prints the table of RESULTS.md, The news log.

    tools/check bench logs [ROUNDS]

Three relays run all the time, without a log, with `log refused` and with `log all`; each round sends each of them the
same, the first by turns. The lines of the logs are counted at the end: those that came faster than they are written are
lost. Ends with status 1 where a relay answers what it shouldn't, or a log has a line of what it isn't for.
"""
import statistics
import sys
import time

from lib import ports, servers
from lib.servers import GROUPS
from lib.trying import Wrong, room

# main sets what was said.
ROUNDS = 9
KNOWN = 20_000
# What is done, connections, articles each, the words of the load, and whether they are known before.
CASES = [
    ("TAKETHIS of 1 KB", 1, 20_000, "take octets=1024", False),
    ("TAKETHIS of 1 KB", 4, 8_000, "take octets=1024", False),
    ("TAKETHIS of 1 KB, known", 1, 40_000, f"take octets=1024 code=439 distinct={KNOWN}", True),
    ("TAKETHIS of 1 KB, known", 4, 20_000, f"take octets=1024 code=439 distinct={KNOWN}", True),
]
KINDS = [("without", []), ("refused", ["log refused news"]), ("all", ["log all news"])]


class Kind:
    """A relay with one kind of log, or with none."""

    def __init__(self, name, lines, folder):
        self.name, self.folder = name, folder / name
        self.port = ports.free(4)
        self.server = servers.relay(self.folder, self.port, 262_144, relay_lines=lines)
        self.rates, self.costs, self.sent = {}, {}, {"+": 0, "-": 0}

    def load(self, words, connections, run, count):
        before = sum(self.server.seconds())
        seen = servers.loaded(servers.load_words(words, run, count, range(self.port, self.port + connections), None,
                                                 GROUPS[:1] if connections == 1 else GROUPS))
        self.sent["-" if "439" in words else "+"] += int(seen["done"])
        return seen["done"] / seen["seconds"], 1e6 * (sum(self.server.seconds()) - before) / seen["done"]

    def lines(self):
        """How many lines of each kind its log has."""
        time.sleep(1)
        path = self.folder / "news"
        marks = [line[20:21] for line in path.read_text().splitlines()] if path.exists() else []
        return {mark: marks.count(mark) for mark in "+-"}


def run(folder):
    kinds = []
    try:
        for name, lines in KINDS:
            kinds.append(Kind(name, lines, folder))
        for kind in kinds:
            kind.load("take octets=1024", 4, "known", KNOWN)
        for number in range(ROUNDS):
            for at in range(len(kinds)):
                kind = kinds[(number + at) % len(kinds)]
                for done, connections, count, words, is_known in CASES:
                    name = "known" if is_known else f"take.{connections}.{number}"
                    rate, cost = kind.load(words, connections, name, count)
                    kind.rates.setdefault((done, connections), []).append(rate)
                    kind.costs.setdefault((done, connections), []).append(cost)
                    print(f"{number} {kind.name} {done} {connections}: {rate:.0f} a second, {cost:.1f} us", file=sys.stderr)
        print("| Done | Connections | without, a second | `refused` | `all` | without, µs of CPU | `refused` | `all` |")
        print("|---|---:|---:|---:|---:|---:|---:|---:|")
        for done, connections, *_ in CASES:
            rates = [statistics.median(kind.rates[done, connections]) for kind in kinds]
            costs = [statistics.median(kind.costs[done, connections]) for kind in kinds]
            print(f"| {done} | {connections} | {rates[0]:,.0f} | {rates[1] / rates[0]:.2f} | {rates[2] / rates[0]:.2f}"
                  f" | {costs[0]:.1f} | {costs[1]:.1f} | {costs[2]:.1f} |")
        wanted = [{"+": 0, "-": 0}, {**kinds[1].sent, "+": 0}, kinds[2].sent]
        print()
        for kind, most in zip(kinds, wanted):
            lines = kind.lines()
            if any(lines[mark] > most[mark] for mark in lines):
                raise Wrong(f"the log of {kind.name} has {lines}, more than {most}")
            if not kind.server.is_running():
                raise Wrong(f"{kind.name} ended by itself")
            print(f"- {kind.name}: {sum(lines.values()):,} of {sum(most.values()):,} lines")
    finally:
        for kind in kinds:
            kind.server.stop()


def options(about):
    servers.ask(about, rounds=ROUNDS)


def main(given):
    global ROUNDS
    ROUNDS = given.rounds
    servers.load()
    with room("logs") as folder:
        run(folder)
