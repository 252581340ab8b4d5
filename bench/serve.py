"""Measures `cnrelay serve` beside innd, and prints the tables of RESULTS.md, Serve.

    tools/check bench serve [--alone] [ROUNDS [WORK]]

With --alone it is innd alone. Both servers run all the time; each round does everything once with each of them in turn,
the first of the two by turns. WORK is a folder for both servers' files, made and taken away again. Runs as root, since
innd has to be the user news; installs Debian's inn2 where it isn't. Everything goes over 127.0.0.0/8. Each run is told on
standard error as it ends. Ends with status 1 where a server answers what it shouldn't.
"""
import statistics
import sys
import time

from lib import ports, servers
from lib.nntp import called
from lib.servers import GROUPS, SOURCES
from lib.trying import Wrong, room

# main sets what was said.
ROUNDS = 9
RELAY_PORT, INND_PORT, NNRPD_PORT = ports.free(4), ports.free(), ports.free()
KILOBYTES = 262_144
# The ids that are known before anything is measured, so many a connection, of four.
KNOWN = 20_000

# What is done, the name of its run, connections, articles each, and the words of the load.
CASES = [
    ("TAKETHIS of 1 KB", "take1", 1, 20_000, "take octets=1024"),
    ("TAKETHIS of 1 KB", "take1", 4, 8_000, "take octets=1024"),
    ("ARTICLE of 1 KB", "take1", 1, 10_000, "fetch command=ARTICLE"),
    ("ARTICLE of 1 KB", "take1", 4, 4_000, "fetch command=ARTICLE"),
    ("STAT", "take1", 1, 10_000, "fetch command=STAT"),
    ("TAKETHIS of 4 KB", "take4", 1, 8_000, "take octets=4096"),
    ("TAKETHIS of 4 KB", "take4", 4, 3_000, "take octets=4096"),
    ("TAKETHIS of 64 KB", "take64", 1, 800, "take octets=65536"),
    ("TAKETHIS of 64 KB", "take64", 4, 300, "take octets=65536"),
    ("ARTICLE of 64 KB", "take64", 1, 500, "fetch command=ARTICLE"),
    ("TAKETHIS of 500 KB", "take500", 1, 100, "take octets=512000"),
    ("TAKETHIS of 500 KB", "take500", 4, 40, "take octets=512000"),
    ("CHECK and TAKETHIS of 1 KB", "offer", 1, 10_000, "offer octets=1024"),
    ("CHECK and TAKETHIS of 1 KB", "offer", 4, 4_000, "offer octets=1024"),
    ("TAKETHIS of 1 KB, known", "known", 1, 40_000, f"take octets=1024 code=439 distinct={KNOWN}"),
    ("TAKETHIS of 1 KB, known", "known", 4, 20_000, f"take octets=1024 code=439 distinct={KNOWN}"),
    ("CHECK, known", "known", 1, 100_000, f"check code=438 distinct={KNOWN}"),
    ("CHECK, known", "known", 4, 50_000, f"check code=438 distinct={KNOWN}"),
    ("CHECK, new, 200 a connection", "new", 1, 10_000, "new code=238"),
    ("TAKETHIS of 1 KB, acknowledged late", "late", 1, 5_000, "take octets=1024 lazy=1 gather=64"),
    ("TAKETHIS of 1 KB, acknowledged late", "late", 4, 2_000, "take octets=1024 lazy=1 gather=64"),
    ("TAKETHIS of 1 KB, known, acknowledged late", "known", 1, 5_000, "take octets=1024 code=439 lazy=1 gather=64"),
]
# Waits for answers: as the system acknowledges, which is where stalls come from.
PACES = [
    ("CHECK, known", "known", 1_000, "what=check code=438"),
    ("TAKETHIS of 1 KB", "pace1", 1_000, "what=take octets=1024"),
    ("TAKETHIS of 64 KB", "pace64", 200, "what=take octets=65536"),
    ("ARTICLE of 1 KB", "pace1", 100, "what=fetch"),
    ("ARTICLE of 64 KB", "pace64", 200, "what=fetch"),
    ("3 TAKETHIS of 1 KB at once", "paces3", 150, "what=take octets=1024 burst=3"),
    ("20 TAKETHIS of 1 KB at once", "paces20", 800, "what=take octets=1024 burst=20"),
    ("20 CHECKs at once, known", "known", 800, "what=check code=438 burst=20"),
    ("5 ARTICLEs of 1 KB at once", "pace1", 200, "what=fetch burst=5"),
]


class Side:
    """One of the two: where it listens, and what it was seen to do."""

    def __init__(self, name, server, reader, addresses, sources, reader_addresses):
        self.name, self.server, self.reader = name, server, reader
        self.addresses, self.sources, self.reader_addresses = addresses, sources, reader_addresses
        self.rates, self.costs, self.waits, self.stalls, self.own = {}, {}, {}, {}, {}

    def load(self, words, connections, run, count):
        """Runs the load, and gives what it printed by key, and the processor's seconds that the server had."""
        fetches = "fetch" in words
        server = self.reader if fetches else self.server
        before = sum(server.seconds())
        addresses = self.reader_addresses if fetches else self.addresses
        seen = servers.loaded(servers.load_words(words, run, count, addresses[:connections], self.sources[:connections],
                                                 GROUPS[:1] if connections == 1 else GROUPS))
        if fetches and self.reader is not self.server:
            # What serves readers is a child, whose seconds count once it has ended.
            time.sleep(0.05)
        return seen, sum(server.seconds()) - before


def measure(side, number):
    """One round of one side."""
    for done, name, connections, count, words in CASES:
        run = name if name == "known" else f"{name}.{connections}.{number}"
        seen, seconds = side.load(words, connections, run, count)
        key = done, connections
        side.rates.setdefault(key, []).append(seen["done"] / seen["seconds"])
        side.costs.setdefault(key, []).append(1e6 * seconds / seen["done"])
        side.own.setdefault(key, []).append(1e6 * seen["own"] / seen["done"])
        print(f"{number} {side.name} {done} {connections}: {seen['done'] / seen['seconds']:.0f} a second,"
              f" {1e6 * seconds / seen['done']:.1f} us, load {1e6 * seen['own'] / seen['done']:.1f} us", file=sys.stderr)


def measure_paces(side, number):
    for done, name, count, words in PACES:
        run = name if name == "known" else f"{name}.{number}"
        seen, _ = side.load(f"pace lazy=1 {words}", 1, run, count)
        side.waits.setdefault(done, []).append((seen["middle"], seen["high"], seen["most"]))
        side.stalls.setdefault(done, []).append((int(seen["stalls"]), int(seen["waits"])))
        print(f"{number} {side.name} {done}: {seen['middle']:.0f} {seen['high']:.0f} {seen['most']:.0f} us,"
              f" {seen['stalls']:.0f} stalls", file=sys.stderr)


def spread(values, form="{:,.0f}"):
    """The median, with the least and the most."""
    return " ".join([form.format(statistics.median(values)), f"({form.format(min(values))}..{form.format(max(values))})"])


def times(left, right):
    return f"{statistics.median(left) / statistics.median(right):.2f}"


def print_tables(sides):
    relay, innd = sides.get("cnrelay"), sides["innd"]
    print("| Done | Connections | cnrelay, a second | innd, a second | Times | cnrelay, µs of CPU | innd, µs of CPU |")
    print("|---|---:|---:|---:|---:|---:|---:|")
    for done, _, connections, _, _ in CASES:
        key = done, connections
        ours = spread(relay.rates[key]) if relay else ""
        ratio = times(relay.rates[key], innd.rates[key]) if relay else ""
        cost = f"{statistics.median(relay.costs[key]):.1f}" if relay else ""
        print(f"| {done} | {connections} | {ours} | {spread(innd.rates[key])} | {ratio} | {cost}"
              f" | {statistics.median(innd.costs[key]):.1f} |")
    print()
    print("| One wait | " + " | ".join(f"{name}, µs: middle, 99 in 100, most | stalls" for name in sides) + " |")
    print("|---|" + "---:|---:|" * len(sides))
    for done, *_ in PACES:
        cells = []
        for side in sides.values():
            middle, high, most = (statistics.median(column) for column in zip(*side.waits[done]))
            stalled, waits = (sum(column) for column in zip(*side.stalls[done]))
            cells += [f"{middle:,.0f}, {high:,.0f}, {most:,.0f}", f"{stalled:,} of {waits:,}"]
        print(f"| {done} | " + " | ".join(cells) + " |")


def print_verdicts(relay, innd):
    """Which of the figures to reach are reached."""
    def rate(done, connections):
        return statistics.median(relay.rates[done, connections]) / statistics.median(innd.rates[done, connections])

    def cost(done, connections):
        return statistics.median(relay.costs[done, connections]) / statistics.median(innd.costs[done, connections])

    stalled = sum(stalls for waits in relay.stalls.values() for stalls, _ in waits)
    verdicts = [
        ("1 KB by one connection", 1.5, rate("TAKETHIS of 1 KB", 1)),
        ("1 KB by four peers over two groups", 3, rate("TAKETHIS of 1 KB", 4)),
        ("500 KB by one connection", 1, rate("TAKETHIS of 500 KB", 1)),
        ("500 KB by four peers", 1, rate("TAKETHIS of 500 KB", 4)),
        ("refused articles of 1 KB by one connection", 5, rate("TAKETHIS of 1 KB, known", 1)),
        ("refused articles of 1 KB by four peers", 5, rate("TAKETHIS of 1 KB, known", 4)),
        ("refused CHECKs by one connection", 5, rate("CHECK, known", 1)),
    ]
    print()
    for what, wanted, found in verdicts:
        print(f"- {what}: {found:.2f} times innd's, {wanted} wanted: {'reached' if found >= wanted else 'NOT reached'}")
    for connections in (1, 4):
        found = cost("TAKETHIS of 1 KB", connections)
        print(f"- CPU of 1 KB, {connections} connections: {found:.2f} times innd's, 1 wanted:"
              f" {'reached' if found <= 1 else 'NOT reached'}")
    print(f"- stalls of more than 30 ms: {stalled}, 0 wanted: {'NOT reached' if stalled else 'reached'}")


def run(folder, is_alone):
    # Its history is made for more ids than come.
    inn = servers.Inn(folder / "innd", INND_PORT, KILOBYTES, ids=200_000 * ROUNDS + 500_000)
    started = []
    try:
        innd = inn.innd()
        started.append(innd)
        nnrpd = inn.nnrpd(NNRPD_PORT)
        started.append(nnrpd)
        sides = {}
        if not is_alone:
            begun = time.monotonic()
            relay = servers.relay(folder / "relay", RELAY_PORT, KILOBYTES)
            started.append(relay)
            called(RELAY_PORT, 60).closes()
            print(f"cnrelay greeted after {time.monotonic() - begun:.2f} seconds", file=sys.stderr)
            addresses = [f"127.0.0.1:{RELAY_PORT + number}" for number in range(4)]
            sides["cnrelay"] = Side("cnrelay", relay, relay, addresses, ["127.0.0.1"] * 4, addresses)
        at_innd, at_nnrpd = [f"127.0.0.1:{INND_PORT}"] * 4, [f"127.0.0.1:{NNRPD_PORT}"] * 4
        sides["innd"] = Side("innd", innd, nnrpd, at_innd, SOURCES, at_nnrpd)
        memory = {name: [(0, side.server.memory())] for name, side in sides.items()}
        for side in sides.values():
            side.load("take octets=1024", 4, "known", KNOWN)
        for number in range(ROUNDS):
            order = list(sides.values())
            for side in order if number % 2 == 0 else order[::-1]:
                measure(side, number)
                measure_paces(side, number)
                memory[side.name].append((number + 1, side.server.memory()))
        print_tables(sides)
        print("\nMemory, MB, at the start, after the first round, at the end, and the most at any time:")
        for name, seen in memory.items():
            print(f"- {name}: " + ", ".join(f"{seen[at][1][0] / 1e6:.1f}" for at in (0, 1, -1)),
                  f"; {seen[-1][1][1] / 1e6:.1f}")
        if "cnrelay" in sides:
            print_verdicts(sides["cnrelay"], sides["innd"])
        for server in started:
            if not server.is_running():
                raise Wrong(f"{server.name} ended by itself")
    finally:
        for server in started:
            inn.shut(server) if server.name == "innd" else server.stop()


def options(about):
    about.add_argument("--alone", action="store_true", help="innd alone")
    servers.ask(about, rounds=ROUNDS, work="/var/tmp")


def main(given):
    global ROUNDS
    ROUNDS = given.rounds
    servers.needed("inn2")
    servers.load()
    with room("bench", given.work, 0o755) as folder:
        servers.tell_machine()
        run(folder, given.alone)
        print(f"load average at the end: {servers.load_average()}")
