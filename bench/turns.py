"""Measures two programs of `cnrelay serve` in turn, as before and after a change, and prints a table of both.

    tools/check bench turns BEFORE [ROUNDS [WORK]]

BEFORE is another program than that of --program, as it was before the change; nine rounds without ROUNDS; WORK is a folder
for the buffers' files. Both run all the time, and each round does everything once with each of them, the first of the two by
turns. Everything goes over 127.0.0.1. What is done beside a program that never sleeps has that, and the server, on the last
processor alone.
"""
import contextlib
import os
import statistics
import subprocess
import sys
from pathlib import Path

from lib import ports, servers
from lib.program import PROGRAM
from lib.trying import room

# main sets what was said.
ROUNDS = 9
PORTS = {"before": ports.free(4), "after": ports.free(4)}
# Articles that are known before anything is measured.
KNOWN = 20_000

# What is done, connections, commands a connection, the words of the load; ids are new in each round but for those that are known.
CASES = [
    ("TAKETHIS of 1 KB", 1, 20_000, "take octets=1024"),
    ("TAKETHIS of 1 KB", 4, 8_000, "take octets=1024"),
    ("TAKETHIS of 1 KB, beside a program that never sleeps", 1, 2_000, "take octets=1024"),
    ("TAKETHIS of 1 KB, beside a program that never sleeps", 4, 1_000, "take octets=1024"),
    ("ARTICLE of 1 KB", 1, 10_000, "fetch command=ARTICLE"),
    ("TAKETHIS of 64 KB", 1, 800, "take octets=65536"),
    ("TAKETHIS of 1 KB, known", 1, 40_000, f"take octets=1024 code=439 distinct={KNOWN}"),
    ("CHECK, known", 1, 100_000, f"check code=438 distinct={KNOWN}"),
]


def stay(pid, processors):
    """Has each thread of a process run on these processors."""
    for thread in os.listdir(f"/proc/{pid}/task"):
        os.sched_setaffinity(int(thread), processors)


@contextlib.contextmanager
def beside(pid):
    """Has a process share the last processor with a program that never sleeps."""
    whole = os.sched_getaffinity(0)
    busy = subprocess.Popen([sys.executable, "-c", "while True: pass"])
    try:
        for one in (pid, busy.pid):
            stay(one, {max(whole)})
        yield
    finally:
        busy.kill()
        busy.wait()
        stay(pid, whole)


def load(name, server, words, connections, run, count):
    """Runs the load: what it did a second, and the microseconds of CPU that the server had for each."""
    before = sum(server.seconds())
    seen = servers.loaded(servers.load_words(words, run, count, range(PORTS[name], PORTS[name] + connections), None,
                                             servers.GROUPS[:1] if connections == 1 else servers.GROUPS))
    return seen["done"] / seen["seconds"], 1e6 * (sum(server.seconds()) - before) / seen["done"]


def measure(running):
    """All rounds: for each program and case the rates and the costs."""
    seen = {name: {} for name in running}
    for name, server in running.items():
        load(name, server, "take octets=1024", 4, "known", KNOWN)
    for number in range(ROUNDS):
        for name in list(running) if number % 2 == 0 else list(running)[::-1]:
            for done, connections, count, words in CASES:
                kind = "known" if "known" in done else f"{words.split('octets=')[-1] if 'take' in words else 1024}.{connections}.{number}"
                never_sleeps = "never sleeps" in done
                if never_sleeps:
                    kind = f"busy.{kind}"
                with beside(running[name].process.pid) if never_sleeps else contextlib.nullcontext():
                    got = load(name, running[name], words, connections, kind, count)
                seen[name].setdefault((done, connections), []).append(got)
                print(f"{number} {name} {done} {connections}: {got[0]:.0f} a second, {got[1]:.1f} us", file=sys.stderr)
    return seen


def print_table(seen):
    print("| Done | Connections | before, a second | after, a second | after by before | before, µs of CPU | after, µs of CPU |")
    print("|---|---:|---:|---:|---:|---:|---:|")
    for done, connections, *_ in CASES:
        rates, costs = ([[row[at] for row in seen[name][done, connections]] for name in PORTS] for at in (0, 1))
        spread = [f"{statistics.median(them):,.0f} ({min(them):,.0f} to {max(them):,.0f})" for them in rates]
        ratio = statistics.median(rates[1]) / statistics.median(rates[0])
        cost = [f"{statistics.median(them):.1f}" for them in costs]
        print(f"| {done} | {connections} | {spread[0]} | {spread[1]} | {ratio:.2f} | {cost[0]} | {cost[1]} |")


def options(about):
    about.add_argument("before", type=Path, metavar="BEFORE", help="the program as it was before")
    servers.ask(about, rounds=ROUNDS, work="/var/tmp")


def main(given):
    global ROUNDS
    ROUNDS = given.rounds
    running = {}
    servers.load()
    with room("turns", given.work) as folder:
        try:
            for name, program in (("before", given.before.resolve()), ("after", PROGRAM)):
                running[name] = servers.relay(folder / name, PORTS[name], program=program)
            print_table(measure(running))
        finally:
            for server in running.values():
                server.stop()
