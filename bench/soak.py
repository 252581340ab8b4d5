"""Lets four peers and two readers at `cnrelay serve` for some minutes, and checks what they and the report say.

    tools/check bench soak [MINUTES [WORK]]

Ten minutes without MINUTES; bench/load/soak.rs says what peers and readers do. Four buffers of 16 MB go round many times. Then,
for as long again, it is stopped and started each half minute under load, as by `tools/check bench restarts`. Ends with status 1 where a text isn't whole and right, an article is
gone that can't be, the report differs from what was counted, or memory grows by more than what is remembered of an article.
"""
import re
import statistics
import subprocess
import time

from bench import restarts
from lib import ports, servers
from lib.trying import Wrong, room

# main sets what was said.
MINUTES = 10.0
PORT = ports.free(6)
KILOBYTES = 16_384
BLOCKS = 2 * KILOBYTES
CONNECTIONS = 4
RING = 5_000
# The most octets of memory for each article that was stored: what is remembered of it, never its text.
MOST = 600


def numbers(line):
    """The words KEY=NUMBER of a line."""
    return {key: float(value) for key, value in re.findall(r"(\w+)=([\d.]+)", line)}


def read_report(text):
    """The numbers of a report's lines, by their first two words."""
    found = {}
    for line in text.splitlines():
        words = line.split()
        if words[0] == "ids":
            found["ids"] = [int(word) for word in words[1:]]
        elif words[0] in ("buffer", "feed"):
            found[words[0], words[1]] = [int(word) for word in words[2:]]
    return found


def faults_of(report, lines):
    """What of the report, and of the lines that the load printed, doesn't agree."""
    def only(front):
        return numbers(next(line for line in lines if line.startswith(front)))

    sent, taken = only("sent "), only("by token ")
    stored = int(sent["stored"])
    wanted = [
        ("ids offered, storing, stored, refused", report["ids"], [0, 0, stored, 0]),
        ("tokens waiting, gained, overwritten", report["feed", "tokens"], [0, stored, int(taken["missed"])]),
        ("tokens taken", [int(taken["taken"])], [stored - int(taken["missed"])]),
    ]
    buffers = [(name[1], row) for name, row in report.items() if name[0] == "buffer"]
    wanted.append(("begun and stored of all buffers", [sum(row[at] for _, row in buffers) for at in (2, 3)], [stored, stored]))
    waiting, gained, overwritten = report["feed", "two"]
    wanted.append(("waiting of a ring that nobody takes from", [waiting], [min(100, gained)]))
    wanted.append(("its overwritten tokens", [overwritten], [gained - waiting]))
    faults = [f"{what}: {found}, not {right}" for what, found, right in wanted if found != right]
    for line in lines:
        if line.startswith("kept "):
            kept = numbers(line.replace("there=18446744073709551615", ""))
            front = buffers[int(kept["buffer"])][1][1]
            if kept.get("there", front) + BLOCKS < front or kept["gone"] - 1 + BLOCKS >= front > 0 < kept["gone"]:
                faults.append(f"{line}: front {front}")
    if MINUTES >= 2:
        faults += [f"buffer {name} went round {row[0]} times alone" for name, row in buffers if row[0] < 3]
    return faults


def print_memory(lines):
    """Prints what memory came to, and gives the octets for each id: over the last two thirds of the ids."""
    seen = [numbers(line) for line in lines if line.startswith("memory ")]
    most = seen[-1]["stored"]
    points = [(one["stored"], 1024 * one["kilobytes"]) for one in seen if one["stored"] >= most / 3]
    each = statistics.linear_regression(*zip(*points)).slope if len(points) > 2 else 0
    for one in seen[:: max(1, len(seen) // 12)]:
        print(f"{one['seconds']:6.0f} seconds {one['stored']:12,.0f} ids {1024 * one['kilobytes'] / 1e6:8.1f} MB")
    print(f"memory: {each:.0f} octets for each id over the last two thirds, {each:.0f} MB for a million")
    return each


def soak(folder):
    peers = [f"peer ids ids.example {PORT + 4}", f"peer tokens tokens.example {PORT + 5}",
             f"feed tokens {RING} *", "feed two 100 bench.a.*"]
    relay = servers.relay(folder / "relay", PORT, KILOBYTES, 2, peers, ("--sessions", str(CONNECTIONS)))
    try:
        addresses = [f"127.0.0.1:{PORT + number}" for number in range(6)]
        words = [servers.load(), "soak", f"seconds={60 * MINUTES:.0f}", "to=" + ",".join(addresses[:4]), f"pid={relay.process.pid}",
                 "readers=" + ",".join(addresses[4:]), f"connections={CONNECTIONS}", f"blocks={BLOCKS}", f"kept={BLOCKS}"]
        begun = time.monotonic()
        load = subprocess.Popen(words, stdout=subprocess.PIPE, text=True)
        try:
            printed, _ = load.communicate(timeout=60 * MINUTES + 300)
        finally:
            load.kill()
        seconds, lines = time.monotonic() - begun, printed.splitlines()
        print("\n".join(line for line in lines if not line.startswith("memory ")))
        if load.returncode:
            raise Wrong(f"the load ended with {load.returncode}; {relay.told()}")
        relay.process.wait(60)
    finally:
        relay.stop()
    text = "\n".join(relay.told(relay.out))
    print(text)
    if relay.process.returncode:
        raise Wrong(f"serve ended with {relay.process.returncode}: {relay.told()}")
    each = print_memory(lines)
    faults = faults_of(read_report(text), lines)
    if each > MOST and MINUTES >= 2:
        faults.append(f"memory grows by {each:.0f} octets for each article, more than {MOST}")
    stored = read_report(text)["ids"][2]
    print(f"{stored:,} articles in {seconds:.0f} seconds, {stored / seconds:,.0f} a second")
    return faults


def options(about):
    servers.ask(about, minutes=MINUTES, work="/var/tmp")


def main(given):
    global MINUTES
    MINUTES = given.minutes
    servers.load()
    with room("soak", given.work) as folder:
        faults = soak(folder)
    for fault in faults:
        print(f"WRONG: {fault}")
    print("the report agrees with what was counted" if not faults else f"{len(faults)} faults")
    if faults:
        return 1
    given.seconds = restarts.SECONDS
    return restarts.main(given)
