"""Measures how long `cnrelay serve` takes to start from buffers that are full, and prints the seconds.

    tools/check bench starting [MEGABYTES [OCTETS [WORK]]]

Two buffers of together 1,024 MB without MEGABYTES, filled by articles of 4,096 octets without OCTETS; WORK is a folder for the
buffers' files. Then it is stopped, and started three times: with the files in the system's memory, and, where root runs this,
with that dropped before (cold). Then it is killed, which the next start repairs, as often. A start is over once `cnrelay report`
answers. Over 127.0.0.1.
"""
import os
import time
from pathlib import Path

from lib import ports, servers
from lib.relay import asked
from lib.trying import Wrong, room

# main sets what was said.
MEGABYTES, OCTETS = 1_024, 4_096
PORT = ports.free(4)


def start(folder, own):
    """Starts it; the relay, and the seconds until it is served."""
    begun = time.monotonic()
    relay = servers.served(folder, own)
    done = None
    while done is None or done.stdout.startswith("recovering"):
        done = asked("report", folder, patience=7_200)
    took = time.monotonic() - begun
    if done.returncode:
        raise Wrong(f"report ended with {done.returncode}: {done.stderr}")
    return relay, took


def start_timed(folder, own_ports, number, what):
    """Starts it once more, the last of three times with nothing of it in the system's memory, and tells how long that took."""
    is_cold = number == 2 and os.geteuid() == 0
    if is_cold:
        os.sync()
        Path("/proc/sys/vm/drop_caches").write_text("3\n")
    relay, took = start(folder, own_ports)
    own, system = relay.seconds()
    print(f"{what}{', cold' if is_cold else ''}: {took:.2f} seconds, {own:.2f} of the processor and {system:.2f} of the system, "
          f"{MEGABYTES / took:.0f} MB a second; memory {relay.memory()[0] / 1e6:.0f} MB")
    return relay


def stop(folder, relay):
    """Stops it: what it printed, and the seconds that took."""
    begun = time.monotonic()
    done = asked("stop", folder, patience=600)
    relay.process.wait(60)
    if done.returncode or relay.process.returncode:
        raise Wrong(f"serve ended with {relay.process.returncode}: {relay.told()}")
    return "\n".join(relay.told(relay.out)), time.monotonic() - begun


def measure(folder):
    kilobytes = MEGABYTES * 1_024 // 2
    own = servers.write_relay(folder, PORT, kilobytes, 1)
    relay, _ = start(folder, own)
    try:
        # A twentieth more than the buffers hold, so that they have gone round.
        count = MEGABYTES * (1 << 20) // (512 * -(-(OCTETS + 200) // 480)) * 21 // 20
        servers.loaded(servers.load_words(f"take octets={OCTETS}", "start", count, range(PORT, PORT + 4)), 7_200)
        told, took = stop(folder, relay)
        print(told)
        print(f"stop: {took:.2f} seconds, relay.hist {(folder / 'relay.hist').stat().st_size / 1e6:.1f} MB")
        for number in range(3):
            relay = start_timed(folder, own, number, "start")
            again, _ = stop(folder, relay)
            if again != told:
                raise Wrong(f"{again}, not {told}")
        relay, _ = start(folder, own)
        for number in range(3):
            relay.kill()
            relay = start_timed(folder, own, number, "start of one that was killed")
    finally:
        relay.stop()


def options(about):
    servers.ask(about, megabytes=MEGABYTES, octets=OCTETS, work="/var/tmp")


def main(given):
    global MEGABYTES, OCTETS
    MEGABYTES, OCTETS = given.megabytes, given.octets
    servers.load()
    with room("starts", given.work) as folder:
        measure(folder / "relay")
