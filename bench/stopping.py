"""Measures how long `cnrelay stop` takes while peers send, and prints the seconds.

    tools/check bench stopping [TIMES [WORK]]

Ten times without TIMES; WORK is a folder for the buffers' files. Each time a relay is started, four peers stream articles of 1 KB
to it, two further ones stand idle, one of them in the middle of an article, and it is asked to stop. Status 1 where it ends
otherwise than with its report. Over 127.0.0.1.
"""
import statistics
import subprocess
import time

from lib import ports, servers
from lib.nntp import called
from lib.relay import asked
from lib.trying import Wrong, room

PORT = ports.free(6)
IDLE = (f"peer five five.example {PORT + 4}", f"peer six six.example {PORT + 5}")
# For how long the peers have sent before it is asked.
SECONDS = 2


def stand_idle(port, said):
    """A peer that says this and nothing more."""
    peer = called(port, 30)
    peer.send(said)
    return peer


def stop_once(number, folder):
    """Starts a relay, lets peers send to it, and gives the seconds that its stop took."""
    relay = servers.relay(folder / str(number), PORT, relay_lines=IDLE)
    command = servers.load_words("take octets=1024", f"stop{number}", 10_000_000, range(PORT, PORT + 4))
    load = subprocess.Popen(command, stdout=subprocess.DEVNULL, stderr=subprocess.DEVNULL)
    try:
        idle = [stand_idle(PORT + 4, b""), stand_idle(PORT + 5, b"TAKETHIS <a@x.example>\r\nSubject: t\r\n")]
        time.sleep(SECONDS)
        if load.poll() is not None:
            raise Wrong("the load ended before the stop")
        begun = time.monotonic()
        done = asked("stop", folder / str(number))
        took = time.monotonic() - begun
        relay.process.wait(30)
        report = relay.told(relay.out)
        if done.returncode or relay.process.returncode or not any(it.startswith("ids ") for it in report):
            raise Wrong(f"stop ended with {done.returncode}, the relay with {relay.process.returncode}: {report!r}")
        for peer in idle:
            peer.closes()
        return took
    finally:
        load.kill()
        load.wait()
        relay.stop()


def options(about):
    servers.ask(about, times=10, work="/var/tmp")


def main(given):
    servers.load()
    with room("stops", given.work) as folder:
        took = [stop_once(number, folder) for number in range(given.times)]
    print(f"{given.times} stops, seconds: median {statistics.median(took):.2f}, least {min(took):.2f}, most {max(took):.2f}")
