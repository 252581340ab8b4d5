"""Serves a relay whose buffers are block devices: loop devices over files in a folder of its own.

An article is stored, the relay is stopped and started again, killed and repaired; a device that is
too small, one that another program keeps something on, and two nodes of one device are refused, and
nothing is written over any of them; `--fresh` begins over what is there, and leaves what is behind
the buffer. Prints a line for each thing that was tried, and at the end `N went right, M wrong, S
skipped`: all is skipped where the machine has no loop devices, or this isn't run by root. Ends with
status 1 if any went wrong. Goes over 127.0.0.1 alone, lets go of each device that it took, and stops
what it has started.
"""
import os
import shutil
import stat
import subprocess
import time
from pathlib import Path

from lib import ports, trying
from lib.nntp import block, called, kept
from lib.program import PROGRAM
from lib.relay import Started, asked, configure
from lib.trying import Skipped, Wrong, check, waits_until

# Seconds that an answer may take.
PATIENCE = 60
# The octets of a kilobyte and of a block, the kilobytes of a buffer, and its octets: its blocks, a
# head block, and one more for each 4,096 of them.
KILO, BLOCK, SIZE = 1024, 512, 2048
BLOCKS = SIZE * KILO // BLOCK
OCTETS = (BLOCKS + 1 + -(-BLOCKS // 4096)) * BLOCK
HEAD = BLOCKS * BLOCK
# Where the first file system that is looked for has its mark: behind 1,024 octets of zeros.
EXT4 = (1024 + 56, b"\x53\xef")


# ---- devices


class Device:
    """A loop device over a file."""

    taken = []

    def __init__(self, file):
        done = subprocess.run(["losetup", "--find", "--show", file], capture_output=True, text=True,
                              timeout=PATIENCE)
        if done.returncode:
            raise Skipped(f"losetup: {done.stderr.strip()}")
        self.path = done.stdout.strip()
        Device.taken.append(self)

    @classmethod
    def made(cls, file, octets, *there):
        """One of so many octets, which are 0 but for these."""
        with file.open("wb") as made:
            made.truncate(octets)
            for place, found in there:
                made.seek(place)
                made.write(found)
        return cls(file)

    def octets(self):
        """What it has."""
        with open(self.path, "rb") as device:
            os.posix_fadvise(device.fileno(), 0, 0, os.POSIX_FADV_DONTNEED)
            return device.read()

    def node(self, path):
        """Another node of it."""
        try:
            os.mknod(path, 0o600 | stat.S_IFBLK, os.stat(self.path).st_rdev)
            open(path, "rb").close()
        except OSError as error:
            raise Skipped(f"mknod: {error}") from None
        return path

    def let_go(self):
        # Whoever was killed may hold it for a moment yet.
        for _ in range(50):
            done = subprocess.run(["losetup", "--detach", self.path], capture_output=True)
            if done.returncode == 0:
                break
            time.sleep(0.1)
        if self in Device.taken:
            Device.taken.remove(self)


def lacking():
    """What the machine lacks for a loop device; none where it has all."""
    if os.geteuid() != 0:
        return "it isn't run by root"
    if not shutil.which("losetup"):
        return "there is no losetup"
    with trying.room("device") as room:
        try:
            device = Device.made(room / "tried", OCTETS)
            found = device.octets()
            device.let_go()
            return None if found == bytes(OCTETS) else "a loop device has other octets than its file"
        except (Skipped, OSError) as why:
            return str(why)
        finally:
            clean()


# ---- relays


class Relay:
    """The folder of a relay whose buffers are these files, and runs of it."""

    def __init__(self, folder, *files):
        self.folder, self.port = folder, ports.free()
        folder.mkdir()
        names = [chr(ord("A") + it) for it in range(len(files))]
        configure(folder, ["own relay.example", "cutoff 4000000000", f"peer p1 one.example {self.port}"],
                  [f"{name}:{file}:{SIZE}" for name, file in zip(names, files)], [f"G:{','.join(names)}"])

    def serves(self, *words):
        """Starts it, until its port is had; it."""
        process = Started([PROGRAM, "serve", *words, self.folder], stderr=subprocess.STDOUT)

        def is_served():
            if not process.is_running():
                raise Wrong(what())
            return self.port in ports.listening()

        def what():
            return f"it isn't served: {told(process)!r}"

        waits_until(is_served, what, PATIENCE, 0.02)
        return process

    def refused(self, wanted, *words):
        """A start is refused, with this line; its status."""
        done = asked("serve", *words, self.folder, patience=PATIENCE)
        if wanted not in done.stderr:
            raise Wrong(f"{wanted!r} isn't in {done.stderr!r}, {done.stdout!r} ({done.returncode})")
        return done.returncode

    def says(self, command, *words):
        """What another command tells, and its status."""
        done = asked(command, *words, self.folder, patience=PATIENCE)
        return done.stdout + done.stderr, done.returncode

    def stops(self, process):
        """It is stopped, in order."""
        said, status = self.says("stop")
        if status:
            raise Wrong(f"stop ended with {status}: {said!r}")
        process.process.wait(PATIENCE)
        check(process.process.returncode, 0, f"the status of {told(process)!r}")

    def called(self):
        return called(self.port, PATIENCE)

    def stores(self, *ones):
        """It is handed in these articles, and keeps them."""
        peer = self.called()
        for one in ones:
            peer.send(f"TAKETHIS <{one}@x>\r\n{block(one, 900)}".encode())
            peer.expect(b"239 <%s@x>\r\n" % one.encode())
        peer.closes()

    def has(self, *ones):
        """It gives these articles, whole."""
        peer = self.called()
        for one in ones:
            peer.send(f"ARTICLE <{one}@x>\r\n".encode())
            peer.expect(f"220 0 <{one}@x>\r\n{kept(one, 900)}.\r\n".encode())
        peer.closes()

    def lacks(self, *ones):
        """It hasn't these articles."""
        peer = self.called()
        for one in ones:
            peer.send(f"STAT <{one}@x>\r\n".encode())
            peer.expect(b"430 No such article\r\n")
        peer.closes()


def told(process):
    return "".join(f"{it}\n" for it in process.told(process.out))


# ---- what is tried


def served(room):
    """Over two devices articles are stored, and are there after a stop and after a kill."""
    devices = [Device.made(room / name, OCTETS + 4096) for name in ("a", "b")]
    relay = Relay(room / "relay", *(it.path for it in devices))
    check(relay.says("check")[1], 0, "the status of check")
    process = relay.serves()
    relay.stores("one", "two")
    relay.has("one", "two")
    relay.stops(process)
    process = relay.serves()
    relay.has("one", "two")
    relay.stores("three")
    process.kill()
    said, status = relay.says("check")
    check(status, 0, f"the status of check, {said!r}")
    process = relay.serves()
    relay.has("one", "two", "three")
    relay.stops(process)
    for device in devices:
        octets = device.octets()
        check(len(octets), OCTETS + 4096, "the octets of a device")
        check(octets[OCTETS:], bytes(4096), "what is behind a buffer")


def moved(room):
    """What one machine had stored another has, which was given the device and the folder."""
    device = Device.made(room / "a", OCTETS)
    relay = Relay(room / "relay", device.path)
    process = relay.serves()
    relay.stores("one")
    relay.stops(process)
    device.let_go()
    other = Device.made(room / "other", OCTETS)
    shutil.copyfile(room / "a", room / "b")
    moved_to = Device(room / "b")
    conf = relay.folder / "cycbuff.conf"
    conf.write_text(conf.read_text().replace(device.path, moved_to.path))
    process = relay.serves()
    relay.has("one")
    relay.stops(process)
    check(other.octets(), bytes(OCTETS), "a device that is no buffer's")


def too_small(room):
    """A device with fewer octets than the buffer is refused, and nothing is written over it."""
    device = Device.made(room / "a", OCTETS - BLOCK)
    relay = Relay(room / "relay", device.path)
    for command in ("serve", "check"):
        said, status = relay.says(command)
        for wanted in (f"{device.path}: unusable\n", "the device is smaller than the buffer\n"):
            if wanted not in said:
                raise Wrong(f"{command} tells {said!r}")
        check(status != 0, True, f"{command} is refused")
    check(device.octets(), bytes(OCTETS - BLOCK), "the device")


def foreign(room):
    """A device with a file system on it is refused without --fresh, and not written over."""
    places = {"front": EXT4, "middle": (HEAD // 2, b"x"), "bitmap": (HEAD + BLOCK + 9, b"x"),
              "head": (HEAD + 100, b"x")}
    for name, there in places.items():
        device = Device.made(room / name, OCTETS, there)
        before = device.octets()
        relay = Relay(room / f"relay-{name}", device.path)
        relay.refused("BadHistory missing")
        said, status = relay.says("check")
        check((status != 0, "BadHistory missing" in said), (True, True), f"check of {name}: {said!r}")
        check(device.octets() == before, True, f"the device of {name} is as it was")
        process = relay.serves("--fresh")
        relay.stores("one")
        relay.has("one")
        relay.stops(process)


def kept_history(room):
    """A device in the place of a buffer's own is refused, and not written over."""
    own, other = Device.made(room / "own", OCTETS), Device.made(room / "other", OCTETS, EXT4)
    relay = Relay(room / "relay", own.path)
    process = relay.serves()
    relay.stores("one")
    relay.stops(process)
    conf = relay.folder / "cycbuff.conf"
    conf.write_text(conf.read_text().replace(own.path, other.path))
    before = other.octets()
    relay.refused("A: 2 NoHead")
    check(other.octets() == before, True, "the device is as it was")


def shared(room):
    """Two nodes of one device are one file."""
    device = Device.made(room / "a", 2 * OCTETS)
    node = device.node(room / "node")
    relay = Relay(room / "relay", device.path, node)
    for command in ("serve", "check"):
        said, status = relay.says(command)
        for wanted in (f"{node}: unusable\n", "the file of an earlier buffer\n"):
            if wanted not in said:
                raise Wrong(f"{command} tells {said!r}")
        check(status != 0, True, f"{command} is refused")
    check(device.octets(), bytes(2 * OCTETS), "the device")


def held(room):
    """A device that another relay holds is refused."""
    device = Device.made(room / "a", OCTETS)
    relay, other = Relay(room / "relay", device.path), Relay(room / "other", device.path)
    process = relay.serves()
    relay.stores("one")
    other.refused("locked by another relay", "--fresh")
    relay.has("one")
    relay.stops(process)


def fresh(room):
    """With --fresh nothing of an earlier life is left in the buffer, and what is behind it stays."""
    behind = bytes(range(256)) * 16
    device = Device.made(room / "a", OCTETS + len(behind), (OCTETS, behind))
    relay = Relay(room / "relay", device.path)
    process = relay.serves()
    relay.stores("one", "two")
    relay.stops(process)
    process = relay.serves("--fresh")
    relay.lacks("one", "two")
    relay.stores("three")
    process.kill()
    process = relay.serves()
    relay.lacks("one", "two")
    relay.has("three")
    relay.stops(process)
    octets = device.octets()
    check(octets[OCTETS:] == behind, True, "what is behind the buffer is as it was")
    check(b"<two@x>" in octets, False, "an article of an earlier life is there")


def cut_short(room):
    """A first start that was cut short before it had written each head is completed."""
    devices = [Device.made(room / name, OCTETS) for name in ("a", "b")]
    relay = Relay(room / "relay", *(it.path for it in devices))
    process = relay.serves()
    process.kill()
    # The head of the second was never written.
    (relay.folder / "relay.log").unlink(missing_ok=True)
    with open(devices[1].path, "r+b") as device:
        device.seek(HEAD)
        device.write(bytes(BLOCK))
        device.flush()
        os.fsync(device.fileno())
    said, status = relay.says("check")
    check((status, "a start begins" in said), (0, True), f"check tells {said!r}")
    process = relay.serves()
    relay.stores("one")
    relay.has("one")
    relay.stops(process)


def explained(room):
    """`explain` tells of a device that it is one, and how large."""
    fit, small = Device.made(room / "fit", OCTETS), Device.made(room / "small", BLOCK)
    other = Device.made(room / "other", OCTETS, EXT4)
    relay = Relay(room / "relay", fit.path, small.path, other.path)
    said, _ = relay.says("explain")
    for wanted in (f"file {fit.path} is a block device of {OCTETS} octets\n",
                   f"odd: file {small.path} is a block device of {BLOCK} octets, smaller than the buffer\n",
                   f"odd: file {other.path} is a block device of {OCTETS} octets with something else on it, "
                   "which a start without --fresh refuses\n"):
        if wanted not in said:
            raise Wrong(f"{wanted!r} isn't in {said!r}")


def added(room):
    """A buffer on a device is added to a relay that was stopped."""
    first, second = Device.made(room / "a", OCTETS), Device.made(room / "b", OCTETS)
    relay = Relay(room / "relay", first.path)
    process = relay.serves()
    relay.stores("one")
    relay.stops(process)
    conf = relay.folder / "cycbuff.conf"
    conf.write_text(f"cycbuff:A:{first.path}:{SIZE}\ncycbuff:B:{second.path}:{SIZE}\nmetacycbuff:G:A,B\n")
    said, status = relay.says("add-buffer")
    check(status, 0, f"the status of add-buffer, {said!r}")
    process = relay.serves()
    relay.has("one")
    relay.stores("two", "three")
    relay.stops(process)


def flushed(room):
    """With `sync 1` a device is flushed while the relay is served."""
    device = Device.made(room / "a", OCTETS)
    relay = Relay(room / "relay", device.path)
    conf = relay.folder / "relay.conf"
    conf.write_text(conf.read_text() + "sync 1\n")
    process = relay.serves()
    relay.stores("one")
    time.sleep(2.5)
    check("failed" in told(process), False, "a flush has failed")
    relay.stops(process)


def not_blocks(room):
    """A character device, a pipe and a folder are refused as before."""
    os.mkfifo(room / "pipe")
    (room / "folder").mkdir()
    for file in ("/dev/null", room / "pipe", room / "folder"):
        relay = Relay(room / f"relay-{Path(file).name}", file)
        relay.refused("not a regular file")


TRIED = (served, moved, too_small, foreign, kept_history, shared, held, fresh, cut_short, explained,
         added, flushed, not_blocks)


def in_room(one, room):
    """Tries one in a folder of its own."""
    (room / one.__name__).mkdir()
    return one(room / one.__name__)


def clean():
    """Ends what was started, and lets go of the devices."""
    for it in Started.running:
        it.kill()
    Started.running.clear()
    for it in list(Device.taken):
        it.let_go()
    Device.taken.clear()


def main(_):
    if why := lacking():
        print(f"skipped all: {why}")
        print(f"0 went right, 0 wrong, {len(TRIED)} skipped")
        return 0
    with trying.room("device") as room:
        return trying.total([trying.tried(one, room, by=in_room, behind=clean) for one in TRIED], True)
