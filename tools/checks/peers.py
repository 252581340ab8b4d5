"""Lets peers at `cnrelay serve` that are slow, rude or broken, and checks that all others are served as before.

    tools/check peers           all of it
    tools/check peers --gate    the same without the disk that is mounted

Prints a line for each thing that was tried, and at the end `N went right, M wrong`; ends with status 1 if any went
wrong. What is to come is waited for, on a busy machine too: what isn't there after two minutes never comes. Where others
are to be served meanwhile, they are while the odd peer is still connected. A disk that is really full is mounted, which
needs root; --gate needs none. Goes over 127.0.0.0/8 alone, on ten ports that nobody has, and stops what it has started.
"""
import array
import fcntl
import os
import resource
import select
import socket
import subprocess
import sys
import termios
import time
from pathlib import Path

from lib import ports, servers
from lib.nntp import GREETING, Client, called, dated
from lib.relay import asked
from lib.trying import Late, Wrong, room, total, waits_until

# The relay's four ports, and behind them some for what else listens.
PORT = ports.free(10)
ONE, TWO = PORT, PORT + 1
# Seconds after which what is waited for never comes.
PATIENCE = 120


def peer_of(port, address="127.0.0.1"):
    """A peer that is greeted."""
    return called(port, PATIENCE, address)


def ungreeted(port):
    """A peer that hasn't looked whether it is greeted."""
    return called(port, PATIENCE, greeting=None)


def is_connected(peer):
    """The server hasn't closed, and has sent nothing that wasn't read."""
    if select.select([peer.socket], [], [], 0)[0]:
        is_told = peer.socket.recv(1, socket.MSG_PEEK)
        raise Wrong("it is sent something" if is_told else "it is no longer connected")


def unread(peer):
    """How many octets have come that weren't read."""
    count = array.array("i", [0])
    fcntl.ioctl(peer.socket, termios.FIONREAD, count)
    return count[0]


def article(one, body=b"text\r\n"):
    return dated(one.decode(), body)


def take(one, body=b"text\r\n"):
    """The octets of a TAKETHIS; the body has no line with a dot in front."""
    return b"TAKETHIS " + one + b"\r\n" + article(one, body) + b".\r\n"


def is_served(port=TWO):
    """Another peer is greeted and answered, and let go."""
    peer = peer_of(port)
    peer.ask(b"STAT <nobody@x>", b"430 No such article")
    peer.ask(b"QUIT", b"205 Bye")
    peer.ended()
    peer.closes()


def settled(look):
    """What is seen once it is the same for half a second."""
    end, found, since = time.monotonic() + PATIENCE, look(), time.monotonic()
    while time.monotonic() - since < 0.5:
        time.sleep(0.02)
        if (now := look()) != found:
            found, since = now, time.monotonic()
        if time.monotonic() > end:
            raise Wrong(f"it goes on and on: {found}")
    return found


def becomes_free(peer, one):
    """An id that was given up is wanted again, at the latest once its peer was let go."""
    end = time.monotonic() + PATIENCE
    while True:
        peer.send(b"CHECK " + one + b"\r\n")
        reply = peer.line()
        if reply == b"238 " + one + b"\r\n":
            return
        if reply != b"431 " + one + b"\r\n" or time.monotonic() > end:
            raise Wrong(f"CHECK by another peer: {reply!r}")
        time.sleep(0.01)


def left(relay):
    """How many files and threads the server has."""
    return [len(os.listdir(f"/proc/{relay.process.pid}/{name}")) for name in ("fd", "task")]


def begun_with(relay):
    """How many files and threads it has where nobody is connected: each port's thread has begun once that serves."""
    for port in range(ONE, ONE + 4):
        is_served(port)
    return settled(lambda: left(relay))


def let_go(relay):
    """Waits until the server has let each connection go."""
    waits_until(lambda: all(now <= then for now, then in zip(left(relay), relay.begun_with)),
                lambda: f"files and threads: {relay.begun_with} at the start, {left(relay)} afterwards", PATIENCE)


def other_address(_):
    """A port is had on each address of the machine."""
    peer = peer_of(ONE, address="127.0.0.2")
    peer.ask(b"QUIT", b"205 Bye")
    peer.closes()


def small_writes(_):
    """A reply is sent at once, though the peer hasn't confirmed what was sent before it."""
    fastest, number, end = PATIENCE, 0, time.monotonic() + PATIENCE
    while time.monotonic() < end:
        number += 1
        first = peer_of(ONE)
        second = ungreeted(ONE)
        # What it asks is there before it is greeted; it confirms the greeting after 40 milliseconds, at the earliest.
        second.socket.setsockopt(socket.IPPROTO_TCP, socket.TCP_QUICKACK, 0)
        second.send(b"STAT <nobody@x>\r\n")
        begun = time.monotonic()
        first.ask(b"QUIT", b"205 Bye")
        first.closes()
        second.expect(GREETING + b"430 No such article\r\n")
        fastest = min(fastest, time.monotonic() - begun)
        second.ask(b"QUIT", b"205 Bye")
        second.closes()
        if fastest < 0.03:
            return f"connection {number} had a greeting and a reply within 30 milliseconds"
    raise Wrong(f"of {number} greetings with a reply the fastest took {1_000 * fastest:.0f} milliseconds")


def two_at_one_port(_):
    """The second connection at a port is told that it is one too many, and a third is served once the first has ended."""
    first = peer_of(ONE)
    second = ungreeted(ONE)
    for _ in range(100):
        first.ask(b"STAT <nobody@x>", b"430 No such article")
    is_served()
    second.expect(b"400 Too many connections\r\n")
    second.ended()
    second.closes()
    first.ask(b"CHECK <first@x>", b"238 <first@x>")
    first.ask(b"QUIT", b"205 Bye")
    first.closes()
    third = peer_of(ONE)
    third.ask(b"QUIT", b"205 Bye")
    third.closes()


def says_nothing(_):
    """A peer that connects and says nothing holds up nobody else."""
    peer = peer_of(ONE)
    time.sleep(1)
    is_served()
    is_connected(peer)
    peer.ask(b"CHECK <quiet@x>", b"238 <quiet@x>")
    peer.closes()


def octet_by_octet(_):
    """An article comes an octet at a time."""
    peer = peer_of(ONE)
    peer.socket.setsockopt(socket.IPPROTO_TCP, socket.TCP_NODELAY, 1)
    for octet in take(b"<octets@x>"):
        peer.send(bytes([octet]))
    peer.expect(b"239 <octets@x>\r\n")
    peer.closes()


def closes_in_a_block(_):
    """A peer closes in the middle of an article, or is gone: nothing is stored, and its offers are free again."""
    for number, leave in enumerate((Client.closes, Client.resets)):
        one = b"<cut%d@x>" % number
        peer = peer_of(ONE)
        peer.ask(b"CHECK " + one, b"238 " + one)
        peer.send(take(one)[:-20])
        leave(peer)
        other = peer_of(TWO)
        becomes_free(other, one)
        other.ask(b"STAT " + one, b"430 No such article")
        other.closes()


def reads_nothing(relay):
    """A peer asks for much, and reads nothing of it: others are served, and memory doesn't grow by all of it."""
    peer = peer_of(ONE)
    body = b"x" * 62 + b"\r\n"
    peer.send(take(b"<large@x>", body * 10_000))
    peer.expect(b"239 <large@x>\r\n")
    before = relay.memory()[0]
    peer.send(b"ARTICLE <large@x>\r\n" * 400)
    # It has sent what fits between them, and what it keeps for the peer, which goes on.
    if not settled(lambda: unread(peer)):
        raise Wrong("nothing is sent to it")
    is_served()
    grown = settled(lambda: relay.memory()[0]) - before
    if unread(peer) != settled(lambda: unread(peer)):
        raise Wrong("it is sent more, though it reads nothing")
    peer.resets()
    is_served(ONE)
    if grown > 64_000_000:
        raise Wrong(f"memory grew by {grown:,} octets for 400 replies of 640,000")
    return f"memory grew by {grown:,} octets"


def half_closed(_):
    """A peer sends commands and closes its side: each is answered, then the server closes."""
    peer = peer_of(ONE)
    peer.send(b"CHECK <half@x>\r\n" + take(b"<half@x>") + b"STAT <half@x>\r\n")
    peer.socket.shutdown(socket.SHUT_WR)
    peer.expect(b"238 <half@x>\r\n239 <half@x>\r\n223 0 <half@x>\r\n")
    peer.ended()
    peer.closes()


def long_lines(_):
    """Lines without an end, too long, or ended by LF alone."""
    for octets in (b"x" * 600, b"CHECK <a@x>\n" * 60):
        peer = peer_of(ONE)
        peer.send(octets)
        peer.expect(b"501 Line too long\r\n")
        peer.ended()
        peer.closes()
    peer = peer_of(ONE)
    peer.ask(b"x" * 500, b"500 Unknown command")
    peer.closes()


def wrong_lines(_):
    """Unknown and misspelt commands, a TAKETHIS without an id, an article that is none."""
    peer = peer_of(ONE)
    peer.ask(b"", b"500 Unknown command")
    peer.ask(b"\0\1\2", b"500 Unknown command")
    peer.ask(b"CHECK", b"501 Syntax error")
    peer.ask(b"ARTICLE", b"412 No group selected")
    peer.ask(b"TAKETHIS nonsense\r\nx\r\n.", b"501 Syntax error")
    peer.ask(b"TAKETHIS <none@x>\r\n.", b"439 <none@x>")
    peer.ask(b"TAKETHIS <nul@x>\r\n" + article(b"<nul@x>", b"a\0b\r\n") + b".", b"439 <nul@x>")
    peer.ask(b"XTAKE 5", b"490 No feed")
    peer.ask(b"quit", b"205 Bye")
    peer.ended()
    peer.closes()


def too_large(relay):
    """An article of 100 MB, and one of a single line, are refused; memory doesn't grow by them."""
    before = relay.memory()[1]
    peer = peer_of(ONE)
    for one, line in ((b"<many@x>", b"x" * 62 + b"\r\n"), (b"<line@x>", b"x" * 64)):
        peer.send(b"TAKETHIS " + one + b"\r\n" + article(one))
        for _ in range(100):
            peer.send(line * 15_625)
        peer.send(b"\r\n.\r\n")
        peer.expect(b"439 " + one + b"\r\n")
    peer.ask(b"CHECK <many@x>", b"438 <many@x>")
    peer.closes()
    grown = relay.memory()[1] - before
    if grown > 64_000_000:
        raise Wrong(f"the most of memory rose by {grown:,} octets")
    return f"the most of memory rose by {grown:,} octets"


def many_connections(relay):
    """A thousand connections one after the other leave no files or threads behind."""
    begun = time.monotonic()
    for number in range(1_000):
        peer = peer_of(ONE)
        if number % 3 == 0:
            peer.ask(b"QUIT", b"205 Bye")
        (peer.resets if number % 3 == 1 else peer.closes)()
    is_served(ONE)
    took = time.monotonic() - begun
    let_go(relay)
    return f"{1_000 / took:,.0f} a second"


def gone_before_greeted(_):
    """Peers that are gone before they are greeted."""
    for _ in range(50):
        ungreeted(ONE).resets()
    is_served(ONE)


def greeted_late(peer):
    """A peer that has waited is greeted, or, where that took the relay more than two seconds, told to come again."""
    try:
        peer.expect(GREETING)
    except Wrong as trouble:
        if "400 Too many connections" not in str(trouble):
            raise


def no_files(relay):
    """Where the process may open no further file, a connection waits until it may, or, with one file, is let go."""
    pid = relay.process.pid
    limits = resource.prlimit(pid, resource.RLIMIT_NOFILE)
    for free in (0, 1):
        let_go(relay)
        used = {int(name) for name in os.listdir(f"/proc/{pid}/fd")}
        unused = [number for number in range(len(used) + 2) if number not in used]
        resource.prlimit(pid, resource.RLIMIT_NOFILE, (unused[free], limits[1]))
        try:
            peer = ungreeted(ONE)
            if free:
                peer.unheard()
            else:
                # Long enough for the port to find that it can't be had.
                time.sleep(0.5)
        except ConnectionError:
            pass
        finally:
            resource.prlimit(pid, resource.RLIMIT_NOFILE, limits)
        if not free:
            greeted_late(peer)
        peer.closes()
        is_served(ONE)


def send_without_memory(number):
    """Sends an article of 900 KB, and fetches it; what became of that."""
    one = b"<memory%d@x>" % number
    peer = ungreeted(ONE + number % 4)
    try:
        peer.expect(GREETING)
        peer.send(take(one, (b"x" * 62 + b"\r\n") * 14_000))
        peer.expect(b"239 " + one + b"\r\n")
        peer.ask(b"ARTICLE " + one, b"220 0 " + one)
        return "fetched"
    except Late:
        raise
    except (Wrong, ConnectionError):
        return "broken"
    finally:
        peer.closes()


def no_memory(relay):
    """Where the process is given little or no further memory, sessions break, and all are served again once it is."""
    pid = relay.process.pid
    limits = resource.prlimit(pid, resource.RLIMIT_DATA)
    seen = []
    for number in range(120):
        if number % 40 == 0:
            status = Path(f"/proc/{pid}/status").read_text()
            size = 1_024 * int(status.split("VmData:")[1].split()[0])
            resource.prlimit(pid, resource.RLIMIT_DATA, (size + 1_500_000 * (number // 40), limits[1]))
        try:
            seen.append(send_without_memory(number))
        except BaseException:
            resource.prlimit(pid, resource.RLIMIT_DATA, limits)
            raise
    resource.prlimit(pid, resource.RLIMIT_DATA, limits)
    for port in range(ONE, ONE + 4):
        is_served(port)
    if "broken" not in seen:
        raise Wrong("it never lacked memory")
    return f"{seen.count('fetched')} fetched, {seen.count('broken')} broken"


def many_at_once(_):
    """Ten thousand commands in a row are sent before a reply is read."""
    peer = peer_of(ONE)
    peer.send(b"".join(b"STAT <s%d@x>\r\n" % number for number in range(10_000)))
    peer.expect(b"430 No such article\r\n" * 10_000)
    peer.closes()


TRIED = [other_address, small_writes, two_at_one_port, says_nothing, octet_by_octet, closes_in_a_block, reads_nothing,
         half_closed, long_lines, wrong_lines, too_large, many_connections, gone_before_greeted, many_at_once, no_files,
         no_memory]


def unusable(folder):
    """A port or a file that can't be had ends a start, and is told."""
    def told(name, change):
        place = folder / name
        servers.write_relay(place, PORT, 1_024)
        change(place)
        try:
            done = asked("serve", place, patience=PATIENCE)
        except subprocess.TimeoutExpired:
            return "it goes on"
        return done.returncode, done.stderr

    def takes_port(place):
        text = (place / "relay.conf").read_text()
        (place / "relay.conf").write_text(text.replace(f" {TWO}\n", f" {PORT + 8}\n"))

    def takes_file(place):
        (place / "b0.buf").mkdir()

    with socket.create_server(("0.0.0.0", PORT + 8)):
        found = [told("port", takes_port), told("file", takes_file)]
    wanted = [(4, f"serve: {PORT + 8}: unusable\nin use\n"), (4, "b0.buf: unusable\nnot a regular file\n")]
    for this, right in zip(found, wanted):
        if this != right:
            raise Wrong(f"{this}, not {right}")


def emptied_files(folder):
    """Where a relay begins anew a buffer's file has zeros but for head block 0: a longer file stays as long, a shorter one is made longer."""
    place = folder / "kept"
    own = servers.write_relay(place, PORT, 1_024)
    long = bytes(range(1, 252)) * 4_200
    (place / "a0.buf").write_bytes(long)
    (place / "b0.buf").write_bytes(long[:700])
    relay = servers.served(place, own, "--fresh")
    # Ports listen before the head blocks are written, and greet behind that.
    peer_of(ONE).closes()
    relay.stop()
    behind = 2_048 * 512
    for number, (name, size) in enumerate((("a0.buf", len(long)), ("b0.buf", behind + 1_024))):
        head = b"CNH1" + bytes((0, number, 0, 0)) + (2_048).to_bytes(4, "big") + bytes(500)
        wanted = bytes(behind) + head + bytes(size - behind - 512)
        found = (place / name).read_bytes()
        if found != wanted:
            same = next((at for at, (this, that) in enumerate(zip(found, wanted)) if this != that), "the end")
            raise Wrong(f"{name}: {len(found)} octets, not {len(wanted)}, and others from {same} on")


def fill(place, file="a0.buf", limit=lambda _: None, **settings):
    """Starts a server, one of whose buffers has room for 300 KB alone, and fills that."""
    own = servers.write_relay(place, PORT, 1_024)
    text = (place / "cycbuff.conf").read_text()
    (place / "cycbuff.conf").write_text(text.replace("a0.buf", file))
    relay = servers.served(place, own, **settings)
    try:
        # Who is greeted finds the head blocks written.
        peer = peer_of(ONE)
        limit(relay.process.pid)
        for number in range(100):
            one = b"<full%d@x>" % number
            peer.send(take(one, b"x" * 10_000 + b"\r\n"))
            reply = peer.line()
            if reply != b"239 " + one + b"\r\n":
                break
        if reply != b"400 Not stored, closing\r\n":
            raise Wrong(f"{reply!r} after {number} articles of 10,000 octets, with room for 300 KB")
        peer.ended()
        peer.closes()
        other = peer_of(TWO)
        other.ask(b"STAT <full0@x>", b"223 0 <full0@x>")
        becomes_free(other, one)
        text = take(b"<elsewhere@x>").replace(b"bench.a.x", b"bench.b.x")
        other.send(text)
        other.expect(b"239 <elsewhere@x>\r\n")
        other.send(b"IHAVE " + one + b"\r\n")
        other.expect(b"335 Send it\r\n")
        other.send(article(one, b"x" * 10_000 + b"\r\n") + b".\r\n")
        other.expect(b"436 Try again later\r\n")
        other.ask(b"QUIT", b"205 Bye")
        other.closes()
        return f"after {number} articles"
    finally:
        relay.stop()


def full_disk(folder):
    """Where a buffer's disk is full, an article isn't stored, the connection ends, the id is free, others are served."""
    disk = folder / "disk"
    disk.mkdir()
    subprocess.run(["mount", "-t", "tmpfs", "-o", "size=300k", "tmpfs", disk], check=True)
    try:
        return fill(folder / "full", f"{disk}/a0.buf")
    finally:
        subprocess.run(["umount", disk], check=True)


def no_head(folder):
    """Where a buffer's disk is full before its first head block is written, nothing is served, and its file is told."""
    disk, place = folder / "small", folder / "no-head"
    disk.mkdir()
    servers.write_relay(place, PORT, 20_480)
    text = (place / "cycbuff.conf").read_text()
    (place / "cycbuff.conf").write_text(text.replace("a0.buf", f"{disk}/a0.buf"))
    # Room for one page, which the file's last block takes: the first head block lies in the page before.
    subprocess.run(["mount", "-t", "tmpfs", "-o", "size=4k", "tmpfs", disk], check=True)
    try:
        done = asked("serve", place, patience=PATIENCE)
    finally:
        subprocess.run(["umount", disk], check=True)
    last = done.stderr.splitlines()[-2:]
    if (done.returncode, done.stdout, last) != (4, "", [f"{disk}/a0.buf: unusable", "a block can't be written"]):
        raise Wrong(f"{done.returncode}, {done.stdout!r}, {done.stderr!r}")


def no_room(folder):
    """The same where a buffer's file may grow no further."""
    def limit(pid):
        limits = resource.prlimit(pid, resource.RLIMIT_FSIZE)
        resource.prlimit(pid, resource.RLIMIT_FSIZE, (300 * 1_024, limits[1]))

    # Python ignores the signal that comes of a write past the limit, and so the server does.
    return fill(folder / "grown", limit=limit, restore_signals=False)


# What starts a relay of its own, and of that what mounts a disk.
STARTED, MOUNTING = [unusable, emptied_files, no_room], [full_disk, no_head]


def is_right(tried, given):
    """Tries one thing, and prints what came of it."""
    try:
        print(f"{tried.__doc__.splitlines()[0]} {tried(given) or ''}".rstrip(), flush=True)
        return True
    except (Wrong, OSError, subprocess.SubprocessError) as trouble:
        print(f"WRONG {tried.__name__}: {trouble!r}", flush=True)
        return False


def try_all(folder, in_gate):
    """How many things went right, and how many wrong."""
    told = [is_right(tried, folder) for tried in (STARTED if in_gate else STARTED + MOUNTING)]
    if in_gate:
        print("A disk that is full is not mounted here.")
    relay = servers.relay(folder / "relay", PORT)
    try:
        relay.begun_with = begun_with(relay)
        for tried in TRIED:
            told.append(is_right(tried, relay))
            if not relay.is_running():
                raise Wrong(f"serve ended with {relay.process.returncode}")
    finally:
        relay.stop()
    return told


def options(about):
    about.add_argument("--gate", action="store_true", help="mounts nothing")


def main(given):
    try:
        with room("odd") as folder:
            return total(try_all(folder, given.gate))
    except (Wrong, OSError) as trouble:
        sys.exit(f"peers: {trouble}")
