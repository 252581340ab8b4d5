"""The plays of rows that have no lines for it: what goes on at once, in orders of the schedule."""

import select
import socket
import string
import threading
import time
from concurrent.futures import ThreadPoolExecutor

from lib.nntp import BEFORE, GREETING, Client, block, cut_to, kept
from lib.trying import Wrong

IDS = string.ascii_lowercase + string.ascii_uppercase + string.digits
SIZE = 1200


def offer_all(row, port, ids, together):
    """A peer brings all articles, one after the other: of which it was told 239."""
    client = Client(row.connected(row.port(port)), row.given.patience)
    row.calls[row.port(port)] += 1
    client.expect(GREETING)
    together.wait(row.given.patience)
    taken = set()
    for one in ids:
        client.send(f"TAKETHIS <{one}@x>\r\n{block(one, SIZE)}".encode())
        reply = client.line()
        if reply == f"239 <{one}@x>\r\n".encode():
            taken.add(one)
        elif reply != f"439 <{one}@x>\r\n".encode():
            raise Wrong(f"{cut_to(reply)} to TAKETHIS <{one}@x>")
    client.ask(b"QUIT", b"205 Bye")
    client.ended()
    client.closes()
    return taken


def ask(client, one):
    """Asks for an article: whether it was there, and then whole, as one of the peers sent it."""
    client.send(f"ARTICLE <{one}@x>\r\n".encode())
    reply = client.line()
    if reply == b"430 No such article\r\n":
        return False
    if reply != f"220 0 <{one}@x>\r\n".encode():
        raise Wrong(f"{cut_to(reply)} to ARTICLE <{one}@x>")
    texts = [kept(one, SIZE, peer) + ".\r\n" for peer in BEFORE]
    lines = [client.line() for _ in range(texts[0].count("\r\n"))]
    if b"".join(lines).decode("latin-1") not in texts:
        raise Wrong(f"ARTICLE <{one}@x> is {cut_to(b''.join(lines))}")
    return True


def sixty_two(row):
    """Two peers bring the same 62 articles at the same time, in orders of their own; a third asks
    for them meanwhile, and for each once more when both have ended."""
    third = Client(row.connected(row.port("p3")), row.given.patience)
    row.calls[row.port("p3")] += 1
    row.clients["p3"] = third
    third.expect(GREETING)
    turned = [IDS[place ^ 1] for place in range(len(IDS))]
    together = threading.Barrier(2)
    with ThreadPoolExecutor(2) as pool:
        peers = [pool.submit(offer_all, row, port, ids, together)
                 for port, ids in (("p1", IDS), ("p2", turned))]
        while not all(it.done() for it in peers):
            for one in IDS:
                ask(third, one)
        first, second = (it.result() for it in peers)
    twice, never = first & second, set(IDS) - first - second
    if twice or never:
        raise Wrong(f"239 to both for {sorted(twice)}, to none for {sorted(never)}")
    live = sum(ask(third, one) for one in IDS)
    if live != 2:
        raise Wrong(f"{live} articles are there at the end, where the buffer holds two")
    waiting = min(2, len(first))
    row.counts.update(gained=len(first), waiting=waiting, overwritten=len(first) - waiting)


def stop_in_replies(row):
    """p2, whose replies are large, reads all the time while the relay is told to stop: little until
    it has been told, so that most are written then, and the rest at once. All that it sent in one
    write is answered whole, the tokens of its feed too."""
    client, relay = row.clients["p2"], row.programs[""]
    reply = b"220 0 <y@x>\r\n" + kept("y", 900_000).encode() + b".\r\n"
    token = f"@01{0:02X}{0:08X}{0:08X}{len(kept('y', 900_000)):08X}@"
    queue = f"290 Queue follows\r\n0\r\n1 {token}\r\n.\r\n".encode()
    client.send(b"ARTICLE <y@x>\r\n" * 40 + b"XTAKE 5\r\n" + b"ARTICLE <y@x>\r\n" * 20)
    wanted = reply * 40 + queue + reply * 20
    found = bytearray(client.socket.recv(1))
    row.start("stop", "stop {dir}")
    end = time.monotonic() + row.given.patience
    while "stopping" not in relay.told():
        if time.monotonic() > end:
            raise Wrong("it hasn't told that it stops")
        found += client.socket.recv(30_000)
        time.sleep(0.01)
    try:
        while piece := client.socket.recv(1 << 20):
            found += piece
    except ConnectionError as error:
        raise Wrong(f"the connection broke after {len(found)} octets: {error}") from None
    if found != wanted:
        raise Wrong(f"{len(found)} octets of {len(wanted)}, {found.count(b'220 0')} replies of 60")


CYCBUFF = b"cycbuff:A:a.buf:4\nmetacycbuff:G:A\n"
STORAGE = b"method cnfs {\nclass: 1\nnewsgroups: *\noptions: G\n}\n"
RELAY = b"own relay.example\npeer p1 one.example 0\npeer p2 two.example 0\nfeed p2 2 *\n"
# Of each file of K1 how many octets those fronts have that are settings.
FRONTS = {
    "cycbuff.conf": (CYCBUFF, [33, 34]),
    "storage.conf": (STORAGE, [0, 49, 50]),
    "relay.conf": (RELAY, [*range(5, 19), 39, 40, 61, 62, 73, 74]),
}


def each_cut(row):
    """Each front of each file of K1 is settings, or its fault is told."""
    for name, (octets, wanted) in FRONTS.items():
        files = {"cycbuff.conf": CYCBUFF, "storage.conf": b"", "relay.conf": b"own a\n"}
        found = [end for end in range(len(octets) + 1)
                 if not row.fault_of({**files, name: octets[:end]})]
        if found != wanted:
            raise Wrong(f"the fronts of {name} that are settings have {found} octets, not {wanted}")


def lines_of(count, line):
    """So many lines, from 0, each with its number in the place of each #."""
    return "".join(line.replace("#", str(it)) + "\n" for it in range(count))


def large_files(row):
    """Files with as many buffers, groups and peers as there may be, and with one more; the line of a
    fault far down."""
    for count, fault in ((256, None), (257, "257: 5 Number")):
        buffers = lines_of(count, "cycbuff:b#:b#.buf:1")
        names = ",".join(f"b{it}" for it in range(count))
        groups = lines_of(count, "metacycbuff:g#:b#")
        row.checks("cycbuff.conf", f"{buffers}metacycbuff:G:{names}", fault or "256 buffers, 1 groups")
        row.checks("cycbuff.conf", groups + buffers, fault or "256 buffers, 256 groups")
    for count, fault in ((1024, None), (1025, "1026: 5 Number")):
        peers = lines_of(count, "peer p# host#.example 119") + lines_of(count, "feed p# 1 group#.*")
        row.checks("relay.conf", f"own relay.example\n{peers}", fault or "1024 peers, 1024 feeds")
    comments = "# comment\r\n" * 9999
    row.checks("cycbuff.conf", f"{comments}cycbuff:A:a:1\nmetacycbuff:G:A", "1 buffers, 1 groups")
    row.checks("cycbuff.conf", f"{comments}cycbuf", "10000: 2 UnknownKey")


# Of K3: the buffers with the files and the place in each where head block 0 says that it is closed.
HEADS = {"A": ("a.buf", 4100), "B": ("b.buf", 5124), "C": ("c.buf", 3076)}


def started(row):
    """What a start says at last that ends with a fault; nothing of one that serves, which is killed."""
    row.start("(tried)", "serve {dir}")
    row.try_port("(tried)", "p1", "(tried)")
    try:
        row.clients["(tried)"].expect(GREETING)
    except (Wrong, OSError):
        program = row.programs["(tried)"]
        if not program.has_ended(row.given.patience):
            raise Wrong("it neither serves nor ends") from None
        return program.told()[-1]
    row.programs["(tried)"].process.kill()
    row.programs["(tried)"].has_ended(row.given.patience)
    return ""


def each_start(row):
    """Each call that a start of K3 makes of its buffers fails in turn, and it is told whose device it
    was. Nothing else is written than the heads that were opened before. The first three calls look
    at the heads, in the order of the buffers, and the last three open them in that order; between
    these the buffers are read side by side, in whatever order that comes."""
    files = {it: it.read_bytes() for it in row.dir.iterdir() if it.suffix in (".buf", ".hist")}
    came, number = [], 0
    while True:
        number += 1
        row.shared.set(fails=number)
        told = started(row)
        if row.shared.get("fails"):
            break
        opened = "".join(name for name, (file, at) in HEADS.items()
                         if not (row.dir / file).read_bytes()[at])
        came.append((told, opened) if told else ("served", "ABC"))
        for path, octets in files.items():
            now = path.read_bytes()
            if told and path.name not in {HEADS[it][0] for it in opened} and now != octets:
                raise Wrong(f"call {number}: {told}, and {path.name} was changed")
            path.write_bytes(octets)
    row.shared.set(fails=0)
    # The heads are looked at first, to see whether it was stopped.
    reads = [it for it in came[:-3] if it[0].endswith(" 1 Device")]
    devices = [f"{it}: 1 Device" for it in "ABC"]
    heads, reads = reads[:3], reads[3:]
    if (came[-3:] != [(it, "ABC"[:place]) for place, it in enumerate(devices)]
            or heads != [(it, "") for it in devices]
            or set(reads) != {(it, "") for it in devices}):
        raise Wrong(f"the calls that failed came to {came}")


def cut_answers(row):
    """What stands at the socket of a folder breaks off: a report that was told in part is none then, and
    of a stop that is the end."""
    path = row.dir / "control"
    for word, told, status in (("report", b"buffer A\n", 4), ("stop", b"", 0)):
        with socket.socket(socket.AF_UNIX) as place:
            place.bind(str(path))
            place.listen()
            place.settimeout(row.given.patience)
            asker = row.start(word, f"{word} {{dir}}")
            with place.accept()[0] as client:
                client.sendall(told)
                # What was asked isn't read: so the connection breaks, and doesn't end in order.
                select.select([client], [], [], row.given.patience)
        path.unlink()
        if not asker.has_ended(row.given.patience):
            raise Wrong(f"{word} doesn't end")
        came = (asker.process.returncode, asker.told(asker.out), len(asker.told()))
        if came != (status, [], 1 if status else 0):
            raise Wrong(f"{word} came to {came}: {asker.told()}")


PLAYS = {
    "sixty-two": sixty_two,
    "each-cut": each_cut,
    "large-files": large_files,
    "each-start": each_start,
    "cut-answers": cut_answers,
    "stop-in-replies": stop_in_replies,
}
