"""Lets real news programs at `cnrelay serve`, and compares each article that they sent and fetched.

    tools/check clients [COUNT [KILLS]]    COUNT articles are sent by each of the senders, 10,000 without it;
                                           the puller is killed KILLS times, ten without it

A local innd of Debian's inn2 is given articles of many kinds and keeps them in its spool. From there innxmit sends so
many to `serve`, of which a peer holds 200 offers that have run out, and innfeed as many by four connections at once.
Then each article is fetched from both: what `serve` gives is what innd has, but that its Path begins with
`relay.example!!`. tools/pull_feed, killed so often meanwhile, sends them on to a second innd, which has each in the
end, but what it tells as lost; where it wasn't killed, that is none. Plain files are sent by innxmit with a Path that isn't the peer's, and come back with `.MISMATCH.`. Python's
nntplib, Perl's Net::NNTP, suck and nntpget fetch some of them by message-id, the first two send some by IHAVE. At the
end innreport makes its tables of the relay's news log, and counts each article that came. The feeds `hash 1-1/2` and
`hash 2-2/2` have each gained what innd's `Q1/2` and `Q2/2` gave of the same articles, and two relays that innxmit sends
these halves keep all of them, none twice. Installs inn2 and suck where they aren't, runs as root, since innd has to be
the user news, and goes over 127.0.0.0/8 alone.
Prints a line for each client; ends with status 1 at the first thing that is wrong.
"""
import os
import re
import shutil
import subprocess
import time
import warnings
from email.utils import formatdate
from pathlib import Path

from lib import ports, servers
from lib.nntp import Client, called
from lib.program import ROOT
from lib.trying import Wrong, room

warnings.simplefilter("ignore", DeprecationWarning)
try:
    import nntplib
except ImportError:
    nntplib = None

# How many articles are sent, and how often the puller is killed; main sets what was said.
COUNT, KILLS = 10_000, 10
# How many connections innfeed sends by at once.
CONNECTIONS = 4
# The seconds that an offer lasts.
LASTING = 2
PORT, INND_PORT, NNRPD_PORT, READERS_PORT = ports.free(10), ports.free(), ports.free(), ports.free()
# Ports of the peers that are asked for here, behind those of lib/servers.py.
XMIT, FEED, READ, FILES, GET = PORT + 4, PORT + 5, PORT + 6, PORT + 7, 119
# Those of two peers with a hash feed each, and the first ones of two relays that have a half of the articles each.
HASHED, HALVES = (PORT + 8, PORT + 9), (ports.free(6), ports.free(6))
PREFIX = b"relay.example!!"
# The octets of a line that nntplib no longer reads, and that nntpget cuts.
NNTPLIB_LINE = 2_048
NNTPGET_LINE = 500


def say(text):
    print(text, flush=True)


def demand(holds, what):
    if not holds:
        raise Wrong(what)


class Line(Client):
    """A plain client: commands, their reply lines, and texts as they are, dots taken off."""

    def __init__(self, port):
        super().__init__(called(port, 60, greeting=None).socket, 60)
        self.line()

    def reply(self):
        return self.line().removesuffix(b"\r\n")

    def asked(self, command):
        self.send(command.encode() + b"\r\n")
        return self.reply()

    def articles(self, ids):
        """The articles of these ids, or the replies where there is none, forty asked for at once."""
        for first in range(0, len(ids), 40):
            asked = ids[first:first + 40]
            self.send(b"".join(f"ARTICLE {one}\r\n".encode() for one in asked))
            for one in asked:
                reply = self.reply()
                yield one, self.text() if reply.startswith(b"220") else reply

    def close(self):
        self.asked("QUIT")
        self.closes()


def run(words, status=0, **settings):
    """Runs a program to its end."""
    done = subprocess.run([str(word) for word in words], capture_output=True, timeout=600, **settings)
    demand(done.returncode == status, f"{words[0]} ended with {done.returncode}: "
           f"{done.stdout[-500:].decode(errors='replace')}{done.stderr[-500:].decode(errors='replace')}")
    return done.stdout


def split_path(text):
    """The content of a text's first Path field, which is one line, and the text without that line."""
    found = re.search(rb"^Path: ?(.*)\r\n", text, re.M)
    demand(found, f"a text without a Path: {text[:200]!r}")
    return found[1], text[:found.start()] + text[found.end():]


def compare(ids, sent, port, prefix):
    """Each article fetched from the port is the one that was sent, but for what the Path begins with."""
    line = Line(port)
    octets = 0
    for one, text in line.articles(ids):
        path, rest = split_path(sent[one])
        demand(not text.startswith(b"430"), f"{one}: {text!r}")
        demand(split_path(text) == (prefix + path, rest), f"{one} differs: {text[:300]!r} of {sent[one][:300]!r}")
        octets += len(text)
    line.close()
    return octets


def spool(inn):
    """Gives a local innd articles of many kinds; their lines in its batch files, of all and of the two halves that its
    flag Q makes, and the texts that it has."""
    innd = inn.innd()
    try:
        printed = run([servers.load(), "try", f"to=127.0.0.1:{INND_PORT}", f"count={2 * COUNT}", "own=innd.example", "run=c"])
        say(f"innd: {printed.decode().strip()}")
        batch, *halves = [flushed(inn, feed) for feed in ("out", "half1", "half2")]
        demand(len(batch) == 2 * COUNT, f"innd's batch file has {len(batch)} lines")
        nnrpd = inn.nnrpd(NNRPD_PORT)
        try:
            line = Line(NNRPD_PORT)
            texts = dict(line.articles([entry.split()[1] for entry in batch]))
            line.close()
        finally:
            nnrpd.stop()
    finally:
        inn.shut(innd)
    return batch, halves, texts


def flushed(inn, feed):
    """The lines that innd has put into the batch file of a feed."""
    inn.run("ctlinnd", "flush", feed)
    return (inn.folder / "spool/outgoing" / feed).read_text().splitlines()


def hold_offers(ids):
    """A peer is told to send articles, and sends none: its offers run out, and others may bring them."""
    line = Line(READ)
    line.send(b"".join(f"CHECK {one}\r\n".encode() for one in ids))
    for one in ids:
        demand(line.reply() == f"238 {one}".encode(), f"{one} isn't wanted")
    other = Line(FILES)
    demand(other.asked(f"CHECK {ids[0]}") == f"431 {ids[0]}".encode(), "an offer is held by nobody")
    other.close()
    time.sleep(LASTING + 1.5)
    say(f"offers: {len(ids)} that a peer holds have run out, and it stays connected")
    return line


def by_innxmit(inn, batch, port=XMIT):
    """innxmit sends a batch of tokens; it takes CHECK first, and stops once all are taken."""
    file = inn.folder / "spool/outgoing/xmit"
    file.write_text("".join(f"{entry}\n" for entry in batch))
    shutil.chown(file, "news", "news")
    printed = run([servers.INN / "innxmit", "-v", "-P", port, "127.0.0.1", file], **inn.settings())
    left = file.read_text() if file.exists() else ""
    demand(not left, f"innxmit has left {left[:300]}")
    say("innxmit: " + " ".join(printed.decode().split()))


def open_to(port):
    """How many connections of this machine to a port of 127.0.0.1 are open."""
    lines = Path("/proc/net/tcp").read_text().splitlines()[1:]
    return sum(line.split()[2:4] == [f"0100007F:{port:04X}", "01"] for line in lines)


def by_innfeed(inn, batch):
    """innfeed sends a batch of tokens from its backlog by four connections at once, and ends."""
    folder = inn.folder / "spool/innfeed"
    folder.mkdir()
    (folder / "relay").write_text("".join(f"{' '.join(entry.split()[:2])}\n" for entry in batch))
    (inn.folder / "innfeed.conf").write_text(
        "initial-sleep: 1\nbacklog-rotate-period: 1\nbacklog-ckpt-period: 1\nbacklog-newfile-period: 1\n"
        "host-queue-highwater: 100\nmax-queue-size: 50\n"
        f"peer relay {{\n  ip-name: 127.0.0.1\n  port-number: {FEED}\n  max-connections: {CONNECTIONS}\n"
        f"  initial-connections: {CONNECTIONS}\n}}\n")
    for path in (folder, folder / "relay", inn.folder / "innfeed.conf"):
        shutil.chown(path, "news", "news")
    feed = subprocess.Popen([servers.INN / "innfeed", "-x", "-b", folder, "-l", inn.folder / "log/innfeed"],
                            stdout=subprocess.DEVNULL, **inn.settings())
    most = 0
    while feed.poll() is None:
        most = max(most, open_to(FEED))
        time.sleep(0.01)
    demand(feed.returncode == 0, f"innfeed ended with {feed.returncode}")
    demand(most == CONNECTIONS, f"innfeed had {most} connections at once")
    left = [path.name for path in folder.iterdir() if path.name != "relay.lock" and path.stat().st_size]
    demand(not left, f"innfeed has left {left}")
    say(f"innfeed: {most} connections at once; ended, and has left nothing")


def by_files(inn, folder, ids):
    """innxmit sends plain files whose Path isn't the peer's."""
    texts = {}
    names = []
    for number in range(200):
        one = f"<file.{number}@try.example>"
        body = b"".join(b"." * (number % 4) + b"line %d\r\n" % line for line in range(number))
        texts[one] = (f"Path: not-for-mail\r\nFrom: a@try.example\r\nNewsgroups: bench.a.x\r\nSubject: file {number}\r\n"
                      f"Message-ID: {one}\r\nDate: {formatdate()}\r\n\r\n").encode() + body
        path = folder / f"file-{number}"
        path.write_bytes(texts[one].replace(b"\r\n", b"\n"))
        path.chmod(0o644)
        names.append(f"{path} {one}\n")
    batch = inn.folder / "spool/outgoing/files"
    batch.write_text("".join(names))
    shutil.chown(batch, "news", "news")
    run([servers.INN / "innxmit", "-c", "-P", FILES, "127.0.0.1", batch], **inn.settings())
    octets = compare(list(texts), texts, READ, b"relay.example!.MISMATCH.files.example!")
    say(f"innxmit: 200 plain files with another Path, {octets:,} octets, come back with .MISMATCH.")


def by_nntplib(ids, sent):
    """Python's client: STAT, HEAD, BODY, ARTICLE, DATE, IHAVE."""
    if nntplib is None:
        say("nntplib: this Python has none")
        return
    with nntplib.NNTP("127.0.0.1", READ, timeout=60) as server:
        demand("STREAMING" in server.getcapabilities(), f"capabilities {server.getcapabilities()}")
        server.date()
        for one in ids:
            path, rest = split_path(sent[one])
            text = b"Path: " + PREFIX + path + b"\r\n" + rest
            head, _, body = text.partition(b"\r\n\r\n")
            demand(server.stat(one)[2] == one, f"nntplib: STAT {one}")
            for found, wanted in ((server.article(one), text), (server.head(one), head + b"\r\n"), (server.body(one), body)):
                demand(b"".join(line + b"\r\n" for line in found[1].lines) == wanted, f"nntplib: {found[0]}")
        mail = [b"Path: read.example!x", b"From: a@try.example", b"Newsgroups: bench.b.x", b"Subject: i",
                b"Message-ID: <i@try.example>", f"Date: {formatdate()}".encode(), b"", b".", b"..two", b"end"]
        demand(server.ihave("<i@try.example>", mail).startswith("235"), "nntplib: IHAVE")
        try:
            server.ihave("<i@try.example>", mail)
            demand(False, "nntplib: IHAVE twice")
        except nntplib.NNTPTemporaryError as error:
            demand(error.response.startswith("435"), f"nntplib: {error}")
        mail[0] = b"Path: relay.example!read.example!x"
        demand([line for line in server.article("<i@try.example>")[1].lines][1:] == mail[1:], "nntplib: what IHAVE sent")
        for words in ("<nobody@try.example>",):
            try:
                server.article(words)
                demand(False, f"nntplib: {words}")
            except nntplib.NNTPTemporaryError as error:
                demand(error.response.startswith("430"), f"nntplib: {error}")
    say(f"nntplib: STAT, HEAD, BODY, ARTICLE of {len(ids)}, IHAVE")


PERL = r"""
use Net::NNTP;
my ($port, $out, @ids) = @ARGV;
my $nntp = Net::NNTP->new('127.0.0.1', Port => $port, Timeout => 60) or die "no connection: $@";
open my $file, '>:raw', $out or die;
for my $id (@ids) {
    defined $nntp->nntpstat($id) or die "STAT $id: " . $nntp->message;
    for my $lines ($nntp->article($id), $nntp->head($id), $nntp->body($id)) {
        $lines or die "$id: " . $nntp->message;
        my $text = join '', @$lines;
        print $file length($text), "\n", $text;
    }
}
defined $nntp->article('<nobody@try.example>') and die 'an article of nobody';
$nntp->code == 430 or die 'not 430';
my @mail = ("Path: read.example!x\n", "From: a\@try.example\n", "Newsgroups: bench.a.x\n", "Subject: p\n",
    "Message-ID: <p\@try.example>\n", "Date: " . shift(@ARGV) x 0 . $ENV{TODAY} . "\n", "\n", ".\n", "..two\n", "end\n");
$nntp->ihave('<p@try.example>', @mail) or die 'IHAVE: ' . $nntp->message;
$nntp->ihave('<p@try.example>', @mail) and die 'IHAVE twice';
join('', @{$nntp->body('<p@try.example>')}) eq ".\n..two\nend\n" or die 'what IHAVE sent';
$nntp->date or die 'DATE';
$nntp->quit;
"""


def by_perl(folder, ids, sent):
    """Perl's Net::NNTP, which asks for MODE READER first."""
    out = folder / "perl.out"
    run(["perl", "-e", PERL, READ, out, *ids], env={**os.environ, "TODAY": formatdate()})
    printed = out.read_bytes()
    for one in ids:
        path, rest = split_path(sent[one])
        text = (b"Path: " + PREFIX + path + b"\r\n" + rest).replace(b"\r\n", b"\n")
        head, _, body = text.partition(b"\n\n")
        for wanted in (text, head + b"\n", body):
            length, _, printed = printed.partition(b"\n")
            demand(printed[:int(length)] == wanted, f"Net::NNTP: {one}: {printed[:300]!r}, not {wanted[:300]!r}")
            printed = printed[int(length):]
    say(f"Net::NNTP: STAT, ARTICLE, HEAD, BODY of {len(ids)}, IHAVE")


def by_suck(folder, ids, sent):
    """suck fetches a list of message-ids, a file each."""
    place = folder / "suck"
    (place / "messages").mkdir(parents=True)
    (place / "suckothermsgs").write_text("".join(f"{one}\n" for one in ids))
    (place / "sucknewsrc").write_text("")
    run(["suck", "127.0.0.1", "-N", READ, "-m", "-K", "-H", "-q", "-dd", place, "-dt", place, "-dm", place / "messages"])
    texts = {}
    for path in (place / "messages").iterdir():
        text = path.read_bytes()
        found = re.search(rb"^Message-ID: (.*)$", text, re.M)
        texts[found[1].decode()] = text
    demand(set(texts) == set(ids), f"suck: {len(texts)} of {len(ids)} files")
    for one in ids:
        path, rest = split_path(sent[one])
        demand(texts[one] == (b"Path: " + PREFIX + path + b"\r\n" + rest).replace(b"\r\n", b"\n"),
               f"suck: {one}: {texts[one][:300]!r}")
    say(f"suck: {len(ids)} by message-id")


def by_nntpget(inn, ids, sent):
    """nntpget, which knows port 119 alone, prints blocks in a row, dots and all."""
    printed = run([servers.INN / "nntpget", "127.0.0.1"], input="".join(f"{one}\n" for one in ids).encode(),
                  **inn.settings())
    wanted = b""
    for one in ids:
        path, rest = split_path(sent[one])
        text = (b"Path: " + PREFIX + path + b"\r\n" + rest).replace(b"\r\n", b"\n")
        wanted += re.sub(rb"(?m)^\.", b"..", text) + b".\n"
    demand(printed == wanted, f"nntpget: {len(printed)} octets, not {len(wanted)}: {printed[:300]!r}")
    say(f"nntpget: {len(ids)} by message-id")


def without_xref(text):
    """The text without its Path and without the Xref that each innd makes."""
    return re.sub(rb"^Xref: .*\r\n", b"", split_path(text)[1], count=1, flags=re.M)


def by_puller(folder, ids, sent):
    """tools/pull_feed sends all on to a second innd."""
    inn = servers.Inn(folder / "readers", READERS_PORT, ids=4 * COUNT)
    innd = inn.innd()
    state = folder / "pull"
    words = [ROOT / "tools/pull_feed", state, f"127.0.0.1:{READ}", f"127.0.0.1:{READERS_PORT}"]
    try:
        for _ in range(KILLS):
            kill_after(words, state / "journal", COUNT)
        told = subprocess.run([*words, "--once"], capture_output=True, text=True, timeout=600, check=False)
        demand(told.returncode == 0, f"pull_feed ended with {told.returncode}: {told.stderr[-500:]}")
        lost = sum(int(line.split()[1]) for line in (state / "journal").read_text().splitlines()
                   if line.startswith(("lost ", "missed ")))
        nnrpd = inn.nnrpd(NNRPD_PORT)
        try:
            line = Line(NNRPD_PORT)
            found = dict(line.articles(ids))
            line.close()
        finally:
            nnrpd.stop()
    finally:
        inn.shut(innd)
    there = [one for one in ids if not found[one].startswith(b"430")]
    demand(len(there) + lost == len(ids), f"{len(there)} of {len(ids)} articles, {lost} told as lost")
    demand(KILLS or not lost, f"{lost} articles are lost without a kill")
    for one in there:
        demand(without_xref(found[one]) == without_xref(sent[one]), f"{one} differs: {found[one][:300]!r}")
    say(f"pull_feed: killed {KILLS} times; {len(there):,} articles at a second innd, {lost} told as lost")


def by_innreport(news, some, sent):
    """innreport makes its tables of the news log: it counts each article, and each that was bad."""
    line = Line(READ)
    for number, one in enumerate(some[:20]):
        # A block without an article, and then one that is there.
        line.send(f"TAKETHIS <bad.{number}@x>\r\n.\r\nTAKETHIS {one}\r\n".encode() + sent[one] + b".\r\n")
        for _ in range(2):
            demand(line.reply().startswith(b"439"), "a bad article was taken")
    line.close()
    time.sleep(1)
    lines = news.read_text().splitlines()
    marks = [line[20:22] for line in lines]
    with open(news, "rb") as file:
        words = [servers.INN / "innreport", "-nohtml", "-nograph", "-f", "/etc/news/innreport.conf"]
        printed = run(words, stdin=file).decode()
    for title, mark in [("Incoming articles", "+ "), ("Sites sending bad articles", "- ")]:
        table = re.search(rf"(?ms)^{title}:$.*?^TOTAL: \S+ +(\d+)", printed)
        counted = int(table[1]) if table else 0
        demand(counted == marks.count(mark), f"innreport has {counted} of {title}, not {marks.count(mark)}")
    demand("Unknown entries" not in printed, "innreport doesn't know some line")
    demand(marks.count("- ") >= 40, f"the news log has {marks.count('- ')} bad articles")
    demand(marks.count("+ ") >= 2 * COUNT, f"the news log has {marks.count('+ ')} stored articles")
    say(f"innreport: {marks.count('+ '):,} articles that came and {marks.count('- '):,} that were bad")


def by_hashes(folder, inn, batch, halves, news, sent):
    """A hash feed gains what innd's flag Q gives of the same articles; two relays have a half each, and all together."""
    wanted = [{entry.split()[1] for entry in half} for half in halves]
    ids = {entry.split()[1] for entry in batch}
    demand(wanted[0] | wanted[1] == ids and not wanted[0] & wanted[1], "innd's halves aren't all articles, each once")
    demand(all(len(half) * 3 > len(ids) for half in wanted), f"a half has {min(map(len, wanted))} of {len(ids)}")
    gained = [set(), set()]
    for words in (line[20:].split() for line in news.read_text().splitlines()):
        for number in (1, 2):
            if words[0] == "+" and f"half{number}" in words[4:] and words[2] in ids:
                gained[number - 1].add(words[2])
    demand(gained == wanted, f"hash feeds gained {[len(one) for one in gained]}, innd's {[len(one) for one in wanted]}")
    say(f"hash feeds: gained {len(wanted[0]):,} and {len(wanted[1]):,} articles, those that innd's Q1/2 and Q2/2 give")
    relays = []
    try:
        for port, name in zip(HALVES, ("one", "two")):
            lines = [f"peer xmit innd.example {port + 4}", f"peer read read.example {port + 5}"]
            relays.append(servers.relay(folder / name, port, relay_lines=lines))
        for port, half in zip(HALVES, halves):
            by_innxmit(inn, half, port + 4)
        for number, port in enumerate(HALVES):
            compare(sorted(wanted[number]), sent, port + 5, PREFIX)
            line = Line(port + 5)
            lacking = [one for one, text in line.articles(sorted(wanted[1 - number])) if text.startswith(b"430")]
            line.close()
            demand(len(lacking) == len(wanted[1 - number]), "a relay has articles of the other's half")
        say("hash feeds: two relays keep a half each, sent by Q1/2 and Q2/2, and together each article once")
    finally:
        for relay in relays:
            relay.stop()


def kill_after(words, journal, octets):
    """Lets the puller run until its journal has grown by so many octets, and kills it."""
    puller = subprocess.Popen([str(word) for word in words], stderr=subprocess.DEVNULL)
    least = None
    end = time.monotonic() + 60
    while least is None or journal.stat().st_size < least + octets:
        demand(time.monotonic() < end, "pull_feed writes nothing down")
        time.sleep(0.01)
        if journal.exists():
            least = min(journal.stat().st_size, least if least is not None else 1 << 60)
    puller.kill()
    puller.wait()


def try_all(folder):
    feeds = "out:*:Tf,Wnm:\nhalf1:*:Tf,Wnm,Q1/2:\nhalf2:*:Tf,Wnm,Q2/2:\n"
    inn = servers.Inn(folder / "innd", INND_PORT, ids=4 * COUNT, feed=feeds)
    batch, halves, sent = spool(inn)
    ids = [entry.split()[1] for entry in batch]
    lines = [f"peer xmit innd.example {XMIT}", f"peer feed innd.example {FEED}", f"peer read read.example {READ}",
             f"peer files files.example {FILES}"]
    lines += [f"connections feed {CONNECTIONS}", "feed read 65536 *", "log all news", f"offers {LASTING}"]
    for number, port in enumerate(HASHED, 1):
        lines += [f"peer half{number} half{number}.example {port}", f"feed half{number} 65536 * hash {number}-{number}/2"]
    has_get = GET not in ports.listening()
    lines += [f"peer get get.example {GET}"] if has_get else []
    relay = servers.relay(folder / "relay", PORT, relay_lines=lines)
    try:
        held = hold_offers(ids[:200])
        by_innxmit(inn, batch[:COUNT])
        held.close()
        octets = compare(ids[:COUNT], sent, READ, PREFIX)
        say(f"innxmit: each of its {COUNT:,} articles comes back, {octets:,} octets")
        by_innfeed(inn, batch[COUNT:])
        octets = compare(ids[COUNT:], sent, READ, PREFIX)
        say(f"innfeed: each of its {COUNT:,} articles comes back, {octets:,} octets")
        by_puller(folder, ids, sent)
        by_files(inn, folder, ids)
        some = ids[::max(1, len(ids) // 300)]
        longest = {one: max(map(len, sent[one].split(b"\n"))) for one in some}
        by_nntplib([one for one in some if longest[one] < NNTPLIB_LINE], sent)
        by_perl(folder, some, sent)
        by_suck(folder, some, sent)
        if has_get:
            by_nntpget(inn, [one for one in some if longest[one] < NNTPGET_LINE], sent)
        by_innreport(folder / "relay" / "news", some, sent)
        by_hashes(folder, inn, batch, halves, folder / "relay" / "news", sent)
        demand(relay.is_running(), "serve has ended by itself")
    finally:
        relay.stop()


def options(about):
    about.add_argument("count", nargs="?", type=int, default=COUNT, metavar="COUNT", help="articles of each sender")
    about.add_argument("kills", nargs="?", type=int, default=KILLS, metavar="KILLS", help="kills of the puller")


def main(given):
    global COUNT, KILLS
    COUNT, KILLS = given.count, given.kills
    servers.needed("inn2", "suck")
    with room("clients", mode=0o755) as folder:
        try_all(folder)
