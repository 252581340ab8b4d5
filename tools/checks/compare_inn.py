"""Sends articles of many kinds to `cnrelay serve` and to INN's innd, and compares what each takes.

Each article goes to both by TAKETHIS. Prints what one takes and the other refuses, by what the
article has, and at the end how many are answered alike. docs/OPERATING.md, What INN takes and this
doesn't, has what it said. Installs Debian's inn2 where it isn't, runs as root, since innd has to be
the user news, and goes over 127.0.0.0/8 alone.
"""
import re
import sys
import time
from email.utils import formatdate

from lib import ports, servers
from lib.nntp import called
from lib.trying import room

PORT, INND_PORT = ports.free(4), ports.free()
DAY = 86_400
NOW = time.time()
# The order of an article's fields, and what they have where nothing else is said. OWN stands for the
# identity of the server that the article goes to.
PLAIN = {
    "Path": "one.example!x",
    "From": "a@x.example",
    "Newsgroups": "bench.a.x",
    "Subject": "t",
    "Message-ID": None,
    "Date": formatdate(NOW),
}


def dated(seconds):
    return formatdate(NOW + seconds)


def written(form, seconds=0):
    """The moment in another form."""
    return time.strftime(form, time.gmtime(NOW + seconds))


def fields(**changed):
    """The lines of a plain article's head with other contents; None leaves a field out."""
    changed = {key.replace("_", "-"): content for key, content in changed.items()}
    return [f"{name}: {content}" for name, content in {**PLAIN, **changed}.items()
            if name not in changed or content is not None]


def kinds():
    """Of each article what it has, and its head and body; None in a line is its message-id."""
    yield from lines_and_octets()
    yield from names_and_contents()
    yield from message_ids()
    yield from newsgroups()
    yield from paths()
    yield from dates()
    yield from others()


def lines_and_octets():
    """RFC 5536 section 2.2, RFC 3977 section 3.1."""
    head = fields()
    yield "a plain article", head, "text\r\n"
    for name, octets in (("LF", "\n"), ("CR", "\r"), ("NUL", "\0"), ("octet 0x80", "\x80"),
                         ("octet 0x7F", "\x7f"), ("TAB", "\t"), ("octet 0x01", "\x01"), ("CR CRLF", "\r\r\n")):
        yield f"{name} in the body", head, f"one{octets}two\r\n"
        yield f"{name} in a Subject", fields(Subject=f"one{octets}two"), "text\r\n"
    yield "UTF-8 in a Subject", fields(Subject="gr\u00c3\u00bc\u00c3\u009fe"), "text\r\n"
    yield "an empty body", head, ""
    yield "no line between head and body", head, None
    yield "an empty line in front", ["", *head], "text\r\n"
    for count in (998, 999, 2_000, 20_000):
        yield f"a line of {count} octets in the body", head, "x" * count + "\r\n"
        yield f"a Subject of {count} octets", fields(Subject="x" * (count - 9)), "text\r\n"
    yield "a folded Subject", fields(Subject="one\r\n two"), "text\r\n"
    yield "a Subject folded by a TAB", fields(Subject="one\r\n\ttwo"), "text\r\n"
    yield "a Subject folded behind its colon", fields(Subject="\r\n one"), "text\r\n"
    yield "a Subject with a fold of white space alone", fields(Subject="one\r\n \r\n two"), "text\r\n"
    yield "a fold in front of the first field", [" folded", *head], "text\r\n"
    yield "a body of 990,000 octets", head, ("x" * 98 + "\r\n") * 9_900
    yield "a body of 1,000,100 octets", head, ("x" * 98 + "\r\n") * 10_001


def names_and_contents():
    """RFC 5536 sections 2.2 and 3."""
    head = fields()
    for line in ("no colon", "X Y: z", "X-Space : z", "X-Close:z", "X-Tab:\tz", ": z", "X-\x80: z", "X_Y: z",
                 "X-Empty:", "X-Empty: ", "X-White:  \t", "Organization: ", "x" * 100 + ": z"):
        yield f"a field `{shown(line)}`", [*head, line], "text\r\n"
    yield "names in small letters", [line.replace(line.split(":")[0], line.split(":")[0].lower(), 1) for line in head], "t\r\n"
    for name in PLAIN:
        yield f"no {name}", fields(**{name: None}), "text\r\n"
        if name != "Message-ID":
            yield f"an empty {name}", fields(**{name: ""}), "text\r\n"
            yield f"a {name} of white space", fields(**{name: " \t"}), "text\r\n"
            yield f"{name} twice", [*head, f"{name}: {PLAIN[name]}"], "text\r\n"
        else:
            yield f"{name} twice", [*head, f"{name}: <other@x>"], "text\r\n"
    for name, content in (("X-Test", "t"), ("References", "<a@x>"), ("Distribution", "world"), ("Xref", "x a:1"),
                          ("Injection-Date", dated(0)), ("Control", "cancel <a@x>"), ("Sender", "a@x")):
        yield f"{name} twice", [*head, f"{name}: {content}", f"{name}: {content}"], "text\r\n"


def message_ids():
    """RFC 5536 section 3.1.3, RFC 3977 section 3.6."""
    for kind in ("<{}>", "<@{}>", "<{}@>", "<{}@x@y>", "<{}@[1.2.3.4]>", '<"{}"@x>', "<{}.@x>", "<{}..a@x>", "<.{}@x>",
                 "<{}@x.>", "<{}@-x>", "<{}>a@x>", "<{}<a@x>", "<{}(c)@x>", "<{}\\a@x>", "<{}@x", "{}@x>", "{}@x"):
        yield f"the message-id `{kind.format('a')}`", fields(), "text\r\n", kind
    yield "a message-id of 250 octets", fields(), "text\r\n", "<{:x<246}@x>"[:-1] + ">"
    yield "a message-id of 251 octets", fields(), "text\r\n", "<{:x<247}@x>"
    yield "another Message-ID than was offered", fields(Message_ID="<other.one@x>"), "text\r\n"
    yield "white space behind the Message-ID", fields(Message_ID="{id} "), "text\r\n"
    yield "more white space before the Message-ID", fields(Message_ID="  {id}"), "text\r\n"
    yield "a folded Message-ID", fields(Message_ID="\r\n {id}"), "text\r\n"
    yield "a comment behind the Message-ID", fields(Message_ID="{id} (c)"), "text\r\n"
    yield "two message-ids in the Message-ID", fields(Message_ID="{id} <b@x>"), "text\r\n"


def newsgroups():
    """RFC 5536 section 3.1.4."""
    for content in ("bench.a.x,bench.b.x", "bench.a.x, bench.b.x", "bench.a.x ,bench.b.x", "bench.a.x bench.b.x",
                    "bench.a.x,", ",bench.a.x", "bench.a.x,,bench.b.x", "bench.a.x,bench.a.x", "bench.a.X",
                    "bench.a.x,no.such", "no.such", "bench.a.x,bench..y", "bench.a.x,.y", "bench.a.x,y.",
                    "bench.a.x,a+b_c-d.e", "bench.a.x,gr\x80", "bench.a.x,a/b", "bench.a.x,!b", "bench.a.x,*",
                    "bench.a.x\r\n ,bench.b.x", "bench.a.x,\r\n bench.b.x", "\r\n bench.a.x"):
        yield f"the Newsgroups `{shown(content)}`", fields(Newsgroups=content), "text\r\n"
    yield "Newsgroups of 100 groups", fields(
        Newsgroups=",".join(["bench.a.x", *(f"no.such{number}" for number in range(99))])), "text\r\n"


def paths():
    """RFC 5536 section 3.1.5, RFC 5537 section 3.2."""
    for content in ("x", "one.example!two.example!x", "one.example!!x", "one.example!.MISMATCH.two!x", "one.example!.POSTED!x",
                    "one.example!.POSTED.1.2.3.4!x", "one.example!OWN!x", "one.example!x!OWN", "OWN!x", "one.example!x!",
                    "!one.example!x", "one.example!!!x", "one.example! x", "one.example!\tx", "one.example !x", "one.example!\r\n x",
                    "one.example!x y", "one.example!x@y", "one.example!\x80!x", "one.example!a,b!x", "one.example!a:119!x",
                    "one.example![::1]!x", "one.example!own.EXAMPLE!x", "one.example!x(y)"):
        yield f"the Path `{shown(content)}`", fields(Path=content), "text\r\n"
    yield "a Path of 5,000 identities", fields(Path="one.example!" + "a!" * 5_000 + "x"), "text\r\n"


def dates():
    """RFC 5536 section 3.1.1, RFC 5322 sections 3.3 and 4.3, RFC 5537 section 3.6."""
    for name, content in (
        ("without a weekday", written("%d %b %Y %H:%M:%S +0000")), ("without seconds", written("%a, %d %b %Y %H:%M +0000")),
        ("with a year of two digits", written("%a, %d %b %y %H:%M:%S +0000")), ("in GMT", written("%a, %d %b %Y %H:%M:%S GMT")),
        ("in UT", written("%a, %d %b %Y %H:%M:%S UT")), ("in UTC", written("%a, %d %b %Y %H:%M:%S UTC")),
        ("in EST", written("%a, %d %b %Y %H:%M:%S EST", -5 * 3_600)), ("in Z", written("%a, %d %b %Y %H:%M:%S Z")),
        ("in CET", written("%a, %d %b %Y %H:%M:%S CET")), ("without a zone", written("%a, %d %b %Y %H:%M:%S")),
        ("with a comment", dated(0) + " (UTC)"), ("with a zone of -0000", written("%a, %d %b %Y %H:%M:%S -0000")),
        ("with the zone +9999", written("%a, %d %b %Y %H:%M:%S +9999")), ("with the zone +0160", written("%a, %d %b %Y %H:%M:%S +0160")),
        ("with more white space", dated(0).replace(" ", "  ")), ("folded", dated(0).replace(", ", ",\r\n ")),
        ("with a wrong weekday", "Xyz" + dated(0)[3:]), ("with another weekday", written("%a", DAY) + dated(0)[3:]),
        ("in small letters", dated(0).lower()), ("of ISO 8601", written("%Y-%m-%dT%H:%M:%SZ")), ("of ctime", written("%a %b %d %H:%M:%S %Y")),
        ("that is no date", "yesterday"), ("on February 30", written("Mon, 30 Feb %Y %H:%M:%S +0000")),
        ("at 24 o'clock", written("%a, %d %b %Y 24:00:00 +0000", -DAY)), ("with second 60", written("%a, %d %b %Y %H:%M:60 +0000")),
        ("with second 61", written("%a, %d %b %Y %H:%M:61 +0000")), ("with words behind", dated(0) + " now"),
        ("23 hours ahead", dated(23 * 3_600)), ("25 hours ahead", dated(25 * 3_600)), ("9 days back", dated(-9 * DAY)),
        ("11 days back", dated(-11 * DAY)), ("of 1969", "Wed, 31 Dec 1969 23:59:59 +0000")):
        yield f"a Date {name}", fields(Date=content), "text\r\n"
    for name, date, injected in (("new, the Date old", -11 * DAY, 0), ("old, the Date new", 0, -11 * DAY),
                                 ("ahead, the Date now", 0, 2 * DAY)):
        yield f"an Injection-Date {name}", fields(Date=dated(date), Injection_Date=dated(injected)), "text\r\n"
    yield "an Injection-Date that is no date", fields(Injection_Date="yesterday"), "text\r\n"
    yield "an empty Injection-Date", fields(Injection_Date=""), "text\r\n"


def others():
    """RFC 5536 sections 3.2 and 5."""
    for line in ("Control: cancel <no.such@x>", "Control: newgroup no.such", "Control: nonsense", "Supersedes: <no.such@x>",
                 "Supersedes: nonsense", "Also-Control: cancel <a@x>", "Approved: a@x", "Distribution: world",
                 "Distribution: local", "Followup-To: poster", "Followup-To: bench..x", "Xref: other bench.a.x:1", "Lines: 7",
                 "Lines: many", "Content-Type: nonsense", "References: nonsense", "Expires: yesterday", "Archive: no",
                 "Bytes: 7", "NNTP-Posting-Host: x", "Received: from x", "Bcc: x@y", "Return-Path: <a@x>"):
        yield f"`{line}`", [*fields(), line], "text\r\n"
    for content in ("a", "a@", "@x", "a b c", "A <a@x>", "a@x (A)", "a@x, b@y", "<>", "=?utf-8?q?A?= <a@x>", "\x80 <a@x>"):
        yield f"the From `{shown(content)}`", fields(From=content), "text\r\n"


def shown(text):
    return re.sub(r"[^ -~]", lambda it: f"\\x{ord(it[0]):02x}", text.replace("\r\n", "CRLF").replace("\t", "TAB"))


# ---- what is sent


def made(number, kind):
    """The article's message-id and its octets, where OWN stands for the server's identity."""
    _, head, body, *form = kind
    one = (form[0] if form else "<{}@x>").format(f"a{number}")
    lines = [line.replace("{id}", one) for line in head]
    lines = [f"Message-ID: {one}" if line == "Message-ID: None" else line for line in lines]
    text = "\r\n".join(lines) + "\r\n" + ("" if body is None else "\r\n" + body)
    return one, text


class Connection:
    def __init__(self, port, own):
        self.own = own
        self.client = called(port, 60, source="127.0.0.1", greeting=None)
        self.client.line()
        self.client.send(b"MODE STREAM\r\n")
        self.client.line()

    def answer(self, one, text):
        text = text.replace("OWN", self.own).replace("own.EXAMPLE", self.own.upper())
        block = re.sub(r"(^|\r\n)\.", r"\1..", text)
        self.client.send(f"TAKETHIS {one}\r\n{block}.\r\n".encode("latin-1"))
        told = self.client.line().decode("latin-1").rstrip()
        if not told:
            sys.exit(f"compare-inn: {self.own} has closed, and not answered {one}")
        return told


def main(_):
    servers.needed("inn2")
    with room("compare", mode=0o755) as folder:
        inn = servers.Inn(folder / "inn", INND_PORT, kilobytes=65_536, ids=10_000)
        # INN files control messages in groups of their own.
        with open(folder / "inn/storage.conf", "a") as entries:
            entries.write("method cnfs {\nclass: 3\nnewsgroups: *\noptions: A\n}\n")
        innd = inn.innd()
        relay = servers.relay(folder / "relay", PORT, kilobytes=65_536)
        try:
            compare(Connection(PORT, servers.OWN), Connection(INND_PORT, "innd.example"))
        finally:
            relay.stop()
            inn.shut(innd)


def compare(relay, innd):
    alike, here, there = 0, [], []
    for number, kind in enumerate(kinds()):
        one, text = made(number, kind)
        ours, theirs = relay.answer(one, text), innd.answer(one, text)
        if ours.startswith("239") == theirs.startswith("239"):
            alike += 1
        else:
            (there if ours.startswith("239") else here).append((kind[0], theirs if ours.startswith("239") else ours))
    for title, found in (("refused here alone", here), ("refused by INN alone", there)):
        print(f"{len(found)} are {title}:")
        for name, answer in found:
            print(f"  {name}: {shown(answer)}")
    print(f"{alike} of {alike + len(here) + len(there)} are answered alike")
