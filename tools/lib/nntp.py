"""Articles, and connections to a relay."""

import re
import socket
import struct
import threading
import time
from collections import deque
from datetime import datetime, timezone
from email.utils import formatdate

from lib.trying import Late, Wrong

GREETING = b"201 cnrelay ready, posting prohibited\r\n"
# What stands before the Path of an article of a peer (docs/FORMATS.md, Path).
BEFORE = {"p1": "relay.example!!", "p2": "relay.example!.MISMATCH.two.example!"}


# ---- texts


def article(one, octets, before="", group="misc.test"):
    """The lines of A(one, octets), where this stands before its Path."""
    head = (
        f"Path: {before}one.example!not-for-mail\r\nFrom: a@x.example\r\nNewsgroups: {group}\r\n"
        f"Subject: t\r\nMessage-ID: <{one}@x>\r\nDate: Fri, 01 Jan 2021 00:00:00 +0000\r\n\r\n"
    )
    return head + "x" * int(octets) + "\r\n"


def block(one, octets, group="misc.test"):
    """The article, and the dot behind it."""
    return article(one, octets, group=group) + ".\r\n"


def kept(one, octets, peer="p1", group="misc.test"):
    """The article as it is kept from a peer."""
    return article(one, octets, BEFORE[peer], group)


TEXTS = {
    "block": block,
    "kept": kept,
    "zero": lambda count: "\0" * int(count),
    "fill": lambda count, octet: chr(int(octet)) * int(count),
    "hex": lambda *digits: "".join(chr(int(it, 16)) for it in digits),
    "crlf": lambda: "\r\n",
    "lf": lambda: "\n",
}


def dated(one, body=b"text\r\n", group="bench.a.x", path="one.example!x"):
    """An article of now, as octets."""
    return (f"Path: {path}\r\nFrom: a@x.example\r\nNewsgroups: {group}\r\nSubject: t\r\n"
            f"Message-ID: {one}\r\nDate: {formatdate()}\r\n\r\n").encode() + body


def cut_to(text, most=200):
    """The text, or as much of it as is good to read."""
    return repr(text) if len(text) <= most else f"{text[:most]!r} .. ({len(text)} octets)"


# ---- clients


def called(port, patience, address="127.0.0.1", source=None, greeting=GREETING):
    """A connection to a port, its greeting read where it isn't None."""
    own = (source, 0) if source else None
    client = Client(socket.create_connection((address, port), patience, own), patience)
    if greeting is not None:
        client.expect(greeting)
    return client


class Client:
    """A connection."""

    def __init__(self, connected, patience):
        self.socket, self.patience = connected, patience
        self.socket.settimeout(patience)
        if connected.family == socket.AF_INET:
            self.socket.setsockopt(socket.IPPROTO_TCP, socket.TCP_NODELAY, 1)
        # What came and was not looked at: lines, and the front of one.
        self.lines, self.front = deque(), b""
        self.stream = None

    def send(self, octets):
        self.socket.sendall(octets)

    def octets(self, octets):
        for octet in octets:
            self.send(bytes([octet]))
            time.sleep(0.001)

    def fills(self, octets):
        """Sends until no more goes for a while."""
        self.socket.settimeout(0.5)
        try:
            for _ in range(1 << 12):
                self.socket.sendall(octets * 256)
        except TimeoutError:
            self.socket.settimeout(self.patience)
            return
        raise Wrong("more was sent than any buffer holds, and all of it went")

    def floods(self, octets):
        """Sends what is taken of it."""
        try:
            self.socket.sendall(octets)
        except OSError:
            pass

    def next_line(self):
        """The next line as it comes; at the end what is there of one, or no octet."""
        while not self.lines:
            piece = self.socket.recv(65_536)
            if not piece:
                found, self.front = self.front, b""
                return found
            *lines, self.front = (self.front + piece).split(b"\n")
            self.lines.extend(lines)
        return self.lines.popleft() + b"\n"

    def unread(self):
        """What came next, or comes, if not more than that."""
        return b"\n".join([*self.lines, self.front]) or self.socket.recv(200)

    def line(self):
        """The same, which has to come."""
        try:
            return self.next_line()
        except TimeoutError:
            raise Late(f"nothing came for {self.patience} seconds") from None
        except ConnectionError as error:
            raise Wrong(f"the connection broke: {error}") from None

    def expect(self, octets):
        for wanted in octets.splitlines(keepends=True):
            found = self.line()
            if b"{now}" in wanted:
                is_right = is_now(wanted, found)
            else:
                is_right = found == wanted
            if not is_right:
                raise Wrong(f"{cut_to(found) if found else 'the end'}, not {cut_to(wanted)}")

    def ask(self, line, reply):
        """Sends a line, and is sent one."""
        self.send(line + b"\r\n")
        self.expect(reply + b"\r\n")

    def text(self):
        """The lines up to the dot, as they were before dots were doubled."""
        lines = []
        while (line := self.line()) != b".\r\n":
            if not line.endswith(b"\n"):
                raise Wrong(f"a text ends in {cut_to(line)}")
            lines.append(line[1:] if line.startswith(b".") else line)
        return b"".join(lines)

    def ended(self):
        found = self.line()
        if found:
            raise Wrong(f"{cut_to(found)}, not the end")

    def unheard(self):
        """The connection ends, or breaks, and nothing is sent before."""
        try:
            found = self.unread()
        except TimeoutError:
            raise Wrong(f"it hasn't ended after {self.patience} seconds") from None
        except ConnectionError:
            return
        if found:
            raise Wrong(f"{cut_to(found)}, not the end")

    def gone(self, soonest=0.0, latest=None):
        """The connection ends, or breaks, within these seconds."""
        begun = time.monotonic()
        self.socket.settimeout(latest or self.patience)
        try:
            while self.socket.recv(65_536):
                if time.monotonic() - begun > (latest or self.patience):
                    raise TimeoutError
        except TimeoutError:
            raise Wrong(f"it hasn't ended after {latest or self.patience} seconds") from None
        except ConnectionError:
            pass
        if time.monotonic() - begun < soonest:
            raise Wrong(f"it ended after {time.monotonic() - begun:.2f} seconds")

    def silent(self, seconds):
        self.socket.settimeout(seconds)
        try:
            found = self.unread()
            raise Wrong(f"{cut_to(found) if found else 'the end'}, not silence")
        except TimeoutError:
            self.socket.settimeout(self.patience)

    def streams(self, name, octets):
        """Sends articles in a thread, until it can't."""

        def send():
            try:
                for number in range(1 << 20):
                    one = f"{name}{number}"
                    self.send(f"TAKETHIS <{one}@x>\r\n{block(one, octets)}".encode("latin-1"))
            except OSError:
                pass

        self.stream = (threading.Thread(target=send, daemon=True), name)
        self.stream[0].start()
        for number in range(3):
            self.expect(b"239 <%s%d@x>\r\n" % (name.encode(), number))

    def sips(self, octets):
        """The same as `drinks`, with little room for what has come."""
        self.socket.setsockopt(socket.SOL_SOCKET, socket.SO_RCVBUF, 4_096)
        self.drinks(octets)

    def drinks(self, octets):
        """From here on reads so many octets every fiftieth of a second, in a thread."""

        def read():
            try:
                while self.socket.recv(octets):
                    time.sleep(0.02)
            except OSError:
                pass

        threading.Thread(target=read, daemon=True).start()

    def streamed(self):
        """How many articles of its stream were answered 239, each in turn, before it ended."""
        thread, name = self.stream
        end, number = time.monotonic() + self.patience, 3
        while time.monotonic() < end:
            try:
                found = self.next_line()
            except ConnectionError:
                found = b""
            except TimeoutError:
                break
            if found == b"239 <%s%d@x>\r\n" % (name.encode(), number):
                number += 1
            elif not found.endswith(b"\n") or found.startswith(b"400 "):
                thread.join(self.patience)
                return number
            else:
                raise Wrong(f"{cut_to(found)} to article {number} of a stream")
        raise Wrong(f"its stream hasn't ended after {self.patience} seconds")

    def shuts(self):
        self.socket.shutdown(socket.SHUT_WR)

    def resets(self):
        self.socket.setsockopt(socket.SOL_SOCKET, socket.SO_LINGER, struct.pack("ii", 1, 0))
        self.closes()

    def closes(self):
        self.socket.close()


class Gone(Exception):
    """The relay is no longer there."""


class Peer:
    """A connection to a relay that may go away meanwhile."""

    def __init__(self, port, patience=120):
        try:
            self.client = called(port, patience, greeting=None)
        except OSError as why:
            raise Gone from why
        self.expect("201")

    def send(self, octets):
        try:
            self.client.send(octets)
        except OSError as why:
            raise Gone from why

    def line(self):
        """The next line, without its end."""
        try:
            line = self.client.next_line()
        except OSError as why:
            raise Gone from why
        if not line.endswith(b"\r\n"):
            raise Gone
        return line[:-2].decode()

    def block(self):
        """The lines up to the dot, as they were before dots were doubled."""
        lines = []
        while (line := self.line()) != ".":
            lines.append(line[1:] if line.startswith(".") else line)
        return lines

    def expect(self, code):
        line = self.line()
        if not line.startswith(code):
            raise Wrong(f"{line!r}, not {code}")
        return line

    def close(self):
        self.client.closes()


def is_now(wanted, found):
    """Whether a line is the wanted one with the clock's time in it."""
    before, _, behind = wanted.partition(b"{now}")
    match = re.fullmatch(re.escape(before) + rb"(\d{14})" + re.escape(behind), found)
    if not match:
        return False
    told = datetime.strptime(match[1].decode(), "%Y%m%d%H%M%S").replace(tzinfo=timezone.utc)
    return abs(told.timestamp() - time.time()) < 120
