"""Numbers of this machine that nobody else has: ports, addresses and users."""

import os
import socket
import threading
from pathlib import Path

from lib.trying import Wrong


class Numbers:
    """Numbers of a range, each given out once. What runs beside this program has others: of each
    part of the range one program has a socket until it ends, whose name says which."""

    def __init__(self, what, first, end, part=40):
        self.what, self.part, self.lock, self.left, self.held = what, part, threading.Lock(), range(0), []
        count = (end - first) // part
        # Runs that follow each other begin at other places.
        self.parts = [first + part * ((os.getpid() * 3 + it) % count) for it in range(count)]

    def has(self, part):
        """Whether this program has this part from here on."""
        self.held.append(socket.socket(socket.AF_UNIX))
        try:
            self.held[-1].bind(f"\0cnrelay {self.what} {part}")
            return True
        except OSError:
            self.held.pop().close()
            return False

    def row(self, count=1):
        """So many in a row."""
        with self.lock:
            while len(self.left) < count:
                if not self.parts:
                    raise Wrong(f"no {self.what} of this machine are free")
                part = self.parts.pop(0)
                self.left = range(part, part + self.part) if self.has(part) else range(0)
            row, self.left = self.left[:count], self.left[count:]
            return row


# Below those that the system gives to clients.
PORTS = Numbers("ports", 22_000, 30_000)
# Loopback addresses, by their last three octets.
ADDRESSES = Numbers("addresses", 1 << 16, 255 << 16, 4_096)
# The users of programs that may have a few threads alone: each program has one of its own, since
# the system counts a user's.
USERS = Numbers("users", 61_000, 64_000)


def free(count=1):
    """The first of so many ports in a row that nobody has."""
    while True:
        row = PORTS.row(count)
        try:
            for port in row:
                socket.create_server(("0.0.0.0", port)).close()
            return row[0]
        except OSError:
            pass


def address():
    """A loopback address that nobody else has."""
    number = ADDRESSES.row()[0]
    return f"127.{number >> 16}.{number >> 8 & 255}.{number & 255}"


def listening():
    """The ports at which programs of this machine listen, by IPv4 or by IPv6."""
    files = [Path("/proc/net/tcp"), Path("/proc/net/tcp6")]
    lines = [it for file in files if file.exists() for it in file.read_text().splitlines()[1:]]
    words = [line.split() for line in lines]
    return {int(it[1].rsplit(":", 1)[1], 16) for it in words if it[3] == "0A"}
