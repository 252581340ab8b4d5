"""Programs that are started, above all relays: their folders, what they tell, and their ends."""

import os
import re
import signal
import socket
import subprocess
import tempfile
import time

from lib import ports
from lib.program import PROGRAM
from lib.trying import Wrong, waits_until

NOBODY = 65534
TICKS = os.sysconf("SC_CLK_TCK")
# The lines that tell what happens while a relay is served (docs/OPERATING.md, Lines).
HAPPENED = re.compile(r"(serving|recovering|recovered|starting|closed|failed|stopping|stopped)\b")


def configure(folder, lines, buffers=("A:a.buf:4",), groups=("G:A",), classes=(("*", "G"),)):
    """Writes a configuration: what stands behind `cycbuff:` and `metacycbuff:`, newsgroups and group of
    each class, and the lines of relay.conf."""
    cycbuff = [*(f"cycbuff:{it}" for it in buffers), *(f"metacycbuff:{it}" for it in groups)]
    storage = [f"method cnfs {{\nclass: {number}\nnewsgroups: {newsgroups}\noptions: {group}\n}}"
               for number, (newsgroups, group) in enumerate(classes, 1)]
    for name, it in (("cycbuff", cycbuff), ("storage", storage), ("relay", lines)):
        (folder / f"{name}.conf").write_text("".join(f"{line}\n" for line in it))


def asked(command, folder, *words, patience=60, **settings):
    """The end of a command of the program over a folder."""
    return subprocess.run([PROGRAM, command, folder, *words], stdin=subprocess.DEVNULL, capture_output=True,
                          text=True, timeout=patience, check=False, **settings)


def report(folder, *words, patience=60):
    """What `cnrelay report` prints."""
    done = asked("report", folder, *words, patience=patience)
    if done.returncode:
        raise Wrong(f"report ended with {done.returncode}: {done.stderr}")
    return done.stdout


def held_by(file):
    """What a file holds that a program writes. It is read at its beginning without going there, since
    the program writes at the place at which this file stands."""
    file.flush()
    return os.pread(file.fileno(), os.fstat(file.fileno()).st_size, 0)


class Started:
    """A program that was started, with the variables of faults besides its own. Its output goes to
    files, but for what is said otherwise."""

    # Those that may still run.
    running = []

    def __init__(self, words, faults=None, **settings):
        self.out, self.err = tempfile.TemporaryFile(), tempfile.TemporaryFile()
        settings = {"stdin": subprocess.DEVNULL, "stdout": self.out, "stderr": self.err,
                    "env": {**os.environ, **(faults or {})}, **settings}
        self.process = subprocess.Popen([str(it) for it in words], **settings)
        Started.running.append(self)

    def is_running(self):
        return self.process.poll() is None

    def has_ended(self, patience):
        try:
            self.process.wait(patience)
            return True
        except subprocess.TimeoutExpired:
            return False

    def told(self, file=None):
        """The lines that it has printed, on standard error or in this file."""
        return held_by(file or self.err).decode("latin-1").splitlines()

    def seconds(self):
        """The processor's seconds that it had, and children of its that have ended: its own, the system's."""
        with open(f"/proc/{self.process.pid}/stat", encoding="latin-1") as file:
            fields = file.read().rsplit(")", 1)[1].split()
        own, system, children, children_system = (int(field) / TICKS for field in fields[11:15])
        return own + children, system + children_system

    def memory(self):
        """Octets that it has in memory, and the most that it had."""
        with open(f"/proc/{self.process.pid}/status", encoding="latin-1") as file:
            found = dict(line.split(":", 1) for line in file)
        return tuple(int(found[key].split()[0]) * 1024 for key in ("VmRSS", "VmHWM"))

    def kill(self):
        self.process.kill()
        self.process.wait()

    def stop(self):
        """Ends it, asked first, then by force, and lets go of what it had."""
        for sign, patience in ((signal.SIGTERM, 5), (signal.SIGKILL, 10)):
            if self.is_running():
                self.process.send_signal(sign)
                self.has_ended(patience)
        if self in Started.running:
            Started.running.remove(self)


class Server(Started):
    """One that listens at these ports, which nobody else has."""

    # Seconds that it may take to begin.
    PATIENCE = 120

    def __init__(self, name, words, at, **settings):
        if taken := ports.listening().intersection(at):
            raise Wrong(f"{name}: port {min(taken)} is taken")
        super().__init__(words, **settings)
        self.name = name
        try:
            waits_until(lambda: self.is_served(at), f"{name} doesn't listen after {self.PATIENCE} seconds",
                        self.PATIENCE)
        except Wrong:
            self.stop()
            raise

    def is_served(self, at):
        if not self.is_running():
            raise Wrong(f"{self.name} ended with {self.process.returncode} before it listened: "
                        + "\n".join(self.told()))
        return ports.listening().issuperset(at)


class Life(Started):
    """A relay in a folder, which peers ask at this port."""

    def __init__(self, folder, port, address="127.0.0.1", words=(), faults=None, patience=60):
        self.folder, self.port, self.address, self.patience = folder, port, address, patience
        super().__init__([PROGRAM, "serve", folder, *words], faults)

    def ask(self, said, quits_behind=False, port=None):
        """What a peer is told that says this and QUIT, behind the greeting; None where there is no
        relay to be asked. By `quits_behind` it says QUIT once it has heard a line: where that was
        unread when a connection is closed, as behind `400`, this is a reset, which may overtake the
        line."""
        end = time.monotonic() + self.patience
        while time.monotonic() < end and self.is_running():
            try:
                with socket.create_connection((self.address, port or self.port), self.patience) as peer:
                    told, last = b"", b"QUIT\r\n"
                    try:
                        peer.sendall(said.encode() + (b"" if quits_behind else last))
                        while part := peer.recv(65_536):
                            told += part
                            if quits_behind and last and told.count(b"\r\n") == 2:
                                peer.sendall(last)
                                last = b""
                    except ConnectionError:
                        pass
                    if told:
                        return told.decode().partition("\r\n")[2]
            except OSError:
                pass
            time.sleep(0.005)
        return None

    def has(self, one, text):
        """Whether an article is there, whole; None where the device failed."""
        told = self.ask(f"ARTICLE <{one}@x>\r\n")
        if told is None or told.startswith("403 Device fault\r\n"):
            return None
        if told == "430 No such article\r\n205 Bye\r\n":
            return False
        if told == f"220 0 <{one}@x>\r\n{text}.\r\n205 Bye\r\n":
            return True
        raise Wrong(f"ARTICLE <{one}@x>: {told[:300]!r} of {len(told)}")

    def ends(self):
        """Asks it to stop, till it has; its status, and what it told but lines of what happened."""
        end = time.monotonic() + self.patience
        while self.is_running() and time.monotonic() < end:
            asked("stop", self.folder, patience=self.patience)
            time.sleep(0.01)
        return self.ended()

    def ended(self):
        """Its status once it has ended, and what it told but lines of what happened."""
        if not self.has_ended(self.patience):
            self.kill()
            raise Wrong("a relay doesn't end")
        if self in Started.running:
            Started.running.remove(self)
        return self.process.returncode, [it for it in self.told() if not HAPPENED.match(it)]
