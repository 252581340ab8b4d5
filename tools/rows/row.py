"""A row that is played: what its lines do."""

import os
import re
import resource
import signal
import socket
import subprocess
import threading
import time
from collections import Counter, namedtuple
from pathlib import Path

from lib import faults, ports
from lib.nntp import GREETING, TEXTS, Client, cut_to
from lib.program import PROGRAM
from lib.relay import NOBODY, Started
from lib.trying import Late, Wrong, waits_until
from rows.plays import PLAYS

K1 = {
    "cycbuff.conf": ["cycbuff:A:a.buf:4", "metacycbuff:G:A"],
    "storage.conf": ["method cnfs {", "class: 1", "newsgroups: *", "options: G", "}"],
    "relay.conf": [
        "own relay.example",
        "cutoff 4000000000",
        "peer p1 one.example {p1}",
        "peer p2 two.example {p2}",
        "feed p2 2 *",
    ],
}


# Two and three of all: no two buffers, rings or peers are alike, and no order is that of another.
K3 = {
    "cycbuff.conf": ["cycbuff:A:a.buf:4", "cycbuff:B:b.buf:5", "cycbuff:C:c.buf:3",
                     "metacycbuff:G:C,A", "metacycbuff:H:B"],
    "storage.conf": ["method cnfs {", "class: 1", "newsgroups: misc.*", "options: G", "}",
                     "method cnfs {", "class: 2", "newsgroups: other.*", "options: H", "}"],
    "relay.conf": [
        "own relay.example",
        "cutoff 4000000000",
        "peer p1 one.example {p1}",
        "peer p2 two.example {p2}",
        "peer p3 three.example {p3}",
        "feed p3 3 other.*",
        "feed p2 2 *",
    ],
}


# What is printed: on standard output, on standard error, lines there of what happens, such lines
# with how many of them may stand there, a status that is one of these.
Printed = namedtuple("Printed", "out err events most statuses")

# What is printed by a step that says nothing of it.
NOTHING = Printed([], [], [], [], [0])

# The lines that tell what happens while a relay is served (docs/OPERATING.md, Lines).
EVENT = re.compile(r"(serving|recovering|recovered|starting|closed|failed|left|waiting)( \w+=\S*)+|pausing|going|reloading|stopping|stopped")

# The lines that say what of a file.
FILES = ("file", "folder", "pipe", "link", "symlink", "mode", "cut", "poke", "remove", "missing",
         "holds", "news", "names", "ages")

# How a line of a news log begins: with a moment.
MOMENT = re.compile(rb"[A-Z][a-z]{2} [ 123]\d \d\d:\d\d:\d\d\.\d{3} ")

# The lines that set something of the program while it runs.
SHARES = ("clock", "later", "pause", "pauses", "stall", "stalled", "release", "fails", "peers",
          "crowded", "refuses", "flushes", "unflushed", "unlogged")


def files_kept_open(pid):
    """The numbers of the files that a process has open for a second: those that it has for a moment
    alone, as while it keeps marks, aren't among them."""
    found = None
    for _ in range(20):
        now = {int(it) for it in os.listdir(f"/proc/{pid}/fd")}
        found = now if found is None else found & now
        time.sleep(0.05)
    return found


class Taken(Exception):
    """Another program has a port that was free."""


class Played(Started):
    """A run of the program in a row."""

    def __init__(self, words, user, is_full, **settings):
        self.full = None
        if is_full:
            self.full, settings["stdout"] = full_pipe()
        if user:
            settings |= {"user": user, "group": user, "extra_groups": []}
        super().__init__(words, **settings)
        if is_full:
            os.close(settings["stdout"])

    def flows(self):
        """What it writes to its full pipe is taken from here on; what the pipe was filled with isn't
        its own."""
        with open(self.full, "rb") as pipe:
            self.full = None
            self.out.write(pipe.read().lstrip(b"\0"))

    def stop(self):
        super().stop()
        if self.full is not None:
            os.close(self.full)
        self.out.close()
        self.err.close()


def full_pipe():
    """The two ends of a pipe into which no further octet goes."""
    reading, writing = os.pipe()
    os.set_blocking(writing, False)
    try:
        while os.write(writing, bytes(4_096)):
            pass
    except BlockingIOError:
        os.set_blocking(writing, True)
    return reading, writing


class Row:
    """A row that is played once."""

    def __init__(self, steps, given, folder):
        self.steps, self.given, self.folder = steps, given, folder
        self.dir = folder / "site"
        self.dir.mkdir()
        self.conf = {name: list(lines) for name, lines in K1.items()}
        self.set_before = set()
        self.numbers, self.counts = {}, {}
        self.calls, self.most = {}, None
        # How many flushes lines have spoken of, and how many lines of each news log.
        self.flushed, self.news = 0, {}
        # By their names; the relay has none.
        self.clients, self.programs = {}, {}
        self.started = []
        self.user, self.limit, self.threads, self.held, self.pipe = None, None, None, [], None
        # The standard streams that are closed, and whether standard output is a full pipe.
        self.closed, self.is_full = [], False
        # What is set for the library that makes faults, and what the program shares with it.
        self.faults, self.shared = {}, None
        if any(line.partition(" ")[0] in SHARES for _, line, _ in steps):
            self.shared = faults.Shared(folder / "shared")
            self.make_fault(ROWS_SHARED=str(self.shared.path))
        # How many lines that clients were sent had which code.
        self.codes = Counter()
        self.sending = {}
        # What its last line `-- ` said, and the last check.
        self.at, self.told = "", ""

    # What lines of the configuration and of files say.

    def port(self, name):
        """The number of a port, by its name."""
        if name not in self.numbers:
            if name == "taken":
                self.held.append(socket.create_server(("0.0.0.0", 0)))
                self.numbers[name] = self.held[-1].getsockname()[1]
            else:
                self.numbers[name] = ports.free()
        return self.numbers[name]

    def text(self, text):
        """The text with what stands for its short forms."""

        def meant(found):
            word, *words = found[1].split(" ")
            if '"' in found[1]:
                return found[0]
            if word.isdigit():
                return found[1].partition(" ")[2] * int(word)
            if word in TEXTS:
                return TEXTS[word](*words)
            if word == "dir":
                return str(self.dir)
            if word == "pipe":
                self.pipe = self.pipe or os.pipe()
                return str(self.pipe[0])
            if word == "right":
                return str(self.counts[words[1]]).rjust(int(words[0]))
            if word == "from":
                return f"{{>{self.counts[words[0]]}}}"
            if word == "now" or word[0] in "<>":
                return found[0]
            if re.fullmatch(r"[a-z]+\d*", word):
                return str(self.port(word))
            raise Wrong(f"there is no short form {found[0]}")

        return re.sub(r"\{([^{}*\n]+)\}", meant, text)

    def octets(self, text):
        return self.text(text).encode("latin-1")

    def configure(self, name, line):
        """A line of one of the files of the configuration."""
        if name == "relay.conf":
            def key(it):
                words = it.split(" ")
                return words[: 2 if words[0] in ("peer", "feed", "connections") else 1]

            at = [key(it) for it in self.conf[name]]
            # Lines that say who may connect, and where ports listen, add up.
            if key(line) in at and key(line) not in (["allow"], ["bind"]):
                self.conf[name][at.index(key(line))] = line
                return
        elif name not in self.set_before:
            self.set_before.add(name)
            self.conf[name] = []
        self.conf[name].append(line)

    def drop_lines(self, front):
        """The lines of relay.conf that begin with these words are left out."""
        lines = self.conf["relay.conf"]
        left = [it for it in lines if not f"{it} ".startswith(f"{front} ")]
        if left == lines:
            raise Wrong(f"relay.conf has no line {front}")
        self.conf["relay.conf"] = left

    def write_conf(self, anew=True):
        """Writes the files of the configuration, with ports that are free now, or with those that it
        has; those ports."""
        if anew:
            self.numbers = {name: it for name, it in self.numbers.items() if name == "taken"}
        self.set_before = set()
        for name, lines in self.conf.items():
            (self.dir / name).write_bytes(self.octets("\n".join(lines) + "\n"))
        named = re.findall(r"(?m)^peer \S+ \S+ (\d+)$", (self.dir / "relay.conf").read_text())
        return [int(it) for it in named if it != "0"]

    def on_file(self, word, rest):
        """Does what a line says of a file."""
        name, _, more = rest.partition(" ")
        path = self.dir / name
        if word == "file":
            path.write_bytes(self.octets(more))
        elif word == "folder":
            path.mkdir()
        elif word == "pipe":
            os.mkfifo(path)
        elif word == "link":
            os.link(path, self.dir / more)
        elif word == "symlink":
            os.symlink(name, self.dir / more)
        elif word == "mode":
            (self.dir / more).chmod(int(name, 8))
        elif word == "cut":
            os.truncate(path, int(more))
        elif word == "remove":
            path.unlink()
        elif word == "missing":
            self.see_soon(lambda: not os.path.lexists(path), lambda: f"{name} is there")
        elif word == "poke":
            at, _, octets = more.partition(" ")
            with open(path, "r+b") as file:
                file.seek(int(at))
                file.write(self.octets(octets))
        elif word == "news":
            self.read_news(path, more)
        elif word in ("names", "ages"):
            self.compare_lines(f"relay.{word}", rest)
        else:
            self.compare(path, more)

    def read_news(self, path, wanted):
        """The next line of a news log has to be this behind its moment, or there may be none."""
        at = self.news.get(path.name, 0)

        def more():
            lines = path.read_bytes().split(b"\n") if path.exists() else []
            return lines if len(lines) > at + 1 else None

        try:
            lines = waits_until(more, f"{path.name} has no line {at + 1}",
                                self.given.patience if wanted else 0.5)
        except Late:
            if wanted:
                raise
            return
        began = MOMENT.match(lines[at])
        if not began or lines[at][began.end() :] != self.octets(wanted):
            raise Wrong(f"{path.name} has {cut_to(lines[at])}, not {wanted}")
        self.news[path.name] = at + 1

    def compare_lines(self, name, lines):
        """The file has to hold these lines and nothing else, soon where the relay goes on."""
        path = self.dir / name
        wanted = "".join(f"{it}\n" for it in self.text(lines).split(", ")).encode("latin-1")

        def held():
            return path.read_bytes() if path.is_file() else b""

        self.see_soon(lambda: held() == wanted, lambda: f"{name} has {cut_to(held(), 600)}")

    def see_soon(self, is_so, what):
        """This has to be so, soon where the relay goes on."""

        def is_now():
            relay = self.programs.get("")
            goes_on = relay and relay.is_running()
            if (found := is_so()) or goes_on:
                return found
            raise Wrong(what())

        waits_until(is_now, what, self.given.patience)

    def compare(self, path, more):
        """A file has to hold these octets at this place, or as many, or to be so open to others."""
        at, _, octets = more.partition(" ")
        if at == "mode":
            mode = path.stat().st_mode & 0o777
            if mode != int(octets, 8):
                raise Wrong(f"{path.name} has the mode {mode:o}")
            return
        held = path.read_bytes()
        if octets == "end":
            if len(held) != int(at):
                raise Wrong(f"{path.name} has {len(held)} octets")
            return
        wanted = self.octets(octets)
        found = held[int(at) : int(at) + len(wanted)]
        if found != wanted:
            place = next((it for it, (this, that) in enumerate(zip(found, wanted)) if this != that),
                         min(len(found), len(wanted)))
            raise Wrong(f"{path.name} has {cut_to(found[place:], 40)} from {int(at) + place} on, "
                        f"not {cut_to(wanted[place:], 40)}")

    # What lines of programs say.

    def program(self):
        """The program, where nobody can run it."""
        if self.user is None:
            return PROGRAM
        copy = self.folder / "cnrelay"
        if not copy.exists():
            # By a process of its own: a file that is still open to be written in a child of another
            # thread's can't be run.
            subprocess.run(["cp", "-p", PROGRAM, copy], check=True)
            copy.chmod(0o755)
        self.folder.chmod(0o711)
        for it in (self.dir, *self.dir.rglob("*")):
            os.chown(it, self.user, self.user, follow_symlinks=False)
        return copy

    def make_fault(self, **how):
        """Programs meet this fault from here on."""
        self.faults |= faults.meeting(self.given.library, **how)

    def share(self, name, rest):
        """Sets something of the program."""
        word, _, more = rest.partition(" ")
        if name == "clock":
            self.shared.set(clock=int(rest) + 1)
        elif name == "later":
            self.shared.set(later=int(rest))
        elif name == "crowded":
            self.shared.set(crowded=rest != "no more")
        elif name == "pause":
            self.shared.pause(*rest.split())
        elif name == "stall":
            self.shared.stall(word, *more.split())
        elif name in ("stalled", "pauses"):
            self.see_come(name)
        elif name == "release":
            self.shared.release()
        elif name in ("fails", "refuses", "unlogged"):
            self.shared.set(**{name: int(rest)})
        elif name == "flushes":
            self.see_flushed([it[0] for it in rest.split()])
        elif name == "unflushed":
            self.see_unflushed(float(rest))
        else:
            takes = int(more) + 1 if more else 0
            self.shared.set(takes=takes, breaks=word == "break", octets=word == "octets",
                            hangs=word == "hang")

    def see_come(self, name):
        """A call that has to wait has come, or a thread that has to pause."""
        waits_until(lambda: self.shared.get(name),
                    f"nothing waits after {self.given.patience} seconds", self.given.patience, 0.001)

    def see_flushed(self, files):
        """These are the next files to be flushed, in this order, soon."""
        end = time.monotonic() + self.given.patience
        while len(found := self.shared.flushed(self.flushed)) < len(files):
            if time.monotonic() > end:
                break
            time.sleep(0.001)
        if not found.startswith("".join(files)):
            raise Wrong(f"flushed are {' '.join(found)}")
        self.flushed += len(files)

    def see_unflushed(self, seconds):
        """Nothing more is flushed for so many seconds."""
        time.sleep(seconds)
        if found := self.shared.flushed(self.flushed):
            raise Wrong(f"flushed are {' '.join(found)}")

    def see_tasks(self, count):
        """The relay has so many threads."""
        tasks = Path(f"/proc/{self.programs[''].process.pid}/task")
        waits_until(lambda: len(os.listdir(tasks)) == count,
                    lambda: f"it has {len(os.listdir(tasks))} threads", self.given.patience)

    def start(self, name, words):
        """Starts the program under this name."""
        if not (self.dir / "relay.conf").exists():
            self.write_conf()
        if words.startswith("stop "):
            self.most = None
        words = [self.program(), *self.text(words).split()]
        if self.limit:
            # A write beyond the limit fails, and brings no signal.
            limits = f'trap "" XFSZ; ulimit -f {self.limit}; exec "$0" "$@"'
            words = ["/bin/sh", "-c", limits, *words]
        if self.threads:
            words = ["/usr/bin/prlimit", f"--nproc={self.threads}", *words]
        if self.closed and not name:
            closes = " ".join(f"{it}>&-" for it in self.closed)
            words = ["/bin/sh", "-c", f'exec "$0" "$@" {closes}', *words]
        passed = [self.pipe[0]] if self.pipe else []
        is_full = self.is_full and not name
        self.started.append(Played(words, self.user, is_full, cwd=self.folder, pass_fds=passed,
                                   faults=self.faults))
        self.programs[name] = self.started[-1]
        return self.started[-1]

    def serves(self, words):
        own = self.write_conf()
        most = re.search(r"--sessions (\d+)", words)
        self.most, self.calls = int(most[1]) if most else None, dict.fromkeys(own, 0)
        relay = self.start("", f"serve {{dir}} {words}")

        def is_served():
            if ports.listening().issuperset(own) and ("serving" in " ".join(relay.told())
                                                      or "2" in self.closed):
                return True
            if not relay.is_running():
                self.see_taken(relay)
                raise Wrong(f"it ended with {relay.process.returncode}: {relay.told()}")
            return False

        waits_until(is_served, f"it doesn't listen after {self.given.patience} seconds",
                    self.given.patience)

    def may_have(self, word, count):
        """The relay may open so many files more, or write no file beyond so many octets."""
        pid = self.programs[""].process.pid
        kind = resource.RLIMIT_NOFILE if word == "files" else resource.RLIMIT_FSIZE
        most = resource.prlimit(pid, kind)[1]
        if count and word == "files":
            used = files_kept_open(pid)
            count = [it for it in range(len(used) + int(count) + 1) if it not in used][int(count)]
        resource.prlimit(pid, kind, (int(count) if count else most, most))

    def see_told(self, count, line):
        """The relay has told so many such lines of what happens, soon."""
        relay, line = self.programs[""], self.text(line)

        def found():
            return sum(is_line(it, line) for it in relay.told())

        waits_until(lambda: found() >= int(count), lambda: f"told {found()} times", self.given.patience)

    def see_rest(self, seconds):
        """In so many seconds the relay takes a fifth of one processor's time at most."""
        path = Path(f"/proc/{self.programs[''].process.pid}/stat")

        def taken():
            times = path.read_text().rpartition(")")[2].split()[11:13]
            return sum(map(int, times)) / os.sysconf("SC_CLK_TCK")

        before = taken()
        time.sleep(seconds)
        if (took := taken() - before) > seconds / 5:
            raise Wrong(f"it took {took:.2f} of {seconds} seconds")

    def pulse(self, seconds):
        """From here on the relay is stopped and goes on again and again, until it has ended."""
        process = self.programs[""].process

        def beat():
            while process.poll() is None:
                for sign, pause in ((signal.SIGSTOP, 0.02), (signal.SIGCONT, seconds)):
                    process.send_signal(sign)
                    time.sleep(pause)

        threading.Thread(target=beat, daemon=True).start()

    def see_taken(self, program):
        """Where the program says that a port of the row's own is taken, the row isn't wrong."""
        own = [it for name, it in self.numbers.items() if name != "taken"]
        for line in program.told():
            port = re.fullmatch(r"serve: (\d+): unusable", line)
            if port and int(port[1]) in own:
                raise Taken

    def give_rest(self):
        """Each port is given what it lacks of its connections."""
        for port, count in self.calls.items():
            for _ in range(count, self.most or 0):
                client = Client(self.connected(port), self.given.patience)
                client.expect(GREETING)
                client.ask(b"QUIT", b"205 Bye")
                client.closes()

    def ends(self, name, wanted):
        """The program of this name has to end so."""
        program = self.programs.get(name)
        if program is None:
            raise Wrong(f"no program {name} was started")
        if not name:
            self.give_rest()
        if not program.has_ended(self.given.patience):
            raise Wrong(f"it hasn't ended after {self.given.patience} seconds")
        out, err, events = ([self.text(it) for it in lines] if lines is not None else None
                            for lines in wanted[:3])
        most = [(int(count), self.text(line)) for count, line in wanted.most]
        told = program.told()
        happened = [it for it in told if EVENT.fullmatch(it)]
        came = Printed(program.told(program.out), [it for it in told if it not in happened],
                       happened, most, program.process.returncode)
        is_right = are_lines(came.out, out) and are_lines(came.err, err)
        is_told = all(any(is_line(it, event) for it in happened) for event in events)
        are_few = all(sum(is_line(it, line) for it in happened) <= count for count, line in most)
        if not (is_right and is_told and are_few and came.statuses in wanted.statuses):
            if 4 not in wanted.statuses:
                self.see_taken(program)
            raise Wrong(f"{came}, not {(out, err, events, most, wanted.statuses)}")

    def fault_of(self, files):
        """What `cnrelay check` says of these files where it doesn't take them, else nothing."""
        for name, octets in files.items():
            (self.dir / name).write_bytes(octets)
        program = self.start("(runs)", "check {dir}")
        if not program.has_ended(self.given.patience):
            raise Wrong(f"it hasn't ended after {self.given.patience} seconds")
        out, err = program.told(program.out), program.told()
        status = program.process.returncode
        is_told = re.fullmatch(r"\w+\.conf:\d+: \d+ \w+", "\n".join(err))
        is_unbegun = out[1:] == ["relay: nothing kept yet: a start begins"]
        is_taken = status == 0 and not err and is_unbegun
        if not is_taken and not (status == 2 and is_told and not out):
            raise Wrong(f"check ended with {status}: {out} {err}")
        self.told = out[0] if out else err[0]
        return err

    def checks(self, name, text, wanted):
        """A file of this text, beside others with as little as they may have, has so much, or this
        fault."""
        files = {"cycbuff.conf": "cycbuff:A:a.buf:4\nmetacycbuff:G:A\n", "storage.conf": "",
                 "relay.conf": "own a\n", name: text}
        fault = self.fault_of({it: each.encode("latin-1") for it, each in files.items()})
        if (self.told != f"{name}:{wanted}") if fault else (f" {wanted}" not in f" {self.told}"):
            raise Wrong(f"{name}: {self.told}, not {wanted}")

    # What lines of clients say.

    def connected(self, port, address="127.0.0.1", source=None):
        own = (source, 0) if source else None
        try:
            return socket.create_connection((address, port), self.given.patience, own)
        except OSError as error:
            raise Wrong(f"no connection: {error}") from None

    def call(self, name, where):
        """A client connects with a port, or with a socket of the folder."""
        if where.startswith("./"):
            connected = socket.socket(socket.AF_UNIX)
            connected.settimeout(self.given.patience)
            connected.connect(str(self.dir / where))
        else:
            where, _, source = where.partition(" from ")
            named, _, address = where.partition("@")
            port = self.port(named)
            connected = self.connected(port, address or "127.0.0.1", source)
            self.calls[port] = self.calls.get(port, 0) + 1
        if name in self.clients:
            self.clients[name].closes()
        self.clients[name] = Client(connected, self.given.patience)

    def miss(self, where):
        """Nothing listens at this port of 127.0.0.1, or, by PORT@ADDRESS, of another address."""
        named, _, address = where.partition("@")
        address = address or "127.0.0.1"
        try:
            socket.create_connection((address, self.port(named)), self.given.patience).close()
        except ConnectionRefusedError:
            return
        raise Wrong(f"something listens at {named} of {address}")

    def try_port(self, name, port, program):
        """A client connects with a port as soon as that listens, unless this program has ended."""
        while self.programs[program].process.poll() is None:
            try:
                connected = socket.create_connection(("127.0.0.1", self.port(port)))
            except OSError:
                continue
            self.clients[name] = Client(connected, self.given.patience)
            return
        self.clients[name] = Client(socket.socketpair()[0], self.given.patience)

    def on_client(self, name, word, rest):
        """Does what a line says of a client."""
        client = self.clients.get(name)
        if word == "calls":
            self.call(name, rest)
        elif word == "tries":
            self.try_port(name, *rest.split(" "))
        elif word == "misses":
            self.miss(rest)
        elif client is None:
            raise Wrong(f"no line has this form: {name} {word} {rest}")
        elif word in ("octets", "fills"):
            getattr(client, word)(self.octets(rest) + b"\r\n")
        elif word == "floods":
            client.floods(self.octets(rest))
        elif word == "<":
            octets = self.octets(rest)
            client.expect(octets if octets.endswith(b"\n") else octets + b"\r\n")
        elif word == "counts":
            self.codes.update(client.line()[:3].decode() for _ in range(int(rest or 1)))
        elif word == "gone":
            client.gone(*(float(it) for it in rest.split("-") if it))
        elif word == "silent":
            client.silent(float(rest))
        elif word == "streams":
            client.streams(*rest.split(" "))
        elif word == "streamed":
            self.counts[name] = client.streamed()
        elif word in ("sips", "drinks"):
            getattr(client, word)(int(rest))
        elif word in ("ended", "unheard", "closes", "shuts", "resets"):
            getattr(client, word)()
        else:
            raise Wrong(f"no line has this form: {name} {word} {rest}")

    def see_times(self, times, code):
        """So many of the counted lines had this code."""
        if self.codes[code] != int(times):
            raise Wrong(f"{self.codes[code]} times {code}: {dict(self.codes)}")

    def add(self, name, word, rest):
        """Adds to what a client sends in its next write."""
        octets = self.octets(rest)
        is_whole = word == ">>" or octets.endswith(b"\r\n") and rest.endswith("}")
        self.sending.setdefault(name, []).append(octets if is_whole else octets + b"\r\n")

    def send(self):
        """Sends what was added."""
        for name, parts in self.sending.items():
            if name not in self.clients:
                raise Wrong(f"{name} has not called")
            self.clients[name].send(b"".join(parts))
        self.sending = {}

    # The whole row.

    def do(self, line, wanted):
        """Does what a line says."""
        name, _, rest = line.partition(" ")
        word, _, more = rest.partition(" ")
        if name == "in":
            return self.do_in(float(word), more, wanted)
        if word in (">", ">>"):
            if name not in self.sending:
                self.send()
            return self.add(name, word, more)
        self.send()
        if not (name == "runs" or line == "ends" or word == "ends") and wanted != NOTHING:
            raise Wrong("what is printed stands below no end of a program")
        if name == "--":
            self.at = f" ({rest})"
        elif name.endswith(".conf"):
            self.configure(name, rest)
        elif name in FILES:
            self.on_file(name, rest)
        elif line == "K3":
            self.conf = {name: list(lines) for name, lines in K3.items()}
        elif name == "without":
            self.drop_lines(rest)
        elif line == "writes":
            self.write_conf()
        elif line == "rewrites":
            for port in self.write_conf(anew=False):
                self.calls.setdefault(port, 0)
        elif line == "nobody":
            self.user = NOBODY if os.geteuid() == 0 else None
        elif name == "threads" and os.geteuid() == 0:
            self.user, self.threads = ports.USERS.row()[0], int(rest)
        elif name == "limit":
            self.limit = int(rest)
        elif name == "closed":
            self.closed = rest.split()
        elif line == "full":
            self.is_full = True
        elif name == "takes":
            self.make_fault(ROWS_TAKES=rest)
        elif name == "unseeded":
            self.make_fault(REFUSE_RANDOM="1", GIVE_RANDOM=rest or "0")
        elif name == "late":
            self.make_fault(ROWS_LATE=rest)
        elif line == "unmoded":
            self.make_fault(REFUSE_MODES="1")
        elif line == "unlocked":
            self.make_fault(REFUSE_LOCKS="1")
        elif name == "rests":
            self.see_rest(float(rest))
        elif line == "narrow":
            self.make_fault(ROWS_NARROW="1")
        elif name == "tasks":
            self.see_tasks(int(rest))
        elif name == "tells":
            self.see_told(*rest.split(" ", 1))
        elif name == "pulses":
            self.pulse(float(rest))
        elif line == "flows":
            self.programs[""].flows()
        elif name in ("files", "octets"):
            self.may_have(name, rest)
        elif name in SHARES:
            self.share(name, rest)
        elif name == "times":
            self.see_times(*rest.split())
        elif name == "waits":
            time.sleep(float(rest))
        elif name == "serves":
            self.serves(rest)
        elif name == "runs":
            self.start("(runs)", rest)
            self.ends("(runs)", wanted)
        elif line == "ends":
            self.ends("", wanted)
        elif line == "kills":
            self.programs[""].process.kill()
            self.programs[""].has_ended(self.given.patience)
        elif name == "plays":
            PLAYS[rest](self)
        elif word == "starts":
            self.start(name, more)
        elif word == "ends":
            self.ends(name, wanted)
        elif word == "on":
            if self.programs[name].has_ended(float(more)):
                raise Wrong(f"{name} ended within {more} seconds")
        else:
            self.on_client(name, word, more)
        return None

    def do_in(self, seconds, line, wanted):
        """Does what a line says, within so many seconds."""
        begun = time.monotonic()
        self.do(line, wanted)
        if time.monotonic() - begun > seconds:
            raise Wrong(f"it took {time.monotonic() - begun:.1f} seconds")

    def play(self):
        """Plays it, and answers where it was when it went wrong, or None."""
        try:
            for number, line, wanted in self.steps:
                try:
                    self.do(line, wanted)
                except Taken:
                    raise
                except Exception as error:
                    told = error if isinstance(error, Wrong) else repr(error)
                    return f"line {number}{self.at}: {line[:80]}: {told}"
            self.send()
            return None
        finally:
            self.clear()

    def clear(self):
        """Stops what it has started."""
        for it in self.clients.values():
            it.closes()
        for it in self.started:
            it.stop()
        for it in self.held:
            it.close()
        for it in self.pipe or ():
            os.close(it)


def are_lines(found, wanted):
    """Whether the lines are these."""
    if wanted is None:
        return True
    return len(found) == len(wanted) and all(map(is_line, found, wanted))


def is_line(found, wanted):
    """Whether the line is this one, where `{*}` is a number with the spaces before it, `{>N}` one
    that is no less than N, and `{<N}` one that is less."""
    parts = re.split(r"(\{\*\}|\{[<>]\d+\})", wanted)
    pattern = "".join(r" *(\d+)" if at % 2 else re.escape(it) for at, it in enumerate(parts))
    match = re.fullmatch(pattern, found)
    return bool(match) and all(form == "{*}" or (int(it) < int(form[2:-1])) == (form[1] == "<")
                               for it, form in zip(match.groups(), parts[1::2]))
