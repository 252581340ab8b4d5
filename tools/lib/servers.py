"""The two servers that scripts drive: `cnrelay serve`, and innd with nnrpd of Debian's inn2; and the load.

Each has its files in a folder of its own, two buffers of one size in two groups, and listens on addresses of
127.0.0.0/8 alone as far as it can be told to. What is started here is stopped here, by its process id.
"""
import atexit
import functools
import os
import pwd
import re
import shutil
import subprocess
import sys
import tempfile
import time
from pathlib import Path

from lib.program import PROGRAM, ROOT
from lib.relay import Server, configure
from lib.trying import Wrong

INN = Path("/usr/lib/news/bin")
OWN = "relay.example"
PEERS = ("one", "two", "three", "four")
IDENTITIES = tuple(f"{name}.example" for name in PEERS)
SOURCES = tuple(f"127.0.0.{number}" for number in range(1, 5))
GROUPS = ("bench.a.x", "bench.b.x")
# Seconds that a server may take to end.
PATIENCE = 120
# Where programs of packages aren't to be started as they are installed.
POLICY = Path("/usr/sbin/policy-rc.d")


def write_buffers(folder, kilobytes, buffers, lines, path="{}.buf"):
    """A configuration of these lines of relay.conf, with so many buffers in each of the groups A and B."""
    names = [f"{group}{number}" for group in "AB" for number in range(buffers)]
    configure(folder, lines, [f"{name}:{path.format(name.lower())}:{kilobytes}" for name in names],
              [f"{group}:" + ",".join(name for name in names if name[0] == group) for group in "AB"],
              (("bench.a.*", "A"), ("bench.b.*", "B")))
    return names


def write_relay(folder, port, kilobytes=262_144, buffers=1, relay_lines=()):
    """A configuration with the four peers at `port` and the ports behind it, and the lines given; all its ports."""
    folder.mkdir()
    peers = [f"peer {name} {name}.example {port + number}" for number, name in enumerate(PEERS)]
    write_buffers(folder, kilobytes, buffers, [f"own {OWN}", *peers, *relay_lines])
    return [int(line.split()[3]) for line in (*peers, *relay_lines) if line.startswith("peer ")]


def served(folder, ports, *words, program=None, **settings):
    """`cnrelay serve` of a folder, once it listens at these ports."""
    return Server("cnrelay", [program or PROGRAM, "serve", folder, *words], ports, **settings)


def relay(folder, port, kilobytes=262_144, buffers=1, relay_lines=(), words=(), program=None, **settings):
    """`cnrelay serve` with such a configuration."""
    ports = write_relay(folder, port, kilobytes, buffers, relay_lines)
    return served(folder, ports, *words, program=program, **settings)


def needed(*packages):
    """Installs those of these packages that aren't there yet, and starts none of them."""
    def is_there(package):
        told = subprocess.run(["dpkg-query", "-W", "-f", "${Status}", package], capture_output=True, text=True, check=False)
        return told.stdout == "install ok installed"

    if not (lacking := [it for it in packages if not is_there(it)]):
        return
    print(f"installs {' '.join(lacking)}", file=sys.stderr, flush=True)
    if is_made := not POLICY.exists():
        POLICY.write_text("#!/bin/sh\nexit 101\n")
        POLICY.chmod(0o755)
    quiet = {"stdout": sys.stderr, "env": {**os.environ, "DEBIAN_FRONTEND": "noninteractive"}}
    subprocess.run(["apt-get", "update", "-qq"], check=True, **quiet)
    subprocess.run(["apt-get", "install", "-y", "-qq", "--no-install-recommends", *lacking], check=False, **quiet)
    # inn2 won't be set up on a machine whose name has no domain.
    conf = Path("/etc/news/inn.conf")
    if conf.is_file() and "\n#domain:" in (text := conf.read_text()):
        conf.write_text("".join("domain: example.invalid\n" if it.startswith("#domain:") else it
                                for it in text.splitlines(keepends=True)))
    subprocess.run(["dpkg", "--configure", "-a"], check=True, **quiet)
    if is_made:
        POLICY.unlink()


def ask(about, **defaults):
    """Options by their places, each with what it is where it isn't said."""
    for name, default in defaults.items():
        about.add_argument(name, nargs="?", type=type(default), default=default, metavar=name.upper(),
                           help=f"{default} without it")


def tell_machine():
    """Prints what machine this is, and the load that it has."""
    model = re.search(r"model name\s*: (.*)", Path("/proc/cpuinfo").read_text())
    inn = subprocess.run(["dpkg-query", "-W", "-f", "${Version}", "inn2"], capture_output=True, text=True, check=False)
    print(f"{time.strftime('%Y-%m-%d', time.gmtime())}, {model[1] if model else ''}, {os.cpu_count()} processors, "
          f"Linux {os.uname().release}, inn2 {inn.stdout}, load average {load_average()}", flush=True)


def load_average():
    return " ".join(Path("/proc/loadavg").read_text().split()[:3])


@functools.cache
def load():
    """The load generator of bench/load, compiled once."""
    folder = tempfile.mkdtemp(prefix="cnrelay-load-")
    atexit.register(shutil.rmtree, folder, True)
    subprocess.run(["rustc", "--edition", "2024", "-O", "-o", f"{folder}/load", ROOT / "bench/load/main.rs"], check=True)
    return f"{folder}/load"


def load_words(words, run, count, to, sources=None, groups=GROUPS, identities=IDENTITIES):
    """The command by which the load does this over these addresses, or over ports of 127.0.0.1."""
    to = [it if isinstance(it, str) else f"127.0.0.1:{it}" for it in to]
    return [load(), *words.split(), f"run={run}", f"count={count}", "to=" + ",".join(to),
            "from=" + ",".join(sources or ["127.0.0.1"] * len(to)), "identity=" + ",".join(identities),
            "group=" + ",".join(groups)]


def loaded(command, patience=600):
    """Runs the load: what it printed, by key."""
    ran = subprocess.run(command, capture_output=True, text=True, timeout=patience, check=False)
    if ran.returncode:
        raise Wrong(f"{' '.join(command[1:])}: {ran.stderr.strip()}")
    return {key: float(value) for key, _, value in (word.partition("=") for word in ran.stdout.split()) if value}


INN_CONF = """\
mta: "/usr/sbin/sendmail -oi -oem %s"
organization: "a bench"
pathhost: innd.example
domain: example.invalid
pathnews: /usr/lib/news
pathetc: {folder}
pathdb: {folder}/db
pathrun: {folder}/run
pathlog: {folder}/log
pathspool: {folder}/spool
patharticles: {folder}/spool/articles
pathoverview: {folder}/spool/overview
pathincoming: {folder}/spool/incoming
pathoutgoing: {folder}/spool/outgoing
patharchive: {folder}/spool/archive
pathtmp: {folder}/spool/incoming/tmp
pathfilter: {folder}/filter
pathhttp: {folder}/http
hismethod: hisv6
enableoverview: {overview}
ovmethod: tradindexed
port: {port}
bindaddress: 127.0.0.1
noreader: true
maxconnections: 50
doinnwatch: false
htmlstatus: false
nnrpdloadlimit: 0
"""


def news_user():
    """Settings that start a program as the user news."""
    news = pwd.getpwnam("news")
    return {"user": news.pw_uid, "group": news.pw_gid, "extra_groups": []}


class Inn:
    """A folder for innd: without filters and overview, its history made for `ids` message-ids."""

    def __init__(self, folder, port, kilobytes=262_144, buffers=1, ids=300_000, feed=""):
        self.folder, self.port = folder, port
        for name in ("db", "run", "log", "spool/overview", "spool/articles", "spool/incoming/tmp",
                     "spool/outgoing", "spool/archive", "filter", "http"):
            (folder / name).mkdir(parents=True)
        for name, overview in (("inn.conf", "false"), ("reader.conf", "true")):
            (folder / name).write_text(INN_CONF.format(folder=folder, port=port, overview=overview))
        for name in write_buffers(folder, kilobytes, buffers, [], f"{folder}/spool/{{}}"):
            with open(folder / "spool" / name.lower(), "wb") as buffer:
                buffer.truncate(kilobytes * 1024)
        peers = [f"peer {name}.example {{\n  hostname: {source}\n}}\n" for name, source in zip(PEERS, SOURCES)]
        (folder / "incoming.conf").write_text("streaming: true\nmax-connections: 8\n" + "".join(peers))
        (folder / "newsfeeds").write_text("ME:*::\n" + feed)
        groups = ("control", "control.cancel", "junk", *GROUPS)
        (folder / "db/active").write_text("".join(f"{group} 0000000000 0000000001 y\n" for group in groups))
        (folder / "readers.conf").write_text('auth a {\n  hosts: "*"\n  default: "<a>"\n}\n'
                                             'access a {\n  users: "*"\n  newsgroups: "*"\n}\n')
        for name in ("db/history", "db/newsgroups", "db/active.times", "spool/overview/group.index", "expire.ctl",
                     "control.ctl", "passwd.nntp", "moderators", "distrib.pats", "subscriptions"):
            (folder / name).touch()
        for path in (folder, *folder.rglob("*")):
            shutil.chown(path, "news", "news")
        self.run("makedbz", "-i", "-o", "-s", str(ids), cwd=folder / "db")

    def settings(self, conf="inn.conf"):
        return {"env": {**os.environ, "INNCONF": str(self.folder / conf)}, **news_user()}

    def run(self, name, *words, **settings):
        """Runs a program of inn2 to its end, and gives what it printed."""
        return subprocess.run([INN / name, *words], check=True, capture_output=True, text=True, timeout=PATIENCE,
                              **self.settings(), **settings).stdout

    def innd(self):
        with open(self.folder / "log/innd.out", "wb") as out:
            return Server("innd", [INN / "innd", "-f", "-N"], [self.port], stdout=out, stderr=out, **self.settings())

    def nnrpd(self, port):
        """nnrpd for itself, which serves ARTICLE; its overview is there and empty."""
        with open(self.folder / "log/nnrpd.out", "wb") as out:
            words = [INN / "nnrpd", "-D", "-f", "-b", "127.0.0.1", "-p", str(port)]
            return Server("nnrpd", words, [port], stdout=out, stderr=out, **self.settings("reader.conf"))

    def shut(self, server):
        """Ends innd as ctlinnd does, which writes out what it holds."""
        if server.is_running():
            subprocess.run([INN / "ctlinnd", "-t", "20", "shutdown", "done"], timeout=PATIENCE, capture_output=True,
                           **self.settings())
            try:
                server.process.wait(20)
            except subprocess.TimeoutExpired:
                server.stop()
