"""Makes the package of the program, unpacks it into an empty folder, and does what its units say.

What ExecStart, ExecStartPost, ExecReload and ExecStop say is run with the paths of that folder, as nobody where
root runs this: articles are stored and read, the relay is stopped and started again, and the puller
hands an article on to a second relay. Prints a line for each thing that was tried, and at the end
`N went right, M wrong, S skipped`: a part is skipped where the machine lacks what it takes
(lintian; systemd-sysusers and root; systemd-analyze). Ends with status 1 if any went wrong. Goes
over 127.0.0.1 alone, touches nothing outside its folder, and stops what it has started.
"""
import gzip
import hashlib
import os
import re
import shlex
import shutil
import signal
import subprocess
import sys
import tarfile
import threading
from pathlib import Path

from lib import ports, trying
from lib.nntp import called, dated
from lib.program import PROGRAM, ROOT
from lib.relay import NOBODY, Started
from lib.trying import Skipped, Wrong, check, waits_until

# Seconds that an answer may take, and that making the package may, or looking through it.
PATIENCE, MAKING = 60, 250
# How exposed a unit may be, of 10, as `systemd-analyze security` rates it.
EXPOSED = 3.0
IS_ROOT = os.geteuid() == 0
DOC = "usr/share/doc/cnrelay"
# What whoever installs it counts on.
NEEDED = (
    "usr/bin/cnrelay", "usr/bin/cnrelay-pull",
    "usr/lib/systemd/system/cnrelay.service", "usr/lib/systemd/system/cnrelay-pull.service",
    "usr/lib/systemd/system/cnrelay-pull@.service",
    "usr/lib/systemd/system/cnrelay-metrics.service",
    "usr/lib/systemd/system/cnrelay-metrics.timer",
    "usr/lib/sysusers.d/cnrelay.conf",
    "usr/share/man/man1/cnrelay.1.gz", "usr/share/man/man1/cnrelay-pull.1.gz",
    "usr/share/man/man5/cycbuff.conf.5.gz", "usr/share/man/man5/relay.conf.5.gz",
    "usr/share/man/man5/storage.conf.5.gz",
    f"{DOC}/copyright", f"{DOC}/changelog.gz", f"{DOC}/OPERATING.md",
    *(f"{DOC}/examples/{site}/{name}.conf" for site in ("one-buffer", "sequential", "small-site")
      for name in ("cycbuff", "storage", "relay")),
    f"{DOC}/examples/service/entry.sh", f"{DOC}/examples/monitoring/cnrelay.json",
)


def run(*words, **settings):
    """Runs a command to its end, which has to be in order; what it printed."""
    settings.setdefault("timeout", PATIENCE)
    done = subprocess.run([str(it) for it in words], stdin=subprocess.DEVNULL, capture_output=True,
                          text=True, **settings)
    if done.returncode:
        said = (done.stderr + done.stdout)[-500:]
        raise Wrong(f"{words[0]} ended with {done.returncode}: {said}")
    return done.stdout


# ---- the package


class Made:
    """The package and the archive, in a folder."""

    def __init__(self, into):
        words = [ROOT / "tools/package", "--program", PROGRAM, into]
        lines = run(*words, timeout=MAKING).splitlines()
        check(len(lines), 2, "lines that tools/package prints")
        self.package, self.archive = map(Path, lines)


def twice(room, made):
    """Made a second time each has the same octets."""
    again = Made(room / "again")
    for one, other in ((made.package, again.package), (made.archive, again.archive)):
        check(other.read_bytes() == one.read_bytes(), True, f"{one.name} is the same")


def version(_, made):
    """The program, CHANGELOG.md and the package say one version, and the files are named so."""
    told = subprocess.run([PROGRAM, "--version"], capture_output=True, text=True, timeout=PATIENCE)
    it = re.fullmatch(r"cnrelay (\S+)\n", told.stdout)
    if not it or told.returncode:
        raise Wrong(f"--version: {told.stdout + told.stderr!r}")
    check(run("dpkg-deb", "-f", made.package, "Package", "Version", "Architecture"),
          f"Package: cnrelay\nVersion: {it[1]}\nArchitecture: amd64\n", "the package")
    check(made.package.name, f"cnrelay_{it[1]}_amd64.deb", "its name")
    check(made.archive.name, f"cnrelay-{it[1]}-linux-amd64.tar.gz", "the archive's name")
    newest = re.search(r"^## (.*)", (ROOT / "CHANGELOG.md").read_text(), re.M)[1]
    check(newest.split(",")[0], it[1], "the newest release of CHANGELOG.md")
    notes = gzip.decompress((made.root / DOC / "changelog.gz").read_bytes()).decode()
    check(notes.partition("\n")[0], f"cnrelay ({it[1]}) unstable; urgency=medium", "the first line")


def members(file, top):
    """What an archive has: each name with its mode, owner and octets."""
    found = {}
    with tarfile.open(fileobj=file, mode="r|*") as archive:
        for it in archive:
            name = os.path.relpath(it.name, top)
            octets = archive.extractfile(it).read() if it.isfile() else it.type
            found[name] = (it.mode & 0o7777, it.uid, it.gid, it.mtime, octets)
    return found


def same_tree(_, made):
    """The archive has the files of the package, all of root, and each that is needed is there."""
    words = ["dpkg-deb", "--fsys-tarfile", made.package]
    with subprocess.Popen(words, stdout=subprocess.PIPE) as it:
        packed = members(it.stdout, ".")
    with open(made.archive, "rb") as file:
        archived = members(file, made.archive.name.removesuffix(".tar.gz"))
    check(sorted(archived), sorted(packed), "names")
    for name, entry in packed.items():
        check(archived[name] == entry, True, f"{name} is the same in both")
        check(entry[1:3], (0, 0), f"the owner of {name}")
        is_run = entry[4] == tarfile.DIRTYPE or name.startswith("usr/bin/") or name.endswith(".sh")
        check(oct(entry[0]), oct(0o755 if is_run else 0o644), f"the mode of {name}")
    missing = [it for it in NEEDED if it not in packed]
    check(missing, [], "what is missing")
    check(packed["usr/bin/cnrelay"][4] == PROGRAM.read_bytes(), True, "it is the given program")


def manuals(_, made):
    """Each program has its page, and mandoc, where it is there, finds no fault in any."""
    there = {it.name: it for it in (made.root / "usr/share/man").rglob("*.gz")}
    wanted = {f"{it.name}.gz": it for it in (ROOT / "man").iterdir()}
    check(sorted(there), sorted(wanted), "pages")
    for it in (made.root / "usr/bin").iterdir():
        check(f"{it.name}.1.gz" in there, True, f"the page of {it.name}")
    for name, page in wanted.items():
        check(gzip.decompress(there[name].read_bytes()) == page.read_bytes(), True, f"{name} is it")
        if shutil.which("mandoc"):
            run("mandoc", "-Tlint", "-Wwarning", page)


def sums(_, made):
    """The sums in the package are those of its files."""
    told = run("dpkg-deb", "-I", made.package, "md5sums").splitlines()
    found = {name: digest for digest, name in (it.split("  ") for it in told)}
    files = [it for it in made.root.rglob("*") if it.is_file()]
    check(found, {str(it.relative_to(made.root)): hashlib.md5(it.read_bytes()).hexdigest()
                  for it in files}, "sums")


def linted(_, made):
    """lintian finds no error in it."""
    if not shutil.which("lintian"):
        raise Skipped("there is no lintian")
    run("lintian", "--allow-root", "--fail-on", "error,warning", made.package, timeout=MAKING)


def installed(room, made):
    """dpkg installs it in an empty folder, with its user, and takes it away again."""
    if not IS_ROOT or not shutil.which("systemd-sysusers"):
        raise Skipped("it takes root and systemd-sysusers")
    system = room / "system"
    for name in ("var/lib/dpkg/info", "var/lib/dpkg/updates", "etc", "var/lib/cnrelay"):
        (system / name).mkdir(parents=True)
    (system / "var/lib/dpkg/status").touch()
    kept = system / "var/lib/cnrelay/relay.conf"
    kept.write_text("own a.example\n")
    dpkg = ["dpkg", f"--root={system}", "--force-depends", "--force-script-chrootless",
            f"--log={room}/log"]
    run(*dpkg, "-i", made.package)
    check([it for it in NEEDED if not (system / it).is_file()], [], "what isn't installed")
    users = [it.split(":") for it in (system / "etc/passwd").read_text().splitlines()]
    check([it[5] for it in users if it[0] == "cnrelay"], ["/var/lib/cnrelay"], "the user's folder")
    run(*dpkg, "-r", "cnrelay")
    check([it for it in NEEDED if (system / it).exists()], [], "what is left")
    check(kept.exists(), True, "what the relay has is left")


def hardened(_, made):
    """systemd-analyze knows each line of a unit, and rates each service as little exposed."""
    if not shutil.which("systemd-analyze"):
        raise Skipped("there is no systemd-analyze")
    rated = []
    for unit in sorted((made.root / "usr/lib/systemd/system").iterdir()):
        told = subprocess.run(["systemd-analyze", "verify", "--man=no", unit], capture_output=True,
                              text=True, timeout=PATIENCE)
        lines = (told.stdout + told.stderr).splitlines()
        # The programs of the package aren't installed here, and other units aren't its matter.
        odd = [it for it in lines if "cnrelay" in it and "not executable: No such file" not in it]
        check(odd, [], f"what systemd-analyze says of {unit.name}")
        if unit.suffix != ".service":
            continue
        told = run("systemd-analyze", "security", "--offline=yes", "--no-pager",
                   f"--threshold={10 * EXPOSED:.0f}", unit)
        rating = re.search(r"Overall exposure level for .*: ([0-9.]+)", told)
        rated.append(f"{unit.name} {rating[1]}")
    return f"{hardened.__doc__} {', '.join(rated)}; at most {EXPOSED}"


# ---- the service


class Unit:
    """A unit of the package, whose commands are run in the folder where that was unpacked. Of a
    template `instance` is the name, and `environment` what the file says that it reads."""

    def __init__(self, root, name, instance="", environment=()):
        self.root, self.values, self.environment = root, {}, dict(environment)
        for line in (root / "usr/lib/systemd/system" / name).read_text().splitlines():
            key, is_value, value = line.partition("=")
            if is_value and not line.startswith("#"):
                self.values.setdefault(key, []).append(value.replace("%i", instance))
        self.settings = {"umask": int(self.one("UMask", "0022"), 8),
                         "cwd": "/", "stdin": subprocess.DEVNULL}
        if IS_ROOT:
            self.settings |= {"user": NOBODY, "group": NOBODY, "extra_groups": []}
        # The folder of its state, made as the unit says.
        self.state = root / "var/lib" / self.one("StateDirectory")
        self.state.mkdir(parents=True)
        self.state.chmod(int(self.one("StateDirectoryMode", "0755"), 8))
        if IS_ROOT:
            shutil.chown(self.state, NOBODY, NOBODY)

    def one(self, key, without=None):
        found = self.values.get(key, [without])
        if len(found) != 1 or found[0] is None:
            raise Wrong(f"the unit has {len(found)} lines {key}=")
        return found[0]

    def words(self, key, ports=()):
        """The words of a command, its paths those of the folder, its ports those that are free."""
        line = self.one(key)
        if "%" in line:
            raise Wrong(f"{key} has more in it than this program reads: {line}")
        for old, new in ports:
            line = line.replace(f"127.0.0.1:{old}", f"127.0.0.1:{new}")
        line = re.sub(r"(?<![\w./-])/(?=(?:usr|var|etc|opt)/)", f"{self.root}/", line)
        return [it for word in shlex.split(line) for it in self.expanded(word)]

    def expanded(self, word):
        """A word as systemd has it: `$NAME` alone is as many words as are in its value."""
        if re.fullmatch(r"\$\w+", word):
            return self.environment.get(word[1:], "").split()
        return [re.sub(r"\$\{(\w+)\}", lambda it: self.environment.get(it[1], ""), word)]

    def starts(self, ports=()):
        """Runs ExecStart."""
        return Service(self.words("ExecStart", ports), self.settings)

    def does(self, key, service):
        """Runs another command of the unit to its end."""
        environment = {"PATH": "/usr/local/bin:/usr/bin:/bin", "MAINPID": str(service.process.pid)}
        done = subprocess.run(self.words(key), **self.settings, env=environment, timeout=PATIENCE,
                              stdout=subprocess.PIPE, stderr=subprocess.STDOUT, text=True)
        if done.returncode:
            raise Wrong(f"{key} ended with {done.returncode}: {done.stdout[-300:]}{service.said()}")


class Service(Started):
    """What runs by ExecStart."""

    def __init__(self, words, settings):
        super().__init__(words, stderr=subprocess.STDOUT, env={"PATH": "/usr/local/bin:/usr/bin:/bin"}, **settings)
        # It is let go of as soon as it has ended, as systemd does, so that `kill -0` says so.
        threading.Thread(target=self.process.wait, daemon=True).start()

    def said(self):
        return "\n".join(self.told(self.out))

    def ends(self):
        """It has to end, in order."""
        if not self.has_ended(PATIENCE):
            raise Wrong(f"{self.process.args[0]} goes on")
        status = self.process.returncode
        check(status, 0, f"{self.said()[-500:]}\nthe status of {self.process.args[0]}")


def article(one):
    return dated(f"<{one}@x>", b"a line\r\n..\r\n", "comp.lang.c", "news.upstream.example!not-for-mail")


def stores(port, one):
    """A peer offers an article and hands it in, and is answered that it is kept; its text."""
    text = article(one)
    peer = called(port, PATIENCE)
    peer.send(b"CHECK <%s@x>\r\n" % one.encode())
    peer.expect(b"238 <%s@x>\r\n" % one.encode())
    peer.send(b"TAKETHIS <%s@x>\r\n%s.\r\nQUIT\r\n" % (one.encode(), text))
    peer.expect(b"239 <%s@x>\r\n205 Bye\r\n" % one.encode())
    peer.ended()
    return text


def reads(port, one, text):
    """A peer reads it as it is kept."""
    peer = called(port, PATIENCE)
    peer.send(b"ARTICLE <%s@x>\r\nQUIT\r\n" % one.encode())
    kept = text.replace(b"Path: ", b"Path: news.site.example!!", 1)
    peer.expect(b"220 0 <%s@x>\r\n%s.\r\n205 Bye\r\n" % (one.encode(), kept))
    peer.ended()


def configures(state, example, ports):
    """The three files of an example, with other ports: `peer NAME IDENTITY PORT` by their names."""
    for file in example.glob("*.conf"):
        text = file.read_text()
        for name, port in ports.items():
            text, count = re.subn(rf"^(peer {name} \S+) \d+$", rf"\1 {port}", text, flags=re.M)
            if file.name == "relay.conf":
                check(count, 1, f"lines of the peer {name}")
        (state / file.name).write_text(text)


def served(_, made):
    """By its unit it serves, is reloaded, stops, goes on with what it had, and stops again."""
    unit = Unit(made.root, "cnrelay.service")
    users = (made.root / "usr/lib/sysusers.d/cnrelay.conf").read_text().splitlines()
    check([it.split()[1] for it in users if it.startswith("u ")], [unit.one("User")], "the users")
    own = {it: ports.free() for it in ("upstream", "neighbour", "archive")}
    configures(unit.state, made.root / DOC / "examples/small-site", own)
    texts = {}
    for one in ("first", "second"):
        service = unit.starts()
        unit.does("ExecStartPost", service)
        texts[one] = stores(own["upstream"], one)
        unit.does("ExecReload", service)
        for name, text in texts.items():
            reads(own["neighbour"], name, text)
        unit.does("ExecStop", service)
        service.ends()
        report = service.said()
        kept = re.findall(r"^ids +0 +0 +(\d+) +0$", report, re.M)
        check(kept, [str(len(texts))] * 2, f"the ids that are stored, of {report!r}")


def not_ready(_, made):
    """Where it can't serve its unit isn't ready."""
    unit = Unit(made.root, "cnrelay.service")
    service = unit.starts()
    try:
        unit.does("ExecStartPost", service)
    except Wrong:
        check(service.process.wait(PATIENCE), 2, "the status without a configuration")
        return
    raise Wrong("ExecStartPost ended in order where nothing was served")


def pulled(room, made):
    """By each of its units the puller hands an article on, until it is told to end."""
    unit = Unit(made.root, "cnrelay.service")
    examples = made.root / DOC / "examples"
    own = {it: ports.free() for it in ("upstream", "neighbour", "archive")}
    configures(unit.state, examples / "small-site", own)
    second, port = room / "root/var/lib/second", ports.free()
    second.mkdir()
    configures(second, examples / "one-buffer", {"p1": port})
    if IS_ROOT:
        shutil.chown(second, NOBODY, NOBODY)
    other = Service([made.root / "usr/bin/cnrelay", "serve", second], unit.settings)
    service = unit.starts()
    unit.does("ExecStartPost", service)
    environment = {"FROM": f"127.0.0.1:{own['archive']}", "TO": f"127.0.0.1:{port}",
                   "OPTIONS": "--take 10 --tell 1"}
    pullers = {"first": Unit(made.root, "cnrelay-pull.service"),
               "second": Unit(made.root, "cnrelay-pull@.service", "elsewhere", environment)}
    file = pullers["second"].one("EnvironmentFile")
    check(file, "/etc/cnrelay/pull-elsewhere.conf", "what it reads")
    for one, puller in pullers.items():
        stores(own["upstream"], one)
        pull = puller.starts(ports=(("11903", own["archive"]), ("119", port)))
        hands_on(pull, puller.state / "journal", other)
        # It has the only connection that the second relay takes.
        pull.process.send_signal(signal.SIGTERM)
        pull.ends()
        peer = called(port, PATIENCE)
        peer.send(b"STAT <%s@x>\r\n" % one.encode())
        peer.expect(b"223 0 <%s@x>\r\n" % one.encode())
        peer.closes()
    run(made.root / "usr/bin/cnrelay", "stop", second)
    other.ends()
    unit.does("ExecStop", service)
    service.ends()


def hands_on(pull, journal, other):
    """The puller notes that it has handed on the last that it took."""
    def is_noted():
        if not pull.is_running():
            raise Wrong(what())
        return journal.exists() and re.search(r"^done \d+ 239$", journal.read_text(), re.M)

    def what():
        return f"the puller sent nothing: {pull.said()}{other.said()}"

    waits_until(is_noted, what, PATIENCE, 0.05)


TRIED = (twice, same_tree, version, manuals, sums, linted, installed, hardened, served, not_ready,
         pulled)


def unpacked(one, room, made):
    """Tries one with the package unpacked anew."""
    made.root = room / one.__name__ / "root"
    made.root.parent.mkdir()
    made.root.mkdir(mode=0o755)
    run("dpkg-deb", "-x", made.package, made.root)
    return one(made.root.parent, made)


def end_all():
    """Ends what was started."""
    for it in Service.running:
        it.kill()
    Service.running.clear()


def main(_):
    with trying.room("package") as room:
        try:
            made = Made(room / "made")
        except (Wrong, OSError, subprocess.SubprocessError) as error:
            sys.exit(f"WRONG the package isn't made: {error}")
        return trying.total([trying.tried(one, room, made, by=unpacked, behind=end_all)
                             for one in TRIED], True)
