"""Tries wrong bodies that no contract has to refuse: rows have to come out otherwise.

The edits are the files crates/NAME/wrong-rows/*.edit of a program NAME that plays rows, and the
files tools/rows/wrong/*.edit for those of `tools/check rows`; those are the edits of `rows`. Each
has lines `file: PATH`, below crates/, and pairs of lines `old: TEXT` and `new: TEXT`; each old text
stands once in its file. An edit of `rows` has lines `rows: NAME` besides, each with the front of a
row's name; for one of a program its whole file stdin is played.

Where a new text has the word WRONG, that stands for a switch: the text has to be right where the
switch is off, and wrong where it is on. As many of these edits as can stand side by side are built
into one program, and it is run once for each of them with its switch on. An edit without the word is
built into a program of its own. All are built in a copy of the repository by `rt try`, which proves
nothing, and run by root as nobody, as the gate runs programs, since root may write what rows say
can't be written.

A program that plays rows has to print its file stdout, without an edit or with all switches off; so
have the rows of `tools/check rows` that edits name to go right. One that doesn't is `NOT TRIED`. An edit is
refused where its program ends and prints something else, or doesn't end in the time that is given;
one of `rows` where one of its rows goes wrong; where that took all of the time, the rows have to go
right with its switch off. Rows that come out the same are played twenty times, since what threads do
differs.

It prints a line for each edit that is not refused, `NOT REFUSED NAME/FILE: WHY`, and at the end
`N refused, M not`; the status is 1 where there is such an edit or such a program. With --edit NAME,
which may be given more than once, the edits of these names alone are tried, and one that isn't there
is not refused either. With --switched those alone are tried that have a switch, by --every N each
Nth of them, and then of the rows of `rows` the first edit's alone are played with all switches off,
since the gate has just played all.
"""

import errno
import os
import re
import shutil
import subprocess
import sys
import tempfile
import time
from concurrent.futures import ThreadPoolExecutor
from dataclasses import dataclass, field
from pathlib import Path

from lib.relay import NOBODY

TAKES_PROGRAM = False
EDITS = "wrong-rows"
# The edits of the rows of `tools/check rows`, below the repository, their name, and their program.
SERVED, ROWS, PROGRAM = "tools/rows/wrong", "rows", "cnrelay"
REFUSED, SAME = "refused", "the rows come out the same"
TOO_SLOW = "NOT TRIED: in the time that is given its rows go wrong without it too"
# The last line of `rt try`: `ended` for a program that came to its end, `none` for one that doesn't
# compile, another word for one that was stopped.
RAN = re.compile(r"(?m)^run=(\w+)")
# How often an edit's rows are played, where they come out the same: what threads do differs.
PLAYS = 20

# The switches of a program: a table that stands in it, of which all are off; the number is had of an
# atomic, since the compiler would look up a number that it knows. One that is on is 1 there.
MARK, SWITCHES = b"SWITCHES-OF-ROWS", 240
SWITCH = r"""//! Switches.
use std::sync::atomic::{AtomicUsize, Ordering};

static TABLE: [u8; %d] = *b"%s%s";

/// Whether this one is on.
pub(crate) fn is_on(number: usize) -> bool {
    let at = AtomicUsize::new(number);
    TABLE[(at.load(Ordering::SeqCst) + %d) %% %d] == 1
}
""" % (len(MARK) + SWITCHES, MARK.decode(), r"\0" * SWITCHES, len(MARK), len(MARK) + SWITCHES)
# What stands in front of a crate's first item.
HEAD = re.compile(r"\A(//!.*\n|#!\[.*\n|\n)*")
# What a program begins with, so that it leaves a copy of itself behind, where there is none yet: a
# copy with a switch on leaves none.
MAIN = re.compile(r"(?m)^fn main\(rt: HostRuntime\).*\{\n")
LEAVES = """    if std::fs::metadata(&rt, "{path}").is_err() {{
        if let Ok(mut words) = std::env::args(&rt) {{
            if let Some(own) = words.next() {{
                let _size = std::fs::copy(&rt, own.as_str(), "{path}");
            }}
        }}
    }}
"""


@dataclass
class Edit:
    """An edit: where it lies, its pairs of a source's path with an old and a new text, its rows."""

    path: Path
    pairs: list = field(default_factory=list)
    rows: list = field(default_factory=list)

    @property
    def program(self):
        return ROWS if self.path.parent.name == "wrong" else self.path.parent.parent.name

    @property
    def is_switched(self):
        return any("WRONG" in new for _, _, new in self.pairs)


def read(path):
    """The edit in this file."""
    edit, file, old = Edit(path), "", ""
    for line in path.read_text(encoding="utf-8").split("\n"):
        word, _, rest = line.partition(": ")
        if word == "file":
            file = rest.strip()
        elif word == "rows":
            edit.rows.append(rest)
        elif word == "old":
            old = rest
        elif word == "new":
            edit.pairs.append((file, old, rest))
    return edit


def edited(crates, texts, edit, switch=None):
    """The texts of the sources with an edit, by path, over these, or a sentence that says why not."""
    texts = dict(texts)
    for file, old, new in edit.pairs:
        text = texts.get(file) or (crates / file).read_text(encoding="utf-8")
        if text.count(old) != 1:
            return f"STALE: an old text stands {text.count(old)} times in {file}"
        if switch is not None:
            new = re.sub(r"\bWRONG\b", f"crate::switches::is_on({switch})", new)
        texts[file] = text.replace(old, new)
    return texts if edit.pairs else "BROKEN: it has no old and new text"


class Build:
    """A program with one edit, or with as many as can stand side by side, each behind a switch."""

    def __init__(self, name):
        self.name, self.edits, self.texts, self.program, self.fault = name, [], {}, None, ""

    def takes(self, crates, edit):
        """Whether the edit can stand beside the others; then it does."""
        texts = edited(crates, self.texts, edit, len(self.edits) if edit.is_switched else None)
        if isinstance(texts, str) or len(self.edits) == SWITCHES:
            return False
        self.texts, self.edits = texts, [*self.edits, edit]
        return True

    def build(self, root, room, seconds):
        """Builds it in a copy of the repository, and says what is wrong with that, if anything is."""
        copy = room / "tree"
        copied(root, copy)
        crates = copy / "crates"
        texts = dict(self.texts)
        for crate in {it.split("/")[0] for it in texts if any(e.is_switched for e in self.edits)}:
            texts[f"{crate}/src/switches.rt"] = SWITCH
            for top in ("lib.rt", "main.rt"):
                file = f"{crate}/src/{top}"
                if (crates / file).is_file():
                    text = texts.get(file) or (crates / file).read_text(encoding="utf-8")
                    texts[file] = HEAD.sub(lambda it: it[0] + "mod switches;\n", text, count=1)
        folder = PROGRAM if self.name == ROWS else self.name
        self.program = room / folder
        main = f"{folder}/src/main.rt"
        text = texts.get(main) or (crates / main).read_text(encoding="utf-8")
        texts[main] = MAIN.sub(lambda it: it[0] + LEAVES.format(path=self.program), text, count=1)
        for file, text in texts.items():
            (crates / file).write_text(text, encoding="utf-8")
        (room / "empty").mkdir()
        given_to_nobody(room)
        words = ["--", "--version"] if self.name == ROWS else []
        ran = subprocess.run(["rt", "try", "--seconds", str(seconds), *words], cwd=crates / folder,
                             stdin=subprocess.DEVNULL, stdout=subprocess.PIPE, stderr=subprocess.PIPE,
                             check=False, **as_nobody(room))
        told = ran.stderr.decode(errors="replace")
        ended = RAN.search(told)
        if not self.program.is_file():
            why = next((it for it in told.split("\n") if "error" in it), ended and ended[0] or "")
            return f"BROKEN: it doesn't compile: {why}"
        self.program.chmod(0o755)
        shutil.rmtree(copy)
        return ""

    def switched(self, room, number):
        """The program with the switch of this number on, or with all off for None."""
        if number is None or not self.edits[number].is_switched:
            return self.program
        octets, at = bytearray(self.program.read_bytes()), 0
        while (at := octets.find(MARK, at)) >= 0:
            at += len(MARK)
            octets[at + number] = 1
        path = room / f"{self.program.name}-{number}"
        path.write_bytes(octets)
        path.chmod(0o755)
        return path

    def play(self, root, room, number, seconds, count=None):
        """What comes of the rows with the edit of this number, or, of so many edits, with none."""
        for _ in range(1 if number is None else PLAYS):
            came = self.play_once(root, room, number, seconds, count)
            if came != SAME:
                break
        return came

    def play_once(self, root, room, number, seconds, count):
        program = self.switched(room, number)
        try:
            if self.name != ROWS:
                return play(root / "crates" / self.name, program, room, seconds)
            edits = self.edits[:count] if number is None else [self.edits[number]]
            rows, began = {row for it in edits for row in it.rows}, time.monotonic()
            came = play_served(root, program, rows, seconds, number is None)
            if came == REFUSED and number is not None and time.monotonic() - began >= seconds:
                # What took so long may be a busy machine: then the rows go wrong without it too.
                if self.edits[number].is_switched:
                    without = play_served(root, self.program, rows, seconds, True)
                    came = REFUSED if without == SAME else TOO_SLOW
            return came
        finally:
            if program != self.program:
                program.unlink()


def copied(root, copy):
    """Copies the repository."""
    shutil.copytree(root, copy, symlinks=True, ignore=shutil.ignore_patterns(".git", "out"))


def given_to_nobody(room):
    """Root gives a folder to nobody, who runs the programs."""
    if os.geteuid() == 0:
        room.parent.chmod(0o711)
        for at, _, files in os.walk(room):
            for it in [at, *(os.path.join(at, name) for name in files)]:
                os.chown(it, NOBODY, NOBODY, follow_symlinks=False)


def as_nobody(home):
    """How root starts a command as nobody; others start it as it is."""
    if os.geteuid():
        return {}
    return {"user": NOBODY, "group": NOBODY, "extra_groups": [],
            "env": {**os.environ, "HOME": str(home)}}


def ran_once_written(program, **settings):
    """Runs a program that was just written. A child that another lane has just begun may have it open
    still, for as long as it takes to begin its own program."""
    for _ in range(100):
        try:
            return subprocess.run([program], **settings)
        except OSError as error:
            if error.errno != errno.ETXTBSY:
                raise
            time.sleep(0.05)
    return subprocess.run([program], **settings)


def play(folder, program, room, seconds):
    """What comes of the rows of a program: SAME where they are as they have to be."""
    given, wanted = ((folder / it).read_bytes() for it in ("stdin", "stdout"))
    try:
        ran = ran_once_written(program, cwd=room / "empty", input=given, stdout=subprocess.PIPE,
                               stderr=subprocess.DEVNULL, timeout=seconds, check=False,
                               **as_nobody(room))
    except subprocess.TimeoutExpired:
        return REFUSED
    return SAME if ran.stdout == wanted and ran.returncode == 0 else REFUSED


def play_served(root, program, rows, seconds, is_told):
    """What comes of these rows of `tools/check rows`, and on standard error what went wrong."""
    played = subprocess.run([sys.executable, root / "tools/check", "rows", "--program", program,
                             "--patience", str(seconds), *sorted(rows)],
                            stdout=subprocess.PIPE, check=False)
    told = played.stdout.decode(errors="replace")
    if is_told:
        print(*re.findall(r"(?m)^WRONG .*\n.*", told), sep="\n", end="", file=sys.stderr, flush=True)
    if not re.search(r"(?m)^\d+ rows went right", told) or told.startswith("0 rows went right, 0"):
        return "BROKEN: it names no row"
    return SAME if played.returncode == 0 else REFUSED


def builds_of(root, edits):
    """The programs that have to be built, and what is wrong with edits that are in none."""
    builds, wrong = [], {}
    for edit in edits:
        crates = root / "crates"
        alone = Build(edit.program)
        if not alone.takes(crates, edit):
            wrong[edit.path] = edited(crates, {}, edit)
        elif not (edit.is_switched and any(it.takes(crates, edit) for it in builds
                                           if it.name == edit.program and it.edits[0].is_switched)):
            builds.append(alone)
    return builds, wrong


def options(about):
    about.add_argument("--lanes", type=int, default=1, help="how many are tried at a time")
    about.add_argument("--seconds", type=int, default=120, help="the time that the rows have")
    about.add_argument("--edit", action="append", metavar="NAME", help="an edit, without `.edit`")
    about.add_argument("--switched", action="store_true", help="edits with a switch alone")
    about.add_argument("--every", type=int, default=1, metavar="N", help="each Nth of them alone")
    about.add_argument("names", nargs="*", metavar="NAME", help="a program; all, where none is named")


def main(given):
    root = Path.cwd()
    if not (root / "crates.txt").is_file():
        given.error("run it at the top of the repository, where crates.txt lies")
    places = {it.parent.name: it for it in (root / "crates").glob(f"*/{EDITS}")}
    if (root / SERVED).is_dir():
        places[ROWS] = root / SERVED
    names = given.names or sorted(places)
    for it in names:
        if it not in places:
            given.error(f"{it} has no edits")
    edits = [read(it) for name in names if name in places for it in sorted(places[name].glob("*.edit"))]
    if given.edit:
        edits = [it for it in edits if it.path.stem in given.edit]
    if given.switched or given.every > 1:
        edits = [it for it in edits if it.is_switched][:: given.every]
    if not edits and not given.edit:
        sys.exit("wrong-rows: there is no edit to be tried")
    builds, came = builds_of(root, edits)

    def tell(edit, what):
        came[edit.path] = what
        print(f"{edit.path.name}: {what}", file=sys.stderr, flush=True)

    def in_turn(build, room):
        build.fault = build.build(root, room, given.seconds)
        if not build.fault and build.edits[0].is_switched:
            what = build.play(root, room, None, given.seconds, None if given.every == 1 else 1)
            build.fault = "" if what == SAME else "NOT TRIED"
        return build, room

    with tempfile.TemporaryDirectory(prefix="wrong-rows-") as folder:
        rooms = [Path(folder) / str(it) for it in range(len(builds))]
        for it in rooms:
            it.mkdir()
        plain = {it.name for it in builds if not it.edits[0].is_switched}
        plain -= {it.name for it in builds if it.edits[0].is_switched}
        checks = [Build(name) for name in sorted(plain - {ROWS})]
        for it in checks:
            rooms.append(Path(folder) / f"plain-{it.name}")
            rooms[-1].mkdir()
        bad = set()
        with ThreadPoolExecutor(given.lanes) as pool:
            for it, fault in zip(checks, pool.map(
                    lambda it: it[0].build(root, it[1], given.seconds)
                    or it[0].play(root, it[1], None, given.seconds), zip(checks, rooms[len(builds):]))):
                if fault != SAME:
                    bad.add(it.name)
            ready = list(pool.map(lambda it: in_turn(*it), zip(builds, rooms)))
            for build, _ in ready:
                if build.fault == "NOT TRIED":
                    bad.add(build.name)
                elif build.fault:
                    for edit in build.edits:
                        tell(edit, build.fault)
            tried = [(build, room, number) for build, room in ready
                     if not build.fault and build.name not in bad for number in range(len(build.edits))]
            list(pool.map(lambda it: tell(it[0].edits[it[2]],
                                          it[0].play(root, it[1], it[2], given.seconds)), tried))
    for name in sorted(bad):
        print(f"NOT TRIED {name}: without an edit the rows come out otherwise, or not at all")
    left = [(f"{edit.program}/{edit.path.name}", came[edit.path]) for edit in edits
            if came.get(edit.path, REFUSED) != REFUSED]
    missing = sorted({*(given.edit or ())} - {it.path.stem for it in edits})
    for name, what in [*left, *((f"{it}.edit", "there is no such edit") for it in missing)]:
        print(f"NOT REFUSED {name}: {what}")
    refused = sum(it == REFUSED for it in came.values())
    print(f"{refused} refused, {len(left) + len(missing)} not")
    return 1 if left or missing or bad else 0
