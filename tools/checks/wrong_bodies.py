"""Tries wrong bodies: edits of a crate that `rt check` of this crate has to refuse.

The edits are the files crates/NAME/wrong-bodies/*.edit, or those of another folder of the crate.
Each has lines `file: PATH`, `old: TEXT` and `new: TEXT`; each old text stands once in its file.

Many edits are tried in one check, at most one a function. There an edit counts as refused only
where the line of its own function says that the prover refused that function. Where the line only
blames a callee, the edit is tried again in a later check. What no line decides is tried alone, and
counts as refused where the crate is not proved with it. The crates above are not asked.

All happens in a copy of the repository, with what earlier checks left in out/: run it after `rt ci`
or `rt all check`, else the copy's first checks prove everything from nothing.

tools/wrong_bodies.tried has a line `CRATE FUNCTION TEXT EDITS` for each function all of whose edits
were refused when they were last tried. TEXT is a digest of the toolchain's logic, of these edits,
and of what the check of the function reads (tools/lib/reading.py): itself, its own proof, and what these
name, but no body of another function. The edits of no one body, as of a constant, have one line for each
crate, `CRATE - TEXT EDITS`. There, and where another function refused an edit, the digest is of the
whole crate, and of all but bodies and proofs of functions of those below. What a line still vouches
for is counted, and not tried again but with --again. Only the edits of wrong-bodies/ are recorded.
"""

import fcntl
import os
import re
import shutil
import subprocess
import sys
import tempfile
import threading
import time
from collections import Counter
from concurrent.futures import ThreadPoolExecutor
from dataclasses import dataclass
from pathlib import Path

from lib import reading

TAKES_PROGRAM = False
# Where the texts of a crate lie.
PARTS = ("src/", "specs/", "proofs/")
# Where its edits lie that are recorded, and the record.
EDITS, RECORD = "wrong-bodies", "tools/wrong_bodies.tried"
# A function that runs: the body of a `const fn` can be part of other functions' constants.
FUNCTION = re.compile(r"(\s*)(?:pub(?:\([^)]*\))?\s+)?(?:unsafe\s+)?fn\s+(\w+)")
OWNER = re.compile(r"impl\s+(?:([\w:]+)\s+for\s+)?([\w:]+)")
ERROR = re.compile(r"(?:\./)?(\w+/\S+?):(\d+):\d+: error(\[[^]]*\])?: (`[^`]*`: )?(.*)")
UNREAD = re.compile(r"not in scope|has no field|is no name|operand is missing|expected the end")
LOST_NAME = re.compile(r"has no field|is not in scope|has no `|was not admitted")
REACHED = re.compile(r"(?m)^logic=not-proved")

# What comes of an edit in one check: this, the same but not by the line of its own function, a
# sentence that says why it is not refused, or a wait.
REFUSED, ELSEWHERE, LATER, ALONE = "refused", "refused elsewhere", "later", "alone"
# What the record calls the edits that change no one body, or that another function refuses.
NO_FUNCTION = "-"


class Unfit(Exception):
    """An edit cannot be applied; says why."""


@dataclass(frozen=True)
class Function:
    """A function: its file, the type and trait of its impl (both empty outside one), its name."""

    file: str
    type: str
    trait: str
    name: str

    def __str__(self):
        owner = f"<{self.type} as {self.trait}>" if self.trait else self.type
        path = self.file.removeprefix("src/").removesuffix(".rt")
        return "::".join(it for it in (path, owner.replace(" ", "_"), self.name) if it)

    def answer(self, crate, said):
        """The path of this function and what a check said of it, where just one line is its own."""
        steps = Path(self.file).with_suffix("").parts[1:]
        steps = steps[:-1] if steps[-1] in ("lib", "main", "mod") else steps
        path = "::".join([crate, *steps])
        if self.type:
            # a method is told in the module of its type
            path = rf"{crate}(?:::\w+)*::{self.type}" + (self.trait and rf"{self.trait}\w*")
        found = re.findall(rf"(?m)^fn ({path}::{self.name}): (.*)$", said)
        return found[0] if len(found) == 1 else ("", "")


def function_at(file, text, row):
    """The function in whose body this row of a source file stands."""
    rows = text.split("\n")
    if not file.startswith("src/") or row >= len(rows):
        return None
    top = next((it for it in range(row, -1, -1) if FUNCTION.match(rows[it])), None)
    if top is None:
        return None
    indent, name = FUNCTION.match(rows[top]).groups()
    opens = (indent + "{", indent + ")")
    body = next((it for it in range(top, row) if rows[it].endswith("{")
                 and (it == top or rows[it].startswith(opens))), row)
    end = next((it for it in range(top, len(rows)) if rows[it] == indent + "}"), -1)
    if not body < row < end:
        return None
    if not indent:
        return Function(file, "", "", name)
    head = next((it for it in rows[top::-1] if re.match(r"\S+.*\{$", it)), "")
    while re.search(r"<[^<>]*>", head):
        head = re.sub(r"<[^<>]*>", "", head)
    owner = OWNER.match(head)
    if not owner:
        return None
    trait, kind = ((it or "").split("::")[-1] for it in owner.groups())
    return Function(file, kind, trait, name)


def put(texts, folder, pairs):
    """Applies pairs of an old and a new text to these texts, by path, or else to the folder's.

    Returns the functions that the pairs change; None among them is a place outside of bodies."""
    found = set()
    for file, old, new in pairs:
        if not file.startswith(PARTS) or ".." in file:
            raise Unfit(f"BROKEN: it names no file of src/, specs/ or proofs/, but `{file}`")
        if not (folder / file).is_file():
            raise Unfit(f"STALE: there is no file {file}")
        text = texts.get(file) or (folder / file).read_text(encoding="utf-8")
        count = text.count(old) if old else 0
        if count != 1:
            raise Unfit(f"STALE: its old text stands {count} times in {file}")
        found.add(function_at(file, text, text[: text.find(old)].count("\n")))
        texts[file] = text.replace(old, new)
    return found


class Edit:
    """An edit, read from its file."""

    def __init__(self, path, folder):
        self.name, self.pairs, self.function, self.fault = path.name, [], None, ""
        self.text = path.read_text(encoding="utf-8")
        file = old = ""
        for line in self.text.split("\n"):
            if line.startswith("file: "):
                file = line[len("file: "):].strip()
            elif line.startswith("old: "):
                old = line[len("old: "):]
            elif line.startswith("new:"):
                self.pairs.append((file, old, line[len("new:"):].removeprefix(" ")))
        try:
            found = put({}, folder, self.pairs)
        except Unfit as fault:
            self.fault = str(fault)
        else:
            self.function = found.pop() if len(found) == 1 else None
            self.fault = "" if self.pairs else "BROKEN: it has no old and new text"


def is_unread(error):
    """Whether this error says that a text could not be read or typed, so that nothing was tried."""
    file, _, kind, declaration, wrong = error.groups()
    spoken = re.sub(r"`[^`]*`", "", wrong)
    return not file.startswith("proofs/") and bool(
        kind or not declaration or UNREAD.search(spoken))


def are_lost_names(errors):
    """Whether there are errors, all of proofs that name what is no longer there."""
    return bool(errors) and all(
        it[1].startswith("proofs/") and LOST_NAME.search(it[5]) for it in errors)


class Copy:
    """A copy of the repository in which the edits of one crate are tried."""

    def __init__(self, root, crate, below, room):
        self.crate, self.checks, self.usual = crate, 0, frozenset()
        shutil.copytree(root, room / "tree", symlinks=True,
                        ignore=shutil.ignore_patterns(".git", "out"))
        for name, part in [(crate, "out"), *((it, "out/rlib") for it in below)]:
            if (root / "crates" / name / part).is_dir():
                shutil.copytree(root / "crates" / name / part, room / "tree/crates" / name / part)
        self.folder, self.kept = room / "tree/crates" / crate, room / "kept"

    def check(self, texts):
        """Checks the crate with these texts in place of its own, over the kept state."""
        if self.kept.exists():
            shutil.rmtree(self.folder)
            shutil.copytree(self.kept, self.folder, symlinks=True)
        for file, text in texts.items():
            (self.folder / file).write_text(text, encoding="utf-8")
        self.checks += 1
        ran = subprocess.run(["rt", "check", "--jobs", "1"], cwd=self.folder, errors="replace",
                             stdin=subprocess.DEVNULL, stdout=subprocess.PIPE,
                             stderr=subprocess.STDOUT, check=False)
        return ran.returncode, ran.stdout

    def keep(self):
        """Checks the crate as it is, and keeps its state where it is proved."""
        status, said = self.check({})
        self.usual = frozenset(said.split("\n"))
        if status == 0:
            shutil.copytree(self.folder, self.kept, symlinks=True)
        return status == 0

    def faults(self, said):
        """The errors in a check's answer that it does not give of the crate as it is."""
        lines = [it for it in said.split("\n") if it not in self.usual]
        return [it for it in map(ERROR.match, lines) if it]

    def alone(self, edit):
        """What comes of an edit in a check of its own."""
        texts = {}
        put(texts, self.kept, edit.pairs)
        status, said = self.check(texts)
        errors, lines = self.faults(said), said.rstrip().split("\n")
        if status == 0:
            return "PROVED: the crate is still proved with it"
        unread = next((it for it in errors if is_unread(it)), None)
        if unread or status != 1 or not REACHED.search(said):
            return f"BROKEN: it does not reach the prover: {unread[0] if unread else lines[-1]}"
        if are_lost_names(errors) and "it is not proved that" not in said:
            return f"BROKEN: only a proof that names what it took away fails: {errors[0][0]}"
        line = edit.function.answer(self.crate, said)[1] if edit.function else ""
        return REFUSED if "not prove" in line else ELSEWHERE

    def together(self, edits):
        """What comes of edits of different functions in one check."""
        texts, tried, came = {}, [], {}
        for edit in edits:
            try:
                mine = dict(texts)
                put(mine, self.kept, edit.pairs)
            except Unfit:
                came[edit] = LATER
            else:
                texts, tried = mine, [*tried, edit]
        status, said = self.check(texts)
        errors = self.faults(said)
        unread = {function_at(it[1], texts[it[1]], int(it[2]) - 1)
                  for it in errors if it[1] in texts and is_unread(it)}
        reaches = status == 1 and REACHED.search(said)
        for edit in tried:
            if edit.function in unread or not reaches and not unread:
                came[edit] = ALONE
            else:
                came[edit] = self.of_line(edit.function, said, errors) if reaches else LATER
        return came

    def of_line(self, function, said, errors):
        """What comes of an edit by the line of its function."""
        path, line = function.answer(self.crate, said)
        if line.startswith("no proof: it calls"):
            return LATER
        if "` did not prove `" in line:
            return REFUSED
        proofs = "/".join(["proofs", *path.split("::")[1:]])
        own = [it for it in errors if Path(it[1]).parent == Path(proofs)]
        return REFUSED if line == "not proved" and own and not are_lost_names(own) else ALONE

    def try_all(self, edits, keep):
        """What comes of each edit in the end; `keep` is told of what is decided meanwhile."""
        if not self.keep():
            return {it: "the crate is not proved without it" for it in edits}
        came = {it: it.fault for it in edits if it.fault}
        alone = [it for it in edits if not it.fault and not it.function]
        waiting = [it for it in edits if not it.fault and it.function]
        while waiting:
            batch = {it.function: it for it in reversed(waiting)}
            answers = self.together(list(batch.values()))
            if set(answers.values()) == {LATER}:
                alone, waiting = alone + waiting, []
            came.update({it: REFUSED for it, what in answers.items() if what == REFUSED})
            alone += [it for it, what in answers.items() if what == ALONE]
            waiting = [it for it in waiting if answers.get(it, LATER) == LATER]
            self.tell(came, edits)
            keep(came)
        for edit in alone:
            came[edit] = self.alone(edit)
            self.tell(came, edits)
            keep(came)
        return came

    def tell(self, came, edits):
        """Says on standard error how many of this crate's edits are decided."""
        print(f"{self.crate}: {len(came)} of {len(edits)} decided in {self.checks} checks",
              file=sys.stderr, flush=True)


def crates_of(root):
    """Each crate of crates.txt with all of the repository's crates that it stands on."""
    named = {}
    for line in (root / "crates.txt").read_text(encoding="utf-8").split("\n"):
        name, colon, uses = line.partition("#")[0].partition(":")
        if colon:
            named[name.split()[0]] = uses.split()
    below = {}
    for name in named:
        found, left = [], list(named[name])
        while left:
            step = left.pop()
            if step in named and step not in found:
                found, left = [*found, step], left + named[step]
        below[name] = found
    return below


@dataclass(frozen=True)
class Tried:
    """A trial of a function in which all its edits were refused: of which text, how many."""

    text: str
    edits: int


class Trials:
    """The edits of a crate by the functions that they change, and what the record says of these."""

    def __init__(self, texts, logic, crate, below, edits):
        self.texts, self.crate, self.crates = texts, crate, {crate, *below}
        self.logic, self.of, self.all, self.known = logic, {}, "", {}
        for it in edits:
            if not it.fault:
                self.of.setdefault(it.function, []).append(it)

    def names(self):
        """What the record calls the functions."""
        return {str(it or NO_FUNCTION) for it in self.of}

    def tried(self, function, is_whole):
        """A trial of the edits of a function over today's text: over what the check of the function
        reads, or over the whole crate."""
        if (function, is_whole) not in self.known:
            self.known[function, is_whole] = Tried(self.digest(function, is_whole),
                                                   len(self.of[function]))
        return self.known[function, is_whole]

    def digest(self, function, is_whole):
        """The digest of such a trial."""
        edits = self.of[function]
        said = [self.logic, *(f"{it.name}\n{it.text}" for it in edits)]
        whole = [] if is_whole else self.texts.functions(
            self.crate, function.file, function.type, function.trait, function.name)
        if not whole:
            self.all = self.all or reading.digest(*self.texts.all(self.crates, self.crate))
            return reading.digest(*said, self.all)
        words = reading.words_of("\n".join(new for it in edits for _, _, new in it.pairs))
        return reading.digest(*said, *self.texts.read(self.crates, whole, words))

    def held(self, record):
        """The edits that the record vouches for."""
        found = []
        for function, them in self.of.items():
            line = record.get((self.crate, str(function or NO_FUNCTION)))
            if line and any(line == self.tried(function, is_whole)
                            for is_whole in ([False, True] if function else [True])):
                found += them
        return found

    def lines(self, came):
        """The record's lines of the functions whose edits are decided, or None for some that isn't
        refused."""
        found = {}
        for function, them in self.of.items():
            answers = {came.get(it, LATER) for it in them}
            if LATER not in answers:
                is_whole = function is None or ELSEWHERE in answers
                found[str(function or NO_FUNCTION)] = (
                    self.tried(function, is_whole) if answers <= {REFUSED, ELSEWHERE} else None)
        return found


def read_record(root):
    """What the record says was tried, by crate and function."""
    path = root / RECORD
    said = path.read_text(encoding="utf-8") if path.is_file() else ""
    return {(crate, function): Tried(text, int(edits)) for crate, function, text, edits
            in re.findall(r"(?m)^(\w+) (\S+) ([0-9a-f]{12}) (\d+)$", said)}


def put_record(root, crate, lines, functions):
    """Writes these lines of a crate into the record, or takes out those that are None, and those of
    functions that the crate's edits no longer have.

    Other lanes and other runs that write at the same time wait, so that no line is lost."""
    lock = os.open(root, os.O_RDONLY)
    try:
        fcntl.flock(lock, fcntl.LOCK_EX)
        found = read_record(root)
        new = {**found, **{(crate, it): tried for it, tried in lines.items()}}
        new = {(name, it): tried for (name, it), tried in sorted(new.items())
               if tried and (name != crate or it in functions)}
        if new != found:
            path, beside = root / RECORD, root / f"{RECORD}.new"
            path.parent.mkdir(exist_ok=True)
            beside.write_text("".join(f"{name} {it} {tried.text} {tried.edits}\n"
                                      for (name, it), tried in new.items()), encoding="utf-8")
            beside.replace(path)
    finally:
        os.close(lock)


def logic_of(version):
    """The sum of the logic by which a toolchain of this version checks: two kits with one sum hold
    the same statements for the same."""
    found = re.search(r"\blogic ([0-9a-f]+)", version)
    return found[1] if found else version.strip()


def options(about):
    about.add_argument("--folder", default=EDITS, help="where edits lie in a crate")
    about.add_argument("--again", action="store_true", help="try whatever the record says")
    about.add_argument("--count", action="store_true", help="only say what the record vouches for")
    about.add_argument("--lanes", type=int, default=1, help="how many crates are tried at a time")
    about.add_argument("names", nargs="*", metavar="NAME", help="a crate; all, where none is named")


def main(given):
    root = Path.cwd()
    if not (root / "crates.txt").is_file():
        given.error("run it at the top of the repository, where crates.txt lies")
    crates = crates_of(root)
    unknown = [it for it in given.names if it not in crates]
    if unknown:
        given.error(f"crates.txt has no crate {unknown[0]}")
    printing, counts, records = threading.Lock(), Counter(), given.folder == EDITS
    record = read_record(root) if records and not given.again else {}
    texts = reading.Texts(root, crates)
    logic = logic_of(subprocess.run(["rt", "version"], stdout=subprocess.PIPE, text=True,
                                    check=True).stdout)

    def try_crate(name):
        folder, began = root / "crates" / name, time.monotonic()
        edits = [Edit(it, folder) for it in sorted((folder / given.folder).glob("*.edit"))]
        trials = Trials(texts, logic, name, crates[name], edits)
        held = trials.held(record)
        with printing:
            counts.update(refused=len(held), recorded=len(held))
            if given.count and edits:
                print(f"{name}: {len(held)} of {len(edits)} wrong bodies by the record", flush=True)
                counts.update({"not": len(edits) - len(held)})
        left = [it for it in edits if it not in held]
        if not left or given.count:
            return
        with tempfile.TemporaryDirectory(prefix="wrong-bodies-") as room:
            copy = Copy(root, name, crates[name], Path(room))
            # What is recorded is of the copy, whatever becomes of the crate meanwhile.
            of_copy = reading.Texts(Path(room) / "tree", [name, *crates[name]])
            tried = Trials(of_copy, logic, name, crates[name], edits)

            def keep(came):
                if records:
                    put_record(root, name, tried.lines(came), tried.names())

            came = copy.try_all(left, keep)
        took = round(time.monotonic() - began)
        with printing:
            print(f"{name}: {len(left)} wrong bodies in {copy.checks} checks, {took} s")
            counts["seconds"] += took
            for edit, what in came.items():
                is_refused = what in (REFUSED, ELSEWHERE)
                counts["refused" if is_refused else "not"] += 1
                if not is_refused:
                    print(f"NOT REFUSED {name}/{edit.name}: {what}")
            sys.stdout.flush()

    with ThreadPoolExecutor(given.lanes) as pool:
        list(pool.map(try_crate, given.names or crates))
    if not counts["refused"] and not counts["not"]:
        sys.exit(f"wrong-bodies: there is no edit in {given.folder}/")
    print(f"{counts['recorded']} refused by the record, {counts['seconds']} s in all")
    print(f"{counts['refused']} refused, {counts['not']} not")
    return 1 if counts["not"] else 0
