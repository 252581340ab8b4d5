"""What the check of a function reads, found by names in the texts of the repository's crates.

The texts of a crate are cut into pieces: a function without its body, a type with what is stated of
it, the head of an `impl`, a constant, a definition or a lemma with its clauses, an import. Comments
and the layout are left out. A function reads itself with its body, the answers of its own proof, and
each piece that is named in what it reads: the contracts of what it calls, the definitions and types
that these cite, the lemmas that its proof names. A name is looked for where it stands, in the same
file and by that file's imports; a method in the types that are read. What only has the same name is
read besides; a body is read with its own function alone.
"""

import hashlib
import re
from dataclasses import dataclass, field

WORD = re.compile(r"\w[\w'-]*\w|\w")
FN = re.compile(r"(?:pub(?:\([^)]*\))? )?(const )?(?:unsafe )?(?:extern \"C\" )?fn (\w+)")
ITEM = re.compile(r"(?:pub(?:\([^)]*\))? )?(?:ghost )?(struct|enum|union|type|const|static|trait) (\w+)")
OWNER = re.compile(r"impl\s+(?:([\w:]+)\s+for\s+)?&?(?:mut\s+)?([\w:]+)")
IMPORT = re.compile(r"(?:pub(?:\([^)]*\))? )?(?:ghost )?use (.*?);?\s*$", re.DOTALL)
CONSTANT = re.compile(r"(?:pub(?:\([^)]*\))? )?(?:const|static) ")
# What changes nothing: the modules' names, and the tactics that are tried without a word too.
SAID_ANYWAY = re.compile(r"(?:pub(?:\([^)]*\))? )?mod \w+;|#!\[tactic\(auto\)\]")
# How a definition begins; what begins otherwise is a clause of the one above it.
KEYWORDS = ("abbrev", "pub", "unfoldable", "record", "data", "rule")
DECLARES = re.compile(r"(?:(?:%s)\s|\S+\s+:(?:\s|$))" % "|".join(KEYWORDS))
CONSTRUCTOR = re.compile(r"(?m)^\s+(?:pub\s+)?([\w'-]+)\s*:")
# The files of a function's own proof; the others of proofs/ are lemmas.
OWN = ("Answers.antt", "Invariants.antt", "Proof.antt")


@dataclass(eq=False)
class Piece:
    """A piece of a text: its file, its names, and where it is read only with another name, that."""

    file: str
    names: tuple
    text: str
    owner: str = ""
    trait: str = ""
    is_import: bool = False
    # Of a function: its text with its body, and its name.
    whole: str = ""
    function: str = ""
    # Of an import: the steps of its path.
    path: tuple = ()
    # What it names, once that was asked for.
    named: list = field(default=None, repr=False)

    @property
    def crate(self):
        return self.file.split("/")[0]


def words_of(text):
    """The words of a text; one with a hyphen counts whole and in its parts."""
    found = set(WORD.findall(text))
    return frozenset(found.union(*(re.findall(r"\w+", it) for it in found)))


def plain(text, mark):
    """The lines of a text without those that are comments alone, or empty."""
    return [it for it in text.split("\n") if it.strip() and not it.lstrip().startswith(mark)]


def joined(lines):
    """The lines as one text, however they are indented."""
    return "\n".join(it.strip() for it in lines)


def chunks(lines, indent):
    """The items whose lines begin at this indent, each with its attributes."""
    found, is_attribute = [], False
    for it in lines:
        rest = it[len(indent):] if it.startswith(indent) else " "
        begins = rest[0] not in " \t})]{>" and not re.match(r"where\b", rest)
        if begins and not is_attribute:
            found.append([])
        if begins:
            is_attribute = rest.startswith("#[") and rest.endswith("]")
        if not found:
            found.append([])
        found[-1].append(it)
    return found


def opened(lines, indent, first):
    """The place of the line behind which the body of an item begins."""
    for at in range(first, len(lines)):
        it = lines[at]
        if it.endswith("{") and (at == first or it.startswith((indent + "{", indent + ")"))):
            return at
    return None


def function(file, lines, indent, first, owner="", trait=""):
    """The piece of a function; the body of a `const fn` is part of it."""
    const, name = FN.match(lines[first].strip()).groups()
    body = opened(lines, indent, first)
    front = lines if body is None or const else lines[: body + 1]
    return Piece(file, (name,), joined(front), owner, trait, whole=joined(lines), function=name)


def split_top(text):
    """The parts of a text between its commas that stand in no brackets."""
    parts, depth = [""], 0
    for it in text:
        depth += (it == "{") - (it == "}")
        if it == "," and depth == 0:
            parts.append("")
        else:
            parts[-1] += it
    return [it.strip() for it in parts if it.strip()]


def imported(path):
    """The names that an import gives, each with its path."""
    front, brace, rest = path.partition("{")
    if brace:
        return [it for part in split_top(rest.rstrip()[:-1]) for it in imported(front + part)]
    path, _, alias = (it.strip() for it in path.partition(" as "))
    steps = [it for it in re.split(r"::|\.", path) if it and it != "self"]
    return [(alias or (steps[-1] if steps else ""), path)]


def imports(file, text):
    """The pieces of an import: one for each name."""
    match = IMPORT.match(text)
    crate, found = file.split("/")[0], []
    for name, path in imported(" ".join(match[1].split())):
        steps = [it for it in re.split(r"::|\.", path) if it and it != "self"]
        steps = steps[1:] if steps and steps[0] == "Rattle" else steps
        steps = [crate, *steps[1:]] if steps and steps[0] in ("crate", "super") else steps
        found.append(Piece(file, (name,), f"use {path} as {name}", is_import=True,
                           path=tuple(steps)))
    return found


def of_impl(file, lines):
    """The pieces of an `impl` or a `trait`: its head, and its functions."""
    first = next(at for at, it in enumerate(lines) if not it.startswith("#"))
    head = lines[first]
    while re.search(r"<[^<>]*>", head):
        head = re.sub(r"<[^<>]*>", "", head)
    item = ITEM.match(head)
    found = item or OWNER.match(head)
    trait, owner = ("", item[2]) if item else (
        (it or "").split("::")[-1] for it in found.groups()) if found else ("", "")
    at = opened(lines, "", first)
    if at is None:
        return [Piece(file, (owner,), joined(lines))]
    rest, pieces = [], []
    for chunk in chunks(lines[at + 1 : -1], "    "):
        start = next((n for n, it in enumerate(chunk) if not it.strip().startswith("#[")), 0)
        stripped = chunk[start].strip()
        if FN.match(stripped):
            pieces.append(function(file, chunk, "    ", start, owner, trait))
        elif IMPORT.match(joined(chunk)):
            pieces += imports(file, joined(chunk))
        else:
            rest += chunk
    return [Piece(file, (owner,), joined([*lines[: at + 1], *rest]), trait=trait), *pieces]


def of_code(file, text):
    """The pieces of a source file."""
    pieces = []
    for chunk in chunks(plain(text, "//"), ""):
        start = next((n for n, it in enumerate(chunk) if not it.startswith("#[")), 0)
        line, said = chunk[start], joined(chunk)
        item = ITEM.match(line)
        if SAID_ANYWAY.match(line):
            continue
        if IMPORT.match(said):
            pieces += imports(file, said)
        elif FN.match(line):
            pieces.append(function(file, chunk, "", start))
        elif re.match(r"(?:unsafe )?impl\b", line) or item and item[1] == "trait":
            pieces += of_impl(file, chunk)
        else:
            pieces.append(Piece(file, (item[2],) if item else (), said))
    return pieces


def of_definitions(file, text):
    """The pieces of a file of definitions or lemmas."""
    pieces, declared = [], []
    for chunk in chunks(plain(text, "--"), ""):
        line = chunk[0]
        if re.match(r"(?:pub )?use ", line):
            pieces += imports(file, joined(chunk))
        elif re.match(r"(?:pub )?mod ", line):
            continue
        elif DECLARES.match(line) or not declared:
            declared.append(chunk)
        else:
            declared[-1] += chunk
    for chunk in declared:
        steps = chunk[0].split()
        is_data = "data" in steps[:3]
        name = next((it for it in steps if it not in KEYWORDS), "")
        names = [name.rstrip(":")] + (CONSTRUCTOR.findall("\n".join(chunk[1:])) if is_data else [])
        named = all(re.fullmatch(r"[\w'-]+", it) for it in names)
        pieces.append(Piece(file, tuple(names) if named else (), joined(chunk)))
    return pieces


def stem(file):
    """The name of a file without its folder and its ending."""
    return file.rsplit("/", 1)[-1].partition(".")[0]


class Texts:
    """The pieces of a repository's crates, and what each names."""

    def __init__(self, root, crates):
        self.pieces, self.own = [], {}
        for crate in crates:
            for part, cut in (("src", of_code), ("specs", of_definitions),
                              ("proofs", of_definitions)):
                for path in sorted((root / "crates" / crate / part).rglob("*")):
                    if path.is_file():
                        self.take(path.relative_to(root / "crates"), cut,
                                  path.read_text(encoding="utf-8"))
        self.crates = set(crates)
        # By file and name, by crate and name, and by type: what belongs to it besides.
        self.imports, self.named, self.belong, self.calls = {}, {}, {}, {}
        # By crate and file what has no name of letters, as an operator; by file, its imports.
        self.unnamed, self.signs = {}, {}
        self.files = {(it.crate, stem(it.file)) for it in self.pieces}
        for it in self.pieces:
            if not it.names and not it.file.endswith(OWN):
                self.unnamed.setdefault((it.crate, stem(it.file)), []).append(it)
            if it.is_import and not WORD.fullmatch(it.names[0]) and it.path[:1] and (
                    it.path[0] in self.crates):
                self.signs.setdefault(it.file, []).append(it)
            for name in it.names:
                if it.is_import:
                    self.imports.setdefault((it.file, name), []).append(it)
                elif it.function:
                    self.calls.setdefault(name, []).append(it)
                else:
                    self.named.setdefault((it.crate, name), []).append(it)
            # What a type does for a trait may be called by no name: by an operator, by `?`, at the
            # end of a value, or by a function of any such type.
            if it.owner and not it.is_import and (not it.function or it.trait):
                self.belong.setdefault(it.owner, []).append(it)

    def take(self, path, cut, text):
        """Cuts a file of a crate into pieces; those of a function's own proof by its name."""
        pieces = cut(path.as_posix(), text)
        self.pieces += pieces
        if path.name in OWN:
            mine = (path.parts[0], path.parent.name)
            self.own.setdefault(mine, []).extend(it for it in pieces if not it.is_import)
            for it in pieces:
                if not it.is_import:
                    it.names = ()

    def at(self, file, words):
        """What these words name where they stand in this file, but functions."""
        crate = file.split("/")[0]
        found = list(self.unnamed.get((crate, stem(file)), ()))
        for it in self.signs.get(file, ()):
            found += [it, *self.unnamed.get((it.path[0], it.path[-2]), ())]
        for word in words:
            found += [it for it in self.named.get((crate, word), ()) if it.file == file]
            for it in self.imports.get((file, word), ()):
                found += [it, *self.behind(it, words)]
        return found

    def behind(self, imported, words):
        """What an import means: what has a name of its path in the crate that this begins with, and,
        where it ends with a file, what of that is named by these words."""
        crate, *steps = imported.path or ("",)
        if crate not in self.crates or not steps:
            return []
        last = steps[-1]
        is_file = (crate, last) in self.files
        inside = [it for word in words for it in self.named.get((crate, word), ())
                  if is_file and stem(it.file) == last]
        if is_file and len(steps) == 2 and steps[0] in ("specs", "proofs"):
            return inside
        found = [it for step in steps for it in self.named.get((crate, step), ())]
        if (crate, last) in self.named or any(it.crate == crate for it in self.calls.get(last, ())):
            return found
        if is_file:
            return found + inside
        # What a crate hands on has the name of what it has from another.
        return found + [it for crate in self.crates for it in self.named.get((crate, last), ())]

    def names(self, piece):
        """What a piece names."""
        if piece.named is None:
            piece.named = [] if piece.is_import else self.at(piece.file, words_of(piece.text))
            if piece.file.endswith(".rt") and not piece.function and not piece.is_import:
                piece.named += [it for name in piece.names for it in self.belong.get(name, ())]
            if CONSTANT.match(piece.text):
                piece.named += self.called(words_of(piece.text))
        return piece.named

    def called(self, words):
        """The functions that these words call."""
        return [it for word in words for it in self.calls.get(word, ())]

    def functions(self, crate, file, kind, trait, name):
        """The functions of this file, type, trait and name."""
        return [it for it in self.calls.get(name, ()) if it.file == f"{crate}/{file}"
                and (it.owner, it.trait) == (kind, trait)]

    def read(self, crates, whole, edits):
        """The texts that are read with these functions, by an edit of these words too."""
        file, crate, function = whole[0].file, whole[0].crate, whole[0].function
        texts = [it.whole for it in whole]
        words = words_of("\n".join(texts)) | edits
        words |= {it.path[-1] for word in words for it in self.imports.get((file, word), ()) if it.path}
        own = self.own.get((crate, function), [])
        waiting = [*whole, *own, *self.at(file, words)]
        waiting += [it for one in whole for it in self.at(file, [one.owner, one.trait])]
        waiting += self.unnamed.get((crate, "lib"), [])
        calls, reached, types = self.called(words), set(), set()
        while waiting:
            piece = waiting.pop()
            if piece not in reached and piece.crate in crates:
                reached.add(piece)
                waiting += self.names(piece)
                types.update(piece.names)
            if not waiting:
                # A method of another crate belongs to a type that is read.
                waiting = [it for it in calls if it not in reached and it.crate in crates
                           and (not it.owner or it.owner in types or it.crate == crate)]
        return texts + [it.text for it in reached]

    def all(self, crates, crate):
        """The texts of a crate, with all bodies and proofs, and what those below it state."""
        return [it.whole if it.whole and it.crate == crate else it.text
                for it in self.pieces if it.crate in crates
                and (it.crate == crate or not it.file.endswith(OWN))]


def digest(*texts):
    """A digest of texts, in whatever order."""
    each = sorted(hashlib.sha256(it.encode()).hexdigest() for it in texts)
    return hashlib.sha256("\n".join(each).encode()).hexdigest()[:12]
