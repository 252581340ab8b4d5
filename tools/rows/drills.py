"""Rows of the program: its words and streams, and what it prints (docs/TESTING.md, Rows of the program)."""

import re
from dataclasses import dataclass
from pathlib import Path

ROWS = Path(__file__).resolve().parent
# Where the configurations stand that rows name.
DATA = ROWS / "data"
# What a row begins with: how it is played, and what it shows.
HEAD = re.compile(r"(?m)^(?==[=1#^] )")
# The marks of the lines above a row's standard input.
MARKS = ("$ ", "< ", "> ", "! ")


@dataclass(frozen=True)
class Row:
    """A row: how it is played, what it shows, its lines behind marks, and its standard input."""

    mark: str
    name: str
    set: tuple
    text: str

    def words(self):
        """The words behind the program's name."""
        return tuple(rest for mark, rest in self.set if mark == "$")

    def said(self, mark):
        """What the last line behind this mark says."""
        return next((rest for it, rest in reversed(self.set) if it == mark), "")


def parts_of(name):
    """The rows of a file of this folder, or what each has to print, with the line that it begins with."""
    # A CR of a row stays one.
    text = (ROWS / name).read_bytes().decode("latin-1")
    return [part.split("\n", 1) for part in HEAD.split(text)[1:]]


def rows():
    """The rows, with their short forms written out."""
    for head, body in parts_of("drills.rows"):
        lines = body.removesuffix("\n").split("\n")
        marked = next((at for at, it in enumerate(lines) if not it.startswith(MARKS)), len(lines))
        yield Row(head[:2], head[3:], tuple((it[0], it[2:]) for it in lines[:marked]),
                  spelled("\n".join(lines[marked:])))


def answers():
    """What each row has to print, by the line that it begins with."""
    return dict(parts_of("drills.printed"))


def article(name, octets):
    """The lines of A(name, octets), and the dot behind them (docs/FORMATS.md, Example article)."""
    return ["Path: one.example!not-for-mail", "From: a@x.example", "Newsgroups: misc.test", "Subject: t",
            f"Message-ID: <{name}@x>", "Date: Fri, 01 Jan 2021 00:00:00 +0000", "", "x" * octets, "."]


def meant(inside):
    """What stands for the text between a `{` and its `}`."""
    word, _, text = inside.partition(" ")
    if word == "article":
        session, name, octets = text.split(" ")
        return "\n".join(f"send {session} {line}" for line in article(name, int(octets)))
    if word == "hex":
        return text.replace("\n", "\r\n").encode("latin-1").hex().upper()
    first, dash, last = word.partition("-")
    if dash:
        return "".join(text.replace("#", str(it)) for it in range(int(first), int(last) + 1))
    return text * int(first)


def spelled(text):
    """A text with its short forms written out."""
    return re.sub(r"(?s)\{(.*?)\}", lambda found: meant(found[1]), text)
