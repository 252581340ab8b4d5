"""Tests `tools/check wrong-rows` on a small repository, which it makes in a temporary folder.

Prints a line for each answer that is not the one wanted, and at the end `N passed, N failed`.
"""

import re
import subprocess
import tempfile
from pathlib import Path

from lib.program import ROOT

TAKES_PROGRAM = False
TOOL = [ROOT / "tools/check", "wrong-rows"]

MAIN = """\
//! Prints each line behind a word.
#![tactic(auto)]
use std::io;
use words::word;

fn main(rt: HostRuntime) -> io::Result<()> {
    for line in rt.lines(rt.alloc()) {
        let line = line?;
        println!(rt; "{} {}", word(), line.as_str())?;
    }
    Ok(())
}
"""

WORDS = """\
//! A word.
#![tactic(auto)]

/// The word that stands before each line.
pub fn word() -> &'static str {
    "row"
}
"""

FILES = {
    "crates.txt": "words:\nplays: words io\n",
    "HANDLES": "Handles allowed: none.\n",
    "crates/words/src/lib.rt": WORDS,
    "crates/plays/src/main.rt": MAIN,
    "crates/plays/stdin": "one\ntwo\n",
    "crates/plays/stdout": "row one\nrow two\n",
}

# Each edit: its name, its file, its old and its new text, and what is to be said of it.
EDITS = [
    ("main_word_is_left_out", "plays/src/main.rt",
     '"{} {}", word(), line.as_str()', '" {}", line.as_str()', "refused"),
    ("main_row_is_named_anew", "plays/src/main.rt",
     "        let line = line?;", "        let line = line?; let _row = 0;", "the"),
    ("main_row_never_ends", "plays/src/main.rt",
     "        let line = line?;", "        let line = line?; loop {}", "refused"),
    ("word_is_another", "words/src/lib.rt", '"row"', '"line"', "refused"),
    ("word_has_no_name", "words/src/lib.rt", '"row"', "row", "BROKEN"),
    ("word_is_another_by_a_switch", "words/src/lib.rt", '"row"',
     'if WRONG { "line" } else { "row" }', "refused"),
    ("word_is_the_same_by_a_switch", "words/src/lib.rt", '"row"',
     'if WRONG { "row" } else { "row" }', "the"),
    ("word_is_of_yesterday", "words/src/lib.rt", '"rows"', '"lines"', "STALE"),
]


def write(root, files):
    """Writes these texts by their paths."""
    for path, text in files.items():
        (root / path).parent.mkdir(parents=True, exist_ok=True)
        (root / path).write_text(text, encoding="utf-8")


def said(root, *words):
    """The status of the tool, what it said of each edit that is not refused, and its last line."""
    ran = subprocess.run([*TOOL, "--seconds", "5", "--lanes", "2", *words], cwd=root,
                         stdout=subprocess.PIPE, text=True, check=False)
    print(ran.stdout, end="")
    told = re.findall(r"(?m)^NOT REFUSED (?:plays/)?(\w+)\.edit: (\w+)", ran.stdout)
    return ran.returncode, dict(told), ran.stdout.rstrip().split("\n")[-1]


def main(_):
    with tempfile.TemporaryDirectory(prefix="test-wrong-rows-") as room:
        root = Path(room)
        write(root, FILES)
        write(root, {f"crates/plays/wrong-rows/{name}.edit":
                     f"file: {file}\nold: {old}\nnew: {new}\n"
                     for name, file, old, new, _ in EDITS})
        status, told, last = said(root)
        alone = said(root, "--edit", "word_is_another")
        missing = said(root, "--edit", "word_is_another", "--edit", "word_is_none")
        (root / "crates/plays/stdout").write_text("row one\n", encoding="utf-8")
        without = said(root)
        unnamed = subprocess.run([*TOOL, "words"], cwd=root, stderr=subprocess.PIPE, text=True,
                                 check=False)
        for it in (root / "crates/plays/wrong-rows").iterdir():
            it.unlink()
        nothing = subprocess.run(TOOL, cwd=root, stderr=subprocess.PIPE, text=True, check=False)
    answers = [(name, told.pop(name, "refused"), wanted) for name, _, _, _, wanted in EDITS]
    answers += [
        ("answers of no edit", told, {}),
        ("last line", last, "4 refused, 4 not"),
        ("status", status, 1),
        ("one edit alone", alone, (0, {}, "1 refused, 0 not")),
        ("an edit that isn't there", missing, (1, {"word_is_none": "there"}, "1 refused, 1 not")),
        ("rows that are wrong themselves", without,
         (1, {"word_has_no_name": "BROKEN", "word_is_of_yesterday": "STALE"}, "0 refused, 2 not")),
        ("a crate without edits", (unnamed.returncode, unnamed.stderr.rstrip().split("\n")[-1]),
         (2, "tools/check wrong-rows: error: words has no edits")),
        ("no edit at all", (nothing.returncode, nothing.stderr),
         (1, "wrong-rows: there is no edit to be tried\n")),
    ]
    failed = [it for it in answers if it[1] != it[2]]
    for name, got, wanted in failed:
        print(f"{name}: {got}, and not {wanted}")
    print(f"{len(answers) - len(failed)} passed, {len(failed)} failed")
    return 1 if failed else 0
