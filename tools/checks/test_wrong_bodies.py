"""Tests `tools/check wrong-bodies` on two small repositories, which it makes in temporary folders.

In one each edit meets another answer, in the other two crates are tried again and again.

Prints a line for each answer that is not the one wanted, and at the end `N passed, N failed`.
"""

import re
import subprocess
import tempfile
from concurrent.futures import ThreadPoolExecutor
from pathlib import Path

from checks import wrong_bodies
from lib.program import ROOT

TAKES_PROGRAM = False
TOOL = [ROOT / "tools/check", "wrong-bodies"]

LIB = """\
//! The tolls of a bridge.
#![tactic(auto)]
ghost use Rattle.std.specs.Prelude.{◌≡◌, ◌*◌, ◌+◌, ◌<◌, ◌≤◌, ◌↔◌, IsTrue};

mod lorries;

pub struct Lorry {
    pub axles: u32,
}

/// The tons from which a lorry is heavy.
const HEAVY: u32 = 40;

/// Whether a lorry of these tons is heavy.
pub fn is_heavy(tons: u32) -> bool
    ensures { IsTrue result ↔ (40 ≤ tons) }
{
    tons >= HEAVY
}

/// What a lorry of these axles pays.
pub fn toll(axles: u32) -> u32
    requires { axles < 100 }
    ensures { result ≡ axles * 3 + 2 }
{
    axles * 3 + 2
}

/// What two lorries pay.
pub fn both(first: u32, second: u32) -> u32
    requires one { first < 100 }
    requires two { second < 100 }
    ensures { result ≡ (first * 3 + 2) + (second * 3 + 2) }
{
    toll(first) + toll(second)
}
"""

LORRIES = """\
//! What lorries pay.
ghost use Rattle.std.specs.Prelude.{◌≡◌, ◌*◌, ◌+◌, ◌<◌};
use crate::{Lorry, toll};

impl Lorry {
    /// What this lorry pays.
    pub fn pays(&self) -> u32
        requires { self.now.axles < 100 }
        ensures { result ≡ self.now.axles * 3 + 2 }
    {
        toll(self.axles)
    }
}
"""

ANSWERS = """\
use Rattle.std.proofs.Common.{arith}
use Rattle.tolls.proofs.both.Goals as goal

pub returns : goal.returns
returns c = omega (arith, c.toll.ensures, c.toll-2.ensures)
"""

FILES = {
    "crates.txt": "# the only crate\ntolls:\n",
    "HANDLES": "Handles allowed: none.\n",
    "crates/tolls/src/lib.rt": LIB,
    "crates/tolls/src/lorries.rt": LORRIES,
    "crates/tolls/proofs/both/Answers.antt": ANSWERS,
}

# Each wrong body: its name, its file, its old and its new text, and what is to be said of it.
EDITS = [
    ("lib_both_first_lorry_pays_twice", "src/lib.rt",
     "toll(first) + toll(second)", "toll(first) + toll(first)", "refused"),
    ("lib_both_tolls_are_written_out", "src/lib.rt",
     "toll(first) + toll(second)", "first * 3 + 2 + second * 3 + 2", "BROKEN"),
    ("lib_is_heavy_bound_has_no_name", "src/lib.rt", "tons >= HEAVY", "tons >= LIGHT", "BROKEN"),
    ("lib_is_heavy_bound_is_left_out", "src/lib.rt", "tons >= HEAVY", "tons > HEAVY", "refused"),
    ("lib_is_heavy_sides_change_places", "src/lib.rt", "tons >= HEAVY", "HEAVY <= tons", "PROVED"),
    ("lib_toll_axles_pay_two", "src/lib.rt", "    axles * 3", "    axles * 2", "refused"),
    ("lib_toll_base_is_three", "src/lib.rt", "    axles * 3 + 2", "    axles * 3 + 3", "refused"),
    ("lib_toll_contract_says_less", "src/lib.rt",
     "ensures { result ≡ axles * 3 + 2 }", "ensures { result < 302 }", "refused"),
    ("lib_toll_text_is_of_yesterday", "src/lib.rt", "axles * 4", "axles * 5", "STALE"),
    ("lorries_pays_axles_are_halved", "src/lorries.rt",
     "toll(self.axles)", "toll(self.axles / 2)", "refused"),
]


# The second repository, where all edits are refused: the crate `pairs` stands on `ones`.
ONES = """\
//! Numbers one greater.
#![tactic(auto)]
ghost use Rattle.std.specs.Prelude.{◌≡◌, ◌+◌, ◌<◌};

/// One more.
pub fn more(number: u32) -> u32
    requires { number < 100 }
    ensures { result ≡ number + 1 }
{
    number + 1
}

/// Two more.
pub fn two_more(number: u32) -> u32
    requires { number < 100 }
    ensures { result ≡ number + 2 }
{
    number + 2
}
"""

PAIRS = """\
//! Numbers one and two greater.
#![tactic(auto)]
ghost use Rattle.std.specs.Prelude.{◌≡◌, ◌+◌, ◌<◌};
use ones::more;

/// Two numbers.
pub struct Next {
    pub one: u32,
    pub two: u32,
}

/// How much the second is greater.
const STEP: u32 = 1;

/// The next two numbers.
pub fn pair(number: u32) -> Next
    requires { number < 90 }
    ensures one { result.one ≡ number + 1 }
    ensures two { result.two ≡ number + 2 }
{
    let one = more(number);
    Next {
        one,
        two: more(one),
    }
}

/// The number after the next.
pub fn later(number: u32) -> u32
    requires { number < 90 }
    ensures { result ≡ number + 2 }
{
    number + 1 + STEP
}
"""

PAIRS_FILES = {
    "crates.txt": "ones:\npairs: ones\n",
    "HANDLES": "Handles allowed: none.\n",
    "crates/ones/src/lib.rt": ONES,
    "crates/pairs/src/lib.rt": PAIRS,
    "crates/pairs/wrong-bodies/lib_pair_is_one_twice.edit":
        "file: src/lib.rt\nold: two: more(one)\nnew: two: one\n",
    "crates/pairs/wrong-bodies/lib_later_is_a_step.edit":
        "file: src/lib.rt\nold: number + 1 + STEP\nnew: number + STEP\n",
    "crates/pairs/wrong-bodies/lib_step_is_two.edit":
        "file: src/lib.rt\nold: u32 = 1;\nnew: u32 = 2;\n",
}
PAIR, LATER, NONE = "lib::pair", "lib::later", "-"

# Runs in it, one after another: the name of each, the tool's words, and the texts that are written
# before it. And what is to come of it: how many edits of `pairs` are tried, how many are refused by
# the record, the last line, and which functions the record has after it.
RUNS = [
    ("without a record", (), {}, ("3", "0", "3 refused, 0 not", [NONE, LATER, PAIR])),
    ("over a record that holds", (), {}, (None, "3", "3 refused, 0 not", [NONE, LATER, PAIR])),
    ("that only counts", ("--count",), {}, (None, "3", "3 refused, 0 not", [NONE, LATER, PAIR])),
    ("again", ("--again",), {}, ("3", "0", "3 refused, 0 not", [NONE, LATER, PAIR])),
    ("after a change of comments and layout", (),
     {"crates/ones/src/lib.rt": ONES.replace("One more.", "The next number."),
      "crates/pairs/src/lib.rt": PAIRS.replace("const STEP", "// Small.\nconst STEP")},
     (None, "3", "3 refused, 0 not", [NONE, LATER, PAIR])),
    ("after a change of a body of the crate below", (),
     {"crates/ones/src/lib.rt": ONES.replace("    number + 1\n", "    1 + number\n")},
     (None, "3", "3 refused, 0 not", [NONE, LATER, PAIR])),
    ("after a change of a contract that is called", (),
     {"crates/ones/src/lib.rt": ONES.replace("number < 100", "number < 101", 1)},
     ("2", "1", "3 refused, 0 not", [NONE, LATER, PAIR])),
    ("after a change of a contract that is not called", (),
     {"crates/ones/src/lib.rt": ONES},
     ("2", "1", "3 refused, 0 not", [NONE, LATER, PAIR])),
    ("after a change of a body beside it", ("pairs",),
     {"crates/pairs/src/lib.rt": PAIRS.replace("let one = more(number);", "let one = number + 1;")},
     ("2", "1", "3 refused, 0 not", [NONE, LATER, PAIR])),
    ("after a change of the constant", (),
     {"crates/pairs/src/lib.rt": PAIRS.replace("const STEP", "pub(crate) const STEP")},
     ("3", "0", "3 refused, 0 not", [NONE, LATER, PAIR])),
    ("with an edit that passes", (),
     {"crates/pairs/wrong-bodies/lib_pair_two_is_written_out.edit":
      "file: src/lib.rt\nold: two: more(one)\nnew: two: number + 2\n"},
     ("2", "2", "3 refused, 1 not", [NONE, LATER])),
]


def write(root, files):
    """Writes these texts by their paths."""
    for path, text in files.items():
        (root / path).parent.mkdir(parents=True, exist_ok=True)
        (root / path).write_text(text, encoding="utf-8")


def make(root):
    """Writes the repository: all edits into wrong-bodies, the first of them into must-fail too."""
    files = dict(FILES)
    for name, file, old, new, _ in EDITS:
        text = f"# {name.replace('_', ' ')}\nfile: {file}\nold: {old}\nnew: {new}\n"
        files[f"crates/tolls/wrong-bodies/{name}.edit"] = text
        if name == EDITS[0][0]:
            files[f"crates/tolls/must-fail/{name}.edit"] = text
    write(root, files)
    return files


def said(root, *words):
    """The status of the tool, and what it printed."""
    ran = subprocess.run([*TOOL, *words], cwd=root, stdout=subprocess.PIPE, text=True, check=False)
    print(ran.stdout, end="")
    return ran.returncode, ran.stdout


def run(root, *words):
    """The status of the tool, what it said of each edit that is not refused, and its last line."""
    status, text = said(root, *words)
    told = re.findall(r"(?m)^NOT REFUSED tolls/(\w+)\.edit: (\w+)", text)
    return status, dict(told), text.rstrip().split("\n")[-1]


def record_of(root):
    """The lines of the record: crate, function, text and edits of each."""
    path = root / "tools/wrong_bodies.tried"
    text = path.read_text(encoding="utf-8") if path.is_file() else ""
    return [re.fullmatch(r"(\w+) (\S+) ([0-9a-f]{12}) (\d+)", it).groups()
            for it in text.split("\n")[:-1]]


def record_answers(root):
    """What came of the runs over a record, and what was wanted."""
    write(root, PAIRS_FILES)
    subprocess.run(["rt", "check", "--jobs", "1"], cwd=root / "crates/pairs",
                   stdout=subprocess.DEVNULL, check=True)
    answers = []
    for name, words, files, wanted in RUNS:
        write(root, files)
        _, text = said(root, *words)
        held, last = re.search(
            r"(\d+) refused by the record, \d+ s in all\n(.*)\n\Z", text).groups()
        tried = re.search(r"(?m)^pairs: (\d+) wrong bodies in", text)
        lines = record_of(root)
        came = tried and tried[1], held, last, [it[1] for it in lines]
        answers.append((f"a run {name}", came, wanted))
        answers.append((f"the edits of a run {name}", {it[3] for it in lines}, {"1"}))
    return answers


def lanes_answer(root):
    """What came of many lines that were put at a time, and what was wanted."""
    names = [f"crate_{it}" for it in range(10, 60)]
    line = {"lib::one": wrong_bodies.Tried("0" * 12, 1)}
    with ThreadPoolExecutor(8) as pool:
        list(pool.map(lambda it: wrong_bodies.put_record(root, it, line, {"lib::one"}),
                      reversed(names)))
    return ("lines put at a time", record_of(root),
            [(it, "lib::one", "0" * 12, "1") for it in names])


def no_edit_answer(root):
    """A run that has no edit to try fails."""
    write(root, {"crates.txt": "none:\n", "HANDLES": "Handles allowed: none.\n"})
    ran = subprocess.run(TOOL, cwd=root, stderr=subprocess.PIPE, text=True, check=False)
    return "a run without edits", (ran.returncode, ran.stderr), (
        1, "wrong-bodies: there is no edit in wrong-bodies/\n")


def main(_):
    with tempfile.TemporaryDirectory(prefix="test-wrong-bodies-") as room:
        root = Path(room)
        files = make(root)
        status, told, last = run(root, "--lanes", "1")
        alone = run(root, "--folder", "must-fail", "tolls")
        left = {str(it.relative_to(root)): it.read_text(encoding="utf-8")
                for it in root.rglob("*") if it.is_file()}
        left.pop("tools/wrong_bodies.tried", None)
        recorded = [(it[1], it[3]) for it in record_of(root)]
    answers = [(name, told.pop(name, "refused"), wanted) for name, _, _, _, wanted in EDITS]
    refused = sum(wanted == "refused" for *_, wanted in EDITS)
    answers += [
        ("answers of no edit", told, {}),
        ("last line", last, f"{refused} refused, {len(EDITS) - refused} not"),
        ("status", status, 1),
        ("must-fail", alone, (0, {}, "1 refused, 0 not")),
        ("files of the repository", left, files),
        # Of the functions all of whose edits are refused, and of what belongs to none.
        ("the record", recorded, [("-", "1"), ("lib::toll", "2"), ("lorries::Lorry::pays", "1")]),
    ]
    with tempfile.TemporaryDirectory(prefix="test-wrong-bodies-") as room:
        answers += record_answers(Path(room))
    with tempfile.TemporaryDirectory(prefix="test-wrong-bodies-") as room:
        answers.append(lanes_answer(Path(room)))
    with tempfile.TemporaryDirectory(prefix="test-wrong-bodies-") as room:
        answers.append(no_edit_answer(Path(room)))
    failed = [it for it in answers if it[1] != it[2]]
    for name, got, wanted in failed:
        print(f"{name}: {got}, and not {wanted}")
    print(f"{len(answers) - len(failed)} passed, {len(failed)} failed")
    return 1 if failed else 0
