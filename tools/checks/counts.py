"""Counts of the house: how much of what there is, and what is longer than it should be.

    tools/check counts            prints the counts, a line each
    tools/check counts --which    names besides the files and functions that are too long

Lines are those that have something on them. Code is src/*.rt of the crates that the program stands on, tests are the
crates whose rows are tests, and benchmarks; specs and proofs are those of all crates.
"""
import re

from lib.program import ROOT

TAKES_PROGRAM = False
LONGEST_LINE = 100
LONGEST_FILE = 400
LONGEST_FUNCTION = 40
TESTS = {"crate_rows"}


def lines_of(path):
    return path.read_text(encoding="utf-8").splitlines()


def words_of(path):
    """How many words a page has; the bars of a table are none."""
    return sum(1 for word in path.read_text(encoding="utf-8").split() if re.search(r"\w", word))


def functions_of(lines):
    """The functions of a file: the line of each and the number of lines of its body."""
    found = []
    for at, line in enumerate(lines):
        start = re.match(r"( *)(?:pub(?:\([a-z]+\))? )?(?:const )?fn (\w+)", line)
        if not start:
            continue
        indent, name = start.group(1), start.group(2)
        opened = None
        for behind in range(at, len(lines)):
            if lines[behind] == indent + "{" or (behind == at and line.endswith(" {")):
                opened = behind
            if lines[behind] == indent + "}":
                if opened is not None:
                    found.append((at + 1, name, behind - opened - 1))
                break
            if opened is None and lines[behind].endswith(";") and behind > at:
                break
    return found


def crates():
    """The names of the crates, in the order of crates.txt."""
    names = []
    for line in lines_of(ROOT / "crates.txt"):
        if line and not line.startswith("#"):
            names.append(re.split(r"[ :]", line)[0])
    return names


def options(about):
    about.add_argument("--which", action="store_true", help="names what is too long")


def main(given):
    names = crates()
    counts = {"code": 0, "tests": 0, "specs": 0, "proofs": 0}
    long_lines, long_files, long_functions = [], [], []
    edits = 0
    for name in names:
        crate = ROOT / "crates" / name
        for path in sorted(crate.rglob("*")):
            part = path.relative_to(crate).parts[0]
            if part == "out" or path.suffix not in (".rt", ".antt", ".edit"):
                continue
            if path.suffix == ".edit":
                edits += 1
                continue
            lines = lines_of(path)
            kind = {"specs": "specs", "proofs": "proofs"}.get(part, "tests" if name in TESTS else "code")
            counts[kind] += sum(1 for line in lines if line.strip())
            shown = path.relative_to(ROOT)
            if len(lines) > LONGEST_FILE:
                long_files.append(f"{shown}: {len(lines)}")
            long_lines += [f"{shown}:{at}" for at, line in enumerate(lines, 1) if len(line) > LONGEST_LINE]
            if path.suffix == ".rt":
                long_functions += [f"{shown}:{at} {function}: {size}" for at, function, size in functions_of(lines)
                                   if size > LONGEST_FUNCTION]
    pages = [path for path in ROOT.rglob("*.md") if not {"out", ".git"} & set(path.relative_to(ROOT).parts)]
    words = {path: words_of(path) for path in pages}
    decisions = sum(count for path, count in words.items() if "DECISIONS" in path.name or "decisions" in path.parts)
    print(f"crates                          {len(names):>7}")
    print(f"lines of code                   {counts['code']:>7}")
    print(f"lines of tests and benchmarks   {counts['tests']:>7}")
    print(f"lines of specs                  {counts['specs']:>7}")
    print(f"lines of proofs                 {counts['proofs']:>7}")
    print(f"wrong bodies                    {edits:>7}")
    print(f"words of README.md              {words[ROOT / 'README.md']:>7}")
    print(f"words of pages                  {sum(words.values()) - decisions:>7}")
    print(f"words of decisions              {decisions:>7}")
    for title, found in ((f"functions over {LONGEST_FUNCTION} lines", long_functions),
                         (f"files over {LONGEST_FILE} lines", long_files),
                         (f"lines over {LONGEST_LINE} columns", long_lines)):
        print(f"{title:<32}{len(found):>7}")
        if given.which:
            for one in found:
                print(f"    {one}")
