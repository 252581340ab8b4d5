"""What the check of a crate costs, function by function.

    tools/check costs CRATE [--top N]    proves CRATE anew, the crates below it only where they changed,
                                         and prints what took longest

A check writes a file for each part of a function as it ends with it; the time between two files is what the later
part cost. Nothing else should run beside. Borrows (`Lts`) are most of it, and their size tells more surely than
seconds what a function costs: 1.5 MB are two seconds or so, 10 MB half a minute.

Then come the goals, answers and lemmas for which the checker took most steps, by its own count, which no work beside
changes: a million steps are a third of a second or so. One declaration may take 50 million.
"""
import collections
import re
import shutil
import subprocess
import sys

from lib.program import ROOT

TAKES_PROGRAM = False
PARTS = {
    "Answers", "Code", "Given", "Goals", "Invariants", "Key", "Kinds", "Layout", "Lts", "Met", "Mir", "Named",
    "Paired", "Proof", "Reads", "Statement", "Symbol", "TheLink", "Tie", "View",
}  # fmt: skip
# What a record of a declaration has of it: its name and the steps of each phase.
RECORDED = re.compile(rb'"name":"([^"]*)","notes":.*?"steps":\[([0-9,]*)\]', re.S)
OF_BORROWS = re.compile(r"(Kinds|Carried|Given)-[0-9-]+$")


def written(folder):
    """The parts that a check wrote, in the order of their times: (seconds since the one before, name, octets)."""
    files = []
    for path in folder.rglob("*.oantt"):
        told = path.stat()
        files.append((told.st_mtime_ns, path.name.removesuffix(".oantt"), told.st_size))
    files.sort()
    before = files[0][0] if files else 0
    for time, name, size in files:
        yield (time - before) / 1e9, name.removesuffix(".decls"), size
        before = time


def function_and_part(name):
    """Whose part it is, and which."""
    told = re.match(r"Rattle-\w+-(?:specs\.contracts|specs|proofs)\.(.*)", name)
    if not told:
        return "(libraries)", "load"
    steps = told[1].split(".")
    if OF_BORROWS.match(steps[-1]):
        return ".".join(steps[:-1]), "Lts"
    if steps[-1] not in PARTS:
        return f"(file) {told[1]}", "file"
    part = "Lts" if steps[-2:] == ["Lts", "View"] else steps[-1]
    return ".".join(step for step in steps if step not in PARTS), part


def steps(crate, folder):
    """The declarations of the crate's own proofs by the steps that each took: (steps, where it stands, name)."""
    for path in folder.rglob("records/*.decls.oantt"):
        told = re.match(rf"Rattle-{crate}-proofs\.(.*)\.decls\.oantt$", path.name)
        if told and told[1].split(".")[-1] not in {"Lts", "Tie", "Layout", "Named", "Reads", "Kinds"}:
            for name, counts in RECORDED.findall(path.read_bytes()):
                yield sum(int(count) for count in counts.split(b",") if count), told[1], name.decode()


def options(about):
    about.add_argument("crate")
    about.add_argument("--top", type=int, default=30, help="how many functions (default: 30)")


def main(asked):
    folder = ROOT / "crates" / asked.crate
    if not folder.is_dir():
        sys.exit(f"costs: no crate {asked.crate}")
    kept = folder / "out" / "incremental"
    shutil.rmtree(kept, ignore_errors=True)
    ran = subprocess.run(["rt", "check", "--jobs", "1"], cwd=folder, stdout=subprocess.PIPE, text=True)
    if ran.returncode:
        sys.exit(ran.stdout + f"costs: {asked.crate} isn't proved")
    if not any(kept.rglob("*.oantt")):
        sys.exit(f"costs: the check of {asked.crate} has left nothing in {kept}")
    costs = collections.defaultdict(collections.Counter)
    parts = collections.Counter()
    sizes = collections.Counter()
    for seconds, name, size in written(kept):
        function, part = function_and_part(name)
        costs[function][part] += seconds
        parts[part] += seconds
        if name.endswith(".Lts"):
            sizes[function] = max(sizes[function], size)
    told = " ".join(f"{part} {seconds:.0f}" for part, seconds in parts.most_common(8))
    print(f"{sum(parts.values()):.0f} s, borrows {sum(sizes.values()) / 1e6:.0f} MB; by part: {told}")
    for function, of in sorted(costs.items(), key=lambda cost: -cost[1].total())[: asked.top]:
        told = " ".join(f"{part} {seconds:.1f}" for part, seconds in of.most_common(4) if seconds >= 0.1)
        print(f"{of.total():7.1f} s {sizes[function] / 1e6:6.1f} MB  {function}: {told}")
    for count, place, name in sorted(steps(asked.crate, kept), reverse=True)[: asked.top]:
        print(f"{count / 1e6:7.2f} million steps  {place}: {name}")
