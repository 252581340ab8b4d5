"""Measures how fast a buffer that was not stopped is found again, beside the device's own speed.

    tools/check bench scanning [--finder PATH] [MEGABYTES [OCTETS [WORK]]]    at the top of the repository
    tools/check bench scanning --source FOLDER                               writes its program's crate there alone

A file of 1,024 MB without MEGABYTES in the folder WORK, filled by articles of 4,000 octets without OCTETS, and left as a kill leaves
it. Then it is found again five times with the file in the system's memory, and five times, where root runs this, with that dropped
before (cold), in turn with `dd` of the file to nowhere. The program that does it (`Buffer::recover` over `FileBlocks`) is that of
--finder, or is proved and built by `rt run` in a copy of the repository, which takes some quarter of an hour where no `rt check` has
left its work.
"""
import os
import re
import resource
import shutil
import statistics
import subprocess
import sys
import tempfile
import time
from pathlib import Path

from lib.servers import ask

TAKES_PROGRAM = False
# main sets what was said.
MEGABYTES, OCTETS = 1_024, 4_000
ROUNDS, USES = 5, "scanning: news_terms cyc_block file_blocks cyc_buffer anyhow\n"
PROGRAM = r"""//! Finds the buffer in the file `blocks` again. Where it has none, one is made there and filled a twentieth more than once.
#![tactic(auto)]

use cyc_buffer::Buffer;
use file_blocks::{FileBlocks, FittedFile, HeldFile};
use std::alloc::Global;

const BLOCKS: u32 = {blocks};
const OCTETS: u32 = {octets};
const ARTICLES: u32 = {articles};

/// The store of the file's blocks.
fn opened(rt: &HostRuntime) -> Option<FileBlocks> {
    let Ok(held) = HeldFile::hold(rt, "blocks") else {
        return None;
    };
    let Ok(fitted) = FittedFile::of_held(held, BLOCKS) else {
        return None;
    };
    match FileBlocks::of_fitted(rt.alloc(), fitted) {
        Ok(store) => Some(store),
        Err(_) => None,
    }
}

/// Stores one more article; whether it did.
fn store(buffer: &mut Buffer<FileBlocks>, text: &[u8]) -> bool {
    let Ok(open) = buffer.begin(1, OCTETS, false) else {
        return false;
    };
    for _ in 0..OCTETS.div_ceil(480) {
        if !buffer.can_write(&open, text) || buffer.write_next(&open, text).is_err() {
            buffer.abandon(open);
            return false;
        }
    }
    if !buffer.can_finish(&open) {
        buffer.abandon(open);
        return false;
    }
    let _token = buffer.finish(open);
    true
}

/// Fills a buffer that is made over a store; how many articles were stored.
fn fill(alloc: Global, blocks: FileBlocks) -> Result<u32, anyhow::Error> {
    let mut text = Vec::new(alloc);
    for _ in 0..OCTETS {
        text.push(120)?;
    }
    let mut stored = 0u32;
    if let Ok(mut buffer) = Buffer::format(alloc, blocks, 0, 0) {
        for _ in 0..ARTICLES {
            if store(&mut buffer, &text) {
                stored = stored.saturating_add(1);
            }
        }
    }
    Ok(stored)
}

fn main(rt: HostRuntime) -> Result<(), anyhow::Error> {
    let Some(blocks) = opened(&rt) else {
        println!(rt; "no file")?;
        return Ok(());
    };
    match Buffer::recover(rt.alloc(), blocks, 0, 0) {
        Ok(started) => println!(rt; "found {}", started.tokens.len())?,
        Err(refused) => println!(rt; "stored {}", fill(rt.alloc(), refused.store)?)?,
    }
    Ok(())
}
"""


def write_source(copy, blocks, articles):
    """Writes the program's crate into a copy of the repository; its folder."""
    with (copy / "crates.txt").open("a") as crates:
        crates.write(USES)
    crate = copy / "crates/scanning"
    (crate / "src").mkdir(parents=True)
    text = PROGRAM
    for name, number in (("blocks", blocks), ("octets", OCTETS), ("articles", articles)):
        text = text.replace("{" + name + "}", str(number))
    (crate / "src/main.rt").write_text(text)
    return crate


def built(room, blocks, articles):
    """The program, built in a copy of the repository, as the gate builds one."""
    root, copy = Path.cwd(), room / "copy"
    shutil.copytree(root, copy, symlinks=True, ignore=shutil.ignore_patterns(".git", "out"))
    for name in USES.split()[1:-1]:
        if (root / "crates" / name / "out").is_dir():
            shutil.copytree(root / "crates" / name / "out", copy / "crates" / name / "out")
    crate = write_source(copy, blocks, articles)
    subprocess.run(["rt", "run"], cwd=crate, check=False, stdout=sys.stderr, stdin=subprocess.DEVNULL)
    return crate / "out/scanning"


def timed(command, folder):
    """What a command prints, the seconds that it takes, and those of the processor."""
    before, begun = resource.getrusage(resource.RUSAGE_CHILDREN), time.monotonic()
    said = subprocess.run(command, cwd=folder, check=True, stdout=subprocess.PIPE, stderr=subprocess.STDOUT, text=True).stdout
    took, after = time.monotonic() - begun, resource.getrusage(resource.RUSAGE_CHILDREN)
    return said, took, after.ru_utime - before.ru_utime, after.ru_stime - before.ru_stime


def measure(program, folder, is_cold):
    """The program beside dd, in turn; what it finds."""
    times, found = {"found again": [], "dd": []}, set()
    for _ in range(ROUNDS):
        for name, command in (("found again", [program]), ("dd", ["dd", "if=blocks", "of=/dev/null", "bs=1M"])):
            if is_cold:
                os.sync()
                Path("/proc/sys/vm/drop_caches").write_text("3\n")
            said, *took = timed(command, folder)
            times[name].append(took)
            found |= {int(it) for it in re.findall(r"found (\d+)", said)}
    for name, rows in times.items():
        took, own, system = (statistics.median(it) for it in zip(*rows))
        print(f"{name}{', cold' if is_cold else ''}: {took:.2f} seconds ({min(rows)[0]:.2f} to {max(rows)[0]:.2f}), {own:.2f} of the "
              f"processor and {system:.2f} of the system, {MEGABYTES / took:.0f} MB a second")
    return found


def options(about):
    about.add_argument("--finder", type=Path, metavar="PATH", help="the program that finds buffers")
    about.add_argument("--source", type=Path, metavar="FOLDER", help="a copy of the repository")
    ask(about, megabytes=MEGABYTES, octets=OCTETS, work="/var/tmp")


def main(given):
    global MEGABYTES, OCTETS
    MEGABYTES, OCTETS = given.megabytes, given.octets
    blocks = MEGABYTES * 2_048
    articles = blocks // -(-OCTETS // 480) * 21 // 20
    if given.source:
        write_source(given.source, blocks, articles)
        return
    with tempfile.TemporaryDirectory(prefix="cnrelay-scans-", dir=given.work) as name:
        room = Path(name)
        program = given.finder.resolve() if given.finder else built(room, blocks, articles)
        print(f"{blocks:,} blocks of 512 octets, articles of {OCTETS:,}; load {os.getloadavg()[0]:.1f}")
        said, took, *_ = timed([program], room)
        print(f"{said.strip()} in {took:.2f} seconds")
        found = measure(program, room, False)
        if os.geteuid() == 0:
            found |= measure(program, room, True)
        print(f"found {sorted(found)}")
        if len(found) != 1 or not blocks // -(-OCTETS // 480) - 2 <= min(found):
            sys.exit("that isn't what was stored")
