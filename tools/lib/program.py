"""Where the repository lies, and which program is tried."""

from pathlib import Path

ROOT = Path(__file__).resolve().parent.parent.parent
# What --program says; tools/check sets it before a word begins.
PROGRAM = ROOT / "crates/cnrelay/out/cnrelay"
