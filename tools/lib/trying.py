"""How things are tried: what is wrong, what is waited for, and what is told of each."""

import contextlib
import shutil
import subprocess
import tempfile
import time
from pathlib import Path


class Wrong(Exception):
    """What the program did that it shouldn't have."""


class Late(Wrong):
    """What hasn't come in the time that it has."""


class Skipped(Exception):
    """What the machine lacks."""


def check(found, wanted, what):
    if found != wanted:
        raise Wrong(f"{what}: {found!r}, not {wanted!r}")


def waits_until(is_so, what, patience, pause=0.01):
    """Waits until this is so, and gives that; after so many seconds this is wrong."""
    end = time.monotonic() + patience
    while not (found := is_so()):
        if time.monotonic() > end:
            raise Late(what() if callable(what) else what)
        time.sleep(pause)
    return found


@contextlib.contextmanager
def room(name, folder="/var/tmp", mode=0o711):
    """A folder of its own, which is taken away in the end."""
    made = Path(tempfile.mkdtemp(prefix=f"cnrelay-{name}-", dir=folder)).resolve()
    made.chmod(mode)
    try:
        yield made
    finally:
        shutil.rmtree(made, ignore_errors=True)


def tried(one, *given, by=None, behind=lambda: None):
    """Tries one thing, which its text says, by another where one is named, and prints what came of it:
    whether it went right; none where it was skipped. Behind it that is done."""
    begun = time.monotonic()
    try:
        said = by(one, *given) if by else one(*given)
    except Skipped as why:
        print(f"skipped {one.__name__}: {why}", flush=True)
        return None
    except (Wrong, OSError, LookupError, ValueError, subprocess.SubprocessError) as error:
        print(f"WRONG {one.__name__}: {error if isinstance(error, Wrong) else repr(error)}", flush=True)
        return False
    finally:
        behind()
    took = f"{time.monotonic() - begun:.1f} s"
    print(f"right {one.__name__}: {said or one.__doc__} ({took})", flush=True)
    return True


def total(came, may_skip=False):
    """Prints how many things went right; the status, which is 1 where one went wrong or none right."""
    print(f"{came.count(True)} went right, {came.count(False)} wrong"
          + f", {came.count(None)} skipped" * may_skip)
    return 0 if came.count(True) and not came.count(False) else 1
