"""Rooms in the cache, where programs are built, and how a built one comes to its name:
whole, by one renaming, or not at all."""
import contextlib
import fcntl
import os
import shutil
import tempfile

from .answers import Refused, say
from .programs import ANOTHER, NAME

MOST = 8


@contextlib.contextmanager
def lock(folder, kind):
    """Held by one call at a time, of those that build programs of a kind. It ends with the process that has it."""
    try:
        # never removed: a second file of this name would be a second lock
        file = open(os.path.join(folder, f"{kind}.lock"), "w", encoding="utf-8")
    except OSError as error:
        raise Refused(f"nothing can be written in {folder} ({error.strerror}): {ANOTHER}") from error
    with file:
        try:
            fcntl.flock(file, fcntl.LOCK_EX | fcntl.LOCK_NB)
        except BlockingIOError:
            say("another call is building; waiting for it")
            fcntl.flock(file, fcntl.LOCK_EX)
        yield


@contextlib.contextmanager
def room(folder, kind):
    """A folder to build in, for whoever has the lock. What calls that were killed left is removed first."""
    for name in os.listdir(folder):
        if name.startswith(f"room-{kind}-"):
            shutil.rmtree(os.path.join(folder, name), ignore_errors=True)
    made = tempfile.mkdtemp(prefix=f"room-{kind}-", dir=folder)
    try:
        yield made
    finally:
        shutil.rmtree(made, ignore_errors=True)


def put(folder, kind, program, target):
    """Moves a built program to the name `target`, and removes the oldest of its kind beyond eight."""
    whole = os.path.join(os.path.dirname(program), "whole")
    os.mkdir(whole)
    with open(program, "rb") as built, open(os.path.join(whole, NAME), "wb") as file:
        shutil.copyfileobj(built, file)
        os.fchmod(file.fileno(), 0o755)
        file.flush()
        os.fsync(file.fileno())
    # what else has this name has no program in it
    shutil.rmtree(os.path.dirname(target), ignore_errors=True)
    os.rename(whole, os.path.dirname(target))
    for beginning in (f"{kind}-", "listing-code-", "listing-proofs-"):
        trim(folder, beginning)


def trim(folder, beginning):
    """Leaves the newest eight of what has this beginning of a name."""
    with os.scandir(folder) as entries:
        found = [entry for entry in entries if entry.name.startswith(beginning)]
    # another call may remove or replace one of them meanwhile
    with contextlib.suppress(FileNotFoundError):
        for entry in sorted(found, key=lambda it: it.stat().st_mtime_ns, reverse=True)[MOST:]:
            if entry.is_dir():
                shutil.rmtree(entry.path)
            else:
                os.remove(entry.path)
