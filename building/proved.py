"""Proves the program's crates by `rt ci`, on a copy of them, and builds the program.

What `rt ci` proves it keeps on this machine, crate by crate. So a run that was stopped goes on where it was,
sources may be edited meanwhile, and what is proved here counts for the gate too.
"""
import os
import re
import shutil
import sys
import time

from .answers import Refused, say
from .commands import lines

PARTS = ("src", "specs", "proofs", "data", "args", "stdin", "stdout", "status")
PROVED = re.compile(r"rt: (\w+) (proved$|is kept: )")
LAST_LINES = 60
DISK = 3 << 30
HINT = "stop it when you like: the next --prove goes on from there"


def copy_sources(top, sources, to):
    """The program's crates with their proofs, as the top of a repository."""
    os.makedirs(f"{to}/.git")
    for name in sources.crates:
        for part in PARTS:
            source, target = f"{top}/crates/{name}/{part}", f"{to}/crates/{name}/{part}"
            if os.path.isdir(source):
                shutil.copytree(source, target)
            elif os.path.exists(source):
                os.makedirs(os.path.dirname(target), exist_ok=True)
                shutil.copyfile(source, target)
    with open(f"{to}/crates.txt", "w", encoding="utf-8") as file:
        file.writelines(sources.crates.values())
    if os.path.exists(f"{top}/HANDLES"):
        shutil.copyfile(f"{top}/HANDLES", f"{to}/HANDLES")


def bytes_below(folder):
    return sum(os.path.getsize(os.path.join(at, name)) for at, _, names in os.walk(folder) for name in names)


def in_words(seconds):
    minutes = round(seconds / 60)
    return "1 minute" if minutes == 1 else f"{minutes} minutes"


class Progress:
    """How many crates are proved, and how long the others are likely to take: by bytes, as those of this run took."""

    def __init__(self, sizes):
        self.sizes, self.left, self.begun = sizes, dict(sizes), time.monotonic()
        self.proved = 0

    def note(self, name, is_kept):
        """Says what is known after a crate; `is_kept` if an earlier run has proved it."""
        if name not in self.left:
            return
        size, passed = self.left.pop(name), time.monotonic() - self.begun
        self.proved += 0 if is_kept else size
        done = f"{len(self.sizes) - len(self.left)} of {len(self.sizes)}"
        text = f"{name} {'was proved before' if is_kept else 'is proved'}: {done}"
        text += f", after {in_words(passed)}"
        if self.proved and self.left:
            text += f", about {in_words(passed * sum(self.left.values()) / self.proved)} left"
        say(text)


def build(top, kit, sources, room):
    """The path of the program that `rt ci` proved and built."""
    to = f"{room}/tree"
    if shutil.disk_usage(room).free < DISK:
        hint = "set XDG_CACHE_HOME to a folder on another disk"
        raise Refused(f"fewer than 3 GB are free in {room}, and proofs need them: {hint}")
    copy_sources(top, sources, to)
    say(f"proving {len(sources.crates)} crates but those that are proved on this machine; {HINT}")
    progress = Progress({name: bytes_below(f"{to}/crates/{name}") for name in sources.crates})
    status, log = None, []
    for line in lines([kit.path("bin/rt"), "ci"], cwd=to):
        if isinstance(line, int):
            status = line
            continue
        log = [*log[-LAST_LINES + 1 :], line]
        found = PROVED.match(line)
        if found:
            progress.note(found[1], found[2] != "proved")
    program = f"{to}/crates/iocm/out/iocm"
    if status or not os.access(program, os.X_OK):
        sys.stderr.writelines(log)
        raise Refused(f"rt ci ended with status {status}" if status else "rt ci built no program")
    return program
