"""Builds a crate without proofs, as the launcher builds the program,
and keeps what is built: `built(home, room, words)`.

It has the checks of `rt try` (an index, a sum, a cast, a divisor), and no sanitizer:
so a library can be loaded before it that refuses memory.
"""
import os
import subprocess
import sys

from .crate import TOP

sys.path.insert(0, TOP)
from building import quick
from building.kit import Kit


def ran(words, folder, **how):
    """What a command of the build said; the run ends here where it failed."""
    how |= {"stdin": subprocess.DEVNULL, "stdout": subprocess.PIPE, "stderr": subprocess.STDOUT}
    done = subprocess.run(words, cwd=folder, text=True, errors="replace", **how)
    return done.returncode, done.stdout


def must_run(words, folder):
    status, said = ran(words, folder)
    if status:
        sys.exit(f"{words[0]}: {said}")


def built(home, room, words):
    """The path of the program of a crate, in a room of its own. `words` are those of `rt try` for it."""
    kit = Kit()
    temporary = os.path.join(room, "tmp")
    os.mkdir(temporary)
    _, said = ran([quick.stand_in(kit, room), "try", *words], home, env={**os.environ, "TMPDIR": temporary})
    if not os.path.exists(os.path.join(room, "words")):
        sys.exit(said)
    with open(os.path.join(room, "words"), encoding="utf-8") as file:
        given = file.read().splitlines()
    # the name of the file is in the usage text, which cases compare
    program = os.path.join(room, os.path.basename(home))
    for command in quick.makings(kit, given, program):
        must_run(command, room)
    return program
