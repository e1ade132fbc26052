"""No thread can be made, or not each: `run` needs none.

Where a thread is refused the kit's `join` calls both closures one after the other, and each actor still does its lines
in order. So right is what is right without a failure: an output that the reading of tests/legality accepts, without
M1. A thread is refused at its making (EAGAIN) or while it is prepared (ENOMEM): each in turn, and all from each on.
A wait that ends at once (EINTR, EAGAIN) changes nothing.
"""
import os
import random
import tempfile

from legality.drawn import drawn
from legality.playing import case_of

from . import commands
from .calls import way_of_answer
from .refusing import always, try_each
from .running import Command

DRAWN, ALL_DRAWN = 6, 60
WAITS, ALL_WAITS = range(1, 6), None  # how many waits come differs from run to run


def tried(program, tally, is_all):
    """The scripts of examples/ and some that are drawn."""
    with tempfile.TemporaryDirectory() as room:
        asked = commands.scripts() + drawn_scripts(room, ALL_DRAWN if is_all else DRAWN)
        for kinds, error in (("t", "EAGAIN"), ("a", "ENOMEM")):
            try_each(program, asked, tally, kinds, error, way_of_answer)
            try_each(program, asked, tally, kinds, error, way_of_answer, always)
        for error in ("EINTR", "EAGAIN"):
            try_each(program, asked, tally, "s", error, way_of_answer, turns=ALL_WAITS if is_all else WAITS)


def drawn_scripts(room, count):
    """The commands of some scripts as tests/legal draws them."""
    found = []
    for number in range(count):
        folder = os.path.join(room, str(number))
        os.mkdir(folder)
        case = case_of(drawn(random.Random(f"hostile-{number}"), False))
        found.append(Command(tuple(case.write(folder)), folder))
    return found
