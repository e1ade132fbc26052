"""Each growth of memory is refused in turn, and all from each on: so memory stays short.

Right is the answer as where none is refused, or `refused M1` alone with status 1. Standard error says the same, but the
file and the line of a refusal may be missing, and the file of L5. Of `run` any output is right that the reading of
tests/legality accepts, where an operator's call that takes memory may answer M1 in its place: any thread may meet the
refusal.

The short form takes the commands of `short_words`, and of each at most SAMPLE growths, spread evenly over all of it.
`--all` takes each growth of every command on every deck, change deck and script of examples/, and of tests/cases of at
most 20 KB. tests/growths takes each growth of fewer commands, one at a time.
"""
from . import commands
from .refusing import always, refused_in_turn
from .right import Right

SAMPLE = 40


def tried(program, tally, is_all):
    for command in commands.everything() if is_all else commands.short():
        right = Right(command, program.run(command))
        turns = None if is_all else sample(growths_of(program, command))
        for last, what in ((None, "growth"), (always, "growths from number")):
            for turn, got in refused_in_turn(program, command, "m", "ENOMEM", last, turns):
                tally.note(way_of(right, got), command, f"{what} {turn}", got)


def way_of(right, got):
    if right.is_without_memory(got):
        return "M1"
    is_same = right.is_answer(got, True) or (right.is_unread(right.whole) and right.is_unread(got))
    return "answered" if is_same else None


def growths_of(program, command):
    """How many growths a command asks for: of a script in one run, since threads don't always ask for the same."""
    least, most = 0, 1
    while is_asked(program, command, most):
        least, most = most, 2 * most
    while most - least > 1:
        middle = (least + most) // 2
        least, most = (middle, most) if is_asked(program, command, middle) else (least, middle)
    return least


def is_asked(program, command, turn):
    """Whether a command asks for a growth of this number. It is counted, and not refused."""
    return bool(program.run(command, {"KINDS": "m", "FIRST": str(turn), "LAST": "0"}).told)


def sample(count):
    """The first few growths, the last few, and others at equal steps between."""
    steps = [1 + place * (count - 1) // (SAMPLE - 1) for place in range(SAMPLE)]
    return sorted(set(steps)) if count else []
