"""One call after the other is refused under a command, until it makes no further one."""
from .library import ALWAYS
from .right import Right

ERRORS = {"EINTR": 4, "EIO": 5, "EAGAIN": 11, "ENOMEM": 12, "EMFILE": 24, "ENOSPC": 28, "nothing": 0}
MOST_TURNS = 100_000


def refused_in_turn(program, command, kinds, error, last=None, turns=None):
    """Each turn at which a call of these kinds is refused, with the answer. `last` says which call is the last that is
    refused, where that isn't the first one; `turns` which turns are tried, where these aren't all."""
    for turn in turns or range(1, MOST_TURNS):
        variables = {"KINDS": kinds, "FIRST": str(turn), "ERROR": str(ERRORS[error])}
        if last is not None:
            variables["LAST"] = last(turn)
        got = program.run(command, variables)
        if not got.told:
            return
        yield turn, got


def always(_):
    """Every call from the first that is refused on."""
    return ALWAYS


def try_each(program, commands, tally, kinds, error, way_of, last=None, turns=None):
    """Refuses calls of each command in turn. `way_of(right, got)` names the way of an answer that is right."""
    what = f"{error} at the calls {kinds}" + (" from number" if last else " with the number")
    for command in commands:
        right = Right(command, program.run(command))
        for turn, got in refused_in_turn(program, command, kinds, error, last, turns):
            tally.note(way_of(right, got), command, f"{what} {turn}", got)
