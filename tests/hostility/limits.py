"""The system's limits, in steps: stack, address space, data, processes.

Right is the answer as without a limit, or `refused M1`, as of growths. Below some address space the system itself can't
begin the program: there nothing is to be answered, and its dynamic linker says so with status 127. A limit of processes
keeps `run` from making threads, and so its answer is whole.
"""
import os
import resource

from . import commands
from .calls import way_of_answer
from .growths import way_of
from .right import Right
from .running import Command

KB, MB = 1024, 1024 * 1024
SMALL_STACK = 256 * KB
STEPS = (
    ("an address space", resource.RLIMIT_AS, range(MB, 40 * MB, MB // 2), range(MB, 120 * MB, 128 * KB)),
    ("data", resource.RLIMIT_DATA, range(0, 512 * KB, 16 * KB), range(0, 2 * MB, 4 * KB)),
)
NOBODY = 54321  # a user with no process
UNBEGUN = 127  # the status where the dynamic linker gives up


def tried(program, tally, is_all):
    asked = commands.everything() if is_all else list(commands.short())
    for command in asked:
        right = Right(command, program.run(command))
        got = limited(program, command, resource.RLIMIT_STACK, SMALL_STACK)
        tally.note(way_of_answer(right, got), command, "a stack of 256 KB", got)
    few = [command for command in commands.short() if command.words[0] in ("run", "apply", "diff")]
    for command in few if is_all else few[:1] + few[-3:]:
        right = Right(command, program.run(command))
        for what, which, sizes, all_sizes in STEPS:
            for size in all_sizes if is_all else sizes:
                got = limited(program, command, which, size)
                way = way_of(right, got) if begins(program, got, which, size) else "not begun"
                tally.note(way, command, f"{what} of {size:,} bytes", got)
    try_without_processes(program, tally)


def limited(program, command, which, size, **how):
    """What a command answers under a limit."""
    return program.run(command, preexec_fn=lambda: resource.setrlimit(which, (size, size)), **how)


def begins(program, got, which, size):
    """Whether the program began that ended so under a limit. Where it was killed, the dynamic linker tells: it is asked
    to load the program and not to begin it."""
    if got.status >= 0:
        return got.status != UNBEGUN
    loading = Command((), commands.EXAMPLES)
    return limited(program, loading, which, size, env={"LD_TRACE_LOADED_OBJECTS": "1"}).status == 0


def try_without_processes(program, tally):
    """No further process, nor a thread. This binds no root; so root becomes another user."""
    how = {"user": NOBODY, "group": NOBODY, "extra_groups": []} if os.getuid() == 0 else {}
    for command in commands.scripts():
        right = Right(command, program.run(command))
        try:
            got = limited(program, command, resource.RLIMIT_NPROC, 1, **how)
        except PermissionError:
            tally.skip("a limit of processes", f"no other user may run {program.binary}")
            return
        tally.note(way_of_answer(right, got), command, "one process", got)
