"""Reads, writes, opens and closes are refused in turn, and give less than was asked for.

Right is the answer as without a failure, or L5 or L6 with status 3. In particular:

- a read or an open that fails is L5, and standard output is empty; or it was one that only says more of a refusal;
- where it goes on failing, L5 has the name of a file;
- a write to standard output that fails is L6, and what was written is the beginning of the answer;
- a write to standard error that fails changes neither the answer nor the exit status, and loses what it would have
  said; where the words aren't understood, so that only standard error says something, L6 is right too;
- after an interrupted call (EINTR) the answer is whole, or L5: the kit reads again from standard input only;
- reads and writes of 1 to 7 bytes change nothing.
"""
from . import commands
from .refusing import always, try_each
from .right import Right

FEW = (1, 2, 3, 7)  # bytes
INTERRUPTED = 20  # calls one after the other


def tried(program, tally, is_all):
    """Each command of the short form, or every one on every small file."""
    asked = commands.everything() if is_all else list(commands.short())
    try_few_bytes(program, asked, tally, range(1, 8) if is_all else FEW)
    try_each(program, asked, tally, "r", "EIO", way_of_read)
    try_each(program, asked, tally, "r", "EIO", way_of_lasting_read, always)
    try_each(program, asked, tally, "o", "EIO", way_of_read)
    try_each(program, asked, tally, "o", "EMFILE", way_of_lasting_read, always)
    for error in ("EIO", "ENOSPC", "nothing"):
        try_each(program, asked, tally, "w", error, way_of_write)
        try_each(program, asked, tally, "w", error, way_of_write, always)
    try_each(program, asked, tally, "c", "EIO", way_of_answer, always)
    try_each(program, asked, tally, "rwoc", "EINTR", way_of_read)
    try_each(program, asked, tally, "woc", "EINTR", way_of_answer, lambda turn: str(turn + INTERRUPTED))


def try_few_bytes(program, asked, tally, sizes):
    """Each read, and then each write, gives a few bytes at the most."""
    for command in asked:
        right = Right(command, program.run(command))
        for size in sizes:
            for name in ("READS", "WRITES"):
                got = program.run(command, {name: str(size)})
                tally.note(way_of_answer(right, got), command, f"{name.lower()} of {size} bytes", got)


def way_of_answer(right, got):
    return "answered" if right.is_answer(got) else None


def way_of_read(right, got):
    return "L5" if right.is_unread(got) else way_of_answer(right, got)


def way_of_lasting_read(right, got):
    is_quiet = "--quiet" in right.command.words
    return "L5" if right.is_unread(got, not is_quiet) else way_of_answer(right, got)


def way_of_write(right, got):
    """The first call that failed was to standard output, or to standard error, which may then say less."""
    if got.told == b"w1":
        return "L6" if right.is_unwritten(got) else None
    whole = right.whole
    if right.is_unsaid(got):
        return "L6"
    is_less = got.status == whole.status and got.out == whole.out and is_part(got.err, whole.err)
    return "answered" if is_less else None


def is_part(said, whole):
    """Whether standard error says what it would say, but for some lines, or parts of lines at the end."""
    left = iter(whole.splitlines(keepends=True))
    return all(any(line.startswith(part) for line in left) for part in said.splitlines(keepends=True))
