"""Standard output, standard error and standard input are closed, full, or end early; descriptors are few.

Right is:

- where standard output takes nothing, L6 with status 3; a command that prints nothing has nothing to lose;
- where its reader ends after a line, L6, or the answer if all of it was written before;
- where standard error takes nothing, the same answer and exit status, or L6 where the words aren't understood;
- without standard input the same answer, and of `-` L5;
- where descriptors are missing, L5.
"""
import fcntl
import os
import resource
import signal
import subprocess

from . import commands
from .right import FAULT, L6, NOT_UNDERSTOOD, Right
from .running import Answer, Command

FULL = "/dev/full"
MANY = 30  # change decks
FEW_DESCRIPTORS = 16
SMALL_FILE = 64  # bytes
ENDED_EARLY = (
    ("explain",),
    ("show", "grown.deck"),
    ("check", "refused.deck"),
    ("apply", "base.deck", "grown.change"),
)


def tried(program, tally, is_all):
    for command in commands.of_examples() if is_all else commands.short():
        right = Right(command, program.run(command))
        try_without_output(program, tally, right)
        try_without_error(program, tally, right)
        got = program.run(command, preexec_fn=lambda: os.close(0), stdin=None)
        is_asked = "-" in command.words
        way = "L5" if is_asked and right.is_unread(got, True) else None if is_asked else answered(right, got)
        tally.note(way, command, "standard input is closed", got)
    try_early_ends(program, tally)
    try_few_descriptors(program, tally)


def answered(right, got):
    return "answered" if right.is_answer(got) else None


def unwritten(right, got):
    """The way of an answer of which nothing, or only the beginning, could be written."""
    if not right.whole.out:
        return "L6" if right.is_unsaid(got) else answered(right, got)
    return "L6" if right.is_unwritten(got) and got.err in (L6, b"") else None


def try_without_output(program, tally, right):
    """Standard output is closed, full, a pipe that nobody reads, or a pipe that is full."""
    command = right.command
    got = program.run(command, preexec_fn=lambda: os.close(1), stdout=None)
    tally.note(unwritten(right, got), command, "standard output is closed", got)
    got = program.run(command, preexec_fn=close_all, stdout=None, stderr=None)
    is_said = right.whole.out or right.whole.status == NOT_UNDERSTOOD
    wanted = FAULT if is_said else right.whole.status
    tally.note("L6" if got.status == wanted else None, command, "all three are closed", got)
    with open(FULL, "wb") as full:
        got = program.run(command, stdout=full)
    tally.note(unwritten(right, got), command, "standard output is full", got)
    for what, writer, ends in (("nobody reads", *unread_pipe()), ("pipe is full", *full_pipe())):
        got = program.run(command, stdout=writer)
        tally.note(unwritten(right, got), command, what, got)
        for descriptor in (writer, *ends):
            os.close(descriptor)
    try_small_file(program, tally, right)


def close_all():
    os.closerange(0, 3)


def unread_pipe():
    """A pipe that nobody reads: its side to write to."""
    reader, writer = os.pipe()
    os.close(reader)
    return writer, ()


def full_pipe():
    """A pipe with no room, where a write doesn't wait: its side to write to, and the other one."""
    reader, writer = os.pipe()
    flags = fcntl.fcntl(writer, fcntl.F_GETFL)
    fcntl.fcntl(writer, fcntl.F_SETFL, flags | os.O_NONBLOCK)
    try:
        while True:
            os.write(writer, b"x" * 4096)
    except BlockingIOError:
        return writer, (reader,)


def try_small_file(program, tally, right):
    """Standard output is a file that may not grow over a limit; the signal that tells of it is ignored."""

    def limit():
        signal.signal(signal.SIGXFSZ, signal.SIG_IGN)
        resource.setrlimit(resource.RLIMIT_FSIZE, (SMALL_FILE, SMALL_FILE))

    reader = os.memfd_create("out")
    got = program.run(right.command, stdout=reader, preexec_fn=limit, restore_signals=False)
    written = os.pread(reader, SMALL_FILE + 1, 0)
    os.close(reader)
    got = got._replace(out=written)
    is_whole = len(right.whole.out) <= SMALL_FILE
    tally.note(answered(right, got) if is_whole else unwritten(right, got), right.command, "a file's limit", got)


def try_without_error(program, tally, right):
    """Standard error is closed, full, or a pipe that nobody reads."""
    command, whole = right.command, right.whole
    writer, _ = unread_pipe()
    with open(FULL, "wb") as full:
        for what, how in (
            ("closed", {"preexec_fn": lambda: os.close(2), "stderr": None}),
            ("full", {"stderr": full}),
            ("a pipe that nobody reads", {"stderr": writer}),
        ):
            got = program.run(command, **how)
            is_same = right.is_answer(got._replace(err=whole.err))
            way = "answered" if is_same else "L6" if right.is_unsaid(got) else None
            tally.note(way, command, f"standard error is {what}", got)
    os.close(writer)


def try_early_ends(program, tally):
    """The reader takes one line and ends, as `head -1`; or one byte."""
    for words in ENDED_EARLY:
        command = Command(words, commands.EXAMPLES)
        right = Right(command, program.run(command))
        for taken in (1, 80):
            got = run_to_reader(program, command, taken)
            is_right = right.is_unwritten(got) or right.is_answer(got._replace(out=right.whole.out))
            way = "L6 or answered" if is_right and right.whole.out.startswith(got.out) else None
            tally.note(way, command, "an early end", got)


def run_to_reader(program, command, count):
    """What a command answers whose reader takes so many bytes and ends."""
    how = {"cwd": command.room, "stdin": subprocess.DEVNULL, "stdout": subprocess.PIPE, "stderr": subprocess.PIPE}
    with subprocess.Popen([program.binary, *command.words], **how) as running:
        out = running.stdout.read(count)
        running.stdout.close()
        err = running.stderr.read()
    return Answer(running.returncode, out, err)


def try_few_descriptors(program, tally):
    """More change decks than files may be open: all are opened before one is read."""

    def limit():
        resource.setrlimit(resource.RLIMIT_NOFILE, (FEW_DESCRIPTORS, FEW_DESCRIPTORS))

    words = ("run", "base.deck", "redo.script", *["grown.change"] * MANY)
    command = Command(words, commands.EXAMPLES)
    got = program.run(command, preexec_fn=limit)
    tally.note("L5" if Right(command, got).is_unread(got) else None, command, "few descriptors", got)
