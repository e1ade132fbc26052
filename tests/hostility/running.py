"""A command of the program is run, as a user runs it or under some hardship, and all that it answers is kept."""
import os
import subprocess
from typing import NamedTuple

LONGEST = 60  # seconds by the clock, on a machine that has other work to do; the longest trial takes a tenth of one
NO_END = -999  # the exit status of a command that didn't end


class Command(NamedTuple):
    """The words behind the program's name, the folder in which they name files, and what comes on standard input."""

    words: tuple
    room: str
    given: bytes = b""

    def text(self):
        return " ".join(self.words)


class Answer(NamedTuple):
    """The exit status, or the negative number of the signal that killed the command; what it wrote; and what the
    stand-in for the C library told of calls that it refused."""

    status: int
    out: bytes
    err: bytes
    told: bytes = b""

    def text(self):
        end = {NO_END: "no end"}.get(self.status, f"status {self.status}")
        return f"{end}, {self.out[:200]!r}, {self.err[:200]!r}"


class Program:
    """The built program, with the stand-in for the C library that it is run under, if there is one."""

    def __init__(self, binary, library=""):
        self.binary, self.library = binary, library

    def run(self, command, variables=None, **how):
        """What a command answers. With variables the stand-in is loaded first, and they say what it refuses. `how` is
        for `subprocess`, as a standard output of its own, or limits that are set before the program begins."""
        if variables is None:
            return answer_of([self.binary, *command.words], command, how)
        reader, writer = os.pipe()
        try:
            variables = {"LD_PRELOAD": self.library, "TELLS": str(writer), **variables}
            got = answer_of([self.binary, *command.words], command, {"env": variables, "pass_fds": (writer,), **how})
        finally:
            os.close(writer)
        with os.fdopen(reader, "rb") as told:
            return got._replace(told=told.read())


def answer_of(words, command, how):
    """What some words answer in the folder of a command, and with its standard input."""
    given = {} if "stdin" in how else {"input": command.given} if command.given else {"stdin": subprocess.DEVNULL}
    asked = {"cwd": command.room, "stdout": subprocess.PIPE, "stderr": subprocess.PIPE, "timeout": LONGEST}
    try:
        got = subprocess.run(words, **{**asked, **given, **how})
    except subprocess.TimeoutExpired as late:
        return Answer(NO_END, late.stdout or b"", late.stderr or b"")
    return Answer(got.returncode, got.stdout or b"", got.stderr or b"")
