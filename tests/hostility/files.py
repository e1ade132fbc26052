"""Each file of a command is a folder, a device, a pipe, or can't be read, or is no plain file in another way.

Right is:

- where it can't be opened or read, L5 with its name, and nothing on standard output;
- where it has the bytes of the file in whose place it is, the same answer, also of a pipe that gives a few bytes at a
  time; standard error may lack file and line where the bytes can't be read once more;
- of a file that changes while it is read, the answer to one of its two texts. Where the system cuts it off under a
  read, that gives zero bytes in place of what was cut off, which are refused (L1).
"""
import os
import re
import socket
import tempfile

from . import commands
from .feeding import changing, fed
from .right import Right
from .running import Command

SHORT_WAIT = 20  # seconds by the clock
NOBODY = 54321  # a user who owns no file
CHANGING_RUNS = 40
TORN = re.compile(rb"refused L1 line \d+\n")


def tried(program, tally, is_all):
    with tempfile.TemporaryDirectory() as room:
        os.chmod(room, 0o755)
        unreadable = list(unreadable_files(room))
        for command in commands.of_examples() if is_all else commands.short():
            places = file_places(command)
            for place in places:
                for name in unreadable:
                    try_unreadable(program, tally, replaced(command, place, name), name, place == places[0])
                try_pipes(program, tally, room, command, place)
        try_no_permission(program, tally, room)
        try_changing(program, tally, room)


def file_places(command):
    """The places of the words that name files."""
    return [at for at, word in enumerate(command.words) if os.path.isfile(os.path.join(command.room, word))]


def replaced(command, place, name):
    return command._replace(words=(*command.words[:place], name, *command.words[place + 1 :]))


def unreadable_files(room):
    """Names of files that can't be opened, or can't be read."""
    yield from (room, "", "no/such/file", "x" * 300, "/proc/self/mem")
    loop, ear = os.path.join(room, "loop"), os.path.join(room, "ear")
    os.symlink(loop, loop)
    yield loop
    with socket.socket(socket.AF_UNIX) as listening:
        listening.bind(ear)
    yield ear


def try_unreadable(program, tally, command, name, is_first):
    """The first file that can't be read is named, unless another refusal comes before it is read: a directory is opened
    first, so it may stand behind a file that is refused."""
    got = program.run(command)
    right = Right(command, got)
    may_be_refused = not is_first or not os.path.isdir(name)
    is_refused_before = got.status == 1 and may_be_refused and got.out.startswith(b"refused ")
    named = name if "--quiet" not in command.words else None
    way = "L5" if right.is_unread(got, named is not None) else "refused before" if is_refused_before else None
    tally.note(way, command, f"unreadable {name[:40]!r}", got)


def try_pipes(program, tally, room, command, place):
    """The bytes of the file come through a named pipe, and through standard input by two names of it."""
    path = os.path.join(command.room, command.words[place])
    with open(path, "rb") as file:
        data = file.read()
    pipe = os.path.join(room, "pipe")
    with fed(pipe, data):
        compare(program, tally, command, replaced(command, place, pipe), "a named pipe", timeout=SHORT_WAIT)
    if "-" in command.words:
        return
    for name in ("/dev/stdin", "-"):
        compare(program, tally, command, replaced(command, place, name)._replace(given=data), "a pipe")
        with open(path, "rb") as file:
            compare(program, tally, command, replaced(command, place, name), "a file", stdin=file)


def compare(program, tally, command, other, what, **how):
    """Whether the other command answers as the first one, but for the file's name."""
    right = Right(command, program.run(command))
    got = program.run(other, **how)
    said = got
    for word, name in zip(command.words, other.words):
        if word != name:
            called = "standard input" if name == "-" else name
            said = got._replace(err=got.err.replace(called.encode(), word.encode()))
    tally.note("answered" if right.is_answer(said) else None, other, what, got)


def try_no_permission(program, tally, room):
    """A file that this user may not read; root becomes another user for it."""
    closed = os.path.join(room, "closed")
    with open(closed, "wb") as file:
        file.write(b"x")
    os.chmod(closed, 0)
    command = Command(("check", closed), room)
    how = {"user": NOBODY, "group": NOBODY, "extra_groups": []} if os.getuid() == 0 else {}
    try:
        got = program.run(command, **how)
    except PermissionError:
        tally.skip("a file without permission", f"no other user may run {program.binary}")
        return
    tally.note("L5" if Right(command, got).is_unread(got, True) else None, command, "a file without permission", got)


def try_changing(program, tally, room):
    """A deck grows by a device and shrinks again while it is read."""
    with open(os.path.join(commands.EXAMPLES, "base.deck"), "rb") as file:
        data = file.read()
    more = b"         IODEVICE ADDRESS=(1004,2),CUNUMBR=(1000)\n"
    command, path = Command(("show", "deck"), room), os.path.join(room, "deck")
    outs = set()
    for text in (data + more, data):
        with open(path, "wb") as file:
            file.write(text)
        outs.add(program.run(command).out)
    with changing(path, data, more):
        for _ in range(CHANGING_RUNS):
            got = program.run(command)
            is_one = got.status == 0 and got.out in outs and not got.err
            is_torn = got.status == 1 and TORN.fullmatch(got.out)
            tally.note("answered" if is_one or is_torn else None, command, "a file that changes", got)
