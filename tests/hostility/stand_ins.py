"""Stand-ins for the program that are broken: each part has to find each fault that it can meet.

A stand-in runs the program, and spoils what it answers as a faulty program would. Where a part begins the program by
itself, the stand-in is a program of its own: a script for large texts, and for valgrind two programs in C.
"""
import contextlib
import os
import shutil
import signal
import subprocess
import tempfile

from . import commands, onlookers, texts
from .right import FAULT
from .running import NO_END, Command, Program
from .tally import Enough, Tally

KILLED = -signal.SIGSEGV
REFUSED = 1


def drops_the_last_line(got):
    """An answer is lost, but for the last line of standard output."""
    return got._replace(out=b"".join(got.out.splitlines(keepends=True)[:-1]))


def says_done(got):
    """A failure is taken for success."""
    return got._replace(status=0)


def crashes(got):
    """Each refusal and each fault is a crash."""
    return got if got.status == 0 else got._replace(status=KILLED, out=b"", err=b"")


def hangs(got):
    """Each refusal and each fault comes without an end."""
    return got if got.status == 0 else got._replace(status=NO_END)


def prints_the_answer_beside_a_fault(got):
    """Something is printed on standard output beside L5 or M1."""
    return got._replace(out=b"accepted 12\n" + got.out) if got.status in (REFUSED, FAULT) else got


def exchanges_lines(got):
    """The first two lines are printed the other way round."""
    lines = got.out.splitlines(keepends=True)
    return got._replace(out=b"".join([*lines[1:2], *lines[:1], *lines[2:]]))


ALWAYS_MET = (drops_the_last_line, exchanges_lines)
MET_AT_FAILURES = (says_done, crashes, hangs, prints_the_answer_beside_a_fault)
FAULTS_OF = {
    "calls": ALWAYS_MET + MET_AT_FAILURES,
    "files": (drops_the_last_line, says_done, crashes, hangs),
    "outputs": (drops_the_last_line, says_done, crashes, hangs),
    "growths": ALWAYS_MET + MET_AT_FAILURES,
    "threads": ALWAYS_MET,
    "limits": ALWAYS_MET + MET_AT_FAILURES,
}


class Broken(Program):
    """The program where nothing fails, and a broken stand-in for it from the first failure on."""

    def __init__(self, program, spoil):
        super().__init__(program.binary, program.library)
        self.spoil = spoil

    def run(self, command, variables=None, **how):
        got = super().run(command, variables, **how)
        return got if variables is None and not how else self.spoil(got)


DROPS = """#!/bin/sh
whole=$(mktemp)
"%s" "$@" >"$whole"
status=$?
sed '$ d' "$whole"
rm "$whole"
exit $status
"""
LOSES = """
#include <stdio.h>
#include <stdlib.h>
int main(void) { return !malloc(10) || puts("accepted 12") < 0; }
"""
RACES = """
#include <pthread.h>
static int count;
static void *work(void *given) { count++; return given; }
int main(void) {
    pthread_t one;
    if (pthread_create(&one, 0, work, 0)) return 1;
    work(0);
    return pthread_join(one, 0);
}
"""


def is_found(name, try_it):
    """Whether a trial notes a wrong answer."""
    tally = Tally(name, is_silent=True)
    with contextlib.suppress(Enough):
        try_it(tally)
    print(f"{name}: {'found' if tally.wrong else 'NOT FOUND'}", flush=True)
    return bool(tally.wrong)


def spoiled_parts(program, parts):
    """Whether each part finds each fault of what is answered."""
    for part in parts:
        for spoil in FAULTS_OF.get(part.name, ()) if not part.missing() else ():
            broken = Broken(program, spoil)
            yield is_found(f"{part.name}, {spoil.__name__}", lambda tally: part.tried(broken, tally, False))


def other_programs(program, room):
    """Whether large texts and valgrind find a broken program in the place of this one."""
    script = os.path.join(room, "drops")
    with open(script, "w", encoding="ascii") as file:
        file.write(DROPS % program.binary)
    os.chmod(script, 0o755)
    yield is_found("texts, drops_the_last_line", lambda tally: texts.tried(Program(script), tally, False))
    command = Command((), commands.EXAMPLES)
    for name, text, try_it in (("loses memory", LOSES, onlookers.try_memcheck), ("races", RACES, onlookers.try_drd)):
        if shutil.which("cc") and shutil.which("valgrind"):
            made = Program(os.path.join(room, "made"))
            subprocess.run(["cc", "-O0", "-pthread", "-o", made.binary, "-xc", "-"], input=text.encode(), check=True)
            yield is_found(f"onlookers, {name}", lambda tally: try_it(made, tally, room, command))


def tried(program, parts):
    """How many faults were found, and how many weren't."""
    with tempfile.TemporaryDirectory() as room:
        found = [*spoiled_parts(program, parts), *other_programs(program, room)]
    return sum(found), len(found) - sum(found)
