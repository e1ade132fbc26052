"""Runs parts, several side by side, and counts what passed and what processor time they took."""
import os
import re
import shutil
import signal
import subprocess
import time
from collections import namedtuple

from building.commands import ENDING, started

from .program import TOP

COUNTS = r"^{}(\d+) passed, (\d+) failed$"
LIMIT = 3600

Result = namedtuple("Result", "part passed failed seconds processor said")


def counts(part, said, status):
    """What a part says of itself. If it says nothing, or ended badly without a failure, one counts as failed."""
    found = re.findall(COUNTS.format(re.escape(part.counted)), said, re.M)
    passed, failed = map(int, found[-1]) if found else (0, 1)
    return passed, max(failed, int(status != 0))


class Running:
    """A part that runs; what it prints goes into a file of the room."""

    def __init__(self, part, room, program):
        self.part, self.log, self.begun = part, os.path.join(room, f"{part.name}.log"), time.monotonic()
        words = [word.format(program=program) for word in part.words.split()]
        with open(self.log, "wb") as log:
            how = {"stdin": subprocess.DEVNULL, "stdout": log, "stderr": subprocess.STDOUT, "start_new_session": True}
            self.child = subprocess.Popen(words, cwd=TOP, **how)

    def is_too_late(self):
        return time.monotonic() - self.begun > LIMIT

    def end(self):
        """Ends what the part has started, too."""
        try:
            os.killpg(self.child.pid, signal.SIGKILL)
        except ProcessLookupError:
            pass

    def result(self, status, used):
        """What came of it, by its exit status and the processor time that the system says."""
        with open(self.log, encoding="utf-8", errors="replace") as file:
            said = file.read()
        processor = used.ru_utime + used.ru_stime
        return Result(self.part, *counts(self.part, said, status), time.monotonic() - self.begun, processor, said)


def side_by_side(parts, room, program, lanes):
    """The result of each part, as soon as it is there; at most so many run at once.
    A signal to end is looked for in each round."""
    waiting, running, ENDING.is_held = list(parts), {}, True
    try:
        while (waiting or running) and not ENDING.number:
            while waiting and len(running) < lanes:
                new = Running(waiting.pop(0), room, program)
                running[new.child.pid] = new
            number, status, used = os.wait4(-1, os.WNOHANG)
            if number in running:
                ended = running.pop(number)
                ended.end()
                ended.child.returncode = status
                yield ended.result(status, used)
            elif not number:
                for late in filter(Running.is_too_late, running.values()):
                    late.end()
                time.sleep(0.05)
    finally:
        for left in running.values():
            left.end()
        ENDING.release()


def alone(part):
    """The result of a part that has all processors, and whose lines are shown as they come."""
    begun, said = time.monotonic(), []
    with started(part.words.split(), stdout=subprocess.PIPE, cwd=TOP, text=True, errors="replace") as child:
        for line in child.stdout:
            said.append(line)
            print(line, end="", flush=True)
        _, child.returncode, used = os.wait4(child.pid, 0)
    text, processor = "".join(said), used.ru_utime + used.ru_stime
    return Result(part, *counts(part, text, child.returncode), time.monotonic() - begun, processor, text)


def can_run(part):
    """Whether the machine has what a part needs; says so where it hasn't."""
    if part.needs is None or shutil.which(part.needs):
        return True
    print(f"{part.name}: left out: {part.needs} is not on the PATH", flush=True)
    return False


def tell(result):
    """A line for a part; below it all that it printed, if something failed."""
    print(f"{result.part.name}: {result.passed} passed, {result.failed} failed ({result.seconds:.0f} s)", flush=True)
    if result.failed:
        print(result.said, end="" if result.said.endswith("\n") else "\n", flush=True)
