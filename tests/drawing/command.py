"""The command: its options, its processes, and what is printed."""
import os
import pickle
import shutil
import signal
import sys
import tempfile
import time

from gate.program import program_of

from .cases import Case
from .kinds import dice_of, play
from .running import Program
from .tally import Tally
from .trials import try_self

MEMORY = "/dev/shm"
MOST_PRINTED = 20
DEFAULTS = {"--seed": 1, "--seconds": None, "--count": None, "--jobs": 1, "--only": None, "--keep": None}
CHECKS = "--checks"
SECONDS = 60


def options_of(words):
    """The options by name, and the binary; None where the words aren't understood."""
    options, left = {**DEFAULTS, CHECKS: False}, list(words)
    binary, is_self = None, False
    while left:
        word = left.pop(0)
        if word == "--self":
            is_self = True
        elif word == CHECKS:
            options[word] = True
        elif word in DEFAULTS and left:
            text = left.pop(0)
            options[word] = text if word == "--keep" else float(text) if word == "--seconds" else int(text)
        elif binary is None and not word.startswith("--"):
            binary = word
        else:
            return None
    return options, binary, is_self


class Worker:
    """Plays the cases of one process: every so-manieth number. A signal to end lets it finish its case, and count."""

    def __init__(self, binary, options, room):
        self.options, self.binary = options, binary
        self.program, self.tally, self.printed, self.is_over = Program(binary, room), Tally(), 0, False
        for ending in (signal.SIGTERM, signal.SIGINT):
            signal.signal(ending, self.end)

    def end(self, _signal, _frame):
        self.is_over = True

    def numbers(self, first, step):
        """The numbers of cases, till the count or the time is over."""
        only, count, seconds = (self.options[name] for name in ("--only", "--count", "--seconds"))
        if only is not None:
            yield only
            return
        until = time.monotonic() + (seconds or SECONDS)
        number = first
        while not self.is_over and (number < count if count is not None else time.monotonic() < until):
            yield number
            number += step

    def play(self, first, step):
        for number in self.numbers(first, step):
            case = Case(self.program, self.tally, dice_of(self.options["--seed"], number), self.options[CHECKS])
            play(case)
            if self.is_over:
                self.tally.cut_short += 1  # its runs may have had the signal, too
            elif case.faults:
                self.tell(case, number)

    def tell(self, case, number):
        """Prints a case that failed, with the command that plays it again, and keeps its files."""
        self.tally.failed += 1
        seed = self.options["--seed"]
        folder = os.path.join(self.options["--keep"] or tempfile.gettempdir(), f"drawn-{seed}-{number}")
        if self.printed >= MOST_PRINTED:
            return
        self.printed += 1
        case.keep(folder)
        checks = f" {CHECKS}" if self.options[CHECKS] else ""
        again = f"tests/drawn {self.binary}{checks} --seed {seed} --only {number}"
        lines = [f"case {number} failed: {again}", f"  files: {folder}"]
        lines += [f"  {name}: {text}" for name, text in case.faults[:3]]
        print("\n".join(lines), flush=True)


def work(binary, options, room, first, step):
    """What one process counts."""
    os.makedirs(room, exist_ok=True)
    worker = Worker(binary, options, room)
    worker.play(first, step)
    return worker.tally


def work_apart(binary, options, room, jobs):
    """What some processes count together; each leaves its counts in a file."""
    children = []
    for first in range(jobs):
        child = os.fork()
        if child == 0:
            tally = work(binary, options, os.path.join(room, str(first)), first, jobs)
            with open(os.path.join(room, f"{first}.tally"), "wb") as file:
                pickle.dump(tally, file)
            os._exit(0)
        children.append(child)
    signal.signal(signal.SIGINT, signal.SIG_IGN)  # it reaches the processes, which finish their cases
    signal.signal(signal.SIGTERM, lambda *_: [os.kill(child, signal.SIGTERM) for child in children])
    for child in children:
        os.waitpid(child, 0)
    tally = Tally()
    for first in range(jobs):
        with open(os.path.join(room, f"{first}.tally"), "rb") as file:
            tally.add(pickle.load(file))
    return tally


def main(top, usage, words):
    understood = options_of(words)
    if understood is None:
        print(usage)
        return 2
    options, binary, is_self = understood
    binary = program_of([binary] if binary else [])
    room = tempfile.mkdtemp(prefix="drawn", dir=MEMORY if os.path.isdir(MEMORY) else None)
    begun = time.monotonic()
    try:
        if is_self:
            passed, failed = try_self(binary, room, options["--seed"])
            print(f"drawn: {passed} passed, {failed} failed")
            return 1 if failed else 0
        if options["--jobs"] > 1 and options["--only"] is None:
            tally = work_apart(binary, options, room, options["--jobs"])
        else:
            tally = work(binary, options, room, 0, 1)
    finally:
        os.chdir(top)
        shutil.rmtree(room, ignore_errors=True)
    for line in tally.lines(time.monotonic() - begun, sum(os.times()[:4])):
        print(line)
    passed = tally.kinds.total() - tally.failed - tally.cut_short
    print(f"drawn: {passed} passed, {tally.failed} failed")
    sys.stdout.flush()
    return 1 if tally.failed or not passed else 0
