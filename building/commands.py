"""Runs commands that end when we do: after SIGTERM or Ctrl-C none of them is left."""
import contextlib
import os
import signal
import subprocess
import sys
import time

from .answers import say

ENDINGS = (signal.SIGTERM, signal.SIGHUP, signal.SIGINT)
SECONDS_TO_END = 20


class Ending:
    """Leaves at a signal to end, by way of each `finally`; while it is held, only notes the signal."""

    is_held, number = False, None

    def __call__(self, number, _frame):
        self.number = number
        if not self.is_held:
            sys.exit(128 + number)

    def release(self):
        self.is_held = False
        if self.number:
            sys.exit(128 + self.number)


ENDING = Ending()


def end_cleanly():
    """Lets a signal to end remove rooms and end commands."""
    for number in ENDINGS:
        signal.signal(number, ENDING)


@contextlib.contextmanager
def started(words, **how):
    """A command in a session of its own, so that a Ctrl-C comes to us alone,
    and without standard input; it is ended at the end.

    No signal leaves between the start and our knowledge of it, or before the command has ended.
    """
    child, ENDING.is_held = None, True
    try:
        how = {"stdin": subprocess.DEVNULL, "stderr": subprocess.STDOUT, "start_new_session": True, **how}
        child = subprocess.Popen(words, **how)
        ENDING.release()
        yield child
    finally:
        ENDING.is_held = True
        if child:
            end(child)
        ENDING.is_held = False


def end(child):
    """Ends a command and what it started: first it is asked, so that it can end what has a session of its own."""
    for number in (signal.SIGTERM, signal.SIGKILL):
        if child.poll() is None:
            try:
                os.killpg(child.pid, number)
                child.wait(SECONDS_TO_END)
            except (ProcessLookupError, subprocess.TimeoutExpired):
                pass


def run(words, log, tick, **how):
    """The exit status of a command that prints into the file `log`; `tick` is called once a second."""
    with open(log, "ab") as out, started(words, stdout=out, **how) as child:
        while True:
            try:
                return child.wait(1)
            except subprocess.TimeoutExpired:
                tick()


def lines(words, **how):
    """Each line that a command prints, and at last its exit status."""
    with started(words, stdout=subprocess.PIPE, text=True, errors="replace", **how) as child:
        with child.stdout:
            yield from child.stdout
        yield child.wait()


class Steps:
    """Says each step as it begins; on a terminal its line counts the seconds."""

    def __init__(self, number):
        self.begun, self.number, self.done, self.text = time.monotonic(), number, 0, None
        self.is_seen = sys.stderr.isatty()

    def begin(self, text):
        self.end()
        self.done, self.since = self.done + 1, time.monotonic()
        self.text = f"{text} ({self.done} of {self.number}) .."
        if self.is_seen:
            self.tick()
        else:
            say(self.text)

    def tick(self):
        if self.is_seen and self.text:
            print(f"\riocm: {self.text} {time.monotonic() - self.since:.0f} s", end="", file=sys.stderr, flush=True)

    def end(self):
        if self.is_seen and self.text:
            print(file=sys.stderr, flush=True)
        self.text = None

    def seconds(self):
        return time.monotonic() - self.begun
