"""How much processor time and memory a command takes, and how it ends."""
import os
import resource
import signal
import subprocess
import threading
from typing import NamedTuple

from .running import NO_END

MB = 1024 * 1024
MOST_SPACE = 8192 * MB  # so that the machine stays at work
LONGEST = 900  # seconds by the clock
SHOWN = 200  # bytes of an output


class Measured(NamedTuple):
    """The exit status, how much was printed, its beginning and its last line; what was said on standard error;
    processor seconds and the most memory in MB."""

    status: int
    count: int
    begins: bytes
    ends: bytes
    err: bytes
    seconds: float
    memory: int

    def text(self):
        return f"status {self.status}, {self.begins[:SHOWN]!r} .. {self.ends[:SHOWN]!r}, {self.err[:SHOWN]!r}"


def measured(words, room, most_space=MOST_SPACE, given=os.devnull):
    """What some words take, with their outputs in files of a folder, and a file as standard input."""

    def limit():
        resource.setrlimit(resource.RLIMIT_AS, (most_space, most_space))

    paths = [os.path.join(room, name) for name in ("out", "err")]
    with open(paths[0], "wb") as out, open(paths[1], "wb") as err, open(given, "rb") as data:
        running = subprocess.Popen(words, cwd=room, stdin=data, stdout=out, stderr=err, preexec_fn=limit)
        alarm = threading.Timer(LONGEST, running.kill)
        alarm.start()
        _, status, used = os.wait4(running.pid, 0)
        alarm.cancel()
    running.returncode = os.waitstatus_to_exitcode(status)
    ended = NO_END if running.returncode == -signal.SIGKILL else running.returncode
    count, begins, ends = both_ends(paths[0])
    _, said, _ = both_ends(paths[1])
    return Measured(ended, count, begins, ends, said, used.ru_utime + used.ru_stime, used.ru_maxrss // 1024)


def both_ends(path):
    """How many bytes a file has, its beginning and its last line."""
    with open(path, "rb") as file:
        begins = file.read(SHOWN * 4)
        count = file.seek(0, os.SEEK_END)
        file.seek(max(0, count - SHOWN))
        ends = file.read().rstrip(b"\n").rpartition(b"\n")[2]
    return count, begins, ends
