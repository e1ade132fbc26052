"""Runs of the program, one at a time: what it prints on both outputs, its exit status, and how long it took."""
import os
import signal
import time
from typing import NamedTuple

LONGEST = 10  # seconds
MOST_WAITS = 30  # so often it is looked whether a run only waits for the processor


class Answer(NamedTuple):
    """What a run came to. The status is minus the signal where one ended it, and None where it didn't end in time.
    `source` is the file that was standard input, or nothing."""

    words: tuple
    status: int
    out: bytes
    said: bytes
    seconds: float
    source: str = ""

    def line(self):
        """The first line that it printed."""
        return self.out.split(b"\n", 1)[0].decode("latin-1")

    def refusal(self):
        """The number of the refusal that it printed, if it printed one at its beginning."""
        words = self.line().split(" ")
        return words[1] if words[0] == "refused" and len(words) > 1 else None


class TimeIsUp(Exception):
    pass


def ring(_signal, _frame):
    raise TimeIsUp


class Program:
    """The program. Its files are in a folder, where it runs; the outputs are kept in memory."""

    def __init__(self, binary, room, longest=LONGEST):
        self.binary, self.room, self.longest, self.runs = binary, room, longest, 0
        self.out, self.said = os.memfd_create("out"), os.memfd_create("said")
        os.chdir(room)
        signal.signal(signal.SIGALRM, ring)

    def close(self):
        os.close(self.out)
        os.close(self.said)

    def write(self, name, data):
        with open(os.path.join(self.room, name), "wb") as file:
            file.write(data)

    def run(self, *words, full=False, source=""):
        """The answer to a command line, whose output may go to a device that is full. A file may be standard input."""
        for output in (self.out, self.said):
            os.ftruncate(output, 0)
            os.lseek(output, 0, os.SEEK_SET)
        actions = [
            (os.POSIX_SPAWN_OPEN, 0, source or "/dev/null", os.O_RDONLY, 0),
            (os.POSIX_SPAWN_OPEN, 1, "/dev/full", os.O_WRONLY, 0) if full else (os.POSIX_SPAWN_DUP2, self.out, 1),
            (os.POSIX_SPAWN_DUP2, self.said, 2),
        ]
        begun = time.perf_counter()
        process = os.posix_spawn(self.binary, ["iocm", *words], os.environ, file_actions=actions)
        status = self.ended(process)
        self.runs += 1
        return Answer(words, status, whole(self.out), whole(self.said), time.perf_counter() - begun, source)

    def ended(self, process):
        """The exit status of a process, which is ended where it takes too long."""
        for _ in range(MOST_WAITS):
            try:
                signal.setitimer(signal.ITIMER_REAL, self.longest)
                _, status = os.waitpid(process, 0)
                signal.setitimer(signal.ITIMER_REAL, 0)
                return os.waitstatus_to_exitcode(status)
            except TimeIsUp:
                ended, status = os.waitpid(process, os.WNOHANG)
                if ended:
                    return os.waitstatus_to_exitcode(status)
                if not is_starved(process, self.longest):
                    break
        os.kill(process, signal.SIGKILL)
        os.waitpid(process, 0)
        return None


def is_starved(process, longest):
    """Whether a process that took its time had less of the processor, and would go on: others had the processor."""
    ticks, is_ready = 0, False
    for thread in os.listdir(f"/proc/{process}/task"):
        try:
            with open(f"/proc/{process}/task/{thread}/stat", encoding="ascii", errors="replace") as file:
                fields = file.read().rpartition(")")[2].split()
        except OSError:
            continue
        ticks += int(fields[11]) + int(fields[12])
        is_ready |= fields[0] in "RD"
    return is_ready and ticks / os.sysconf("SC_CLK_TCK") < longest


def whole(output):
    return os.pread(output, os.fstat(output).st_size, 0)
