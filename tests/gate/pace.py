"""How fast the processors are on which the gate runs, so that its minutes can be told beside those of another machine.

A fixed piece of work is done on all of them at once: it goes through memory, as the prover does. The gate tells its
minutes of processors on which the work takes REFERENCE seconds. Run as a program it does the work, and prints the
seconds of a processor that it took.
"""
import subprocess
import sys
import time

REFERENCE = 0.43


def work():
    """The seconds of a processor that the work takes."""
    begun = time.process_time()
    names = {number * 7919 % 1_000_003: str(number) for number in range(400_000)}
    rows = sorted(names.items(), key=lambda row: row[1])
    sum(number for number, _name in rows)
    return time.process_time() - begun


def mean(lanes):
    """The mean of so many that work at once."""
    how = {"stdout": subprocess.PIPE, "text": True}
    children = [subprocess.Popen([sys.executable, "-IS", __file__], **how) for _ in range(lanes)]
    return sum(float(child.communicate()[0]) for child in children) / lanes


def pace(lanes):
    """How many times as long the work takes here, on so many processors at once; the least of three means."""
    return min(mean(lanes) for _ in range(3)) / REFERENCE


if __name__ == "__main__":
    print(work())
