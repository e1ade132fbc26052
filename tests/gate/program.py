"""Which program is tried: `program_of()` is the one that a command line names, else the one that ./iocm runs;
`copied()` is a copy to try."""
import os
import shutil
import subprocess
import sys

TOP = os.path.dirname(os.path.dirname(os.path.dirname(os.path.abspath(__file__))))
LAUNCHER = os.path.join(TOP, "iocm")
PROVED = os.path.join(TOP, "crates", "iocm", "out", "iocm")
NAME = "iocm"


def built(*options):
    """The path of the program that ./iocm runs with these options, which it builds if it isn't here;
    None if it can't be had."""
    if subprocess.run([LAUNCHER, *options, "--version"], stdout=subprocess.DEVNULL, check=False).returncode:
        return None
    told = subprocess.run([LAUNCHER, *options, "--which"], stdout=subprocess.PIPE, text=True, check=True).stdout
    return dict(line.split(None, 1) for line in told.splitlines())["program"]


def program_of(words, *options):
    """The path of the program that the first of these words names;
    without a word it is the one that ./iocm runs, by these options."""
    return os.path.abspath(words[0]) if words else built(*options) or sys.exit(1)


def copied(program, room):
    """The path of a copy, in a folder that others may enter, since some trials are run as nobody;
    usage has the program's name."""
    folder = os.path.join(room, "program")
    os.makedirs(folder)
    for place in (room, folder):
        os.chmod(place, 0o755)
    return shutil.copy(program, os.path.join(folder, NAME))
