"""What the launcher says, on standard error, and why it ran no program."""
import sys

NOTHING_WAS_RUN = 70


class Refused(Exception):
    """Why no program can be run."""


def say(text):
    print(f"iocm: {text}", file=sys.stderr, flush=True)
