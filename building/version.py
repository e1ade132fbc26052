"""What a program says with its version: the commit of its sources, the kit, and if it isn't proved."""
import os
import sys
from subprocess import DEVNULL, PIPE, run as call

DIGITS = 8
UNKNOWN = "unknown"
UNWRITTEN = 3  # the exit status of the program if its output can't be written


def asked(top, *words):
    """What git answers for the repository of a tree; None if it fails, or isn't here.

    It writes nothing in the tree. The environment may name another repository, as that of a hook does.
    """
    own = {name: text for name, text in os.environ.items() if not name.startswith("GIT_")}
    how = {"stdin": DEVNULL, "stdout": PIPE, "stderr": DEVNULL, "text": True, "errors": "replace", "env": own}
    try:
        ran = call(["git", "--no-optional-locks", "-C", top, *words], check=False, **how)
    except OSError:
        return None
    return None if ran.returncode else ran.stdout


def commit(top, patterns):
    """The first digits of the commit of a tree, and a `+` if a file of these patterns is otherwise than there.

    A tree inside the repository of something else has no commit of its own.
    """
    prefix, _, head = (asked(top, "rev-parse", "--show-prefix", "HEAD") or "?").partition("\n")
    if prefix or not head:
        return UNKNOWN
    changed = asked(top, "status", "--porcelain", "--untracked-files=all", "--", *patterns)
    return UNKNOWN if changed is None else f"{head[:DIGITS]}{'+' if changed else ''}"


def tell(program, commit_of_sources, kit, is_proved):
    """Prints the version of a program, and gives the exit status: that of the program if it fails."""
    ran = call([program, "--version"], stdout=PIPE, text=True, check=False)
    if ran.returncode:
        return ran.returncode
    proved = "" if is_proved else " not proved here"
    return written(f"{ran.stdout.strip()} (commit {commit_of_sources}, kit {kit}){proved}\n")


def written(text):
    """Prints a text, and gives the exit status; a reader that has gone is told nothing, as by the program."""
    try:
        os.write(1, text.encode())
    except BrokenPipeError:
        return UNWRITTEN
    except OSError:
        print("fault L6", file=sys.stderr)
        return UNWRITTEN
    return 0
