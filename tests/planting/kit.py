"""What the runner of edits takes of the kit's own command `rt`, which is read as a module.

`rt check` would build every library anew, since `rt ci` leaves those that it built without the sums by
which `rt check` knows them. So a crate is checked here as `rt ci` does it: a copy of its text, over the
libraries in crates/*/out/rlib as they are.
"""
import functools
import importlib.machinery
import importlib.util
import os
import shutil
import subprocess
import sys
import tempfile

from .edits import TOP


@functools.cache
def command():
    """The module of `rt`."""
    loader = importlib.machinery.SourceFileLoader("kit_rt", os.path.realpath(shutil.which("rt")))
    made = importlib.util.module_from_spec(importlib.util.spec_from_loader("kit_rt", loader))
    sys.modules["kit_rt"] = made
    loader.exec_module(made)
    # its first call sets a signal's handler, which the main thread alone may
    made.rtlib.guarded()
    return made


@functools.cache
def crates():
    """The crates by name, the lowest first."""
    return {it.name: it for it in sorted(command().rtlib.crates_below(TOP), key=lambda it: len(it.below()))}


def below(crate):
    """The names of the crates that a crate stands on, directly or not, the lowest first."""
    return [it.name for it in crates()[crate].below()]


def folder(crate):
    return crates()[crate].folder


def memory(crate):
    """The most memory that a check of a crate from nothing is likely to take, in bytes."""
    return command().need(crates()[crate])


def free():
    """The memory that checks may take, in bytes."""
    return 0.85 * command().free()


def check(crate, texts, functions=(), kept=None):
    """What a check of a crate says with these texts in place of those of its files, and its status:
    of these functions alone, if they are named, and from nothing, or over a copy of the kept work of a folder."""
    flags = ["--jobs", "1", *(word for name in functions for word in ("--only", name))]
    with tempfile.TemporaryDirectory(prefix="mutants-") as room:
        if kept:
            command().linked(kept, f"{room}/kept")
        ran = command().checked(crates()[crate], texts, flags, f"{room}/kept" if kept else None)
    return ran.stdout, ran.returncode


@functools.cache
def has_library(crate):
    """Whether a crate's library is there: one that `rt ci` left,
    or one that `rt lib` built of the sources as they are."""
    found = crates()[crate]
    return os.path.isdir(found.rlib) and (found.is_built() or not os.path.exists(f"{found.folder}/out/rlib/stamp"))


def build(verb, crate):
    """Has `rt lib` or `rt check` work in a crate's folder; what it says if it fails, or None."""
    how = {"capture_output": True, "text": True, "errors": "replace", "stdin": subprocess.DEVNULL}
    ran = subprocess.run(["rt", verb], cwd=folder(crate), **how)
    return f"{ran.stdout[-2000:]}{ran.stderr[-2000:]}" if ran.returncode else None
