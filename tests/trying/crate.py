"""Makes a crate of the trials, beside the crates that it stands on:
`make(room, folders)` says where it is, and `run` runs it.

A folder of tests/trials has the sources of a module, lib.rt.txt and others;
tests/trials/folders lists the folders, each with the libraries that it names.
"""
import os
import re
import shutil
import subprocess
import sys

TOP = os.path.dirname(os.path.dirname(os.path.dirname(os.path.abspath(__file__))))
sys.path.insert(0, TOP)
from building.crates_list import lines_in

TRIALS = os.path.join(TOP, "tests", "trials")
SHARED = "support"
NAME = "trials"
# for each trial, where other tests run beside it
SECONDS = 600
RESULT = re.compile(r"test result: \w+\. (\d+) passed; (\d+) failed")


def folders_listed():
    """The folders of trials, each with the libraries that it names."""
    with open(os.path.join(TRIALS, "folders"), encoding="utf-8") as file:
        return {name: libraries for name, (_, libraries) in lines_in(file.read()).items()}


def copy_module(name, home):
    """Copies a folder as a module of the crate: its lib.rt becomes NAME.rt, beside a folder of the others."""
    source = os.path.join(TRIALS, name)
    os.makedirs(os.path.join(home, name))
    for file in os.listdir(source):
        to = file.removesuffix(".txt")
        place = f"{name}.rt" if to == "lib.rt" else os.path.join(name, to)
        shutil.copy(os.path.join(source, file), os.path.join(home, place))


def copy_sources(room):
    """Copies the sources of all crates, without proofs, and what `rt` reads beside them."""
    left_out = shutil.ignore_patterns("out", "must-fail", "mutants", "proofs", "data")
    shutil.copytree(os.path.join(TOP, "crates"), os.path.join(room, "crates"), ignore=left_out)
    for file in ("HANDLES", "crates.txt"):
        shutil.copy(os.path.join(TOP, file), room)
    os.mkdir(os.path.join(room, ".git"))


def make(room, folders=()):
    """Makes a crate of these folders, or of all, in a room that has nothing yet, or isn't there.
    Where its tests are run."""
    copy_sources(room)
    listed = folders_listed()
    home = os.path.join(room, "crates", NAME)
    os.makedirs(os.path.join(home, "src"))
    modules = sorted({SHARED, *(folders or listed)})
    for name in modules:
        copy_module(name, os.path.join(home, "src"))
    with open(os.path.join(home, "src", "lib.rt"), "w", encoding="utf-8") as file:
        file.write("//! Trials.\n#![tactic(auto)]\n\n" + "".join(f"mod {name};\n" for name in modules))
    libraries = sorted({library for name in modules for library in listed[name]})
    with open(os.path.join(room, "crates.txt"), "a", encoding="utf-8") as file:
        file.write(f"\n{NAME}: {' '.join(libraries)}\n")
    return home


def run(home, flags=()):
    """Builds and runs the trials of a crate, with checks at run time: what was said, and how many passed and failed.
    None did where the program didn't come so far."""
    words = ["rt", "try", "--test", "--seconds", str(SECONDS), *flags]
    how = {"stdout": subprocess.PIPE, "stderr": subprocess.STDOUT, "text": True, "errors": "replace"}
    ran = subprocess.run(words, cwd=home, **how)
    found = RESULT.search(ran.stdout)
    if not found:
        return ran.stdout, 0, 0
    # one failed, too, where the program ended otherwise than with its last line
    return ran.stdout, int(found[1]), int(found[2]) or int(ran.returncode != 0)
