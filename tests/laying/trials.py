"""Tries how sources are found and looked at, on small files in a crate of its own."""
import contextlib
import io
import os
from unittest import mock

from gate.rooms import told

from . import files

RIGHT = {"src/lib.rt": "pub fn one() -> u8 {\n    1\n}\n", "specs/Lib.antt": "one : Nat\none = 1\n"}
WRONG = {"src/a/deep.rt": "pub fn one() -> u8 {\n  1\n}\n", "proofs/Back.antt": "one  : Nat\none  =  1\n"}
BROKEN = {"src/broken.rt": "pub fn one( {\n"}


def written(room, texts):
    """Writes these files of a crate."""
    for name, text in texts.items():
        path = os.path.join(room, "crates", "small", name)
        os.makedirs(os.path.dirname(path), exist_ok=True)
        with open(path, "w", encoding="utf-8") as file:
            file.write(text)


def said(room):
    """What is printed, as lines, and the exit status."""
    with contextlib.redirect_stdout(io.StringIO()) as out:
        status = files.told(room)
    return out.getvalue().splitlines(), status


def passes_what_is_in_the_layout(room):
    """What is built is left out, and so is a file of another kind."""
    written(room, {**RIGHT, "out/rlib/lib.rt": WRONG["src/a/deep.rt"], "src/notes.txt": "one  two\n"})
    return said(room) == (["layout: 2 passed, 0 failed"], 0) or said(room)


def names_what_is_not(room):
    """In each folder, and below it."""
    written(room, {**RIGHT, **WRONG})
    lines = [f"crates/small/{name} is not in the layout" for name in sorted(WRONG)]
    return said(room) == ([*lines, "layout: 2 passed, 2 failed"], 1) or said(room)


def names_what_cannot_be_read(room):
    written(room, {**RIGHT, **BROKEN})
    [first, *rest], status = said(room)
    right = (["layout: 2 passed, 1 failed"], 1)
    return first.startswith("crates/small/src/broken.rt: ") and (rest, status) == right or (first, rest, status)


def lays_out_what_it_can(room):
    written(room, {**RIGHT, **WRONG, **BROKEN})
    files.write(room)
    lines, status = said(room)
    return (lines[1:], status) == (["layout: 4 passed, 1 failed"], 1) or (lines, status)


def looks_at_all_of_many(room):
    """The one that isn't in the layout is in the last part."""
    name = "src/zz.rt"
    written(room, {**{f"src/m{number}.rt": RIGHT["src/lib.rt"] for number in range(9)}, name: WRONG["src/a/deep.rt"]})
    with mock.patch.object(files, "AT_ONCE", 4):
        lines, status = said(room)
    right = [f"crates/small/{name} is not in the layout", "layout: 9 passed, 1 failed"]
    return (lines, status) == (right, 1) or (lines, status)


def passes_nothing_if_the_formatter_fails(room):
    """It ends with another status, names no file that it was given, says that all is well, or is killed."""
    written(room, RIGHT)
    other, own = (f"echo {name} is not in the layout >&2" for name in ("other.rt", "crates/small/src/lib.rt"))
    path, found = os.path.join(room, "formatter"), []
    for text in ("exit 2", f"{other}; exit 1", f"{own}; exit 0", f"{own}; kill -9 $$"):
        with open(path, "w", encoding="utf-8") as file:
            file.write(f"#!/bin/sh\n{text}\n")
        os.chmod(path, 0o755)
        with mock.patch.object(files, "FORMATTER", path):
            lines, status = said(room)
        found.append((lines[-1], status))
    return found == [("layout: 0 passed, 2 failed", 1)] * 4 or found


def fails_without_sources(room):
    os.mkdir(os.path.join(room, "crates"))
    return said(room) == (["layout: 0 passed, 0 failed"], 1) or said(room)


TRIALS = (
    passes_what_is_in_the_layout,
    names_what_is_not,
    names_what_cannot_be_read,
    lays_out_what_it_can,
    looks_at_all_of_many,
    passes_nothing_if_the_formatter_fails,
    fails_without_sources,
)


def main():
    return told("layout", TRIALS)
