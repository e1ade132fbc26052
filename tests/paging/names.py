"""Names of the sources in pages: `missing(TEXT, WORDS)` has each name between backquotes that isn't among these words.

A name is a word with `_` or `::`, or one of two capitals or more, as `IsKeyed`. Crates count, too.
"""
import re

from . import tree

QUOTED = re.compile(r"`([^`\n]+)`")
NAME = re.compile(r"(?:\w+::)*(\w*_\w+|[A-Z][a-z]+(?:[A-Z]\w*)+)|(?:\w+::)+(\w+)")
ROOMS = ("crates", "tests", "bench", "building")


def sources():
    """All files that pages may name things of, by their paths."""
    return [path for room in ROOMS for path in tree.files(room, "")]


def words_in(paths):
    """Each word of these files, and each part of their paths."""
    words = set()
    for path in paths:
        words.update(re.findall(r"\w+", path))
        if path.endswith((".rt", ".antt", ".py", ".txt")):
            words.update(re.findall(r"\w+", tree.read(path)))
    return words


def named_in(text):
    """The names that a text has between backquotes."""
    quoted = QUOTED.findall(re.sub(r"^ {4}.*$", "", text, flags=re.M))
    found = [name for name in map(NAME.fullmatch, quoted) if name]
    return {name.group(1) or name.group(2) for name in found}


def missing(text, words):
    return sorted(named_in(text) - words)
