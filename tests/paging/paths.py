"""Paths of the tree in pages: `missing(TEXT, THERE)` has each path that a page has in code and that isn't there.

A path is a word with a slash, or one that ends as a source does. It may begin in any folder: `src/a.rt` is there if a
crate has it. A word of capitals in it, as NAME, and a `*` are any name. What is made below out/ isn't looked for, nor
what is outside, as `/usr` and `~/.cache`.
"""
import os
import re

from . import tree

CODE = re.compile(r"`([^`\n]+)`|^ {4}(.*)$", re.M)
PATH = re.compile(r"(?:[\w.*-]+/)+[\w.*-]*|[\w-]+\.(?:antt|rt|py|rt\.txt)")
MADE = "out/"
NOT_OF_TREE = {".git", "out"}


def of_tree():
    """All files of the tree, as `is_there` takes them."""
    found = []
    for place, folders, files in os.walk(tree.TOP):
        folders[:] = [folder for folder in folders if folder not in NOT_OF_TREE]
        found += [os.path.relpath(os.path.join(place, file), tree.TOP) for file in files]
    return joined(found)


def joined(paths):
    return "".join(f"/{path}/\n" for path in paths)


def is_there(path, there):
    """Whether a path, or the end or the middle of one, is among these."""
    path = path.rstrip("/")
    if f"/{path}/" in there:
        return True
    open_path = "/".join("*" if re.fullmatch("[A-Z]+", part) else part for part in path.split("/"))
    pattern = re.escape(open_path).replace(r"\*", "[^/\n]*")
    return "*" in open_path and re.search(f"/{pattern}/", there) is not None


def paths_in(text):
    """The paths that a text has in code."""
    words = [word for quoted, line in CODE.findall(text) for word in (quoted or line).split()]
    found = {word.removeprefix("./") for word in words if PATH.fullmatch(word)}
    return sorted(path for path in found if not path.startswith(MADE))


def missing(text, there):
    return [path for path in paths_in(text) if not is_there(path, there)]
