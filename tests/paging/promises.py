"""The table of marked promises in docs/PROMISES.md: `text()`.

A function is in it if its comment has a line `Promise: ..`, which may go on in the next lines. The
names of its clauses are those of its `ensures`. A clause without a name is the function's only one.
"""
import re

from . import tree

MARK = re.compile(r"^ *///[ ]Promise: (.*(?:\n *///[ ]\S.*)*)$", re.M)
GOES_ON = re.compile(r"\n *///[ ]")
FUNCTION = re.compile(r"(?:\n *(?:///|#\[).*)*\n *(?:pub(?:\([a-z]+\))? )?fn (\w+)")
ENSURES = re.compile(r"^ +ensures(?: (?:ok|err))?(?: (\w+))? \{", re.M)
BODY = re.compile(r"^ *\{(?:\}|$)", re.M)


def promises_in(text):
    """Each promise of a source: what it says, its function, and the names of its clauses.

    The function is empty if the comment is that of something else.
    """
    for mark in MARK.finditer(text):
        said, function = GOES_ON.sub(" ", mark.group(1)), FUNCTION.match(text, mark.end())
        if not function:
            yield said, "", []
            continue
        body = BODY.search(text, function.end())
        clauses = text[function.end() : body.start() if body else len(text)]
        yield said, function.group(1), [name for name in ENSURES.findall(clauses) if name]


def of_crate(crate):
    return [promise for path in tree.files(f"crates/{crate}/src", ".rt") for promise in promises_in(tree.read(path))]


def row(said, function, clauses, crate):
    named = ", ".join(f"`{clause}`" for clause in clauses)
    return f"| {said[0].upper() + said[1:]} | `{function}` | {named} | `{crate}` |"


def text():
    rows = [row(*promise, crate) for crate in reversed(tree.crates()) for promise in of_crate(crate)]
    return "\n".join(["| Promise | Contract | Clauses | Crate |", "|---|---|---|---|", *rows])
