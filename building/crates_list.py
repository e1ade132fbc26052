"""What crates.txt lists: `listed(top)`, and what some crates need of it: `needed(top, names)`."""
import os

CRATES = "crates.txt"


def lines_in(text):
    """Each line of a text like crates.txt, by the name that it begins with, in their order there:
    the line without its comment, and the names after the colon."""
    lines = {}
    for line in text.splitlines():
        head, colon, below = line.partition("#")[0].partition(":")
        if colon and head.split():
            lines[head.split()[0]] = (f"{head.strip()}: {' '.join(below.split())}\n", below.split())
    return lines


def listed(top):
    """The lines of a tree's crates.txt."""
    with open(os.path.join(top, CRATES), encoding="utf-8") as file:
        return lines_in(file.read())


def needed(top, names):
    """The lines that some crates need, by name, in their order: their own and those of all crates below them."""
    lines, found, left = listed(top), set(), [*names]
    while left:
        crate = left.pop()
        if crate in lines and crate not in found:
            found.add(crate)
            left += lines[crate][1]
    return {crate: line for crate, (line, _) in lines.items() if crate in found}
