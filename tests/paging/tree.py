"""Where files are, and how they are read and written: `read(PATH)`, with paths from the top of the repository.

`crates()` are in their order.
"""
import os
import textwrap

TOP = os.path.dirname(os.path.dirname(os.path.dirname(os.path.abspath(__file__))))


def read(path):
    """The text of a file, or nothing if there is none."""
    where = os.path.join(TOP, path)
    if not os.path.isfile(where):
        return ""
    with open(where, encoding="utf-8") as file:
        return file.read()


def write(path, text):
    """Writes a file, and makes its folder if it isn't there."""
    where = os.path.join(TOP, path)
    os.makedirs(os.path.dirname(where), exist_ok=True)
    with open(where, "w", encoding="utf-8") as file:
        file.write(text)


def files(folder, suffix):
    """The files of a folder and those below it that end so, in the order of their names."""
    found = []
    for place, _, names in os.walk(os.path.join(TOP, folder)):
        found += [os.path.relpath(os.path.join(place, name), TOP) for name in names if name.endswith(suffix)]
    return sorted(found)


def groups():
    """The groups of crates.txt, the lowest first: the words of each, and its crates."""
    return groups_in(read("crates.txt"))


def groups_in(text):
    """The groups of a text like crates.txt. The line before a group's crates says what it is.

    A paragraph without crates is none.
    """
    found = []
    for paragraph in text.split("\n\n"):
        lines = paragraph.strip().split("\n")
        crates = [line.split(":")[0] for line in lines if line and not line.startswith("#")]
        if crates:
            found.append((lines[0].lstrip("# "), crates))
    return found


def crates():
    return [crate for _, members in groups() for crate in members]


def item(text):
    """A text in lines of at most 100 columns, those after the first set in: an item of a list."""
    return textwrap.fill(text, 100, subsequent_indent="  ", break_long_words=False, break_on_hyphens=False)
