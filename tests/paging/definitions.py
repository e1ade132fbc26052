"""The index of definitions: `page()` is the text of out/pages/INDEX.md, made of the comments in specs/."""
import re

from . import tree

HEAD = """# Index of definitions

Written by `tests/pages --write` from the comments in `specs/`: change them there, not here. Each
file has what its head says, and then its definitions with the comment of each.
[DEFINITIONS.md](../../docs/DEFINITIONS.md) is the page to begin with.
"""
HOW = r"(?:(?:abbrev|unfoldable|irreducible|opaque) )*"
DEFINED = re.compile(HOW + r"(?:pub )?(?:(?:record|data|mutual) )?(?:pub )?([^\s:({]+)")
OPENS = (
    "abbrev pub ",
    "pub record ",
    "pub data ",
    "unfoldable pub ",
    "abbrev mutual pub ",
    "irreducible pub ",
    "opaque pub ",
)


def name_in(line, mutual):
    """The name that a line defines, or None. Among mutual definitions one needs no word before `pub`."""
    is_one = line.strip().startswith(OPENS) or (mutual and line.startswith("  pub "))
    return DEFINED.match(line.strip()).group(1) if is_one else None


def definitions_in(text):
    """The head of a file of specs/, and its definitions: each name with its comment.

    Names that follow one comment share it.
    """
    comment, head, found, mutual = [], None, [], False
    for line in text.split("\n"):
        if line.strip().startswith("-- "):
            comment.append(line.strip()[3:])
            continue
        if head is None and (comment or line):
            head, comment = " ".join(comment), []
        if line and not line.startswith(" "):
            mutual = line.endswith("mutual")
        name = name_in(line, mutual)
        if name:
            found.append((name, " ".join(comment)))
        if line:
            comment = []
    return head or "", found


def lines_of(found):
    """A line for each comment, with the names that it is about."""
    lines = []
    for name, comment in found:
        lines.append(tree.item(f"- `{name}`" + (f": {escaped(comment)}" if comment else "")))
    return lines


def escaped(comment):
    """A comment as text of Markdown: what could be a mark isn't one."""
    return re.sub(r"([*_<\[\]|])", r"\\\1", comment)


def of_crate(crate):
    """The files of a crate's specs/ that define something: each with its name there, its head and its definitions."""
    room = f"crates/{crate}/specs"
    for path in tree.files(room, ".antt"):
        head, found = definitions_in(tree.read(path))
        if found:
            yield path[len(room) + 1 : -len(".antt")], head, found


def page():
    parts = [HEAD]
    for crate in tree.crates():
        listed = list(of_crate(crate))
        if listed:
            parts.append(f"## {crate}\n")
        for file, head, found in listed:
            said = f" {escaped(head)}" if head else ""
            head = tree.item(f"**{file}**{said}").replace("\n  ", "\n")
            parts.append(head + "\n\n" + "\n".join(lines_of(found)) + "\n")
    return "\n".join(parts)
