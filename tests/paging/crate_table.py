"""The table of crates in docs/ARCHITECTURE.md: `text()`.

It is made of crates.txt and the first paragraph of each lib.rt or main.rt.
"""
from . import tree


def head_in(text):
    """The first paragraph of the `//!` lines at the top of a source."""
    lines = []
    for line in text.split("\n"):
        if not line.startswith("//!") or (lines and line.strip() == "//!"):
            break
        lines.append(line[3:].strip())
    return " ".join(lines)


def head_of(crate):
    return head_in(tree.read(f"crates/{crate}/src/lib.rt") or tree.read(f"crates/{crate}/src/main.rt"))


def text():
    parts = []
    for said, crates in tree.groups():
        name, _, rest = said.partition(": ")
        rows = [f"| `{crate}` | {head_of(crate).replace('|', chr(92) + '|')} |" for crate in crates]
        title = f"**{name.capitalize()}**" + (f": {rest}." if rest else ".")
        parts.append("\n".join([title, "", "| Crate | What it is for |", "|---|---|", *rows]))
    return "\n\n".join(parts)
