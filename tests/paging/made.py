"""What a tool makes of the sources, by path: `pages()` are pages with their tables, `listings()` lists below out/."""
from . import contracts, crate_table, definitions, minutes, promises, tree

LISTINGS = {"out/pages/INDEX.md": definitions.page, "out/pages/CONTRACTS.md": contracts.page}
BETWEEN_MARKS = {
    "docs/ARCHITECTURE.md": ("crates", crate_table.text),
    "docs/PROMISES.md": ("promises", promises.text),
    "docs/CONTRIBUTING.md": ("minutes", minutes.text),
}
BEGIN = "<!-- {}: made by tests/pages --write -->"
END = "<!-- end of {} -->"


class Fault(Exception):
    """A page without its marks."""


def marks(name):
    return BEGIN.format(name), END.format(name)


def without_made(page, name):
    """What is written by hand of a page: all but what is between its marks."""
    begin, end = marks(name)
    before, found, rest = page.partition(begin)
    _, ended, after = rest.partition(end)
    return before + after if found and ended else page


def replaced(page, name, text):
    """A page with another text between its marks."""
    begin, end = marks(name)
    before, found, rest = page.partition(begin)
    _, ended, after = rest.partition(end)
    if not found or not ended:
        raise Fault(f"the marks of {name} are missing")
    return f"{before}{begin}\n\n{text}\n\n{end}{after}"


def pages():
    return {path: replaced(tree.read(path), name, text()) for path, (name, text) in BETWEEN_MARKS.items()}


def listings():
    return {path: page() for path, page in LISTINGS.items()}


def by_hand(path):
    """What is written by hand of a page."""
    name = BETWEEN_MARKS.get(path, ("",))[0]
    return without_made(tree.read(path), name) if name else tree.read(path)


def write_all():
    for path, text in {**pages(), **listings()}.items():
        tree.write(path, text)
