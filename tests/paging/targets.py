"""What pages point at in the sources: what is listed of them, what else is declared, and files of a crate.

`listed()` has the names of the two listings: definitions, functions, premises and clauses. `declared()` has crates,
types, variants, private functions, lemmas, and crates of the kit.
"""
import re

from . import contracts, definitions, names, paths, promises, tree

PAGES = ("docs/PROMISES.md", "docs/DEFINITIONS.md")
ITEM = re.compile(r"^ *(?:pub(?:\(\w+\))? )?(?:fn|struct|enum|trait|type|use) (\w+)|^    ([A-Z]\w*)[,({]", re.M)
LEMMA = re.compile(r"^pub (\w+) :", re.M)
FILE = r"`[\w/]+(?:\.antt|\.rt|/)`"
FILES_OF = re.compile(rf"({FILE}(?:(?:,|\s+and)\s+{FILE})*)\s+of\s+`(iocm\w*)`")


def listed():
    found = set()
    for crate in tree.crates():
        for _, _, defined in definitions.of_crate(crate):
            found.update(name for name, _ in defined)
        for name, _, premises, clauses in contracts.of_crate(crate):
            found.update((name.rpartition("::")[2], *premises, *clauses))
    return found


def declared():
    found = set(tree.crates())
    for path in tree.files("crates", ".rt"):
        found.update(item or variant for item, variant in ITEM.findall(tree.read(path)))
    for path in tree.files("crates", ".antt"):
        found.update(LEMMA.findall(tree.read(path)))
    return found


def lost_promises():
    """Each marked promise that isn't at a public function."""
    found = []
    for crate in tree.crates():
        functions = {name.rpartition("::")[2] for name, *_ in contracts.of_crate(crate)}
        found += [f"'{said}'" for said, function, _ in promises.of_crate(crate) if function not in functions]
    return found


def not_among(text, named):
    """What a page names between backquotes and isn't among these names."""
    return sorted(names.named_in(text) - named)


def files_of_crates(text):
    """Each file that a text says is of a crate, as in "`a.rt`, `b.rt` of `iocm_a`": crate and file."""
    return [(crate, file) for run, crate in FILES_OF.findall(text) for file in re.findall(r"`([^`]+)`", run)]


def not_in_their_crates(text):
    """Each file that a text says is of a crate and that isn't there."""
    found = []
    for crate, file in files_of_crates(text):
        there = paths.joined(tree.files(f"crates/{crate}", ""))
        if not paths.is_there(file, there):
            found.append(f"{crate}/{file}")
    return found
