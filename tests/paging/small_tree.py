"""Tries what is compared and what is written, on a small tree of its own: `results()`."""
import tempfile
from contextlib import contextmanager

from . import checks, made, tree

SPECS = """-- What a state is.

-- it is open
abbrev pub IsOpen : State → Type 0
"""
SOURCE = """//! What closes.

/// Closes it.
///
/// Promise: nothing is lost.
pub fn close_all(core: Core)
    ensures is_open { IsOpen core }
{}
"""
PROMISES = "`IsOpen`, `close_all`, `is_open` of `iocm_a`\n\n"
DEFINITIONS = "`State.antt`, `lib.rt` of `iocm_a`, `crates/NAME/specs`, `out/pages/INDEX.md`\n"
TREE = {
    "crates.txt": "# ground: plain values\niocm_a:\n",
    "crates/iocm_a/specs/State.antt": SPECS,
    "crates/iocm_a/src/lib.rt": SOURCE,
    "bench/results/gate.tsv": "day\tsum\n1\t2\n",
    "README.md": "[Promises](docs/PROMISES.md)\n",
    "examples/README.md": "",
    "docs/DEFINITIONS.md": DEFINITIONS,
    **{path: PROMISES + "\n".join(made.marks(name)) + "\n" for path, (name, _) in made.BETWEEN_MARKS.items()},
}
LISTED = {
    "out/pages/INDEX.md": "## iocm_a\n\n**State** What a state is.\n\n- `IsOpen`: it is open\n",
    "out/pages/CONTRACTS.md": "## iocm_a\n\n- `close_all`: Closes it. *gives* is_open\n",
}

NO_PROMISE = "each marked promise is at a function that is listed"
NO_TARGET = "docs/PROMISES.md names definitions, functions and clauses that are there"
NO_FILE = "each file that docs/DEFINITIONS.md says is of a crate is there"
NO_PATH = "each name and each path in docs/DEFINITIONS.md is in the tree"
NO_LINK = "each link of README.md leads somewhere"
NO_TABLES = {f"{path} says what the sources say" for path in made.BETWEEN_MARKS}

HIDDEN = "/// Promise: it is lost.\nfn hidden() {}\n"
OF_A_TYPE = "/// Promise: it is lost.\nstruct Lost;\n\npub fn other() {}\n"
# what is added to a file, and the one thing that is then wrong
FAULTS = (
    ("a promise at a hidden function", "crates/iocm_a/src/lib.rt", HIDDEN, NO_PROMISE),
    ("a promise at a type", "crates/iocm_a/src/lib.rt", OF_A_TYPE, NO_PROMISE),
    ("a definition that is only mentioned", "docs/PROMISES.md", "`IsClosed`\n", NO_TARGET),
    ("a file of something else", "docs/DEFINITIONS.md", "`a.rt` of `iocm_a`\n", NO_FILE),
    ("a path to nothing", "docs/DEFINITIONS.md", "`crates/iocm_b`\n", NO_PATH),
    ("a path to nothing in a command", "docs/DEFINITIONS.md", "\n    cat examples/a.deck\n", NO_PATH),
    ("a link to a listing", "README.md", "[Index](docs/INDEX.md)\n", NO_LINK),
)
# what is beside it, and is named or mentioned by a fault
BESIDE = {"crates/iocm_a/specs/Note.antt": "-- IsClosed is no definition\n", "tests/a.rt": ""}
ALL = {**TREE, **BESIDE}


@contextmanager
def small_tree():
    """The small tree in place of the repository."""
    with tempfile.TemporaryDirectory(prefix="iocm-pages-") as room:
        top, tree.TOP = tree.TOP, room
        try:
            for path, text in ALL.items():
                tree.write(path, text)
            yield
        finally:
            tree.TOP = top


def wrong_names():
    return {name for name, fault in checks.results() if fault}


def of_writing():
    """What --write leaves: the tables in their pages, the listings below out/, and all else as it was."""
    with small_tree():
        before = wrong_names()
        made.write_all()
        after = wrong_names()
        got = {path: tree.read(path) for path in tree.files("", "")}
    yield "without their tables pages are wrong", "" if before == NO_TABLES else f"{before}"
    yield "once they are written nothing is wrong", checks.not_so(after)
    changed = {path for path, text in ALL.items() if got.get(path) != text}
    yield "only pages with tables are changed", "" if changed == {*made.BETWEEN_MARKS} else f"{changed}"
    new = got.keys() - ALL.keys()
    yield "only the listings are new", "" if new == LISTED.keys() else f"{new}"
    for path, end in LISTED.items():
        yield f"{path} lists what there is", "" if got.get(path, "").endswith(end) else f"{got.get(path)!r}"


def of_faults():
    for name, path, added, right in FAULTS:
        with small_tree():
            tree.write(path, tree.read(path) + added)
            made.write_all()
            wrong = wrong_names()
        yield name, "" if wrong == {right} else f"{wrong}"


def results():
    return [*of_writing(), *of_faults()]
