"""Tries how sources and pages are read, on small texts: `results()`."""
from . import contracts, crate_table, definitions, links, made, minutes, names, paths, promises, targets, tree

SPECS = """-- What a device is.
use Rattle.std.specs.Prelude.{ℕ}

-- a device
-- of a set
abbrev pub device : ℕ → Rec
device d = d

abbrev pub other : ℕ
-- two numbers
pub record Pair : Type 0 where
  -- a field
  pub first : ℕ

module _ {T : Type 0} where
  -- what it has
  abbrev pub of : T → ℕ

abbrev mutual
  -- turned
  -- round
  pub turned : ℕ
  turned = 0
"""
SOURCE = """/// Closes it.
///
/// Promise: nothing is lost.
#[inline]
pub fn close(core: Core) -> Closed
    requires open { IsOpen core }
    ensures state { result ≡ core }
    ensures ok made { Made }
    ensures { Whole }
{
    // ensures nothing { here }
}

/// Promise: it is a law
/// of two lines.
pub fn a_law()
    ensures all { All }
{}

/// Promise: of a type.
struct Other;

fn other()
    ensures another { Other }
{}
"""
METHODS = """impl<A: Copy> Copied for Table<A> {
    /// Puts a row in. It
    /// has a place.
    ///
    /// M1: never.
    pub fn put(&mut self)
        requires place { HasPlace }
        ensures ok rows { same }
        ensures { other }
    {
    }

    fn hidden() {}
}

/// A law
pub fn law()
    ensures all { All }
{}
"""
NAMES = "`Core::call`, `IsKeyed`, `read_cards`, `check`, `Row`\n\n    `no_code`\n\nno_quotes `two words_here`\n"
PATHS = "`src/a.rt -x`, `B.antt`, `out/c.tsv`, `/usr/d`, `~/e` f/g.rt `N.md` `S5`\n\n    ./iocm tests/h < i/\n"
THERE = paths.joined(["crates/a/src/b.rt", "tests/c-program", "iocm"])
OF_CRATES = "`A.antt`, `b/c.rt` of `iocm_a`; `D/`\nof `iocm_d`, and `e.rt` of the crate `iocm_e`"
CRATES = "# what this is\n\n# ground: plain values\niocm_a: x\niocm_b:\n\n# laws\niocm_c: iocm_a\n"
PAGE = "# A page\n\n<!-- crates: made by tests/pages --write -->\nold\n<!-- end of crates -->\nlast\n"
LINKS = "[a](B.md#c) `[no](x)`\n\n    [no](y)\n\n```\n[no](z)\n```\n[L1]: #l1\n"

DEFINED = [
    ("device", "a device of a set"),
    ("other", ""),
    ("Pair", "two numbers"),
    ("of", "what it has"),
    ("turned", "turned round"),
]
PROMISED = [
    ("nothing is lost.", "close", ["state", "made"]),
    ("it is a law of two lines.", "a_law", ["all"]),
    ("of a type.", "", []),
]
OF_EACH = [("iocm_a", "A.antt"), ("iocm_a", "b/c.rt"), ("iocm_d", "D/")]
GROUPS = [("ground: plain values", ["iocm_a", "iocm_b"]), ("laws", ["iocm_c"])]
LINE = "- `f`: Does it. *needs* a *gives* b, c"
CONTRACTS = [("Table::put", "Puts a row in.", ["place"], ["rows"]), ("law", "A law", [], ["all"])]

CASES = (
    ("a file's head and its definitions", lambda: definitions.definitions_in(SPECS), ("What a device is.", DEFINED)),
    ("a comment's marks", lambda: definitions.escaped("a_b [c] *d*"), "a\\_b \\[c\\] \\*d\\*"),
    ("promises with their clauses", lambda: list(promises.promises_in(SOURCE)), PROMISED),
    ("contracts of methods and laws", lambda: list(contracts.contracts_in(METHODS)), CONTRACTS),
    ("a line for a contract", lambda: contracts.line_of("f", "Does it.", ["a"], ["b", "c"]), LINE),
    ("groups of crates", lambda: tree.groups_in(CRATES), GROUPS),
    ("a crate's head", lambda: crate_table.head_in("//! One\n//! two.\n//!\n//! Three.\nmod a;\n"), "One two."),
    ("a table of minutes", lambda: minutes.table_of("a\tb\n1\t2\n"), "| a | b |\n|---|---|\n| 1 | 2 |"),
    ("what is between marks", lambda: made.replaced(PAGE, "crates", "new"), PAGE.replace("old\n", "\nnew\n\n")),
    ("what is written by hand", lambda: made.without_made(PAGE, "crates"), "# A page\n\n\nlast\n"),
    ("a page as it is, if its marks are missing", lambda: made.without_made("x", "crates"), "x"),
    ("an anchor", lambda: links.anchor("V5: a unit's paths, 4,096"), "v5-a-units-paths-4096"),
    ("links outside code", lambda: links.links_in(LINKS), ["B.md#c", "#l1"]),
    ("names between backquotes", lambda: names.named_in(NAMES), {"call", "IsKeyed", "read_cards"}),
    ("names that are gone", lambda: names.missing(NAMES, {"IsKeyed", "check"}), ["call", "read_cards"]),
    ("names that aren't listed", lambda: targets.not_among(NAMES, {"call"}), ["IsKeyed", "read_cards"]),
    ("paths in code", lambda: paths.paths_in(PATHS), ["B.antt", "i/", "iocm", "src/a.rt", "tests/h"]),
    ("the end of a path", lambda: paths.is_there("src/b.rt", THERE), True),
    ("a folder on the way", lambda: paths.is_there("a/src/", THERE), True),
    ("a path with any name", lambda: paths.is_there("crates/NAME/src/*.rt", THERE), True),
    ("a path with two names for any one", lambda: paths.is_there("crates/NAME/b.rt", THERE), False),
    ("a path that goes on", lambda: paths.is_there("tests/c", THERE), False),
    ("files of crates", lambda: targets.files_of_crates(OF_CRATES), OF_EACH),
    ("a link to no file", lambda: links.is_right("README.md", "docs/NONE.md"), False),
    ("a link to no heading", lambda: links.is_right("README.md", "README.md#none"), False),
)


def missing_marks():
    try:
        made.replaced("x", "crates", "new")
    except made.Fault:
        return ""
    return "it is taken"


def results():
    found = []
    for name, call, right in CASES:
        got = call()
        found.append((name, "" if got == right else f"{got!r}"))
    return [*found, ("a page without its marks", missing_marks())]
