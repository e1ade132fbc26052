"""The list of contracts: `page()` is the text of out/pages/CONTRACTS.md, made of the public functions in src/.

A function has its premises (`requires`), its clauses (`ensures`) by their names, and the first sentence of its comment.
"""
import re

from . import tree

HEAD = """# Contracts

Written by `tests/pages --write` from the sources: change comments and clauses there, not here. Each
public function has the first sentence of its comment, the names of its premises after *needs*, and
the names of its clauses after *gives*. A clause without a name is in the source alone. A function
that does nothing is a law. [PROMISES.md](../../docs/PROMISES.md) is the page to begin with.
"""
OWNER = re.compile(r"^(?:impl|pub trait|trait)\b(?:<[^{]*?>)? (?:[\w:]+(?:<.*>)? for )?(\w+)")
FUNCTION = re.compile(r"^ *pub fn (\w+)")
CLAUSE = re.compile(r"^ +(requires|ensures)(?: (?:ok|err))?(?: (\w+))? \{")
BODY = re.compile(r"^ *\{(?:\}|$)")


def sentence(comment):
    """The first sentence of a comment's lines."""
    text = comment.split("\n\n")[0].replace("\n", " ")
    return re.split(r"(?<=\.)\s", text + " ")[0].strip()


def clauses_after(lines):
    """The names of the premises and of the clauses in the lines after a function's name."""
    found = {"requires": [], "ensures": []}
    for line in lines:
        if BODY.match(line):
            break
        clause = CLAUSE.match(line)
        if clause and clause.group(2):
            found[clause.group(1)].append(clause.group(2))
    return found["requires"], found["ensures"]


def contracts_in(text):
    """Each public function of a source: name after its type's, first sentence of its comment, premises, clauses."""
    lines, owner, comment = text.split("\n"), "", []
    for at, line in enumerate(lines):
        found = OWNER.match(line)
        if found:
            owner = found.group(1) + "::"
        elif line.startswith("}"):
            owner = ""
        stripped = line.strip()
        if stripped.startswith("///"):
            comment.append(stripped[3:].strip())
            continue
        function = FUNCTION.match(line)
        if function:
            yield owner + function.group(1), sentence("\n".join(comment)), *clauses_after(lines[at + 1 :])
        if not stripped.startswith("#["):
            comment = []


def line_of(name, said, premises, clauses):
    """A line of the page."""
    parts = [f"- `{name}`"]
    if said:
        parts.append(f": {said}")
    if premises:
        parts.append(f" *needs* {', '.join(premises)}")
    if clauses:
        parts.append(f" *gives* {', '.join(clauses)}")
    return tree.item("".join(parts))


def of_crate(crate):
    return [found for path in tree.files(f"crates/{crate}/src", ".rt") for found in contracts_in(tree.read(path))]


def page():
    parts = [HEAD]
    for crate in tree.crates():
        rows = [line_of(*found) for found in of_crate(crate)]
        if rows:
            parts.append(f"## {crate}\n\n" + "\n".join(rows) + "\n")
    return "\n".join(parts)
