"""Where an edit plants its mistake: in the bodies of which functions, as the prover names them."""
import os
import re

FUNCTION = re.compile(r"^( *)(?:pub(?:\([a-z]+\))? )?(?:const )?(?:final )?fn (\w+)")
IMPL = re.compile(r"^impl(?:<.*?>)? (?:(?P<trait>[\w:]+)(?:<.*>)? for )?(?P<type>[\w:]+)")
CYCLE = re.compile(r"^\s*#\[cycle\((\w+)\)\]")


class Function:
    """A function of a source file: its type if it is a method, its name, and its lines, counted from 0."""

    def __init__(self, file, owner, name, lines):
        self.file, self.owner, self.name = file, owner, name
        self.first, self.body, self.end = lines

    def path(self):
        """Its path as the prover has it. A method is in the module of its type, which its file needn't be."""
        if self.owner:
            return [self.owner, self.name]
        modules = os.path.splitext(self.file)[0].split("/")[1:]
        return [*(it for it in modules if it not in ("lib", "main")), self.name]

    def named(self):
        """The name by which a check of some functions alone takes it."""
        return "::".join(self.path())

    def is_printed_as(self, name, crate):
        """Whether the check names it so: `iocm_table::table::Table::put`."""
        parts = name.split("::")
        path = self.path()
        return parts[0] == crate and (parts[-len(path) :] == path if self.owner else parts[1:] == path)

    def has_proof_at(self, path):
        """Whether a file is of its proof: `proofs/table/Table/put/Answers.antt`;
        a recursion's folder begins with a `+`."""
        parts = path.replace("/+", "/").split("/")
        own = self.path()
        at = [it for it in range(1, len(parts)) if parts[it : it + len(own)] == own]
        return parts[0] == "proofs" and bool(at) and (bool(self.owner) or at[0] == 1)

    def key(self):
        return self.file, self.owner, self.name


def owner_of(line):
    """The type whose method a function is, with the trait if it is one's: `Table`, `RowsIterator`."""
    found = IMPL.match(line)
    if not found:
        return ""
    last = lambda path: path.rpartition("::")[2]
    return last(found["type"]) + (last(found["trait"]) if found["trait"] else "")


def functions_in(file, text):
    """The functions of a file that has the formatter's layout, each with a body of its own lines."""
    lines, found, owner = text.split("\n"), [], ""
    for at, line in enumerate(lines):
        if line and not line.startswith((" ", "}")):
            owner = owner_of(line) or (owner if line.startswith(("where", ")", "{", ">")) else "")
        head = FUNCTION.match(line)
        if not head:
            continue
        indent = head[1]
        starts = (it for it in range(at, len(lines)) if lines[it].endswith("{") and re.match(rf"{indent}\S", lines[it]))
        body = next(starts, None)
        end = next((it for it in range(body or at, len(lines)) if lines[it] == f"{indent}}}"), None)
        if body is not None and end is not None and not any(FUNCTION.match(it) for it in lines[at + 1 : body]):
            found.append(Function(file, owner if indent else "", head[2], (at, body + 1, end)))
    return found


def places_of(edit, read):
    """The functions in whose bodies an edit lies; None if a part lies elsewhere, or can't be found. A part that
    puts a function in the place of a comment lies nowhere: another part calls it. No part makes a line more or
    less, so lines are those of the source."""
    found, texts = {}, {}
    for path, old, new in edit.pairs:
        source = read(path) if path.startswith("src/") else None
        now = texts.get(path) or source
        if source is None or now.count(old) != 1:
            return None
        texts[path] = now.replace(old, new)
        line = now[: now.index(old)].count("\n")
        inside = [it for it in functions_in(path, source) if it.body <= line < it.end]
        if not inside and old.startswith("///"):
            continue
        if len(inside) != 1 or in_a_cycle(source, inside[0].first):
            return None
        found[inside[0].key()] = inside[0]
    return [*found.values()] or None


def in_a_cycle(source, first):
    """Whether a function is proved together with others: what the check says of it may be another's fault."""
    above = source.split("\n")[:first]
    while above and (above[-1].strip().startswith(("#[", "///", "//"))):
        if CYCLE.match(above.pop()):
            return True
    return False
