"""The edits of a crate, read from crates/NAME/edits.txt and written there. docs/CONTRIBUTING.md says the form.

Call `edits_of(crate)`, and `write(crate, edits)` to put back what has changed.
A file that is not in the form is a Fault.
"""
import os
import re

TOP = os.path.dirname(os.path.dirname(os.path.dirname(os.path.abspath(__file__))))
HEAD = re.compile(r"== ([\w.-]+): (gate|release)")
PATH = re.compile(r"(?:src|specs|\.\./\w+/(?:specs|proofs))(?:/[\w-]+)+\.\w+")


class Fault(Exception):
    """What is wrong with a file of edits, and in which line."""


class Edit:
    """A mistake to plant: where it is tried, the pairs of texts, and the goal that refuses it, if it is noted."""

    def __init__(self, crate, name, when):
        self.crate, self.name, self.when = crate, name, when
        self.notes, self.pairs, self.goal = [], [], None

    def label(self):
        return f"{self.crate}/{self.name}"

    def is_of_the_gate(self):
        return self.when == "gate"

    def files(self):
        """The files that it changes, by path in its crate, each once."""
        return [*dict.fromkeys(path for path, _, _ in self.pairs)]

    def own_pairs(self):
        """The pairs of its own crate's files."""
        return [pair for pair in self.pairs if not pair[0].startswith("../")]

    def place(self):
        """What the blocks of a file are sorted by."""
        return self.files()[:1], self.name

    def lines(self):
        """The lines of its block."""
        lines, path = [f"== {self.name}: {self.when}", *self.notes], None
        for file, old, new in self.pairs:
            lines += [f"file: {file}"] if file != path else []
            lines += [f"old: {old}", f"new: {new}" if new else "new:"]
            path = file
        return lines + ([f"refused: {self.goal}"] if self.goal else [])


def file_of(crate):
    return os.path.join(TOP, "crates", crate, "edits.txt")


def edits_of(crate):
    """The edits of a crate in the order of its file; none if it has no such file."""
    if not os.path.isfile(file_of(crate)):
        return []
    with open(file_of(crate), encoding="utf-8") as file:
        return read(crate, file.read())


def read(crate, text):
    """The edits that the text of a file has."""
    edits, state = [], {}
    for number, line in enumerate(text.split("\n"), 1):
        try:
            take(crate, line, edits, state)
        except Fault as fault:
            raise Fault(f"crates/{crate}/edits.txt, line {number}: {fault}") from None
    wrong = first_wrong(edits, state)
    if wrong:
        raise Fault(f"crates/{crate}/edits.txt: {wrong}")
    return edits


def take(crate, line, edits, state):
    """Adds a line to the edits that were read before it;
    the state has the file and the old text that are named last."""
    word, colon, rest = line.partition(":")
    rest = rest.removeprefix(" ")
    head = HEAD.fullmatch(line)
    if head:
        edits.append(Edit(crate, head[1], head[2]))
        state.clear()
    elif not line:
        return
    elif not edits:
        raise Fault("a line before the first '== NAME: gate' or '== NAME: release'")
    elif line.startswith("#"):
        edits[-1].notes.append(line)
    elif word == "file" and not PATH.fullmatch(rest):
        raise Fault(f"'{rest[:60]}' is no file of src/ or specs/, nor of another crate's specs/ or proofs/")
    elif colon and rest and word in ("file", "old"):
        state[word] = rest
    elif colon and word == "new" and len(state) == 2:
        edits[-1].pairs.append((state["file"], state.pop("old"), rest))
    elif colon and rest and word == "refused" and edits[-1].pairs and not edits[-1].goal:
        edits[-1].goal = rest
    else:
        raise Fault(f"'{line[:60]}' has no place here")


def first_wrong(edits, state):
    """What is wrong with the edits of a file as a whole, if anything is."""
    if "old" in state:
        return f"{edits[-1].name} ends without a 'new:' line"
    names = [it.name for it in edits]
    for before, edit in zip([None, *edits], edits):
        if not edit.pairs:
            return f"{edit.name} has no pair 'old:' and 'new:'"
        if names.count(edit.name) > 1:
            return f"{edit.name} is there {names.count(edit.name)} times"
        if before and edit.place() < before.place():
            order = "blocks are in the order of their first files, and then of their names"
            return f"{edit.name} comes after {before.name}: {order}"
    return None


def text_of(edits):
    """The text of a file with these edits, in order."""
    return "\n".join("\n".join(it.lines()) + "\n" for it in sorted(edits, key=Edit.place))


def write(crate, edits):
    """Writes the file of a crate's edits."""
    with open(file_of(crate), "w", encoding="utf-8") as file:
        file.write(text_of(edits))


def applied(pairs, read_file):
    """The texts of the files that these pairs change, by path, and what is wrong with a pair, if something is."""
    texts = {}
    for path, old, new in pairs:
        now = texts[path] if path in texts else read_file(path)
        if now is None or now.count(old) != 1:
            return {}, f"an 'old:' text is in {path} {now.count(old) if now else 0} times, and not once"
        texts[path] = now.replace(old, new)
    return texts, None
