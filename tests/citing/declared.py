"""Which declarations there are below crates/, and which of them nothing cites:
`read_all(top)`, then `dead_among(texts)`."""
import collections
import os
import re

TOKEN = re.compile(r"[^\s()\[\]{},;.]+")
SIGNATURE = re.compile(
    r"^( *)(?:abbrev )?(?:pub )?(?:abbrev )?(?:unfoldable )?(?:opaque )?(?:pub )?"
    r"([^\s:(){},;]+) :(?: |$)"
)
KEYWORD = re.compile(r"^( *)(?:pub |abbrev |unfoldable )*(data|record|module|use|variable|ruleset|open|infix\w*|mod)\b")
# what the kit looks for by itself
ENTRIES = ("Answers.antt", "Invariants.antt", "Proof.antt", "Lib.antt")
USE = re.compile(r"^(?:pub )?use [^\n]*(?:\n[^\S\n]+[^\n]*)*", re.M)
GHOST_USE = re.compile(r"ghost use [^;]*;")


class Declared:
    """A declaration: its file, its name, its lines, and the words that they have."""

    def __init__(self, path, name, start):
        self.path, self.name, self.start, self.end, self.lines = path, name, start, start + 1, []
        self.crate, self.part = path.split("/")[1:3]

    def words(self):
        return collections.Counter(words_of("\n".join(self.lines)))


def read_all(top):
    """The texts of all sources, definitions and proofs below crates/, by path."""
    found = {}
    for at, folders, names in os.walk(os.path.join(top, "crates")):
        folders[:] = sorted(it for it in folders if it != "out")
        for name in sorted(names):
            if name.endswith((".antt", ".rt")):
                path = os.path.join(at, name)
                with open(path, encoding="utf-8") as file:
                    found[os.path.relpath(path, top)] = file.read()
    return found


def words_of(text):
    """The words of a text; a path counts part by part."""
    return [part for word in TOKEN.findall(text) for part in word.split("::") if part]


def without_comments(text, is_rt):
    """The text without comments; each line keeps its number, and what is in quotes stays."""
    comment = r"//[^\n]*" if is_rt else r"--[^\n]*"
    return re.sub(r'"(?:[^"\\\n]|\\.)*"|' + comment, lambda it: it[0] if it[0][0] == '"' else "", text)


def goes_on(line, name):
    """Whether a line at the depth of a declaration is another clause of it."""
    first = re.match(r"\s*([^\s:(){},;]+|.)", line)[1]
    return first == name or first in ("unfolding", "where", ")", "]", "}", "|")


def declared_in(path, text):
    """The declarations of a file in their order; those local to another, and fields, are none."""
    found, now, depth, fields = [], None, 0, None
    for number, line in enumerate(text.split("\n")):
        indent = len(line) - len(line.lstrip())
        if line.strip() and fields is not None and indent <= fields:
            fields = None
        word, at = KEYWORD.match(line), SIGNATURE.match(line)
        if fields is None and (word or at) and (now is None or indent <= depth):
            now = None
            if word and word[2] in ("data", "record"):
                fields = indent
            elif not word and at[2] != "where":
                now, depth = Declared(path, at[2], number), indent
                found.append(now)
        elif now is not None and line.strip() and indent <= depth:
            if "◌" not in now.name and not goes_on(line, now.name):
                now = None
        if now is not None:
            now.lines.append(line)
            if line.strip():
                now.end = number + 1
    return found


def cited_in(plain):
    """How often each word is cited: in all texts, plain imports left out.
    A name that is passed on to other crates is cited."""
    cited = collections.Counter()
    for path, text in plain.items():
        cited.update(words_of(text))
        for use in (GHOST_USE if path.endswith(".rt") else USE).findall(text):
            cited.subtract(words_of(use))
            if use.startswith("pub use"):
                cited.update(words_of(use))
    return cited


def dead_among(texts):
    """All declarations, and the set of those that are cited outside themselves and outside dead ones nowhere."""
    plain = {path: without_comments(text, path.endswith(".rt")) for path, text in texts.items()}
    kept = [path for path in plain if path.endswith(".antt") and os.path.basename(path) not in ENTRIES]
    declared = [it for path in kept for it in declared_in(path, plain[path])]
    by_name, own = collections.defaultdict(list), {it: it.words() for it in declared}
    for it in declared:
        by_name[it.name].append(it)
    cited, dead, has_more = cited_in(plain), set(), True
    while has_more:
        has_more = False
        for name, each in by_name.items():
            live = [it for it in each if it not in dead]
            if live and cited[name] <= sum(own[it][name] for it in live):
                has_more = True
                dead.update(live)
                for it in live:
                    cited.subtract(own[it])
                    cited[name] += own[it][name]
    return declared, dead
