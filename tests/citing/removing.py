"""Takes lemmas out of the texts of proofs: `remove(texts, dead)` changes the texts, and says which crates changed.

With a lemma go its comments, the imports that name it, a module that declares nothing then,
and a file that has nothing left, with its `mod` line.
"""
import collections
import os
import re

from .declared import GHOST_USE, USE, declared_in, without_comments

NOTHING = re.compile(r" *(use|variable|module) |\s+\S*[}\])]")


def indent_of(line):
    return len(line) - len(line.lstrip())


def without_name(text, name):
    """A file's text without a name in its imports."""

    def less(found):
        use = found[0]
        use = re.sub(rf"(?<=[{{\s,]){re.escape(name)}(?:\s+as\s+[^\s,}}]+)?\s*,\s*", "", use)
        use = re.sub(rf",\s*{re.escape(name)}(?:\s+as\s+[^\s,}}]+)?(?=\s*}})", "", use)
        return "" if re.search(rf"\{{\s*{re.escape(name)}\s*\}}", use) or use.rstrip(";").endswith(f".{name}") else use

    return re.sub(r"\n{3,}", "\n\n", GHOST_USE.sub(less, USE.sub(less, text)))


def end_of_module(lines, at):
    """Where the module that begins at a line ends, if it declares nothing; else None."""
    heads = (it for it in range(at, len(lines)) if re.sub(r"--.*", "", lines[it]).rstrip().endswith(" where"))
    head = next(heads, len(lines))
    end = head + 1
    while end < len(lines) and (not lines[end].strip() or indent_of(lines[end]) > indent_of(lines[at])):
        end += 1
    is_empty = head < len(lines) and not any(re.sub(r"--.*", "", it).strip() for it in lines[head + 1 : end])
    return end if is_empty else None


def without_empty_modules(text):
    """Without `module .. where` that declares nothing, which the prover refuses if it has parameters."""
    lines, at = text.split("\n"), 0
    while at < len(lines):
        end = end_of_module(lines, at) if re.match(r" *(pub )?module ", lines[at]) else None
        if end is None:
            at += 1
            continue
        while at > 1 and lines[at - 1].lstrip().startswith("--"):
            at -= 1
        del lines[at:end]
        at = 0
    return "\n".join(lines)


def without_declared(text, dead):
    """A file's text without these declarations and the comments above them."""
    lines = text.split("\n")
    for it in sorted(dead, key=lambda it: -it.start):
        first = it.start
        while first > 1 and lines[first - 1].lstrip().startswith("--"):
            first -= 1
        del lines[first : it.end]
    return re.sub(r"\n{3,}", "\n\n", without_empty_modules("\n".join(lines))).rstrip("\n") + "\n"


def drop_if_empty(texts, path):
    """Drops a file that has nothing but imports, and its `mod` line."""
    left = [it for it in without_comments(texts[path], False).split("\n") if it.strip() and not NOTHING.match(it)]
    if left:
        return
    base, above = os.path.splitext(os.path.basename(path))[0], os.path.dirname(path)
    node = f"{above}/Lib.antt" if above.count("/") == 2 else f"{above}.antt"
    if node in texts:
        texts[node] = re.sub(rf"^(?:pub )?mod {base}\n", "", texts[node], flags=re.M)
    texts[path] = None


def remove(texts, dead):
    """Takes these declarations out; which crates changed."""
    changed, files = {it.crate for it in dead}, {it.path for it in dead}
    for path in files:
        texts[path] = without_declared(texts[path], [it for it in dead if it.path == path])
    left = collections.Counter()
    for path, text in texts.items():
        if path.endswith(".antt"):
            left.update(it.name for it in declared_in(path, without_comments(text, False)))
    for name in {it.name for it in dead if not left[it.name]}:
        for path in [path for path, text in texts.items() if name in text]:
            now = without_name(texts[path], name)
            if now != texts[path]:
                texts[path] = now
                changed.add(path.split("/")[1])
    for path in files:
        drop_if_empty(texts, path)
    return changed
