"""What is tried of the pages: `results()` has a name for each thing, and what is wrong with it.

`told(results)` prints and counts them.
"""
import os
import re

from . import links, made, names, paths, targets, tree

README_LINES = 100
BY_HAND = 215_000
EXAMPLES = (".deck", ".change", ".script")


def page_paths():
    return ["README.md", "examples/README.md", *tree.files("docs", ".md")]


def not_so(found):
    """What is said of things that are wrong; nothing if there is none."""
    return "not so: " + " ".join(found) if found else ""


def of_made():
    """Each page that has a table made by a tool, compared with the sources."""
    try:
        pages = made.pages()
    except made.Fault as fault:
        yield "the marks of pages", str(fault)
        return
    for path, text in pages.items():
        right = tree.read(path) == text
        yield f"{path} says what the sources say", "" if right else "it doesn't: run tests/pages --write"


def of_targets():
    """What is listed of the sources, and what pages name of it."""
    listed = targets.listed()
    gone = listed - set(re.split(r"[\s`:,]+", " ".join(made.listings().values())))
    yield "the listings have each definition, function and clause", not_so(sorted(gone))
    yield "each marked promise is at a function that is listed", not_so(targets.lost_promises())
    named = listed | targets.declared()
    for path in targets.PAGES:
        gone = targets.not_among(made.by_hand(path), named)
        yield f"{path} names definitions, functions and clauses that are there", not_so(gone)
    for path in page_paths():
        gone = targets.not_in_their_crates(made.by_hand(path))
        yield f"each file that {path} says is of a crate is there", not_so(gone)


def of_links():
    for path in page_paths():
        yield f"each link of {path} leads somewhere", not_so(links.wrong_links(path))


def of_names():
    """Each name of the sources and each path that a page has in code is there."""
    words, there = names.words_in(names.sources()), paths.of_tree()
    for path in page_paths():
        text = made.by_hand(path)
        gone = names.missing(text, words) + paths.missing(text, there)
        yield f"each name and each path in {path} is in the tree", not_so(gone)


def of_lengths():
    """README's lines, and the bytes of all that is written by hand."""
    lines = tree.read("README.md").count("\n")
    yield f"README.md has at most {README_LINES} lines", "" if lines <= README_LINES else f"it has {lines}"
    size = sum(len(made.by_hand(path).encode()) for path in page_paths())
    fault = "" if size <= BY_HAND else f"they have {size:,}"
    yield f"the pages have at most {BY_HAND:,} bytes that are written by hand", fault


def of_examples():
    """Each file of examples/ is named in its README, and no other is."""
    there = {name for name in os.listdir(os.path.join(tree.TOP, "examples")) if name.endswith(EXAMPLES)}
    named = set(re.findall(r"^\| `([\w.-]+)`", tree.read("examples/README.md"), re.M))
    yield "examples/README.md has each deck, change deck and script", not_so(sorted(there ^ named))


def results():
    return [*of_made(), *of_targets(), *of_links(), *of_names(), *of_lengths(), *of_examples()]


def told(found):
    """Prints what is wrong, and the counts. Gives the exit status."""
    for name, fault in found:
        if fault:
            print(f"FAILED {name}: {fault}")
    failed = sum(1 for _, fault in found if fault)
    print(f"pages: {len(found) - failed} passed, {failed} failed")
    return 1 if failed else 0
