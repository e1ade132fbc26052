"""The table of the gate's minutes in docs/CONTRIBUTING.md: `text()`, from the lines of bench/results/gate.tsv.

bench/landing adds a line there after a gate. The first line names the columns; a number that isn't known is `-`.
"""
from . import tree

RESULTS = "bench/results/gate.tsv"


def table_of(text):
    """The rows of a text with tabs, as a table of Markdown."""
    rows = [line.split("\t") for line in text.split("\n") if line]
    if not rows:
        return ""
    lines = [f"| {' | '.join(row)} |" for row in rows]
    return "\n".join([lines[0], "|" + "---|" * len(rows[0]), *lines[1:]])


def text():
    return table_of(tree.read(RESULTS))
