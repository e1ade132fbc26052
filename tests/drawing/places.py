"""From which line a refusal comes: what is said beside it on standard error, by the reading of tests/legality."""
import re
from typing import NamedTuple, Optional

from legality.cards import Fault, lines_of, statements_of
from legality.changes import NODES, edits_of
from legality.operands import parsed
from legality.records import KNOWN, deck_records, images_of, key_text

NOT_SHOWN = ("L1", "L2")  # such a line is no card
AT_THE_END = "at the end"
SAID = re.compile(r"(.*?)(?:, (?:line (\d+)|(at the end)))?: (?:.*: )?.* \(([A-Z]\d+)\)")


class Place(NamedTuple):
    """A rule, with its line, or none where it is at the end."""

    rule: str
    line: Optional[int]


def place_of_fault(fault):
    return Place(fault.rule, fault.line)


def lines_of_keys(data):
    """The line of the first statement that brings each key of a deck without faults. A pair comes with its path."""
    statements, lines = [parsed(joined) for joined in statements_of(data)], {}
    images = images_of(statements)
    for statement in statements:
        for key, _ in deck_records(statement, images):
            lines.setdefault(key_text(key), statement.line)
    return lines


def place_in_deck(data, refusal):
    """Where in a deck its refusal comes from."""
    rule, _, about = refusal.removeprefix("refused ").partition(" ")
    line = int(about.removeprefix("line ")) if about.startswith("line ") else lines_of_keys(data)[about]
    return Place(rule, line)


def nodes_of(data):
    """The lines of the nodes that the statements of a change deck give, and how many of them are at the top."""
    lines, depth, at_top = [], 0, 0
    for statement in [parsed(joined) for joined in statements_of(data)]:
        if statement.operation == "END":
            depth -= 1
            continue
        at_top += depth == 0
        count = 1
        if statement.operation in NODES:
            depth += 1
        else:
            edits = len(edits_of(statement))
            count = 1 if edits == 1 else edits + 1
        lines += [statement.line] * count
    return lines, at_top


def place_in_change(data, refusal):
    """Where in a change deck its refusal comes from."""
    rule, _, about = refusal.removeprefix("refused ").partition(" ")
    if about.startswith("line "):
        return Place(rule, int(about.split(" ")[1]))
    lines, at_top = nodes_of(data)
    node = int(about.split(" ")[1])
    if at_top != 1:
        lines = [None, *lines]
    return Place(rule, lines[node])


def all_places(data):
    """All faults of a deck that can't be read: the first, and that of each further statement, in order."""
    try:
        statements = statements_of(data)
    except Fault as fault:
        return [place_of_fault(fault)]
    read, faults = [], []
    for joined in statements:
        try:
            read.append(parsed(joined))
        except Fault as fault:
            faults.append(place_of_fault(fault))
    return faults or [place for place in map(fault_alone, read) if place]


def fault_alone(statement):
    """The fault of a statement that is read alone, but for a record that it brings twice."""
    if statement.operation not in KNOWN or statement.operation == "ONLINE":
        return Place("S1", statement.line)
    try:
        deck_records(statement, lambda css: ())
    except Fault as fault:
        return place_of_fault(fault)
    return None


def with_first(first, places):
    """The first fault, and after it those of other lines."""
    return [first, *(place for place in places if place.line != first.line)]


def said_places(said):
    """What standard error names: files, and places in them."""
    found = []
    for line in said.decode("latin-1").splitlines():
        if line.startswith("  "):
            continue
        match = SAID.fullmatch(line)
        found.append((match[1], Place(match[4], int(match[2]) if match[2] else None)) if match else (line, None))
    return found


def shown_line(data, place):
    """The line of a file as standard error shows it below the place, or nothing where it isn't shown."""
    if place.line is None or place.rule in NOT_SHOWN:
        return ""
    try:
        return f"\n  {place.line} | {lines_of(data)[place.line - 1]}\n"
    except Fault:
        return ""
