"""From an operand part to operands, and from an operand's text to its items."""
from typing import NamedTuple

from .cards import Fault

OPERATIONS = ("ID", "RESOURCE", "CHPID", "CNTLUNIT", "IODEVICE", "ONLINE", "ROW", "GROUP", "CHOOSE", "END")
KEYWORD = frozenset("ABCDEFGHIJKLMNOPQRSTUVWXYZ0123456789")


class Statement(NamedTuple):
    """A statement with its operands in order: a keyword and its text, or None and a bare text."""

    name: str
    operation: str
    operands: tuple
    line: int

    def text(self, keyword):
        return next((text for key, text in self.operands if key == keyword), None)

    def has_bare(self, word):
        return (None, word) in self.operands


def cut(text):
    """A text cut at its commas outside parentheses and quotes, or None where these don't match."""
    pieces, start, depth, in_quotes = [], 0, 0, False
    for place, letter in enumerate(text):
        if letter == "'":
            in_quotes = not in_quotes
        elif in_quotes:
            continue
        elif letter == "(":
            depth += 1
        elif letter == ")":
            depth -= 1
            if depth < 0:
                return None
        elif letter == "," and depth == 0:
            pieces.append(text[start:place])
            start = place + 1
    return None if depth or in_quotes else pieces + [text[start:]]


def first_equals(text):
    """The place of the first `=` outside parentheses and quotes, or None."""
    depth, in_quotes = 0, False
    for place, letter in enumerate(text):
        if letter == "'":
            in_quotes = not in_quotes
        elif not in_quotes:
            depth += (letter == "(") - (letter == ")")
            if letter == "=" and depth == 0:
                return place
    return None


def operand_of(text, line):
    """A keyword with its text, or None with a bare text (S4)."""
    if not text:
        raise Fault("S4", line)
    place = first_equals(text)
    if place is None:
        return None, text
    keyword = text[:place]
    if not keyword or not set(keyword) <= KEYWORD:
        raise Fault("S4", line)
    return keyword, text[place + 1 :]


def parsed(joined):
    """A statement with its operands (S1, S6, S4, S2)."""
    name, operation, text, line = joined
    if operation not in OPERATIONS:
        raise Fault("S1", line)
    pieces = cut(text) if text else []
    if pieces is None:
        raise Fault("S6", line)
    operands = tuple(operand_of(piece, line) for piece in pieces)
    keywords = [keyword for keyword, _ in operands if keyword is not None]
    if len(keywords) != len(set(keywords)):
        raise Fault("S2", line)
    return Statement(name, operation, operands, line)
