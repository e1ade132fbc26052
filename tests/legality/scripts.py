"""Scripts: rounds of lines, each an actor and a command."""
import re
from typing import NamedTuple

from .cards import Fault, lines_of

SUBCHANNEL = r"([0-5])\.([1-9A-F])\.([0-3])\.([0-9A-F]{4})"
ORDERS = ("start", "halt", "clear", "test", "store", "end", "cancel", "active")
ORDER = rf"({'|'.join(ORDERS)}) +{SUBCHANNEL}"
MODIFY = rf"(modify) +{SUBCHANNEL} +([01]) +([0-9A-F]{{2}}) +([0-9A-F]{{8}})"
IMAGE_LINE = re.compile(rf"([AB]) +(?:{ORDER}|{MODIFY})")
OPERATOR_LINE = re.compile(r"([PQ]) +(?:(advance|commit|abort|show)|(activate|begin|undo|redo) +([0-9]+))")
GREATEST = 4294967295
MOST_OPERATOR_LINES = 14
IMAGES, OPERATORS = "AB", "PQ"


class Line(NamedTuple):
    """A line of a script: its number, its actor and command, and the subchannel or the number with what follows."""

    number: int
    actor: str
    command: str
    at: object
    operands: tuple = ()


def subchannel_of(digits):
    return tuple(int(digit, 16) for digit in digits)


def line_of(number, text):
    """The line of a text, or None where it is no command."""
    found = IMAGE_LINE.fullmatch(text)
    if found and found[2]:
        return Line(number, found[1], found[2], subchannel_of(found.groups()[2:6]))
    if found:
        operands = (int(found[12]), int(found[13], 16), int(found[14], 16))
        return Line(number, found[1], "modify", subchannel_of(found.groups()[7:11]), operands)
    found = OPERATOR_LINE.fullmatch(text)
    if found and found[2]:
        return Line(number, found[1], found[2], None)
    if found and 1 <= int(found[4]) <= GREATEST:
        return Line(number, found[1], found[3], int(found[4]))
    return None


def rounds_of(data, changes):
    """The rounds of a script's bytes, for so many change decks, or its first fault (L1, L2, K1, K2, K3)."""
    rounds = [[]]
    for number, text in enumerate(lines_of(data), 1):
        words = text.strip(" ")
        if not words or text.startswith("*"):
            continue
        if words == "sync":
            rounds.append([])
            continue
        line = line_of(number, words)
        if line is None:
            raise Fault("K1", number)
        if line.command in ("activate", "begin") and line.at > changes:
            raise Fault("K2", number)
        rounds[-1].append(line)
        if sum(it.actor in OPERATORS for it in rounds[-1]) > MOST_OPERATOR_LINES and line.actor in OPERATORS:
            raise Fault("K3", number)
    return [lines for lines in rounds if lines]
